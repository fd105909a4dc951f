/* Says where a program stops that isn't proved: where it meets a check that fails, it becomes report_fault.py, which lies in the
   folder above its own. The words of that are the program's name and its path, the number of the signal, and the addresses
   from that of the check up through its callers, counted from the program's beginning; numbers have sixteen digits' base.
   Built by the kit's compiler alone, without headers: PYTHON is the path of an interpreter, in quotation marks. */
typedef unsigned long word;

#define SIGILL 4
#define SIGTRAP 5
#define SIGBUS 7
#define SIGFPE 8
#define SIGSEGV 11
#define SA_SIGINFO 4
#define SA_ONSTACK 0x08000000
/* Where glibc's ucontext_t for x86-64 has the registers, after uc_flags, uc_link and uc_stack, and two of these. */
#define REGISTERS 5
#define RBP 10
#define RIP 16
/* So many words come before the addresses, of which there are so many at most. */
#define BEFORE 6
#define MOST 24
#define PATH 4096

struct action { void (*handler)(int, void *, void *); word mask[16]; int flags; void (*restorer)(void); };
struct stack { void *base; int flags; word size; };

int sigaction(int, const struct action *, struct action *);
int sigaltstack(const struct stack *, struct stack *);
long readlink(const char *, char *, word);
int execv(const char *, char *const *);
void _exit(int) __attribute__((noreturn));

/* The program's beginning, and the end of its code. */
extern const char __ehdr_start[] __attribute__((visibility("hidden")));
extern const char _etext[] __attribute__((visibility("hidden")));

static char room[1 << 16] __attribute__((aligned(16)));
static char program[PATH], tool[PATH + 32], numbers[MOST + 1][20];
static char *words[BEFORE + MOST + 1];

static char *written(char *digits, word value)
{
    char *at = digits + 19;
    do
        *--at = "0123456789abcdef"[value & 15];
    while (value >>= 4);
    return at;
}

/* The path of the tool, in the folder above that of the program. */
static void find_tool(void)
{
    const char *name = "/report_fault.py";
    long length = readlink("/proc/self/exe", program, PATH - 1), at;
    int folders = 2;
    if (length <= 0)
        _exit(2);
    for (at = 0; at < length; at++)
        tool[at] = program[at];
    while (folders && at > 0)
        folders -= tool[--at] == '/';
    while ((tool[at++] = *name++))
        ;
}

static void stop(int signal, void *info, void *context)
{
    const word *registers = (const word *)context + REGISTERS;
    word begin = (word)__ehdr_start, address = registers[RIP], frame = registers[RBP];
    int count = BEFORE, each;
    (void)info;
    find_tool();
    words[4] = program;
    words[5] = written(numbers[MOST], (word)signal);
    for (each = 0; each < MOST && begin <= address && address < (word)_etext; each++) {
        words[count++] = written(numbers[each], address - begin);
        if (frame < PATH || frame % sizeof frame)
            break;
        /* What is called returns behind the call. */
        address = ((const word *)frame)[1] - 1;
        if (((const word *)frame)[0] <= frame)
            break;
        frame = ((const word *)frame)[0];
    }
    execv(PYTHON, words);
    _exit(2);
}

__attribute__((constructor)) static void heed(int argc, char **argv)
{
    static const int signals[] = {SIGILL, SIGTRAP, SIGBUS, SIGFPE, SIGSEGV};
    struct stack other = {room, 0, sizeof room};
    struct action action = {stop, {0}, SA_SIGINFO | SA_ONSTACK, 0};
    words[0] = PYTHON;
    words[1] = "-IBS";
    words[2] = tool;
    words[3] = argc ? argv[0] : "pdregress";
    sigaltstack(&other, 0);
    for (int each = 0; each < 5; each++)
        sigaction(signals[each], &action, 0);
}
