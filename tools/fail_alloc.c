/* Refuses one allocation of a program: the one whose number FAIL_AT says, counted from 1. Where it does, it makes the
   file that FAIL_MARK names. The file that FAIL_COUNT names gets the number of allocations when the program ends.
   Loaded before the C library: LD_PRELOAD=fail_alloc.so FAIL_AT=3 FAIL_MARK=met program */
#define _GNU_SOURCE
#include <dlfcn.h>
#include <fcntl.h>
#include <stdio.h>
#include <stdlib.h>
#include <unistd.h>

static unsigned long made;

static int is_refused(void)
{
    const char *at = getenv("FAIL_AT");
    const char *mark = getenv("FAIL_MARK");
    if (!at || __atomic_add_fetch(&made, 1, __ATOMIC_SEQ_CST) != strtoul(at, NULL, 10))
        return 0;
    if (mark) {
        int file = open(mark, O_CREAT | O_WRONLY, 0600);
        if (file >= 0)
            close(file);
    }
    return 1;
}

void *malloc(size_t size)
{
    static void *(*next)(size_t);
    if (!next)
        next = (void *(*)(size_t))dlsym(RTLD_NEXT, "malloc");
    return is_refused() ? NULL : next(size);
}

void *realloc(void *old, size_t size)
{
    static void *(*next)(void *, size_t);
    if (!next)
        next = (void *(*)(void *, size_t))dlsym(RTLD_NEXT, "realloc");
    return is_refused() ? NULL : next(old, size);
}

void *aligned_alloc(size_t alignment, size_t size)
{
    static void *(*next)(size_t, size_t);
    if (!next)
        next = (void *(*)(size_t, size_t))dlsym(RTLD_NEXT, "aligned_alloc");
    return is_refused() ? NULL : next(alignment, size);
}

__attribute__((destructor)) static void tell(void)
{
    const char *path = getenv("FAIL_COUNT");
    int file = path ? open(path, O_CREAT | O_TRUNC | O_WRONLY, 0600) : -1;
    if (file >= 0) {
        dprintf(file, "%lu\n", made);
        close(file);
    }
}

void _exit(int status)
{
    void (*next)(int) = (void (*)(int))dlsym(RTLD_NEXT, "_exit");
    tell();
    next(status);
    __builtin_unreachable();
}
