"""A plain model of the book: it keeps the accepted calls in a list, and looks through it at each question."""

from dataclasses import dataclass, field

# The kinds of lines that texts are made of, by the words that stand for them. Those from `g` on make a connection that
# writes, in this order.
LINES = {
    "a": "+0 bind(9, ..., ...) = -1 EBADF",
    "b": "// nothing",
    "c": "+0 bind(9, ..., ...) = 0",
    "d": "+0 f() = 0",
    "e": "+3601 f() = 0",
    "f": ",",
    "g": "+0 socket(..., SOCK_STREAM, IPPROTO_TCP) = 3",
    "h": "+0 bind(3, ..., ...) = 0",
    "i": "+0 listen(3, 1) = 0",
    "j": "+0 < S 0:0(0) win 32792 <mss 1000,sackOK,nop,nop,nop,wscale 7>",
    "k": "+0 > S. 0:0(0) ack 1 <...>",
    "l": "+0 < . 1:1(0) ack 1 win 257",
    "m": "+0 accept(3, ..., ...) = 4",
    "n": "+0 write(4, ..., 1000) = 1000",
}
CONNECTION = "ghijklmn"

# Each setting with its default and another value, in the order in which a report says them.
SETTINGS = {
    "mss": ("1460", "900"),
    "sack": ("true", "false"),
    "wscale": ("7", "3"),
    "sndbuf": ("262144", "1024"),
    "rcv_wnd": ("65535", "1000"),
    "initial_ssthresh": ("1073741824", "128"),
    "initial_window": ("rfc5681", "rfc6928"),
    "min_rto_us": ("1000000", "200000"),
    "max_rto_us": ("60000000", "3600000000"),
    "granularity_us": ("1000", "10000"),
    "nagle": ("true", "false"),
    "limited_transmit": ("true", "false"),
    "abc_limit": ("1", "2"),
    "slow_start_after_idle": ("false", "true"),
    "recovery_algorithm": ("rfc6675", "rfc9937"),
    "tolerance_us": ("4000", "1"),
}
DEFAULTS = {key: values[0] for key, values in SETTINGS.items()}

# The settings that an answered SYN consults, and those of the ACK that establishes the connection.
AT_SYN = {"mss", "sack", "wscale", "rcv_wnd", "min_rto_us", "max_rto_us"}
AT_ACK = {
    "initial_ssthresh",
    "granularity_us",
    "nagle",
    "initial_window",
    "limited_transmit",
    "abc_limit",
    "slow_start_after_idle",
    "recovery_algorithm",
}

# How many octets a line of kind `n` writes.
WRITTEN = 1_000

# A state is kept after so many events each.
STRIDE = 4

Text = str
Settings = dict[str, str]


@dataclass
class Connection:
    """The connection that the lines of a run have made so far, and which settings they consulted."""

    settings: Settings
    made: int = 0  # how many of a socket, a bind, a listen and an answered SYN
    is_answer_taken: bool = False
    is_established: bool = False
    is_accepted: bool = False
    queued: int = 0
    uses: set[str] = field(default_factory=set)

    def take(self, kind: str, line: int) -> str | None:
        """The verdict with which a line stops the run, if it does."""
        match kind:
            case "a":
                return None
            case "c":
                return f"Fail({line}, Result)"
            case "d":
                return f"Unsupported({line})"
            case "e":
                return f"Limit({line})"
            case "k":
                return self.take_syn_ack_once_or_give_fail_verdict(line)
            case "g" | "j" | "l":
                return None if self.arrive(kind) else f"Unsupported({line})"
        return None if self.call(kind) else f"Fail({line}, Result)"

    def arrive(self, kind: str) -> bool:
        """A socket, a SYN or an ACK; whether it is run."""
        if kind == "l":
            if self.made == 4 and not self.is_established:
                self.is_established = True
                self.uses |= AT_ACK
            return self.made == 4
        is_next = self.made == (0 if kind == "g" else 3)
        if is_next:
            self.made += 1
            self.uses |= AT_SYN if kind == "j" else set()
        return is_next

    def take_syn_ack_once_or_give_fail_verdict(self, line: int) -> str | None:
        """The answer to the SYN."""
        if self.made == 4 and not self.is_answer_taken:
            self.is_answer_taken = True
            self.uses.add("tolerance_us")
            return None
        return f"Fail({line}, {'Flags' if self.queued else 'Missing'})"

    def call(self, kind: str) -> bool:
        """A call; whether its result is the one that is written."""
        match kind:
            case "h":
                is_answered = self.made == 1
                self.made = 2 if is_answered else self.made
            case "i":
                is_answered = self.made >= 2
                self.made = max(self.made, 3) if is_answered else self.made
            case "m":
                is_answered = self.is_established and not self.is_accepted
                self.is_accepted = self.is_established
            case _:
                is_answered = self.is_accepted and self.write()
        return is_answered

    def write(self) -> bool:
        """A write; whether it is taken whole."""
        self.uses.add("sndbuf")
        has_room = self.queued + WRITTEN <= int(self.settings["sndbuf"])
        self.queued += WRITTEN if has_room else 0
        return has_room


@dataclass(frozen=True)
class Walk:
    """How a run went: its verdict, how many events passed, how many steps it took, and which settings it consulted."""

    verdict: str
    passed: int
    steps: int
    uses: frozenset[str]


def verdict_steps_and_uses_of_text(text: Text, settings: Settings, most: int | None = None) -> Walk:
    """The run of a text, or of its first events alone."""
    if "f" in text:
        return Walk(f"Syntax({text.index('f') + 1})", 0, 0, frozenset())
    connection = Connection(settings)
    passed = 0
    for line, kind in enumerate(text, 1):
        if passed == most:
            break
        if kind == "b":
            continue
        verdict = connection.take(kind, line)
        if verdict:
            return Walk(verdict, passed, passed + 1, frozenset(connection.uses))
        passed += 1
    return Walk(f"Pass({passed})", passed, passed, frozenset(connection.uses))


def count_equal_first_lines(one: Text, other: Text) -> int:
    """How many lines two texts begin with alike."""
    count = 0
    for kind, another in zip(one, other):
        if kind != another:
            break
        count += 1
    return count


def kept(text: Text, lines: int) -> int:
    """How many events a text's first lines decide: all but the last before their end, or before what is no script."""
    events = text[:lines].split("f", 1)[0].replace("b", "")
    return max(len(events) - 1, 0)


@dataclass(frozen=True)
class Job:
    """A job: its number, the name of its script, and the text and the settings of its run."""

    number: int
    script: str
    text: Text
    settings: Settings


def spared(job: Job, track: Job) -> int:
    """How many first events of a job its track spares: the greatest multiple of the stride of those that are decided
    alike and passed, up to which the track's run consulted no setting that differs."""
    whole = verdict_steps_and_uses_of_text(track.text, track.settings)
    most = min(kept(track.text, count_equal_first_lines(track.text, job.text)), whole.passed)
    for events in range(most - most % STRIDE, 0, -STRIDE):
        uses = verdict_steps_and_uses_of_text(track.text, track.settings, events).uses
        if all(job.settings[key] == track.settings[key] for key in uses):
            return events
    return 0


class Tracks:
    """The jobs whose tracks are kept, by their scripts, the one that was used last after the others."""

    def __init__(self, most: int) -> None:
        self.most = most
        self.jobs: dict[str, Job] = {}

    def use_track_for_spared_and_left_steps(self, job: Job) -> tuple[int, int]:
        """How many events a job's track spares, and how many steps are left."""
        track = self.jobs.get(job.script)
        count = 0
        if track:
            count = spared(job, track)
            self.keep_dropping_least_recently_used(track)
        return count, verdict_steps_and_uses_of_text(job.text, job.settings).steps - count

    def keep_dropping_least_recently_used(self, job: Job) -> None:
        """Keeps a track in the place of its script's, and drops the one that was used first if there are too many."""
        self.jobs.pop(job.script, None)
        self.jobs[job.script] = job
        if len(self.jobs) > self.most:
            del self.jobs[next(iter(self.jobs))]

    def keep_stale_if_longer_front_in_common(self, job: Job, present: Text) -> None:
        """Keeps the track of a stale result, if it begins with more lines of the present text than the one there."""
        track = self.jobs.get(job.script)
        if not track or count_equal_first_lines(track.text, present) < count_equal_first_lines(job.text, present):
            self.keep_dropping_least_recently_used(job)


@dataclass(frozen=True)
class Act:
    """An accepted call: its kind, its words as a history says them, and what it concerns."""

    kind: str
    words: str
    script: str = ""
    text: Text = ""
    edit: tuple[int, int] = (0, 0)
    job: int = 0


def text_as_printed_lines(text: Text) -> str:
    """The lines of a text as they are printed."""
    return " | ".join(LINES[kind] for kind in text)


class Model:
    """A book as the list of its acts, and the tracks that it keeps."""

    def __init__(self, tracks: int) -> None:
        self.acts: list[Act] = []
        self.jobs: list[Job] = []
        self.tracks = Tracks(tracks)
        self.spared = 0
        self.spared_behind = 0

    def texts(self) -> dict[str, Text]:
        """The scripts and their texts, in the order of adding."""
        texts: dict[str, Text] = {}
        for act in self.acts:
            if act.kind == "Add":
                texts[act.script] = act.text
            elif act.kind == "Edit":
                first, removed = act.edit[0] - 1, act.edit[1]
                old = texts[act.script]
                texts[act.script] = old[:first] + act.text + old[first + removed :]
            elif act.kind == "Remove":
                del texts[act.script]
        return texts

    def settings(self) -> Settings:
        """The value of each setting: the one that was set last, or the default."""
        return DEFAULTS | {act.script: act.text for act in self.acts if act.kind == "Set"}

    def last_change(self, script: str) -> int:
        """After how many acts the script had its last change."""
        changes = [
            number
            for number, act in enumerate(self.acts, 1)
            if act.kind == "Set" or (act.kind in ("Add", "Edit", "Remove") and act.script == script)
        ]
        return changes[-1] if changes else 0

    def state(self, job: int) -> str:
        """By which act a job was started or ended last; nothing where there is no such job."""
        return next((act.kind for act in reversed(self.acts) if act.job == job and job), "")

    def act_number_of_job_start(self, job: int) -> int:
        """After how many acts a job was started."""
        return next(number for number, act in enumerate(self.acts, 1) if act.kind == "Start" and act.job == job)

    def has_job_in_state_since_last_change(self, script: str, state: str) -> bool:
        """Whether a job of this state was started since the script's last change."""
        change = self.last_change(script)
        return any(
            job.script == script
            and self.act_number_of_job_start(job.number) > change
            and self.state(job.number) == state
            for job in self.jobs
        )

    def is_current(self, job: Job) -> bool:
        """Whether the job's script stands, and didn't change since the job's start."""
        return job.script in self.texts() and self.last_change(job.script) < self.act_number_of_job_start(job.number)

    def add(self, script: str, text: Text) -> str:
        """Adds a script."""
        if script in self.texts():
            return "6 NameTaken"
        self.acts.append(Act("Add", f" {script}: {text_as_printed_lines(text)}", script, text))
        return "ok"

    def edit(self, script: str, first: int, removed: int, text: Text) -> str:
        """Edits a script."""
        old = self.texts().get(script)
        if old is None:
            return "7 NoSuchScript"
        if first < 1 or first + removed > len(old) + 1:
            return "1 BadRange"
        self.acts.append(
            Act("Edit", f" {script} {first} {removed}: {text_as_printed_lines(text)}", script, text, (first, removed))
        )
        return "ok"

    def remove(self, script: str) -> str:
        """Removes a script, and drops its track."""
        if script not in self.texts():
            return "7 NoSuchScript"
        self.acts.append(Act("Remove", f" {script}", script))
        self.tracks.jobs.pop(script, None)
        return "ok"

    def set(self, key: str, value: str) -> str:
        """Sets a setting to one of the values that it has here."""
        if key not in SETTINGS:
            return "3 UnknownKey"
        if value not in SETTINGS[key]:
            return "4 BadValue"
        self.acts.append(Act("Set", f" {key} {value}", key, value))
        return "ok"

    def start(self) -> Job | None:
        """Starts the job of the first script that has none and whose verdict is owed."""
        for script, text in self.texts().items():
            if not any(self.has_job_in_state_since_last_change(script, it) for it in ("Finish", "Start")):
                job = Job(len(self.jobs) + 1, script, text, self.settings())
                self.jobs.append(job)
                self.acts.append(Act("Start", f" {job.number} {script}", script, job=job.number))
                return job
        return None

    def run_job_with_its_track(self, job: Job) -> str:
        """Runs a job with its track."""
        track = self.tracks.jobs.get(job.script)
        count, steps = self.tracks.use_track_for_spared_and_left_steps(job)
        self.spared += count
        if track and track.settings != job.settings:
            self.spared_behind += count
        return f"{verdict_steps_and_uses_of_text(job.text, job.settings).verdict}, {steps} steps"

    def finish(self, job: Job) -> str:
        """Finishes a job with its result, and keeps its track where the rules say so."""
        if self.state(job.number) != "Start":
            return "9 NoSuchJob"
        ruling = "Taken" if self.is_current(job) else "Stale"
        self.acts.append(Act("Finish", f" {job.number} {ruling}", job=job.number))
        present = self.texts().get(job.script)
        if ruling == "Taken":
            self.tracks.keep_dropping_least_recently_used(job)
        elif present is not None:
            self.tracks.keep_stale_if_longer_front_in_common(job, present)
        return ruling

    def refuse_foreign_result_of_job(self, other: Job) -> str:
        """Finishes a job with the result of one that no book gave, and that is another one."""
        if self.state(other.number) != "Start":
            return "9 NoSuchJob"
        assert other != self.jobs[other.number - 1], "a foreign job is an own one"
        return "10 Foreign"

    def abandon(self, number: int) -> str:
        """Gives up a job."""
        if self.state(number) != "Start":
            return "9 NoSuchJob"
        self.acts.append(Act("Abandon", f" {number}", job=number))
        return "ok"

    def whole(self) -> str:
        """The report with the settings and all texts."""
        texts = self.texts()
        settings = self.settings()
        verdicts = {
            script: verdict_steps_and_uses_of_text(text, settings).verdict
            if self.has_job_in_state_since_last_change(script, "Finish")
            else "pending"
            for script, text in texts.items()
        }
        rows = "".join(
            f"{script} {verdicts[script]}, {text_as_printed_lines(text)}, " for script, text in texts.items()
        )
        return f"{settings_text(settings)}{rows}{list(verdicts.values()).count('pending')} owed"

    def log(self) -> str:
        """The history with all that acts have."""
        return "".join(f"{act.kind}{act.words}, " for act in self.acts) + "end"


def settings_text(settings: Settings) -> str:
    """The settings as they are printed."""
    return "".join(f"{key} {value}, " for key, value in settings.items())
