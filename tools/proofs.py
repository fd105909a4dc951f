#!/usr/bin/env -S /usr/bin/python3 -B
"""Proofs of crates: the lanes in which ./prove has them made, how long each takes, and what the gate spends on it.

proofs.py [COMMAND..] measures the latter. It runs `rt ci --anew`, or the command named, on a clean clone of what is
committed, and looks each half second at its processes. It prints for each crate, the dearest first, processor minutes
and minutes by the clock, and the longest chain: the proof or the edits that ended last, and what they waited for. What
the command says goes to standard error, and its status is this one's. Two runs on one machine that does nothing else
compare. It needs Debian's python3-psutil.
"""
from __future__ import annotations

import contextlib
import fcntl
import json
import os
import re
import shutil
import signal
import subprocess
import sys
import tempfile
import time
from collections import defaultdict
from collections.abc import Iterator
from dataclasses import dataclass, field
from pathlib import Path
from threading import Lock
from typing import TYPE_CHECKING, NamedTuple, Tuple

from copies import Copy
from crate_graph import parse_dependencies_between_crates, crates_below_one_in_build_order

if TYPE_CHECKING:
    import psutil

TOP = Path(__file__).resolve().parents[1]
# The memory that two lanes take at most, in octets, and how many jobs each of them gives a proof.
FOLDER = 16_000_000_000
JOBS = 2
# How the folder of a lane begins that stands in what is kept of a crate.
LANE = "lane-"
# The seconds for a crate that wasn't measured here, and more for each octet of it and of the crates below it.
EACH = 17.0
EACH_OCTET = 0.31e-3
EACH_OCTET_BELOW = 0.056e-3
# A proof over what an earlier one kept takes this part of that, where it wasn't measured.
AGAIN = 0.25
# The seconds that a crate takes in which nothing has changed.
STANDING = 2.0
# The work of a process: the crate, and whether its proof, its edits or a run.
Work = Tuple[str, str]


class Unproved(Exception):
    """A crate that isn't proved, by its name."""


@dataclass
class Lane:
    """A copy of crates in which one at a time is proved, by a kit's command, and the process that proves it."""

    copy: Copy
    command: str
    flags: list[str]
    proving: subprocess.Popen[bytes] | None = None
    is_stopped: bool = False
    lock: Lock = field(default_factory=Lock)

    @property
    def tree(self) -> Path:
        return self.copy.tree

    def out_folder_of_crate_in_lane(self, crate: str) -> Path:
        return self.tree / "crates" / crate / "out"

    def call_rt(self, crate: str, *words: str) -> int:
        """Calls rt on a crate, in a session of its own, and gives its status; the crate's log has its output."""
        out = self.out_folder_of_crate_in_lane(crate)
        out.mkdir(parents=True, exist_ok=True)
        log_file = out / "build.log"
        log_file.unlink(missing_ok=True)
        with log_file.open("wb") as log:
            with self.lock:
                if self.is_stopped:
                    raise Unproved(crate)
                self.proving = subprocess.Popen(
                    [self.command, *words],
                    cwd=out.parent,
                    stdin=subprocess.DEVNULL,
                    stdout=log,
                    stderr=log,
                    start_new_session=True,
                )
            status = self.proving.wait()
        # Whoever reads it knows the tree alone.
        log_file.write_bytes(log_file.read_bytes().replace(os.fsencode(self.tree), os.fsencode(TOP)))
        return status

    def prove_library_or_raise(self, library: str) -> None:
        if self.call_rt(library, "lib", *self.flags):
            raise Unproved(library)

    def prove_program_or_raise(self, program: str) -> None:
        built = self.out_folder_of_crate_in_lane(program) / program
        built.unlink(missing_ok=True)
        # Its status is that of a run without input, too.
        self.call_rt(program, "run", *self.flags)
        if not os.access(built, os.X_OK):
            raise Unproved(program)

    def stop_and_refuse_new(self) -> None:
        """Ends what runs here, and lets nothing be begun any more."""
        with self.lock:
            self.is_stopped = True
        if self.proving is not None and self.proving.poll() is None:
            with contextlib.suppress(ProcessLookupError):
                os.killpg(self.proving.pid, signal.SIGTERM)
            self.proving.wait()


def replace_all_parts_linking_or_copying(source: Path, to: Path, folder: Path) -> None:
    """Puts the parts of a folder, lanes apart, in another place, by hard links if possible, instead of what is there.

    Each part is made first in a further folder of the same file system, so that who is killed leaves either whole.
    """
    if not source.is_dir():
        return
    to.mkdir(parents=True, exist_ok=True)
    for part in (it for it in source.iterdir() if not it.name.startswith(LANE)):
        replace_path_by_links_or_copy(part, to / part.name, folder)


def replace_path_by_links_or_copy(part: Path, to: Path, folder: Path) -> None:
    """Puts a folder or a file in another place, instead of what stands there."""
    fresh, before = folder / "fresh", folder / "before"
    for left in (fresh, before):
        shutil.rmtree(left, ignore_errors=True)
        left.unlink(missing_ok=True)
    if part.is_dir():
        shutil.copytree(part, fresh, copy_function=link_or_copy, symlinks=True)
    else:
        link_or_copy(str(part), str(fresh))
    if to.is_dir():
        to.rename(before)
    fresh.replace(to)
    shutil.rmtree(before, ignore_errors=True)


def link_or_copy(file: str, to: str) -> None:
    try:
        os.link(file, to, follow_symlinks=False)
    except OSError:
        shutil.copy2(file, to, follow_symlinks=False)


@contextlib.contextmanager
def lock_crate(crate: str, waits: bool = True) -> Iterator[bool]:
    """Lets no `rt` work in a crate of the tree meanwhile. It yields whether it came to that."""
    folder = os.open(TOP / "crates" / crate, os.O_RDONLY)
    is_held = True
    try:
        try:
            fcntl.flock(folder, fcntl.LOCK_EX | (0 if waits else fcntl.LOCK_NB))
        except OSError as error:
            # Some file systems have no locks, and no rt waits there.
            is_held = not isinstance(error, BlockingIOError)
        yield is_held
    finally:
        os.close(folder)


def copy_given_crates_without_output(crates: list[str], tree: Path) -> None:
    """Makes a tree of these crates alone, without what is kept of them."""
    lines = (TOP / "crates.txt").read_text().splitlines(keepends=True)
    (tree / "crates.txt").write_text("".join(it for it in lines if it.partition(":")[0].partition(" ")[0] in crates))
    shutil.copy(TOP / "HANDLES", tree)
    for crate in crates:
        shutil.copytree(TOP / "crates" / crate, tree / "crates" / crate, ignore=shutil.ignore_patterns("out"))


def find_number_matching_pattern_in_file(file: str, pattern: str) -> int | None:
    """The number of the line that fits a pattern, if there are the file and the line."""
    with contextlib.suppress(OSError):
        found = re.search(pattern, Path(file).read_text(), re.MULTILINE)
        return int(found[1]) if found else None
    return None


def free_memory_within_machine_and_cgroup() -> int:
    """The octets that may still be taken here, within the limit of the group of processes too."""
    free = 1024 * (find_number_matching_pattern_in_file("/proc/meminfo", r"^MemAvailable:\s+(\d+)") or 0)
    limit = find_number_matching_pattern_in_file("/sys/fs/cgroup/memory.max", r"^(\d+)$")
    taken = find_number_matching_pattern_in_file("/sys/fs/cgroup/memory.stat", r"^anon (\d+)$")
    return free if limit is None else min(free, limit - (taken or 0))


def has_processors_and_memory_for_two_lanes() -> bool:
    """Whether there are the processors and the memory for two lanes."""
    return len(os.sched_getaffinity(0)) >= 2 * JOBS and free_memory_within_machine_and_cgroup() >= FOLDER


def times_file() -> Path:
    """Where the times of this machine are kept."""
    cache = os.environ.get("XDG_CACHE_HOME", "")
    folder = Path(cache) if os.path.isabs(cache) else Path.home() / ".cache"
    return folder / "pdregress" / "prove.json"


@dataclass
class Times:
    """The seconds that each proof took last: from nothing, or over what is kept of an earlier one."""

    seconds: dict[str, float] = field(default_factory=dict)

    @staticmethod
    def read() -> Times:
        with contextlib.suppress(OSError, ValueError, TypeError, AttributeError, RuntimeError):
            kept = json.loads(times_file().read_text())
            return Times({str(it): float(seconds) for it, seconds in kept.items()})
        return Times()

    def expected_seconds_by_crate(self, uses: dict[str, list[str]]) -> dict[str, float]:
        """The seconds that each crate takes as it is now, the crates being in the order of crates.txt."""
        changed: dict[str, float] = {}
        octets: dict[str, int] = {}
        found: dict[str, float] = {}
        for crate, below in uses.items():
            files = [it.stat() for it in own_source_paths_of_crate(crate)]
            octets[crate] = sum(it.st_size for it in files)
            changed[crate] = max([it.st_mtime for it in files] + [changed.get(it, 0.0) for it in below])
            if changed[crate] <= moment_of_last_proof_or_zero(TOP / "crates" / crate / "out"):
                found[crate] = STANDING
            else:
                whole = sum(octets.get(it, 0) for it in crates_below_one_in_build_order(crate, uses))
                guess = EACH + EACH_OCTET * octets[crate] + EACH_OCTET_BELOW * whole
                key = times_key_by_whether_incremental_is_kept(crate)
                found[crate] = self.seconds.get(key, guess if key == crate else AGAIN * guess)
        return found

    def keep_seconds(self, key: str, seconds: float) -> None:
        """Keeps what a proof took, for later calls too where that can be written."""
        self.seconds = {**Times.read().seconds, key: round(seconds, 1)}
        with contextlib.suppress(OSError, RuntimeError):
            file = times_file()
            file.parent.mkdir(parents=True, exist_ok=True)
            fresh = file.with_name(f"{file.name}.{os.getpid()}")
            fresh.write_text(json.dumps(self.seconds, indent=0, sort_keys=True) + "\n")
            fresh.replace(file)


def own_source_paths_of_crate(crate: str) -> Iterator[Path]:
    """The files of a crate that its proof reads."""
    for folder in ("src", "specs", "proofs"):
        for kind in ("*.rt", "*.antt"):
            yield from (TOP / "crates" / crate / folder).rglob(kind)


def moment_of_last_proof_or_zero(out: Path) -> float:
    """When a crate was built last, which it is once it is proved, by its folder of what is kept."""
    for built in (out / "rlib" / "stamp", out / out.parent.name):
        with contextlib.suppress(OSError):
            return built.stat().st_mtime
    return 0.0


def times_key_by_whether_incremental_is_kept(crate: str) -> str:
    """The key of a crate's proof in the times: one over what is kept has another key than one from nothing."""
    kept = TOP / "crates" / crate / "out" / "incremental"
    return f"{crate} again" if kept.is_dir() else crate


def remaining_crates_and_minutes_in_words(crates: int, seconds: float) -> str:
    """The crates and the minutes that are left, in words.

    >>> remaining_crates_and_minutes_in_words(24, 1561.0)
    '24 crates and about 26 minutes'
    >>> remaining_crates_and_minutes_in_words(1, 59.0)
    '1 crate and less than a minute'
    """
    minutes = round(seconds / 60)
    about = f"about {minutes} minutes" if minutes > 1 else "about a minute" if seconds >= 60 else "less than a minute"
    return f"{crates} crate{'s' * (crates != 1)} and {about}"


class Used(NamedTuple):
    """The work of a process, its parent, and its seconds at the last look: its own, and its ended children's."""

    work: Work | None
    parent: psutil.Process | None
    own: float
    waited: float


@dataclass
class SeenProcesses:
    """The processes seen so far, from when to when each work was seen, and for how long each crate."""

    processes: dict[psutil.Process | None, Used] = field(default_factory=dict)
    spans: dict[Work, tuple[float, float]] = field(default_factory=dict)
    clock: dict[str, float] = field(default_factory=lambda: defaultdict(float))


def crate_and_kind_of_work_of_process(words: list[str], folder: str) -> Work | None:
    """The work of a process, by its words and its folder; none where these don't show it.

    >>> crate_and_kind_of_work_of_process(["rattle", "build", "--crate-name", "pd_lex"], "/tmp/x/crates/pd_lex")
    ('pd_lex', 'proof')
    >>> crate_and_kind_of_work_of_process(["rattle", "check", "--crate-name", "pd_lex"], "/tmp/rt-edit-7-x1")
    ('pd_lex', 'edits')
    """
    if ran := next((it for it in words if re.match(r".*/rt-run-[^/]+/bin/", it)), ""):
        return os.path.basename(ran).removesuffix("_tests"), "run"
    if "--crate-name" in words[:-1]:
        kind = "edits" if os.path.basename(folder).startswith("rt-edit-") else "proof"
        return words[words.index("--crate-name") + 1], kind
    return (os.path.basename(folder), "proof") if re.search(r"/crates/\w+$", folder) else None


def record_work_and_time_once_of_process_tree(
    seen: SeenProcesses, root: psutil.Process, now: float, passed: float
) -> None:
    """Looks at a process and those below it, at a moment by the clock, so many seconds after the last look."""
    import psutil

    found = {it.pid: it for it in [root, *root.children(recursive=True)]}
    works = set()
    for it in sorted(found.values(), key=lambda it: float(it.create_time())):
        with contextlib.suppress(psutil.Error):
            parent = found.get(it.ppid())
            known = [one.work for one in map(seen.processes.get, (it, parent)) if one and one.work]
            work = known[0] if known else crate_and_kind_of_work_of_process(it.cmdline(), it.cwd())
            used = it.cpu_times()
            seen.processes[it] = Used(work, parent, sum(used[:2]), sum(used[2:4]))
            works |= {work} if work else set()
    for work in works:
        seen.spans[work] = (seen.spans.get(work, (now, now))[0], now)
    for crate in {crate for crate, _ in works}:
        seen.clock[crate] += passed


def processor_seconds_by_crate(seen: SeenProcesses) -> dict[str, float]:
    """The processor seconds of each crate: of its processes, and of their children that ended between two looks."""
    by_children: dict[psutil.Process, float] = defaultdict(float)
    seconds: dict[str, float] = defaultdict(float)
    for it in seen.processes.values():
        by_children[it.parent] += it.own + it.waited
    for process, it in seen.processes.items():
        if it.work:
            seconds[it.work[0]] += it.own + max(0.0, it.waited - by_children[process])
    return dict(sorted(seconds.items(), key=lambda it: -it[1]))


def critical_path_to_last_ended_work(spans: dict[Work, tuple[float, float]], uses: dict[str, list[str]]) -> list[Work]:
    """The chain of work that ended last, first to last: edits waited for the proof, a proof for those of crates below.

    >>> spans = {("a", "proof"): (1, 5), ("b", "proof"): (1, 4), ("c", "proof"): (6, 9), ("c", "edits"): (9, 30)}
    >>> critical_path_to_last_ended_work(spans, {"a": [], "b": [], "c": ["a", "b"]})
    [('a', 'proof'), ('c', 'proof'), ('c', 'edits')]
    """
    chain: list[Work] = []
    left = [it for it in spans if it[1] != "run" and it[0] in uses]
    while left:
        last = max(left, key=lambda it: spans[it][1])
        chain.insert(0, last)
        waited_for = last[:1] if last[1] == "edits" else uses[last[0]]
        left = [(crate, "proof") for crate in waited_for if (crate, "proof") in spans]
    return chain


def crate_minutes_and_longest_chain_lines(
    seen: SeenProcesses, uses: dict[str, list[str]], processor: float, clock: float
) -> Iterator[str]:
    seconds = {crate: it for crate, it in processor_seconds_by_crate(seen).items() if crate in uses}
    rest = processor - sum(seconds.values())
    yield "minutes of processors and by the clock:"
    crates = [(*it, seen.clock[it[0]]) for it in seconds.items()]
    for name, used, gone in [*crates, ("of no crate", rest, 0.0), ("all", processor, clock)]:
        yield f"{used / 60:8.1f} {gone / 60:8.1f}  {name}"
    yield "the longest chain, from when to when by the clock:"
    for work in critical_path_to_last_ended_work(seen.spans, uses):
        yield "{:8.1f} {:8.1f}  {} {}".format(*(it / 60 for it in seen.spans[work]), *work)


def run_and_print_cost(command: list[str], clone: Path) -> int:
    """Runs the command in the clone, and prints what it cost; the status is its."""
    import psutil  # ./prove does without.

    seen, began, now = SeenProcesses(), time.monotonic(), 0.0
    started = subprocess.Popen(command, cwd=clone, stdin=subprocess.DEVNULL, stdout=sys.stderr)
    while started.poll() is None:
        before, now = now, time.monotonic() - began
        record_work_and_time_once_of_process_tree(seen, psutil.Process(started.pid), now, now - before)
        time.sleep(0.5)
    used = os.times()
    uses = parse_dependencies_between_crates((clone / "crates.txt").read_text())
    print(
        *crate_minutes_and_longest_chain_lines(
            seen, uses, used.children_user + used.children_system, time.monotonic() - began
        ),
        sep="\n",
    )
    return started.returncode


def main() -> int:
    if sys.argv[1:2] == ["--help"]:
        sys.exit(__doc__)
    with tempfile.TemporaryDirectory() as work:
        os.chmod(work, 0o755)  # A test of the client reads the clone as another user.
        subprocess.run(["git", "clone", "-q", TOP, f"{work}/clone"], check=True)
        return run_and_print_cost(sys.argv[1:] or ["rt", "ci", "--anew"], Path(work, "clone"))


if __name__ == "__main__":
    sys.exit(main())
