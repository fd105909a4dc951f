#!/usr/bin/env -S python3 -B
"""Spoils scripts of a suite at random, and says whether `pdrecord --minimal` gives them back:

fuzz_mend.py [--count N] [--seed N] [--show] [--program FILE] [PATH..]

Each case is a script of the suite, `examples/suite` where no PATH is given, with one written field of an awaited packet
or one result of a call made another one, a time by more than the tolerance. FILE is a built `pdrecord`; without one,
this tree's runs unproved. The last line counts the cases, those in which only the spoiled line was changed, and those
in which its old text came back, times apart by no more than the tolerance. With --show each other case is printed.
"""
from __future__ import annotations

import argparse
import random
import re
import subprocess
import sys
import tempfile
from collections.abc import Iterator, Sequence
from concurrent.futures import ThreadPoolExecutor
from dataclasses import dataclass
from pathlib import Path

import rt_try

TOP = rt_try.TOP
sys.path.insert(0, str(TOP / "client"))

from pdsuite.run.batches import Script  # noqa: E402
from pdsuite.run.collect import find_selected_script_files_and_read_configs, suite_scripts_with_config  # noqa: E402
from pdsuite.scripts.config import SuiteConfig, layer_of_option  # noqa: E402
from pdsuite.scripts.settings import settings_as_toml  # noqa: E402
from pdsuite.signals import Stop  # noqa: E402

TOLERANCE = 0.004
TIMES = ("0", "0.1", "0.3", "0.55", "1", "1.5", "2")
PACKET = re.compile(
    r"^(?P<time>\S+)(?P<gap> +)> (?P<flags>\S+) (?P<seq>(?P<start>\d+):(?P<end>\d+)\((?P<length>\d+)\))"
    r"(?: ack (?P<ack>\d+))?(?: win (?P<win>\d+))?(?: (?P<options><[^>]*>))?"
)
CALL = re.compile(r"^[^/]*\) += (?P<result>-1 E\w+|-?\d+)")
SINGLE = re.compile(r"^(\+?)(\d+(?:\.\d+)?)(?=\s)")
FIELDS = ("time", "flags", "seq", "ack", "win", "options")
# A larger window isn't run.
MOST_WIN = 65_535


@dataclass(frozen=True)
class Spoiled:
    """A script with one line spoiled."""

    script: Script
    number: int
    old: list[str]
    new: list[str]


def spoil_time(line: str, old: str, chance: random.Random) -> str | None:
    """Another time by more than the tolerance, in its column where there is space."""
    single = SINGLE.match(line)
    if single is None:
        return None
    sign, seconds = single.groups()
    other = chance.choice([it for it in TIMES if abs(float(it) - float(seconds)) > 0.01])
    new = sign + other
    width = len(old) + len(line[len(old) :]) - len(line[len(old) :].lstrip(" "))
    return new.ljust(width - 1) + " " + line[width:] if len(new) < width else new + " " + line[width:]


def other_number_with_as_many_digits(old: str, chance: random.Random, most: int | None = None) -> str:
    """Another number with as many digits, below a limit if there is one."""
    first, last = (0, 9) if len(old) == 1 else (10 ** (len(old) - 1), 10 ** len(old) - 1)
    last = last if most is None else min(last, most)
    return str(chance.choice([it for it in (chance.randint(first, last) for _ in range(20)) if it != int(old)]))


def other_sequence_range_text(found: re.Match[str], chance: random.Random) -> str:
    """Other sequence numbers: of other octets, or of more or fewer."""
    start, length = int(found["start"]), int(found["length"])
    if chance.random() < 0.5:
        start = chance.choice([it for it in (start - 1000, start - 1, start + 1, start + 500, start + 1000) if it >= 0])
    else:
        length = chance.choice([it for it in (length - 500, length - 1, length + 1, length + 1000) if it >= 0])
    return f"{start}:{start + length}({length})"


def spoil_named_field(line: str, name: str, found: re.Match[str], chance: random.Random) -> str | None:
    """The line with a field made another one."""
    old = found[name]
    if name == "time":
        return spoil_time(line, old, chance)
    if name == "flags":
        new = chance.choice([it for it in (".", "P.", "F.", "S.", "FP.", "R") if it != old])
    elif name == "options":
        new = re.sub(r"\d+", lambda it: other_number_with_as_many_digits(it[0], chance), old, count=1)
        if new == old:
            return None
    elif name == "seq":
        new = other_sequence_range_text(found, chance)
    else:
        new = other_number_with_as_many_digits(old, chance, MOST_WIN if name == "win" else None)
    return line[: found.start(name)] + new + line[found.end(name) :]


def spoil_line(line: str, chance: random.Random) -> str | None:
    """The line spoiled; nothing where nothing of it can be."""
    if packet := PACKET.match(line):
        names = [it for it in FIELDS if packet[it] is not None]
        return spoil_named_field(line, chance.choice(names), packet, chance)
    if call := CALL.match(line):
        old = call["result"]
        new = chance.choice(["5", "-1 EINVAL"]) if old.startswith("-") else other_number_with_as_many_digits(old, chance)
        return line[: call.start("result")] + new + line[call.end("result") :]
    return None


def spoil_random_script(scripts: Sequence[Script], chance: random.Random) -> Spoiled:
    """A script with one line spoiled."""
    while True:
        script = chance.choice(scripts)
        old = Path(script.path).read_text(encoding="utf-8").splitlines()
        number = chance.randrange(len(old))
        if (line := spoil_line(old[number], chance)) is not None and line != old[number]:
            return Spoiled(script, number, old, [*old[:number], line, *old[number + 1 :]])


def is_same_but_for_time_within_tolerance(one: str, other: str) -> bool:
    """Whether two lines are the same but for times within the tolerance, or written with other digits."""
    first, second = SINGLE.match(one), SINGLE.match(other)
    if first is None or second is None or first[1] != second[1]:
        return False
    apart = abs(float(first[2]) - float(second[2]))
    return apart <= TOLERANCE + 1e-9 and one[first.end() :].split() == other[second.end() :].split()


def judge_others_unchanged_and_line_restored(it: Spoiled, answer: rt_try.TryResult) -> tuple[bool, bool, list[str]]:
    """Whether only the spoiled line was changed, whether it came back, and what was made."""
    if not isinstance(answer, rt_try.TryOutput) or answer.status != 0:
        return False, False, [str(answer)]
    made = answer.output.decode().splitlines()
    others = len(made) == len(it.new) and all(
        one == other for number, (one, other) in enumerate(zip(made, it.new)) if number != it.number
    )
    back = others and (made[it.number] == it.old[it.number] or is_same_but_for_time_within_tolerance(made[it.number], it.old[it.number]))
    return others, back, made


def render_old_spoiled_and_mended_lines(it: Spoiled, made: Sequence[str]) -> Iterator[str]:
    yield f"{it.script.path}:{it.number + 1}"
    yield f"  old {it.old[it.number]}"
    yield f"  new {it.new[it.number]}"
    if len(made) == len(it.new):
        yield from (f"  got {one}" for one, other in zip(made, it.new) if one != other)
    else:
        yield from (f"  got {one}" for one in made if one not in it.new)


def main() -> int:
    parser = argparse.ArgumentParser(allow_abbrev=False, description=(__doc__ or "").partition(":\n")[0])
    parser.add_argument("--count", type=int, default=1000, help="how many cases")
    parser.add_argument("--seed", type=int, default=1, help="what chance begins with")
    parser.add_argument("--show", action="store_true", help="print the cases that didn't come back")
    parser.add_argument("--program", metavar="FILE", type=Path, help="a built pdrecord")
    parser.add_argument("paths", metavar="PATH", type=Path, nargs="*", default=[TOP / "examples/suite"])
    options = parser.parse_args()
    suite = SuiteConfig(layer_of_option(""))
    with Stop() as stop:
        scripts = [
            it for it in suite_scripts_with_config(find_selected_script_files_and_read_configs(options.paths, [], suite, stop), suite) if not it.fault
        ]
    chance = random.Random(options.seed)
    cases = [spoil_random_script(scripts, chance) for _ in range(options.count)]
    judged = [judge_others_unchanged_and_line_restored(it, answer) for it, answer in zip(cases, mend_by_given_or_unproved_program(cases, options.program))]
    for it, (_, back, made) in zip(cases, judged):
        if options.show and not back:
            print(*render_old_spoiled_and_mended_lines(it, made), sep="\n")
    others, back = sum(one for one, _, _ in judged), sum(it for _, it, _ in judged)
    print(f"{len(cases)} cases, only the line changed in {others}, its old text back in {back}")
    return 0 if back == len(cases) else 1


def mend_by_given_or_unproved_program(cases: Sequence[Spoiled], program: Path | None) -> list[rt_try.TryResult]:
    """The program's result for each case."""
    if program is None:
        return mend_results_by_rt_try(cases)
    with ThreadPoolExecutor() as pool:
        return list(pool.map(lambda it: run_with_minimal_option(arguments_and_input_of_spoiled(it), program), cases))


def run_with_minimal_option(case: rt_try.TryCase, program: Path) -> rt_try.TryResult:
    done = subprocess.run([program, *case.arguments, b"--minimal"], input=case.given, capture_output=True)
    return rt_try.TryOutput(done.stdout, done.stderr, done.returncode)


def mend_results_by_rt_try(cases: Sequence[Spoiled]) -> list[rt_try.TryResult]:
    """The same unproved. A word of a case has no newline, so settings of two keys have a build of their own."""
    groups: dict[tuple[bytes, ...], list[int]] = {}
    runs = [arguments_and_input_of_spoiled(it) for it in cases]
    for number, case in enumerate(runs):
        groups.setdefault(case.arguments if any(b"\n" in it for it in case.arguments) else (), []).append(number)
    found: dict[int, rt_try.TryResult] = {}
    for shared, numbers in groups.items():
        with tempfile.TemporaryDirectory(prefix="spoiled-") as folder:
            own = [rt_try.TryCase(() if shared else runs[it].arguments, runs[it].given) for it in numbers]
            arguments = [b"--minimal", *shared]
            found |= zip(numbers, rt_try.run_cases("pdrecord", own, Path(folder), 60, arguments, steps=1))
    return [found[number] for number in range(len(cases))]


def arguments_and_input_of_spoiled(it: Spoiled) -> rt_try.TryCase:
    text = settings_as_toml(it.script.settings)
    arguments = (b"--settings", text.encode()) if text else ()
    return rt_try.TryCase(arguments, "".join(f"{line}\n" for line in it.new).encode())


if __name__ == "__main__":
    sys.exit(main())
