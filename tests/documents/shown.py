"""The commands that a page shows, in blocks of `console`, and whether what they print is what is shown after them."""

import re
from collections.abc import Iterator
from dataclasses import dataclass

BLOCK = re.compile(r"^```console *(\w*)\n(.*?)^```$", re.MULTILINE | re.DOTALL)
PROMPT = "$ "
HERE = re.compile(r"<<-?'?(\w+)'?")
# In the place of lines that are left out, and after a blank of the rest of a line.
LEFT_OUT = "..."
SECONDS = re.compile(r"\bin\\? \d+\\?\.\d+\\? s\b")
# The beginning of the first line of a program that runs without its proofs.
UNPROVED = re.compile(r"^pd[a-z]+: unproved: ")

# Kinds of blocks: what the gate runs, what takes the prover or runs without proofs, what `watch` prints, and what it
# prints without proofs.
PLAIN = ""
SLOW = "slow"
WATCH = "watch"
FOLLOW = "follow"
KINDS = (PLAIN, SLOW, WATCH, FOLLOW)
# The kinds that are left to who walks without proofs, and those of what `watch` prints.
UNHURRIED = (SLOW, FOLLOW)
WATCHED = (WATCH, FOLLOW)


@dataclass(frozen=True)
class Shown:
    """A command, the line where it stands, and the lines that it is to print."""

    kind: str
    line: int
    command: str
    wanted: tuple[str, ...]


def commands_shown_in(text: str) -> Iterator[Shown]:
    """The commands of a page. Lines before any command of what `watch` prints are what one that runs prints next."""
    for block in BLOCK.finditer(text):
        line = text.count("\n", 0, block.start()) + 2
        yield from _commands_of_block(block[1], line, block[2].split("\n")[:-1])


def _commands_of_block(kind: str, first: int, lines: list[str]) -> Iterator[Shown]:
    number = 0
    while number < len(lines):
        begin = number
        command: list[str] = []
        if lines[number].startswith(PROMPT):
            number += 1
            command = _lines_of_command(lines[begin:])
            number = begin + len(command)
        wanted = number
        while number < len(lines) and not lines[number].startswith(PROMPT):
            number += 1
        text = "\n".join(command).removeprefix(PROMPT)
        yield Shown(kind, first + begin, text, tuple(lines[wanted:number]))


def _lines_of_command(lines: list[str]) -> list[str]:
    """The lines of a command: those of a text in it, up to its end, and those after a backslash or a bar."""
    count = 1
    while lines[count - 1].endswith(("\\", "|")) and count < len(lines):
        count += 1
    if found := HERE.search(lines[0]):
        count = lines.index(found[1]) + 1
    return lines[:count]


def pattern_of_output(wanted: tuple[str, ...]) -> re.Pattern[str]:
    """The pattern of an output with the wanted lines."""
    return re.compile("".join(map(_pattern_of_line, wanted)))


def _pattern_of_line(line: str) -> str:
    if line.strip() == LEFT_OUT:
        return r"(?:.*\n)*?"
    if line.endswith(f" {LEFT_OUT}"):
        return re.escape(line.removesuffix(LEFT_OUT)) + r".*\n"
    return SECONDS.sub(r"in \\d+\\.\\d+ s", re.escape(line)) + r"\n"


def is_printed_as_shown(shown: Shown, printed: str, is_proved: bool) -> bool:
    """Whether a command printed what is shown. The line `unproved` counts where it is shown and nothing is proved."""
    wanted = shown.wanted
    if is_proved:
        wanted = tuple(line for line in wanted if not UNPROVED.match(line))
    lines = printed.splitlines()
    if not any(map(UNPROVED.match, wanted)):
        lines = [line for line in lines if not UNPROVED.match(line)]
    return pattern_of_output(wanted).fullmatch("".join(f"{line}\n" for line in lines)) is not None
