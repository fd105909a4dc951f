#!/usr/bin/env python3
"""Lists what proofs repeat of a rule instead of naming it: `tools/repeated_rules.py [CRATE..]`, by default all crates.

A line `FILE:LINE: says WORD again` is a place in proofs/ that has the whole body of a definition of specs/, other terms
in place of its parameters; `FILE:LINE: has NUMBER of WORD..` one with a number above 2 of definitions in a file that
the proof imports. A change of the definition changes that proof too. Where the two only happen to be alike, it stands.
"""

import re
import sys
from collections import defaultdict
from collections.abc import Iterator
from dataclasses import dataclass
from pathlib import Path

TOP = Path(__file__).resolve().parents[1]
CLAUSE = re.compile(r"^(\w[\w-]*)((?: \w+)*) =(?=\s)(.*(?:\n +.*)*)", re.MULTILINE)
TOKEN = re.compile(r"[()\[\]{},;]|[^\s()\[\]{},;]+")
UNREAD = re.compile(r"--.*|^(?:pub )?use .*$", re.MULTILINE)
COMMON = {*"()[]{},;", "if", "then", "else", "Some", "None"}
# So many words of a body have to be its own, so that it differs from others.
OWN = 4


@dataclass(frozen=True)
class Definition:
    """A definition: its module, its name, its parameters, and the words of its body."""

    module: str
    name: str
    parameters: frozenset[str]
    body: tuple[str, ...]

    @property
    def distinctive_words(self) -> list[str]:
        """The words of the body that are no parameters, and that few bodies have."""
        return [it for it in self.body if it not in COMMON and it.partition(".")[0] not in self.parameters]


def read_one_clause_definitions() -> Iterator[Definition]:
    """The definitions that are one clause."""
    for path in sorted(TOP.glob("crates/*/specs/*.antt")):
        for name, parameters, body in CLAUSE.findall(UNREAD.sub("", path.read_text(encoding="utf-8"))):
            words = tuple(TOKEN.findall(body))
            if not {"record", "let"} & set(words):
                module = f"Rattle.{path.parts[-3]}.specs.{path.stem}."
                yield Definition(module, name, frozenset(parameters.split()), words)


def place_after_term(words: list[str], at: int) -> int:
    """The place after one term: a word, or what stands in brackets."""
    depth = 0
    for place in range(at, len(words)):
        depth += (words[place] in "([{") - (words[place] in ")]}")
        if depth <= 0:
            return place + 1
    return len(words)


def is_body_at_with_any_arguments(it: Definition, words: list[str], at: int) -> bool:
    """Whether the body stands at a place of a proof."""
    for word in it.body:
        head, dot, field = word.partition(".")
        if at >= len(words):
            return False
        if head in it.parameters and not dot:
            at = place_after_term(words, at)
        elif word == words[at] or (head in it.parameters and words[at].endswith(f".{field}")):
            at += 1
        else:
            return False
    return True


def lines_and_messages_of_repeats_in_proof(each: list[Definition], path: Path) -> Iterator[tuple[int, str]]:
    """The rules that one file repeats, with its lines."""
    text = path.read_text(encoding="utf-8")
    found = [
        (word, number)
        for number, line in enumerate(UNREAD.sub("", text).splitlines(), 1)
        for word in TOKEN.findall(line)
    ]
    words = [word for word, _ in found]
    places: dict[str, list[int]] = defaultdict(list)
    for at, word in enumerate(words):
        places[word].append(at)
    numbers: dict[str, list[str]] = defaultdict(list)
    for it in each:
        if len(it.distinctive_words) >= OWN and it.body[0] == it.distinctive_words[0]:
            yield from (
                (found[at][1], f"says {it.name} again")
                for at in places[it.body[0]]
                if is_body_at_with_any_arguments(it, words, at)
            )
        if it.module in text:
            for number in {word for word in it.distinctive_words if word.isdigit() and int(word) > 2}:
                numbers[number].append(it.name)
    for number, names in numbers.items():
        yield from ((found[at][1], f"has {number} of {', '.join(names)}") for at in places[number])


def main(crates: list[str]) -> int:
    """Prints what the proofs of these crates repeat, of any crate's definitions."""
    each = list(read_one_clause_definitions())
    for path in sorted(TOP.glob("crates/*/proofs/**/*.antt")):
        name = path.relative_to(TOP)
        if not crates or name.parts[1] in crates:
            for line, what in sorted(set(lines_and_messages_of_repeats_in_proof(each, path))):
                print(f"{name}:{line}: {what}")
    return 0


if __name__ == "__main__":
    sys.exit(main(sys.argv[1:]))
