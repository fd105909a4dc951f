"""Puts many mutants into one tree, each as a body of its own, of which a number chooses one or none.

Each function that a mutant changes has its bodies side by side. A `match` chooses among them by a number that the
compiler takes for unknown, so that a copy of the program with another number is another mutant. One build serves for
all mutants. A mutant of a constant has a body with the other value in each function that uses the constant.
"""
from __future__ import annotations

import re
from collections.abc import Iterator, Mapping
from dataclasses import dataclass, field
from pathlib import Path

from mutant_files import Mutant, MutantError, TextChange, find_only_span_of_old_text

# The function that gives the number, in the root of each crate that a mutant changes.
CHOOSER = "chosen_mutant"
_FUNCTION = f"\n/// Which mutant is chosen; 0 is none.\npub fn {CHOOSER}() -> u32 {{\n    0\n}}\n"
_HEAD = re.compile(r"^( *)(?:pub(?:\([a-z]+\))? )?(?:const )?fn ", re.MULTILINE)
_CONSTANT = re.compile(r"^ *(?:pub(?:\([a-z]+\))? )?const (\w+): [^=;]+ = ([^;]+);$", re.MULTILINE)
_MESSAGE = re.compile(rb"^([^\s:]+\.rt):(\d+):\d+: (error[^\n]*)", re.MULTILINE)
Span = tuple[int, int]


@dataclass(frozen=True)
class BodyEdit:
    """A change of a mutant where it applies: the file, the body, the place, and the text that comes there."""

    file: str
    body: Span
    place: Span
    new: str


@dataclass(frozen=True)
class MutantLines:
    """The lines that the body of a mutant has in a file of the tree with all mutants."""

    file: str
    lines: range
    number: int


@dataclass
class AppliedMutants:
    """The outcome of mutants: the lines of their bodies, and why some were left out, by their numbers."""

    bodies: list[MutantLines] = field(default_factory=list)
    left_out: dict[int, str] = field(default_factory=dict)

    def errors_by_number_of_mutant(self, printed: bytes, tree: Path) -> dict[int, str]:
        """The first error in the body of each mutant that doesn't compile, by what the compiler printed."""
        errors: dict[int, str] = {}
        for path, line, words in _MESSAGE.findall(printed):
            for body in self.bodies:
                if tree / body.file == Path(path.decode()) and int(line) in body.lines:
                    errors.setdefault(body.number, words.decode(errors="replace"))
        return errors


class SourceTexts:
    """The sources of a tree, each read once, and where the bodies of their functions stand."""

    def __init__(self, tree: Path) -> None:
        self._tree = tree
        self._texts: dict[str, str] = {}
        self._bodies: dict[str, list[Span]] = {}

    def text(self, file: str) -> str:
        if file not in self._texts:
            path = self._tree / file
            if not path.is_file():
                raise MutantError(f"there is no file {file}")
            self._texts[file] = path.read_text()
        return self._texts[file]

    def bodies(self, file: str) -> list[Span]:
        if file not in self._bodies:
            self._bodies[file] = list(function_bodies_in(self.text(file)))
        return self._bodies[file]

    def files_of_crate(self, file: str) -> Iterator[str]:
        """The sources of the crate that a file is of."""
        sources = self._tree.joinpath(*Path(file).parts[:2], "src")
        return (str(it.relative_to(self._tree)) for it in sorted(sources.rglob("*.rt")))


def apply_all_mutants(mutants: Mapping[int, Mutant], tree: Path) -> AppliedMutants:
    """Puts mutants into a tree by their numbers, from 1 on; one that can't be applied is left out."""
    applied, sources = AppliedMutants(), SourceTexts(tree)
    edits: dict[str, dict[Span, dict[int, list[BodyEdit]]]] = {}
    for number, mutant in mutants.items():
        try:
            found = [it for change in mutant.changes for it in edits_of_change(change, bool(mutant.test), sources)]
        except MutantError as why:
            applied.left_out[number] = str(why)
            continue
        for it in found:
            edits.setdefault(it.file, {}).setdefault(it.body, {}).setdefault(number, []).append(it)
    for file, by_body in edits.items():
        _write_with_a_body_for_each_number(tree, file, sources.text(file), by_body, applied)
    for root in {tree.joinpath(*Path(file).parts[:2], "src", "lib.rt") for file in edits}:
        root.write_text(root.read_text() + _FUNCTION)
    return applied


def edits_of_change(change: TextChange, any_blanks: bool, sources: SourceTexts) -> list[BodyEdit]:
    """The edits of bodies that make a change: of one body, or for a constant of all that use it in its crate."""
    text = sources.text(change.file)
    begin, end = find_only_span_of_old_text(change, text, any_blanks)
    for body in sources.bodies(change.file):
        if body[0] <= begin and end <= body[1]:
            return [BodyEdit(change.file, body, (begin, end), change.new)]
    edits = list(_edits_of_constant(change, text, (begin, end), sources))
    if not edits:
        raise MutantError(f"{change.file}: '{change.old}' stands in no function")
    return edits


def _edits_of_constant(change: TextChange, text: str, place: Span, sources: SourceTexts) -> Iterator[BodyEdit]:
    """The edits that put another value in the place of a constant, wherever a function of its crate names it."""
    begin, end = place
    item = next((it for it in _CONSTANT.finditer(text) if it.start() <= begin and end <= it.end()), None)
    if item is None:
        return
    changed = _CONSTANT.fullmatch(text[item.start() : begin] + change.new + text[end : item.end()])
    if changed is None or changed[1] != item[1]:
        return
    for file in sources.files_of_crate(change.file):
        for first, last in sources.bodies(file):
            for use in re.finditer(rf"\b{item[1]}\b", sources.text(file)[first:last]):
                yield BodyEdit(file, (first, last), (first + use.start(), first + use.end()), f"({changed[2]})")


def _write_with_a_body_for_each_number(
    tree: Path, file: str, text: str, edits: Mapping[Span, Mapping[int, list[BodyEdit]]], applied: AppliedMutants
) -> None:
    """Writes a file whose functions have a body for each number that changes them, and notes their lines."""
    parts: list[str] = []
    line, written = 1, 0

    def write(part: str, number: int = 0) -> None:
        nonlocal line
        first, line = line, line + part.count("\n")
        parts.append(part)
        if number:
            applied.bodies.append(MutantLines(file, range(first, line), number))

    for body, by_number in sorted(edits.items()):
        begin, end = body
        write(f"{text[written:begin]}\nmatch crate::{CHOOSER}() {{\n")
        for number, each in by_number.items():
            write(f"{number} => {{{_changed_body(text, body, each)}}}\n", number)
        write(f"_ => {{{text[begin:end]}}}\n}}\n")
        written = end
    write(text[written:])
    (tree / file).write_text("".join(parts))


def _changed_body(text: str, body: Span, edits: list[BodyEdit]) -> str:
    """A body after edits."""
    begin, end = body
    for edit in sorted(edits, key=lambda it: it.place, reverse=True):
        first, last = edit.place
        text = text[:first] + edit.new + text[last:]
        end += len(edit.new) - (last - first)
    return text[begin:end]


def function_bodies_in(text: str) -> Iterator[Span]:
    """Where the bodies of functions stand, between their braces, in a text in the layout of `rt fmt`."""
    for head in _HEAD.finditer(text):
        indent = head[1]
        opened = re.compile(rf"^{indent}{{\n|^{indent}(?:\)|[a-z])[^\n]* {{\n", re.MULTILINE).search(text, head.start())
        if opened is None:
            continue
        closed = re.compile(rf"^{indent}}}\n", re.MULTILINE).search(text, opened.end())
        if closed is not None:
            yield opened.end(), closed.start()
