"""The mutants that stand in one file, of a crate or of Python and shell, and how one is applied.

A mutant is a title line, `# NAME`, and the lines below it: `file: PATH`, and after that pairs of `old: TEXT` and
`new: TEXT`, each of one line. A mutant that no proof refuses has a line `fails: TEST` before these. One of the sender
has a line `rule: NAME[, NAME..]` there: the rules of the sender that it breaks, as docs/RULES.md names them, or `none`
where it breaks only what the program keeps or says of the sender. Empty lines part mutants.

Mutants of a crate are in its files `contracts.mutants` and `tests.mutants`, and name a file below src/, specs/ or
proofs/. Those of Python and shell are in the files `client/*.mutants`, `tools/*.mutants` and `tests/*.mutants`, and
name a file of the tree.
"""
from __future__ import annotations

import re
from collections.abc import Iterator
from dataclasses import dataclass, field
from pathlib import Path

NAME = re.compile(r"[A-Za-z0-9_-][A-Za-z0-9_.-]*")
CRATE_FOLDERS = ("src/", "specs/", "proofs/")
# The folders with files of mutants of Python and shell.
PYTHON_FOLDERS = ("client", "tools", "tests")
# The file of a crate whose mutants name a test each.
TESTS_FILE = "tests.mutants"
RULE = re.compile(r"(?:rfc\d+|own)(?:\.[a-z0-9-]+)+")
NO_RULE = "none"


class MutantError(Exception):
    """That something can't be read as mutants, or can't be applied, and why."""


@dataclass(frozen=True)
class TextChange:
    """A text that comes once in a file, and the text that replaces it."""

    file: str
    old: str
    new: str


@dataclass
class Mutant:
    """A wrong change: its name, the lines below its title, the test that has to see it, if any, and its changes.

    One of the sender has the rules that it breaks, which may be none; of others they are None.
    """

    name: str
    lines: list[str] = field(default_factory=list)
    test: str = ""
    changes: list[TextChange] = field(default_factory=list)
    rules: tuple[str, ...] | None = None

    @property
    def kit_edit_file_text(self) -> str:
        """The text of a file of its own, as the kit reads it."""
        return "".join(f"{line}\n" for line in self.lines)


@dataclass
class Reader:
    """A reader of mutants: those read so far, the file that the next change is of, and its old text."""

    need_tests: bool
    folders: tuple[str, ...] = CRATE_FOLDERS
    have_rules: bool = False
    mutants: list[Mutant] = field(default_factory=list)
    file: str = ""
    old: str = ""
    has_ended: bool = False

    def parse_line_into_current_mutant(self, line: str) -> None:
        if line.startswith("# "):
            self.mark_mutant_ended_refusing_incomplete()
            self.append_mutant_of_valid_new_name(line[2:])
        elif not line:
            self.mark_mutant_ended_refusing_incomplete()
        elif self.has_ended or not self.mutants:
            raise MutantError("a line of no mutant: a title has to stand before it")
        else:
            self.mutants[-1].lines.append(line)
            self.read_field(self.mutants[-1], *line.partition(":")[::2])

    def append_mutant_of_valid_new_name(self, name: str) -> None:
        if not NAME.fullmatch(name):
            raise MutantError(f"'{name}' is no name: letters, digits, '_', '-' and '.'")
        if name in (it.name for it in self.mutants):
            raise MutantError(f"two mutants have the name {name}")
        self.mutants.append(Mutant(name))
        self.file = self.old = ""
        self.has_ended = False

    def read_field(self, mutant: Mutant, key: str, value: str) -> None:
        if key == "fails" and self.need_tests and not mutant.test:
            mutant.test = value.strip()
        elif key == "rule" and self.have_rules and mutant.rules is None and not self.file:
            mutant.rules = rule_names_in_list(value)
        elif key == "file":
            self.file = self.path_in_allowed_folders_or_refuse(value.strip())
        elif key == "old" and self.file and not self.old:
            self.old = value.removeprefix(" ")
        elif key == "new" and self.old:
            mutant.changes.append(TextChange(self.file, self.old, value.removeprefix(" ")))
            self.old = ""
        else:
            raise MutantError(f"a line '{key}:' can't stand there")

    def path_in_allowed_folders_or_refuse(self, path: str) -> str:
        """The path of a file, if a mutant may change it, and no pair is left open."""
        is_allowed = path.startswith(self.folders) if self.folders else not path.startswith("/")
        if self.old or not is_allowed or ".." in path:
            where = "a file below src/, specs/ or proofs/" if self.folders else "a file of the tree"
            raise MutantError(f"'file: {path}' has to name {where}, before 'old:'")
        return path

    def mark_mutant_ended_refusing_incomplete(self) -> None:
        """Ends a mutant, if one has begun and not ended."""
        if not self.mutants or self.has_ended:
            return
        mutant = self.mutants[-1]
        if self.old or not mutant.changes:
            raise MutantError(f"{mutant.name} ends without a pair of 'old:' and 'new:'")
        if self.need_tests and not mutant.test:
            raise MutantError(f"{mutant.name} names no test: it needs a line 'fails:'")
        self.has_ended = True


def rule_names_in_list(value: str) -> tuple[str, ...]:
    """The names of rules in a list that commas part; none where it is the word for that.

    >>> rule_names_in_list(" rfc6298.expiry, own.limit")
    ('rfc6298.expiry', 'own.limit')
    >>> rule_names_in_list(" none")
    ()
    """
    names = tuple(map(str.strip, value.split(",")))
    if names == (NO_RULE,):
        return ()
    for name in names:
        if not RULE.fullmatch(name):
            raise MutantError(f"'{name}' is no name of a rule, as in docs/RULES.md")
    if len({*names}) < len(names):
        raise MutantError(f"'rule:{value}' has a name twice")
    return names


def parse_mutants_of_text(
    text: str, need_tests: bool = False, folders: tuple[str, ...] = CRATE_FOLDERS
) -> list[Mutant]:
    """The mutants of a text; an error has the number of its line."""
    reader = Reader(need_tests, folders, have_rules=not need_tests and bool(folders))
    lines = text.removesuffix("\n").split("\n")
    for number, line in enumerate([*lines, ""], 1):
        try:
            reader.parse_line_into_current_mutant(line)
        except MutantError as why:
            raise MutantError(f"{number}: {why}") from None
    return reader.mutants


def read_mutants_file(path: Path, is_python: bool = False) -> list[Mutant]:
    """The mutants of a file of a crate, or of Python and shell."""
    try:
        if is_python:
            return parse_mutants_of_text(path.read_bytes().decode(), True, ())
        return parse_mutants_of_text(path.read_bytes().decode(), path.name == TESTS_FILE)
    except MutantError as why:
        raise MutantError(f"{path}:{why}") from None


def read_crate_mutants(top: Path, kind: str) -> dict[str, list[Mutant]]:
    """The mutants of each crate that has a file of this kind, `contracts` or `tests`."""
    return {file.parent.name: read_mutants_file(file) for file in sorted(top.glob(f"crates/*/{kind}.mutants"))}


def read_python_mutants(top: Path) -> dict[str, list[Mutant]]:
    """The mutants of Python and shell, by the paths of their files."""
    files = [file for folder in PYTHON_FOLDERS for file in sorted((top / folder).glob("*.mutants"))]
    return {str(file.relative_to(top)): read_mutants_file(file, is_python=True) for file in files}


def find_only_span_of_old_text(change: TextChange, text: str, any_blanks: bool) -> tuple[int, int]:
    """The place of the old text, which comes just once, perhaps whatever blanks and newlines part its words."""
    pattern = r"\s+".join(map(re.escape, change.old.split())) if any_blanks else re.escape(change.old)
    found = list(re.finditer(pattern, text))
    if len(found) != 1:
        raise MutantError(f"'{change.old}' stands in {change.file} {len(found)} times, and not once")
    return found[0].span()


def files_and_texts_changed_by_mutant(mutant: Mutant, folder: Path) -> Iterator[tuple[Path, str]]:
    """Each file below a folder, a crate or a tree, that a mutant changes, and its text then.

    All old texts are looked for in the files as they are. Those of a mutant that names a test may be broken into lines.
    """
    for name in dict.fromkeys(it.file for it in mutant.changes):
        path = folder / name
        if not path.is_file():
            raise MutantError(f"there is no file {name}")
        text = before = path.read_text()
        changes = [it for it in mutant.changes if it.file == name]
        places = sorted(
            ((find_only_span_of_old_text(it, before, bool(mutant.test)), it.new) for it in changes), reverse=True
        )
        for (start, end), new in places:
            text = text[:start] + new + text[end:]
        if text == before:
            raise MutantError(f"nothing is changed in {name}")
        yield path, text


def apply_mutant(mutant: Mutant, folder: Path) -> None:
    """Makes the changes of a mutant in a copy of its crate or tree."""
    for path, text in list(files_and_texts_changed_by_mutant(mutant, folder)):
        path.write_text(text)
