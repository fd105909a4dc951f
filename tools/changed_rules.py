"""Which definitions changed since a crate was proved last, and which laws name them, also through others."""
from __future__ import annotations

import json
import re
from collections.abc import Iterable, Iterator
from dataclasses import dataclass
from pathlib import Path

# The file in a crate's out/ that has the definitions by which it was proved: its own, and those of the crates below.
KEPT = "definitions.json"
HEAD = re.compile(r"^(?:abbrev )?(?:pub )?(?:record |data )?(?P<name>[^\W\d][\w-]*)")
USE = re.compile(r"^(?:pub )?use Rattle\.(\w+)\.specs\.(\w+)(?:\.\{([^}]*)\}| as (\w+))", re.MULTILINE)
COMMENT = re.compile(r"(?:^|(?<=\s))--(?=\s|$).*")
WORD = re.compile(r"[^\W\d][\w-]*(?:\.[\w-]+)?")
# The files whose definitions are laws.
LAWS = re.compile(r"Laws$")
# The crate, the file and the name of a definition.
Key = tuple[str, str, str]


@dataclass(frozen=True)
class SpecRule:
    """A definition: its crate, its file, its name and its line; and its text, without comments and layout."""

    crate: str
    file: str
    name: str
    line: int
    text: str

    @property
    def key(self) -> Key:
        """Its crate, file and name, which tell it from all others."""
        return self.crate, self.file, self.name

    @property
    def place(self) -> str:
        """Where it is."""
        return f"crates/{self.crate}/specs/{self.file}.antt:{self.line}"


def rules_in(crate: str, file: str, text: str) -> Iterator[SpecRule]:
    """The definitions of a file: each begins after an empty line, below its comments.

    >>> text = "use A.{b}\\n\\n-- why\\nabbrev pub one : ℕ\\none =   1 -- so\\n\\npub record R : Type 0 where\\n  a : ℕ"
    >>> [(it.name, it.line, it.text) for it in rules_in("c", "F", text)]
    [('one', 4, 'abbrev pub one : ℕ one = 1'), ('R', 7, 'pub record R : Type 0 where a : ℕ')]
    """
    line = 1
    for block in text.split("\n\n"):
        lines = [COMMENT.sub("", it) for it in block.split("\n")]
        skipped = next((number for number, it in enumerate(lines) if it.strip()), len(lines))
        text_of_rule = " ".join(" ".join(lines).split())
        head = HEAD.match(text_of_rule)
        if head and not re.match(r"(?:pub )?(?:use|mod) ", text_of_rule):
            yield SpecRule(crate, file, head["name"], line + skipped, text_of_rule)
        line += len(lines) + 1


def spec_file_names_and_texts(folder: Path) -> Iterator[tuple[str, str]]:
    """The names and texts of a crate's files of definitions."""
    for path in sorted(folder.glob("specs/*.antt")):
        yield path.stem, path.read_text(encoding="utf-8")


def iterate_rules_in_crate_folders(folders: Iterable[Path]) -> Iterator[SpecRule]:
    """The definitions of crates."""
    for folder in folders:
        for file, text in spec_file_names_and_texts(folder):
            yield from rules_in(folder.name, file, text)


def write_definitions_of_last_proof(out: Path, folders: Iterable[Path]) -> None:
    """Keeps the definitions by which a crate was proved just now, in what is kept of it."""
    texts = {".".join(it.key): it.text for it in iterate_rules_in_crate_folders(folders)}
    fresh = out / f"{KEPT}.new"
    fresh.write_text(json.dumps(texts, ensure_ascii=False), encoding="utf-8")
    # Another tree may have the same file by a hard link.
    fresh.replace(out / KEPT)


def new_or_changed_definitions_since_proof(out: Path, folders: Iterable[Path]) -> list[SpecRule]:
    """The definitions that aren't those by which a crate was proved; none where nothing is kept of that."""
    try:
        kept = json.loads((out / KEPT).read_text(encoding="utf-8"))
    except (OSError, ValueError):
        return []
    return [it for it in iterate_rules_in_crate_folders(folders) if kept.get(".".join(it.key)) != it.text]


def own_and_imported_definitions_by_word(crate: str, file: str, text: str, own: set[str]) -> dict[str, Key]:
    """The definition that each word of a file names, its own or an imported one; a word with a dot names a file.

    >>> text = "use Rattle.low.specs.G.{a as b, d}\\nuse Rattle.low.specs.H as h\\n"
    >>> own_and_imported_definitions_by_word("c", "F", text, {"own"})
    {'own': ('c', 'F', 'own'), 'b': ('low', 'G', 'a'), 'd': ('low', 'G', 'd'), 'h.': ('low', 'H', '')}
    """
    found = {name: (crate, file, name) for name in own}
    for low, there, names, alias in USE.findall(text):
        if alias:
            found[f"{alias}."] = low, there, ""
        for name in filter(None, map(str.strip, names.split(","))):
            it, _, other = name.partition(" as ")
            found[other or it] = low, there, it
    return found


def definitions_named_by(rule: SpecRule, names: dict[str, Key]) -> set[Key]:
    """The definitions that a definition names."""
    found = set()
    for word in WORD.findall(rule.text):
        head, dot, field = word.partition(".")
        if head in names:
            found.add(names[head])
        elif f"{head}." in names and dot:
            crate, file, _ = names[f"{head}."]
            found.add((crate, file, field))
    return found


def laws_naming_directly_or_indirectly(rule: SpecRule, folders: list[Path]) -> list[SpecRule]:
    """The laws of these crates that name a definition, also through others."""
    named: dict[SpecRule, set[Key]] = {}
    for folder in folders:
        for file, text in spec_file_names_and_texts(folder):
            rules = list(rules_in(folder.name, file, text))
            names = own_and_imported_definitions_by_word(folder.name, file, text, {it.name for it in rules})
            named.update((it, definitions_named_by(it, names)) for it in rules)
    reached = {rule.key}
    while more := {it.key for it, those in named.items() if it.key not in reached and those & reached}:
        reached |= more
    return [it for it in named if it.key in reached and LAWS.search(it.file)]


def changed_definitions_and_laws_report_lines(out: Path, folders: list[Path]) -> Iterator[str]:
    """The changes to definitions of a crate and those below it since it was proved, and the laws that name each."""
    for rule in new_or_changed_definitions_since_proof(out, folders):
        yield f"{rule.place}: `{rule.name}` isn't as it was when this was proved last"
        laws = [f"{law.name} ({law.place})" for law in laws_naming_directly_or_indirectly(rule, folders)]
        yield f"  laws that name it: {', '.join(laws) or 'none'}"
