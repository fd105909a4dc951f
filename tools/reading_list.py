#!/usr/bin/env python3
"""Prints what to read to believe a promise: the files with their lines, from the highest crate down, the nearest first.

    tools/reading_list.py headline       the rows that a report shows, and their calls
    tools/reading_list.py octets         what the program writes to its output
    tools/reading_list.py FUNCTION..     public functions, as pd_cli::run, or clauses of them, as Book::show.whole,parts

Words are followed by imports, not into the kit's libraries. A type with private fields is the value that contracts see.
"""

import re
import sys
from collections.abc import Iterator
from dataclasses import dataclass
from pathlib import Path

CRATES = Path(__file__).resolve().parent.parent / "crates"
DEFINED = re.compile(r"^(?:abbrev pub|unfoldable pub|pub (?:record|data|struct|enum|trait)) ([^\s<({:;]+)", re.M)
FUNCTION = re.compile(r"^ *pub fn (\w+).*?(?=\n *\{)", re.M | re.S)
OWNER = re.compile(r"^impl\b.*?(\w+)(?:<[^<>]*>)? \{$", re.M)
IMPORT = re.compile(r"(pd\w+)\.specs\.(declared\.)?[a-z_.]*(\w+?)(?:\.TheVariants)?(?: as (\w+)|\.\{(.*?)\});?$", re.M)
RUST_IMPORT = re.compile(r"^use (pd\w+|crate|super)::(.*?);$", re.M | re.S)
WORD, TYPE = re.compile(r">>=|\w+(?:\.\w+)*"), re.compile(r"\b[A-Z]\w+")
LISTS = {
    "headline": (
        "Book::show.current,scripts,grammar,whole,parts",
        "Book::history",
        "pd_book::law_verdicts_are_of_current_runs.taken",
        "Book::new",
        *(f"Book::{call}.gives" for call in ("add", "edit", "remove", "set", "start", "finish", "abandon")),
    ),
    "octets": ("pd_cli::run.output,refused",),
}


class UnknownNameError(Exception):
    """That a word names no public function, or no clause of it."""


Name = tuple[str, str]  # a file or a crate, and a word there
Index = dict[Name, "ListedPlace | Name"]  # where that is defined, or the name that it stands for


@dataclass(frozen=True, eq=False)
class ListedPlace:  # lines of a file that define or promise something
    file: str
    start: int
    text: str


def read_defined_and_imported_names(path: Path, crate: str) -> Iterator[tuple[Name, "ListedPlace | Name"]]:
    file, text, owner, start = str(path.relative_to(CRATES)), path.read_text(encoding="utf-8"), "", 1
    yield from imports_of(file, crate, text)
    for part in text.rstrip("\n").replace("pub(crate) ", "pub ").split("\n\n"):
        owner = found[1] if (found := OWNER.search(part)) else owner
        here, scopes = ListedPlace(file, start, part), {file, crate if path.suffix == ".rt" else file}
        for name in DEFINED.findall(part) + [owner] * ("    ghost Value" in part):
            yield from (((scope, name.strip("◌")), here) for scope in scopes)
        if found := FUNCTION.search(part):
            yield (crate, f"{owner}::{found[1]}".lstrip(":")), ListedPlace(file, start, f"{owner} {part[: found.end()]}")
        owner = "" if f"\n{part}".endswith("\n}") else owner
        start += part.count("\n") + 2


def imports_of(file: str, crate: str, text: str) -> Iterator[tuple[Name, Name]]:
    """The words that a file imports, each with its origin; whatever is imported of a type stands for the type."""
    for library, declared, head, alias, names in IMPORT.findall(text):
        for old, _, new in (name.partition(" as ") for name in re.split(r",\s*", alias or names)):
            name = (library, head) if declared else (f"{library}/specs/{head}.antt", "" if alias else old.strip("◌"))
            yield (file, (new or old).strip("◌")), name
    for library, names in RUST_IMPORT.findall(text):
        yield from (((file, name), (library if library[:2] == "pd" else crate, name)) for name in TYPE.findall(names))


def read_index_of_names_in_all_crates() -> Index:
    paths = sorted((*CRATES.glob("*/specs/*.antt"), *CRATES.glob("*/src/**/*.rt")))
    return dict(item for path in paths for item in read_defined_and_imported_names(path, path.relative_to(CRATES).parts[0]))


def places_defining_word_through_imports(index: Index, file: str, word: str) -> list[ListedPlace]:
    """The places that define a word of a file, one or none, also where that file has it from another one."""
    head, _, rest = word.partition(".")
    found = index.get((file, head))
    while isinstance(found, tuple):
        found = index.get((found[0], found[1] or rest))
    return [found] if found else []


def find_contract(index: Index, wanted: str) -> ListedPlace:
    name, _, clauses = wanted.partition(".")
    found = [place for key in index if f"::{'::'.join(key)}".endswith(f"::{name}") for place in places_defining_word_through_imports(index, *key)]
    head, *parts = re.split(r"\n(?= *ensures)", found[0].text if len(found) == 1 else "")
    kept = [part for part in parts if not clauses or part.split()[1] in clauses.split(",")]
    if len(found) != 1 or len(kept) < len(clauses.split(",")):
        raise UnknownNameError(f"{wanted}: each word has to name one public function, and clauses of it")
    return ListedPlace(found[0].file, found[0].start, "\n".join([head, *kept]))


def contracts_and_places_they_rest_on(index: Index, functions: list[str]) -> list[ListedPlace]:
    """The contracts of functions and all that they rest on, what is nearer first."""
    places = [find_contract(index, wanted) for wanted in functions]
    for here in places:
        words = WORD.findall(re.sub(r"(--|//).*|^ +pub \w+ :|^    [A-Z]\w*(?=[,(])", "", here.text, flags=re.M))
        beyond = dict.fromkeys(place for word in words for place in places_defining_word_through_imports(index, here.file, word))
        places.extend(place for place in beyond if place not in places)
    return places


def main(words: list[str]) -> None:
    if not words:
        sys.exit(__doc__)
    functions = [function for word in words for function in LISTS.get(word, (word,))]
    lines: dict[str, set[int]] = {}
    for place in contracts_and_places_they_rest_on(read_index_of_names_in_all_crates(), functions):
        lines.setdefault(place.file, set()).update(range(place.start, place.start + place.text.count("\n") + 1))
    for crate in reversed(re.findall(r"^(\w+).*:", (CRATES.parent / "crates.txt").read_text(encoding="utf-8"), re.M)):
        files = [f"`{file.split('/', 1)[1]}` {len(lines[file])}" for file in lines if file.startswith(f"{crate}/")]
        print(f"- `{crate}`: {', '.join(files)}\n" * bool(files), end="")
    print(f"\nIn all {sum(map(len, lines.values())):,} lines of {len(lines)} files.")


if __name__ == "__main__":
    try:
        main(sys.argv[1:])
    except UnknownNameError as unknown:
        sys.exit(f"reading_list: {unknown}")
