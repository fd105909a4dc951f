#!/usr/bin/env -S python3 -B
"""Finds names that don't explain themselves: a noun of more than one type, and words that prose is to avoid, anywhere
or as the first of a sentence.

Types are those of crates/*/src, and the classes of client, tools, tests and bench but for classes of tests. Prose is
pages, comments and docstrings, without what is written as code. tools/names.toml has the words, what to write instead,
and what may stay, with the reason. Prints a line `PLACE: WORD` for each name that is left; the status is 1 if there is
one.
"""
from __future__ import annotations

import ast
import io
import re
import subprocess
import sys
import tokenize
import tomllib
from collections import defaultdict
from collections.abc import Iterator
from dataclasses import dataclass
from fnmatch import fnmatch
from pathlib import Path

TOP = Path(__file__).resolve().parents[1]
RATTLE_TYPE = re.compile(r"^ *(?:pub(?:\([a-z]+\))? )?(?:struct|enum|trait|type) (\w+)", re.MULTILINE)
PYTHON_FOLDERS = ("client", "tools", "tests", "bench")
CODE = re.compile(r"`[^`]*`")
COMMENTS = {".rt": r"//(.*)", ".antt": r"(?:^|\s)--(.*)", ".sh": r"(?:^|\s)#(.*)", ".md": r"(.*)"}


@dataclass(frozen=True)
class ScannedText:
    """A file of the tree: its path below the top, and its text."""

    path: str
    text: str

    @property
    def suffix_or_sh_for_shell_shebang(self) -> str:
        """The kind of the file; a shell program may have no suffix."""
        return ".sh" if self.text.startswith("#!/bin/sh") else Path(self.path).suffix


def read_git_files_as_text_skipping_links() -> Iterator[ScannedText]:
    """The files that git has and that are text."""
    listed = subprocess.run(["git", "ls-files", "-z"], cwd=TOP, capture_output=True, check=True).stdout
    for path in map(TOP.joinpath, filter(None, listed.decode().split("\0"))):
        if not path.is_symlink() and path.is_file():
            yield ScannedText(str(path.relative_to(TOP)), path.read_text(encoding="utf-8", errors="replace"))


def types_in(text: ScannedText) -> Iterator[tuple[int, str]]:
    """The types of a file by their lines, but for a type that is local to another one, as an associated type is."""
    if text.suffix_or_sh_for_shell_shebang == ".rt" and "/src/" in text.path:
        for found in RATTLE_TYPE.finditer(text.text):
            if not found[0].startswith(" ") or "type " not in found[0]:
                yield text.text.count("\n", 0, found.start(1)) + 1, found[1]
    elif text.suffix_or_sh_for_shell_shebang == ".py" and text.path.startswith(PYTHON_FOLDERS):
        for node in ast.walk(ast.parse(text.text)):
            if isinstance(node, ast.ClassDef) and not node.name.startswith("Test"):
                yield node.lineno, node.name


def python_prose(source: str) -> Iterator[tuple[int, str]]:
    """The comments and docstrings of a Python file, by their lines."""
    for token in tokenize.generate_tokens(io.StringIO(source).readline):
        if token.type == tokenize.COMMENT:
            yield token.start[0], token.string
    for node in ast.walk(ast.parse(source)):
        if isinstance(node, (ast.Module, ast.ClassDef, ast.FunctionDef)) and (text := ast.get_docstring(node, False)):
            yield from enumerate(text.split("\n"), node.body[0].lineno)


def prose_in(text: ScannedText) -> Iterator[tuple[int, str]]:
    """The prose of a file, by its lines."""
    if text.suffix_or_sh_for_shell_shebang == ".py":
        yield from python_prose(text.text)
    elif text.suffix_or_sh_for_shell_shebang in COMMENTS:
        comment = re.compile(COMMENTS[text.suffix_or_sh_for_shell_shebang])
        for number, line in enumerate(text.text.split("\n"), 1):
            yield from ((number, found[1]) for found in comment.finditer(line))


def place_and_repeated_type_name_pairs(
    files: list[ScannedText], explained: dict[str, str], second: dict[str, str]
) -> Iterator[tuple[str, str]]:
    """The places of each noun that names more than one type; second readings have the nouns of the first ones."""
    places: defaultdict[str, list[str]] = defaultdict(list)
    for text in (it for it in files if not any(fnmatch(it.path, pattern) for pattern in second)):
        for line, noun in types_in(text):
            places[noun].append(f"{text.path}:{line}")
    for noun, each in sorted(places.items()):
        if len(each) > 1 and noun not in explained:
            yield from ((place, noun) for place in each)


def words_to_avoid_in_prose_of(
    files: list[ScannedText], words: dict[str, str], explained: dict[str, str]
) -> Iterator[tuple[str, str]]:
    """The places of the words that prose is to avoid, each with what to write instead."""
    patterns = [(re.compile(rf"\b(?:{it})\b", re.IGNORECASE), instead) for it, instead in words.items()]
    for text in files:
        allowed = [it.rpartition(": ")[2] for it in explained if fnmatch(text.path, it.rpartition(": ")[0])]
        for line, prose in prose_in(text):
            for pattern, instead in patterns:
                for found in pattern.finditer(CODE.sub("", prose)):
                    if found[0].lower() not in allowed:
                        yield f"{text.path}:{line}", f"{found[0]} ({instead})"


def words_to_avoid_at_beginning_of_sentences(
    files: list[ScannedText], words: dict[str, str], explained: dict[str, str]
) -> Iterator[tuple[str, str]]:
    """The places of words that are to begin no sentence but a title or a question, each with what to do instead."""
    for text in files:
        allowed = [it.rpartition(": ")[2] for it in explained if fnmatch(text.path, it.rpartition(": ")[0])]
        for line, prose in prose_in(text):
            for word, instead in words.items():
                found = re.search(rf"(?:^[^\w\"`#]*|[.!:] ){word} [^?]*$", prose)
                is_title = text.suffix_or_sh_for_shell_shebang == ".md" and prose.startswith("#")
                if found and word not in allowed and not is_title:
                    yield f"{text.path}:{line}", f"{word} ({instead})"


def main() -> int:
    with (TOP / "tools" / "names.toml").open("rb") as file:
        table = tomllib.load(file)
    files = list(read_git_files_as_text_skipping_links())
    nouns = place_and_repeated_type_name_pairs(files, table["nouns"], table["second_readings"])
    words = words_to_avoid_in_prose_of(files, table["words"], table["explained"])
    left = [*nouns, *words, *words_to_avoid_at_beginning_of_sentences(files, table["beginnings"], table["explained"])]
    for place, word in left:
        print(f"{place}: {word}")
    return 1 if left else 0


if __name__ == "__main__":
    sys.exit(main())
