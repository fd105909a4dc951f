"""Which functions of a tree are on which lines, for report_fault.py, with the lines that can have a fault."""
from __future__ import annotations

import re
from collections.abc import Iterator
from pathlib import Path
from typing import Dict, List, Tuple, Union

Function = Tuple[int, int, Dict[str, List[int]]]
Module = Dict[str, Union[str, Dict[str, Function]]]

BLOCK = re.compile(r"(?:impl|trait)\b(?:<.*?>)? (?:.*? for )?(?:\w+::)*(\w+)")
HEAD = re.compile(r"( *)(?:pub(?:\([^)]*\))? )?(?:const )?fn (\w+)")
COMMENT = re.compile(r"//.*")
QUOTED = re.compile(r'b?"(?:[^"\\]|\\.)*"|b?\'(?:[^\'\\]|\\.)\'')
# The parts of a line that can go wrong by themselves: an operation, an index, or a call that ends the program.
LIKELY = {
    "sums": re.compile(r" (?:[-+*/%]|<<|>>)=? |\.(?:sum|product|pow)\("),
    "indexes": re.compile(r"[\w)\]]\["),
    "ends": re.compile(r"\.(?:unwrap|expect)\(|\b(?:unreachable|panic|prove|assert)!"),
}


def read_modules_by_rattle_path(top: Path) -> dict[str, Module]:
    """The modules of a tree by their paths in Rattle, each with its file, below the tree, and its functions."""
    files = sorted((top / "crates").glob("*/src/**/*.rt"))
    return {module_path_of(it.relative_to(top)): read_module_functions_with_fault_lines(it, top) for it in files}


def module_path_of(file: Path) -> str:
    """The path of the module that a file is.

    >>> module_path_of(Path("crates/low/src/lib.rt")), module_path_of(Path("crates/low/src/high/top.rt"))
    ('low', 'low::high::top')
    """
    _, crate, _, *parts = file.with_suffix("").parts
    return "::".join([crate, *(it for it in parts if it not in ("lib", "main", "mod"))])


def read_module_functions_with_fault_lines(file: Path, top: Path) -> Module:
    found = list(functions_and_fault_lines(file.read_text(encoding="utf-8", errors="replace").splitlines()))
    names = [name for name, _ in found]
    # A name that several types have is known with its type alone.
    functions = {name.rpartition("::")[2]: it for name, it in found if is_last_part_unique(name, names)}
    return {"path": str(file.relative_to(top)), "functions": {**functions, **dict(found)}}


def is_last_part_unique(name: str, names: list[str]) -> bool:
    """Whether no other of these names has the same last part."""
    return [it.rpartition("::")[2] for it in names].count(name.rpartition("::")[2]) == 1


def functions_and_fault_lines(lines: list[str]) -> Iterator[tuple[str, Function]]:
    """The functions on these lines: their first and their last line, and the lines in between that can have a fault."""
    block = ""
    for first, line in enumerate(lines, 1):
        if found := BLOCK.match(line):
            block = f"{found[1]}::"
        head = HEAD.match(line)
        if head is None:
            continue
        ends = (last for last, it in enumerate(lines[first - 1 :], first) if it.rstrip() == f"{head[1]}}}")
        last = first if line.rstrip().endswith("}") else next(ends, first)
        body = {number: executable_code_of_line(lines[number - 1]) for number in range(first + 1, last + 1)} or {
            first: executable_code_of_line(line)
        }
        name = f"{block if head[1] else ''}{head[2]}"
        yield name, (first, last, {k: [n for n, it in body.items() if v.search(it)] for k, v in LIKELY.items()})


def executable_code_of_line(line: str) -> str:
    """A line without what it quotes and its comment; a clause of a contract is no code.

    >>> executable_code_of_line('let a = "x + y" + b; // c + d')
    'let a =  + b; '
    >>> executable_code_of_line('    ensures { a + b ≡ c }')
    ''
    """
    code = COMMENT.sub("", QUOTED.sub("", line))
    return "" if re.match(r" *(?:ensures|requires|invariant|ghost)\b", code) else code
