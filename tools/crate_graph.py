"""The dependencies between crates, by crates.txt: which stands on which."""
from __future__ import annotations


def parse_dependencies_between_crates(table: str) -> dict[str, list[str]]:
    """The crates that each one of a crates.txt stands on, in the order of its lines; libraries of the kit are left out.

    >>> table = "# NAME: DEP DEP ..\\nlow:\\nhigh may_wait=1: low toml\\ntop: low,high # so\\n"
    >>> parse_dependencies_between_crates(table)
    {'low': [], 'high': ['low'], 'top': ['low', 'high']}
    >>> parse_dependencies_between_crates("low:\\nhigh:\\ntop: low\\fhigh\\n")["top"]
    ['low', 'high']
    """
    # Only a newline ends a line, as the kit has it.
    lines = (line.partition("#")[0].partition(":") for line in table.split("\n"))
    named = {crate.split()[0]: below.replace(",", " ").split() for crate, _, below in lines if crate.split()}
    return {crate: [it for it in below if it in named] for crate, below in named.items()}


def crates_below_one_in_build_order(crate: str, uses: dict[str, list[str]]) -> list[str]:
    """The crates that one stands on, each after those that it stands on itself.

    >>> crates_below_one_in_build_order("c", {"a": [], "b": ["a"], "c": ["b"], "d": ["a"]})
    ['a', 'b']
    >>> crates_below_one_in_build_order("d", {"a": [], "b": ["a"], "c": ["b", "a"], "d": ["c", "a", "b"]})
    ['a', 'b', 'c']
    """
    seen: set[str] = set()
    found: list[str] = []

    def append_dependencies_without_itself(name: str) -> None:
        for low in uses[name]:
            if low not in seen:
                seen.add(low)
                append_dependencies_without_itself(low)
                found.append(low)

    append_dependencies_without_itself(crate)
    return found
