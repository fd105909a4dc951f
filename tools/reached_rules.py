#!/usr/bin/env -S python3 -B
"""Prints examples/suite/reached.toml: the rules that the scripts of examples/suite come to, and those that they guard.

    tools/reached_rules.py >reached.toml && mv reached.toml examples/suite/reached.toml

It runs `pdsuite rules --json` and `pdsuite rules --mutants --json`, which builds the sender with its mutants first.
tools/coverage.py makes docs/COVERAGE.md from the file. Where a run fails, its status is this tool's.
"""
from __future__ import annotations

import json
import subprocess
import sys
from collections.abc import Iterator
from pathlib import Path
from typing import Any

TOP = Path(__file__).resolve().parent.parent
SUITE = "examples/suite"
HEAD = """\
# The rules of the sender: how many scripts of examples/suite come to each, and the shortest of them; and the mutants,
# each with the rules that it breaks, how many scripts turn, and the first of them. tools/reached_rules.py makes it.
"""
# So many scripts of a mutant are named.
SHOWN = 3


def script_name(path: str) -> str:
    """A script's folder and name.

    >>> script_name("examples/suite/reset/exact_reset.pkt")
    'reset/exact_reset'
    """
    return path.removeprefix(f"{SUITE}/").removesuffix(".pkt")


def toml_list(words: list[str]) -> str:
    return f"[{', '.join(map(json.dumps, words))}]"


def rule_lines(uses: list[dict[str, Any]]) -> Iterator[str]:
    """A line for each rule, by name."""
    for use in sorted(uses, key=lambda it: str(it["rule"])):
        shortest = f', shortest = "{script_name(use["shortest"]["path"])}"' if "shortest" in use else ""
        yield f'"{use["rule"]}" = {{ scripts = {use["scripts"]}{shortest} }}'


def mutant_lines(guarded: list[dict[str, Any]]) -> Iterator[str]:
    """A line for each mutant, by name; one may stand at several rules."""
    rules: dict[str, list[str]] = {}
    turned: dict[str, list[str]] = {}
    for it in guarded:
        for mutant in it["mutants"]:
            rules.setdefault(mutant["mutant"], []).append(it["rule"])
            turned[mutant["mutant"]] = [script_name(path) for path in mutant["turned"]]
    for name in sorted(rules):
        first = f", first = {toml_list(turned[name][:SHOWN])}" if turned[name] else ""
        yield f'"{name}" = {{ rules = {toml_list(sorted(rules[name]))}, turned = {len(turned[name])}{first} }}'


def json_of_rules(*options: str) -> dict[str, Any]:
    """The object that `pdsuite rules --json` prints of the suite."""
    command = [str(TOP / "pdsuite"), "rules", "--json", *options, SUITE]
    found: dict[str, Any] = json.loads(subprocess.run(command, cwd=TOP, check=True, stdout=subprocess.PIPE).stdout)
    return found


def main() -> int:
    """Prints the file."""
    try:
        reached, guarded = json_of_rules(), json_of_rules("--mutants")
    except subprocess.CalledProcessError as fault:
        print(
            f"reached_rules: {' '.join(fault.cmd[1:])}: status {fault.returncode}",
            file=sys.stderr,
        )
        return int(fault.returncode)
    print(HEAD)
    print("[rules]", *rule_lines(reached["rules"]), sep="\n")
    print("\n[mutants]", *mutant_lines(guarded["rules"]), sep="\n")
    for it in guarded["left out"]:
        print(f"reached_rules: {it['mutant']} isn't built: {it['why']}", file=sys.stderr)
    return 0


if __name__ == "__main__":
    sys.exit(main())
