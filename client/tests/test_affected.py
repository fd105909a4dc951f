"""`pdsuite compare --affected`, by fake programs: it lists what a changed sender affects in its tree."""

import json
import shutil
from pathlib import Path

import pytest

from tests.helpers import Called, write
from tests.test_compare import git
from tests.tree_fixture import Tree

TOTAL = "total 1 pass 1 fail 0 syntax 0 unsupported 0 limit 0 pending 0"
ROWS = f"""[rows] scripts
pass 9: row pass 9
pass 9: row pass 9\\n
pass 8: row pass 8
fail 1 seq: row pass 9

[runs] stories
# a title
< add b 1
< row pass 9
> b pass 9
> {TOTAL}
= 0

[runs] stories of pdrecord
< a
~ b
> b
= 0
"""
CHANGE = "s/^row pass 9/row fail 2 seq/\n"


@pytest.fixture
def tree(tmp_path: Path) -> Tree:
    """A tree with rows, and a script."""
    tree = Tree(tmp_path)
    tree.put_rows(ROWS)
    write(tree.suite, quick=b"row pass 7\n+0 > . 1:1001(1000) ack 1\n")
    return tree


def affected(called: Called) -> list[str]:
    """The lines of the list, which stands before the total."""
    lines = called.out.splitlines()
    heads = [at for at, line in enumerate(lines) if line.startswith("affected ")]
    return lines[heads[0] : -1] if heads else []


def compare(tree: Tree, *words: str | Path) -> Called:
    return tree.call("compare", "--affected", *words, "suite")


def test_rows_runs_and_paragraphs_that_say_otherwise_are_named(tree: Tree) -> None:
    git(tree.top, "init", "-q")
    git(tree.top, "add", "tools", "tests", "docs", "crates.txt", "crates")
    for name in ("pdregress", "pdrecord"):
        (tree.top / "crates" / name / "src/x").touch()
    git(tree.top, "add", ".")
    git(tree.top, "commit", "-qm", "one")
    tree.change(CHANGE)
    tree.put_code("2")
    called = compare(tree, "--base", "HEAD")
    assert called.status == 1 and affected(called) == [
        "affected in the tree: rows 3 runs 1 paragraphs 1",
        "  tests/cases/a.cases: 3 rows, lines 2-3, 5",
        "  tests/cases/a.cases:9: a title",
        "  docs/SENDER.md:4: Loss, 'An octet is lost when three': RFC 6675, section 4",
        "    RULE (crates/pd_board/src/queries.rt:2)",
    ]
    assert tree.builds() == 2 and " turned 0 played otherwise 0 " in called.out


DEFAULT = (
    "impl Settings {{\n    pub fn new() -> Settings\n    {{\n"
    "        Settings {{\n            mss: {},\n        }}\n    }}\n}}\n"
)
FUNCTION = "    /// A rule (RFC 6675, section 4).\n    pub fn rule() -> u32\n    {{\n        {}\n    }}\n"


def test_a_changed_default_is_named_in_three_places_and_a_function_by_itself(tree: Tree) -> None:
    places = {
        "crates/pd_settings/src/settings.rt": DEFAULT.format("1_460"),
        "crates/pd_board/src/rules.rt": FUNCTION.format(1),
        "docs/SETTINGS.md": "# Settings\n\n| key |\n| `mss` | 1,460 |\n",
        "packaging/man/pdregress.h2m": ".TP\n.B mss\n",
        "client/pdsuite/scripts/defaults.py": (tree.top / "client/pdsuite/scripts/defaults.py").read_text(),
    }
    for name, text in places.items():
        (tree.top / name).parent.mkdir(parents=True, exist_ok=True)
        (tree.top / name).write_text(text)
    for name in ("pdregress", "pdrecord"):
        (tree.top / "crates" / name / "src/x").touch()
    git(tree.top, "init", "-q")
    git(tree.top, "add", ".")
    git(tree.top, "commit", "-qm", "one")
    (tree.top / "crates/pd_settings/src/settings.rt").write_text(DEFAULT.format("1_200"))
    (tree.top / "crates/pd_board/src/rules.rt").write_text(FUNCTION.format(2))
    called = compare(tree, "--base", "HEAD")
    assert called.status == 0, called.err
    lines = affected(called)
    message = "a default, 'mss': its default is 1_200, and was 1_460"
    number = places["client/pdsuite/scripts/defaults.py"].split('"mss"')[0].count("\n") + 1
    assert lines == [
        "affected in the tree: rows 0 runs 0 paragraphs 3",
        f"  docs/SETTINGS.md:4: {message}",
        "    crates/pd_settings/src/settings.rt:5",
        f"  packaging/man/pdregress.h2m:2: {message}",
        "    crates/pd_settings/src/settings.rt:5",
        f"  client/pdsuite/scripts/defaults.py:{number}: {message}",
        "    crates/pd_settings/src/settings.rt:5",
        "  rule (crates/pd_board/src/rules.rt:2): its code changed, and paragraphs are about definitions",
    ]


def test_of_a_folder_of_programs_no_sources_are_known(tree: Tree) -> None:
    tree.change(CHANGE)
    called = compare(tree, "--base", tree.bin)
    assert (called.status, tree.builds()) == (1, 1)
    unknown = "  paragraphs of pages: unknown, since the sources of the sender before are"
    assert (affected(called)[0], affected(called)[-1]) == ("affected in the tree: rows 3 runs 1 paragraphs 0", unknown)
    whole = json.loads(compare(tree, "--base", tree.bin, "--json").out)
    reported = whole["affected"]
    assert whole["version"] == 2
    assert [(it["line"], it["title"]) for it in reported["rows"]] == [(2, ""), (3, ""), (5, ""), (9, "a title")]
    assert (reported["unheard"], reported["paragraphs"]) == (0, None)


def test_where_no_row_turns_nothing_is_affected(tree: Tree) -> None:
    called = compare(tree, "--base", tree.bin)
    assert called.status == 0 and affected(called)[0] == "affected in the tree: rows 0 runs 0 paragraphs 0"


def test_a_sender_without_a_tree_has_nothing_affected(tree: Tree) -> None:
    other = tree.suite.parent / "other"
    shutil.copytree(tree.bin, other)
    called = compare(tree, "--base", tree.bin, "--with", other)
    message = f"pdsuite: --affected: {other} is no tree with tests/cases and tools/affected.py\n"
    assert (called.status, called.out, called.err.endswith(message)) == (2, "", True)
    called = tree.call("compare", "--base", tree.bin, "--search", "1", "--affected")
    assert called.status == 2 and "without --html, --json, --markdown, --affected and --rules" in called.err


def test_where_nobody_asks_nothing_is_said_of_what_is_affected(tree: Tree) -> None:
    tree.change(CHANGE)
    called = tree.call("compare", "--base", tree.bin, "suite")
    assert called.status == 0 and "affected" not in called.out


def test_a_row_that_ends_the_program_is_named_and_the_others_are_told_again(tree: Tree) -> None:
    tree.change("s/^row pass 8/crash/\n")
    called = compare(tree, "--base", tree.bin)
    assert called.status == 1 and "pdsuite: 3 starts on rows are tried again, each by itself\n" in called.err
    assert affected(called)[0] == "affected in the tree: rows 0 runs 0 paragraphs 0"
    assert affected(called)[-1] == "  4 rows: nothing was heard of them, since the program ended"


def test_a_tool_that_fails_is_told_with_its_last_line(tree: Tree) -> None:
    (tree.top / "tests/harness/kinds.py").write_text("import nowhere\n")
    called = compare(tree, "--base", tree.bin)
    assert called.status == 2 and called.err.endswith("affected.py: ModuleNotFoundError: No module named 'nowhere'\n")
