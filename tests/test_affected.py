"""Tests of tools/affected.py and affected_sections.py: how programs are started, and what a change affects."""

import sys
from pathlib import Path

import pytest

TOP = Path(__file__).resolve().parents[1]
sys.path.insert(0, str(TOP / "tools"))

from affected import encode_program_call_with_output_limit, leading_length_prefixed_parts  # noqa: E402
from affected_sections import (  # noqa: E402
    AffectedParagraph,
    affected_paragraphs_and_unmatched_items,
    citations_in,
    paragraphs_citing_any_section,
)
from harness.calls import ProgramCall  # noqa: E402

PAGE = """# The sender
Before all (RFC 1, section 1)

## One
- A line. (RFC 1, section 2)
- **Bold** and more. (RFC 1, section 3, step 2)
- Own.

## Two
As RFC 2, section 5, has it.

- Later. (Steps 3 and 4)
"""
DEFINITIONS = """-- What counts (RFC 1, section 2).
use Rattle.std.specs.Prelude.{ℕ}

-- the limit
abbrev pub limit : ℕ
limit = 3

-- what is reached (RFC 1, section 3, step 2.1)
abbrev pub reached : ℕ
reached = limit

-- With it (RFC 2, section 5)

-- (step 4)
abbrev pub fourth : ℕ
fourth = 4
"""
CODE = """//! Code.
ghost use Rattle.pd_board.specs.Rules.{fourth as last, reached};

/// The greatest (own).
pub const MOST: u32 = 3;

/// It counts.
pub fn count() -> u32
    ensures { result ≡ reached }
{
    MOST
}

impl Own {
    /// An own choice.
    fn own(self) -> u32 {
        1
    }
}
"""


def write_crate(tree: Path, definitions: str = DEFINITIONS, code: str = CODE) -> Path:
    """A tree of one crate."""
    for name, text in (("specs/Rules.antt", definitions), ("src/rules.rt", code)):
        file = tree / "crates/pd_board" / name
        file.parent.mkdir(parents=True, exist_ok=True)
        file.write_text(text)
    (tree / "docs").mkdir(exist_ok=True)
    (tree / "docs/SENDER.md").write_text(PAGE)
    return tree


def paragraphs_after_change(tmp_path: Path, old: str, new: str) -> list[AffectedParagraph]:
    """The paragraphs that are affected where a text of the tree is changed."""
    before = write_crate(tmp_path / "before")
    assert (DEFINITIONS + CODE).count(old) == 1
    after = write_crate(tmp_path / "after", DEFINITIONS.replace(old, new), CODE.replace(old, new))
    return list(affected_paragraphs_and_unmatched_items(before, after))


LINUX = """# Linux
RFC 1, 3, above

## Where
| where | the RFC says |
|---|---|
| [a place](#place) | RFC 1, 3, step 2: so; RFC 5, 1 otherwise |
"""
SECOND, BOLD = (5, "A line. (RFC 1, section 2)"), (6, "Bold")
ABOVE, LATER = (10, "As RFC 2, section 5, has"), (12, "Later. (Steps 3 and 4)")


@pytest.mark.parametrize(
    "old, new, wanted, rule",
    [
        ("limit = 3", "limit = 4", [SECOND, BOLD], "limit (crates/pd_board/specs/Rules.antt:5)"),
        ("reached = limit", "reached = 5", [BOLD], "reached (crates/pd_board/specs/Rules.antt:9)"),
        ("fourth = 4", "fourth = 5", [ABOVE, LATER], "fourth (crates/pd_board/specs/Rules.antt:15)"),
        ("    MOST\n", "    MOST + 1\n", [], "count (crates/pd_board/src/rules.rt:8)"),
        ("u32 = 3", "u32 = 4", [BOLD], "MOST (crates/pd_board/src/rules.rt:5)"),
        ("        1\n", "        2\n", [], "own (crates/pd_board/src/rules.rt:16)"),
        ("It counts.", "It counts (RFC 2, section 5, step 3).", [], ""),
        ("-- the limit", "-- a limit", [], ""),
    ],
)
def test_the_paragraphs_that_cite_what_a_change_cites(
    old: str, new: str, wanted: list[tuple[int, str]], rule: str, tmp_path: Path
) -> None:
    found = paragraphs_after_change(tmp_path, old, new)
    assert [(it.line, it.name) for it in found if it.page] == wanted
    assert {it.rules for it in found} == ({(rule,)} if rule else set())


def test_what_is_gone_counts_as_changed(tmp_path: Path) -> None:
    found = paragraphs_after_change(tmp_path, "-- (step 4)\nabbrev pub fourth : ℕ\nfourth = 4\n", "")
    assert [(it.line, it.heading, it.sections) for it in found] == [
        (10, "Two", ("RFC 2, section 5",)),
        (12, "Two", ("RFC 2, section 5",)),
    ]


def test_rows_of_the_table_beside_linux_are_named_too(tmp_path: Path) -> None:
    write_crate(tmp_path / "after")
    (tmp_path / "after/docs/LINUX.md").write_text(LINUX)
    found = [(it.page, it.line, it.name) for it in paragraphs_after_change(tmp_path, "reached = limit", "reached = 5")]
    assert found == [("docs/SENDER.md", *BOLD), ("docs/LINUX.md", 7, "a place")]


def test_what_a_paragraph_cites_for_those_below_it_ends_at_the_next_heading() -> None:
    page = f"{PAGE}\n## Three\n- Own. (Steps 3 and 4)\n\nAs RFC 3, section 6, has it.\n- Last. (Step 1)\n"
    found = [(it.heading, str(it.cited[0])) for it in paragraphs_citing_any_section(page)]
    assert found[2:] == [("Two", "RFC 2, section 5")] * 2 + [("Three", "RFC 3, section 6")] * 2


def test_sections_steps_and_names_are_read() -> None:
    text = "NextSeg (RFC 3, section 4, rule 4, and section 5, step C.2; RFC 4, sections 2.1, 2.4 and 2.5, fifth check)"
    assert [(it.rfc, it.section, sorted(it.parts)) for it in citations_in(text)] == [
        ("3", "4", ["4", "NextSeg"]),
        ("3", "5", ["C", "NextSeg"]),
        ("4", "2.1", ["NextSeg"]),
        ("4", "2.4", ["NextSeg"]),
        ("4", "2.5", ["NextSeg", "fifth"]),
    ]


def test_of_this_tree_as_it_is_nothing_is_affected() -> None:
    assert not list(affected_paragraphs_and_unmatched_items(TOP, TOP))


@pytest.mark.parametrize(
    ("arguments", "most"),
    [((), b"4104"), ((b"--explain",), b"4192"), ((b"--explain", b"--json"), b"4192"), ((b"--trace",), b"4104")],
)
def test_what_is_explained_may_be_longer(arguments: tuple[bytes, ...], most: bytes) -> None:
    start = encode_program_call_with_output_limit(ProgramCall("pdregress", arguments, b"show"))
    assert list(leading_length_prefixed_parts(start)) == [b"\0".join([b"pdregress", *arguments]), b"show", most]
