"""Names and words of the whole tree, by tools/names.py."""
from __future__ import annotations

import subprocess
import sys
from pathlib import Path

from names import ScannedText, words_to_avoid_at_beginning_of_sentences, words_to_avoid_in_prose_of

TOP = Path(__file__).resolve().parents[1]


def test_one_noun_names_one_type_and_no_private_word_is_left() -> None:
    found = subprocess.run([sys.executable, "-B", str(TOP / "tools/names.py")], capture_output=True, text=True)
    assert (found.stdout, found.stderr, found.returncode) == ("", "", 0)


def test_a_word_that_a_file_may_have_may_begin_a_sentence_there() -> None:
    files = [ScannedText("a.md", "It is told.\nTold.\n"), ScannedText("b.md", "Told.\n")]
    found = words_to_avoid_in_prose_of(files, {"told": "reported"}, {"a.md: told": "as it prints it"})
    assert list(found) == [("b.md:1", "Told (reported)")]


def test_a_word_to_avoid_may_begin_a_sentence() -> None:
    found = words_to_avoid_in_prose_of([ScannedText("a.md", "So.\nTold, or `Told`.\n")], {"told": "reported"}, {})
    assert list(found) == [("a.md:2", "Told (reported)")]


def test_a_sentence_that_hides_its_subject_is_listed_but_for_titles_and_questions() -> None:
    page = "## What it does\nSo. What it does is short.\nWhat does it do?\nIt does what it says.\n"
    source = '"""What it is."""\nWhat = 1  # Who reads it.\n'
    found = words_to_avoid_at_beginning_of_sentences(
        [ScannedText("a.md", page), ScannedText("b.py", source)],
        {"What": "name it", "Who": "name it"},
        {"*.py: Who": ""},
    )
    assert list(found) == [("a.md:2", "What (name it)"), ("b.py:1", "What (name it)")]
