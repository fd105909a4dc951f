"""Tests the documents: their links and words, the parts that tools make, and the commands that pages show.

Each link of a page leads to a file of the tree, and to a heading that is there, and no page names a commit. What a
tool makes of a page is what the tool makes. The functions and mutants that PROMISES.md names are there, and each file
of src/ and specs/ begins with what it is for. The commands in blocks `console` of README.md and the tutorial are run
in a copy of the tree with the built programs, and print what is shown after them; blocks `console slow` and `console
follow` are left to tools/check_tutorial.py. Prints how long the pages are, a line for each test, and `N passed, M
failed` last.
"""

import argparse
import os
import shutil
import subprocess
import tempfile
from collections.abc import Iterator
from itertools import chain
from pathlib import Path

from documents.made import each_made_part_with_its_fault_or_none, write_made_parts
from documents.pages import Page, broken_links, broken_page_names, read_pages, tracked_files
from documents.promises import reading_lists_naming_unknown_functions, unknown_functions, unknown_or_unnamed_mutants
from documents.shown import KINDS, UNPROVED, commands_shown_in
from documents.sources import files_without_head
from documents.walking import run_shown_commands_and_yield_each_step
from documents.words import page_length_lines, past_words_and_commits

TOP = Path(__file__).resolve().parents[2]
SECONDS = 60.0
# The pages whose commands are run.
WALKED = ("README.md", "docs/TUTORIAL.md")
Test = tuple[str, str | None]


def join_fault_lines_or_none(lines: Iterator[str]) -> str | None:
    """The lines of faults as one text, or None where there are none."""
    return "\n".join(lines) or None


def test_pages(files: list[Path], pages: dict[str, Page]) -> Iterator[Test]:
    """The tests that only read the pages."""
    for name, page in pages.items():
        yield f"links of {name}", join_fault_lines_or_none(broken_links(pages, page))
        yield f"no log in {name}", join_fault_lines_or_none(past_words_and_commits(page))
    yield "pages that other files name", join_fault_lines_or_none(broken_page_names(TOP, pages, files))
    for name in WALKED:
        if name in pages:
            yield from test_unproved_lines(pages[name])
    yield from each_made_part_with_its_fault_or_none(TOP, pages)
    if promises := pages.get("docs/PROMISES.md"):
        yield "functions of docs/PROMISES.md", join_fault_lines_or_none(unknown_functions(promises))
        yield "mutants of docs/PROMISES.md", join_fault_lines_or_none(unknown_or_unnamed_mutants(promises, files))
    yield "reading lists", join_fault_lines_or_none(reading_lists_naming_unknown_functions())
    yield "first lines of sources", join_fault_lines_or_none(files_without_head(TOP, files))


def run_with_dummy_kit_and_read_first_line(program: str) -> str:
    """The first line of a program that runs without its proofs: here with a kit that does nothing."""
    with tempfile.TemporaryDirectory() as kit:
        (Path(kit) / "rt").symlink_to("/bin/false")
        path = f"{kit}:{os.environ.get('PATH', os.defpath)}"
        done = subprocess.run(
            ["python3", "-B", TOP / "tools/run_unproved.py", program],
            cwd=TOP,
            env={**os.environ, "PATH": path},
            stdin=subprocess.DEVNULL,
            capture_output=True,
            text=True,
            check=False,
        )
    return done.stderr.partition("\n")[0]


def test_unproved_lines(page: Page) -> Iterator[Test]:
    """The lines that a page shows of programs that run without their proofs."""
    for shown in commands_shown_in(page.text):
        for line in filter(UNPROVED.match, shown.wanted):
            now = run_with_dummy_kit_and_read_first_line(line.partition(":")[0])
            yield f"{page.name}:{shown.line}: the line `unproved`", None if line == now else f"it is now\n{now}"


def copy_tree_with_programs_or_say_unbuilt(files: list[Path], folder: Path) -> str | None:
    """Copies the tree with the built programs into a folder; the answer says which isn't built, if one isn't."""
    for path in files:
        (folder / path.parent).mkdir(parents=True, exist_ok=True)
        shutil.copy2(TOP / path, folder / path, follow_symlinks=False)
    for name in (TOP / "packaging/programs.txt").read_text().split():
        done = subprocess.run([TOP / "tools/proved_program.sh", name], capture_output=True, text=True, check=False)
        if done.returncode:
            return done.stderr.strip()
        built = Path(done.stdout.strip())
        out = folder / "crates" / name / "out"
        out.mkdir()
        for path in (built, built.with_suffix(".sums")):
            shutil.copy(path, out)
    return None


def test_commands(files: list[Path], page: Page) -> Iterator[Test]:
    """The commands of a page, each a test."""
    steps = list(commands_shown_in(page.text))
    if unknown := [step for step in steps if step.kind not in KINDS]:
        yield f"blocks of {page.name}", f"{page.name}:{unknown[0].line}: a block of an unknown kind {unknown[0].kind}"
        return
    with tempfile.TemporaryDirectory() as work:
        tree = Path(work) / "pdregress"
        if why := copy_tree_with_programs_or_say_unbuilt(files, tree):
            yield f"commands of {page.name}", why
            return
        for step in run_shown_commands_and_yield_each_step(steps, tree, SECONDS, is_proved=True):
            name = f"{page.name}:{step.shown.line}: {step.shown.command.partition(chr(10))[0] or 'what watch prints'}"
            printed = step.printed_instead
            yield name, None if printed is None else f"it isn't shown that this is printed:\n{printed}"


def main(arguments: list[str]) -> int:
    """Makes the tests, and prints which of them fail."""
    parser = argparse.ArgumentParser(description=__doc__, formatter_class=argparse.RawDescriptionHelpFormatter)
    parser.add_argument("--pages", action="store_true", help="run no command that a page shows: this needs no program")
    parser.add_argument(
        "--write", action="store_true", help="put into the pages what tools make of them, and test no more"
    )
    chosen = parser.parse_args(arguments)
    files = tracked_files(TOP)
    pages = {page.name: page for page in read_pages(TOP, files)}
    if chosen.write:
        write_made_parts(TOP, pages)
        return 0
    shown = [] if chosen.pages else [test_commands(files, pages[name]) for name in WALKED if name in pages]
    for line in page_length_lines(pages):
        print(line)
    passed = failed = 0
    for name, why in chain(test_pages(files, pages), *shown):
        print(f"ok document {name}" if why is None else f"FAILED document {name}:\n{why}", flush=True)
        passed, failed = passed + (why is None), failed + (why is not None)
    print(f"{passed} passed, {failed} failed")
    return 1 if failed else 0
