"""Runs pdregress and pdrecord of a tree many times without proofs, after one build:

run_batch.py [--seconds N] [--tree FOLDER] STARTS ANSWERS

The tree is this one, or FOLDER. Its batch.rattle is built, or else this tree's, which starts the programs in memory, as
often as its input says, or the named pipe that its input names. The folder STARTS has such inputs, which are run one
after the other, and the folder ANSWERS gets for each file NAME.output, NAME.errors and NAME.status, as run_cases.py
puts them. Where nothing was run, a line on standard error says why, with what `rt try` printed, and the status is 2;
else it is 0.
"""
from __future__ import annotations

import argparse
import os
import re
import shutil
import sys
import tempfile
from pathlib import Path

import rt_try
import signals
from run_cases import FAULT, write_result

# batch.rattle replaces this program's main file, and needs the libraries of the other one, too.
PROGRAM = "pdrecord"
OTHER = "pdregress"
MAIN = rt_try.TOP / "tools" / "batch.rattle"
MODULE = "mod program;"
# The part of a crate that is read, without definitions and proofs.
PART = "src"


def make_batch_tree(tree: Path, folder: Path) -> None:
    """Puts into a folder a tree of the same crates, in which batch.rattle is the main file of its program."""
    for crate in (tree / "crates").iterdir():
        if (crate / PART).is_dir():
            shutil.copytree(crate / PART, folder / "crates" / crate.name / PART)
    sources = folder / "crates" / PROGRAM / "src"
    modules = sorted(it.stem for it in sources.glob("*.rt") if it.stem != "main")
    # On one line, so that each line keeps its number.
    declared = " ".join(f"mod {it};" for it in modules)
    (sources / "main.rt").write_text(own_or_default_batch_main_path(tree).read_text().replace(MODULE, declared))
    (folder / "crates.txt").write_text(crates_txt_with_libraries_of_other_program((tree / "crates.txt").read_text()))
    if (tree / "HANDLES").exists():
        shutil.copy(tree / "HANDLES", folder)


def own_or_default_batch_main_path(tree: Path) -> Path:
    """The main file that fits a tree's crates: its own, or where it has none this tree's."""
    own = tree / MAIN.relative_to(rt_try.TOP)
    return own if own.is_file() else MAIN


def crates_txt_with_libraries_of_other_program(table: str) -> str:
    """A crates.txt in which the program stands on the libraries of the other one, too.

    >>> crates_txt_with_libraries_of_other_program("low:\\npdregress may_wait=1: low a\\npdrecord: low b\\n")
    'low:\\npdregress may_wait=1: low a\\npdrecord: low b  low a\\n'
    """
    found = re.search(rf"^{OTHER}\b[^:]*:(.*)$", table, re.MULTILINE)
    return re.sub(rf"^{PROGRAM}\b.*$", rf"\g<0> {found[1] if found else ''}", table, flags=re.MULTILINE)


def rewrite_temporary_paths_to_source_tree(printed: bytes, folder: Path, tree: Path) -> bytes:
    """The lines that `rt try` printed, with the places in the tree."""
    printed = rt_try.printed_lines_with_whole_paths(PROGRAM, printed, folder)
    printed = printed.replace(
        os.fsencode(folder / "crates" / PROGRAM / "src" / "main.rt"),
        os.fsencode(own_or_default_batch_main_path(tree)),
    )
    return printed.replace(os.fsencode(folder / "crates"), os.fsencode(tree / "crates"))


def run_start_files_and_write_answer_files(options: argparse.Namespace, tree: Path) -> None:
    """Builds, starts and answers."""
    files = sorted(options.starts.iterdir())
    cases = [rt_try.TryCase((), it.read_bytes()) for it in files]
    with tempfile.TemporaryDirectory(prefix="pdbatch-") as name:
        folder = Path(name).resolve()
        make_batch_tree(tree, folder)
        try:
            # The program is built in any case, so that nothing has to be interpreted.
            answers = rt_try.run_cases(PROGRAM, cases, folder, options.seconds, top=folder, steps=1)
        except rt_try.NotRunError as error:
            reason = error.reason
            raise rt_try.NotRunError(
                rt_try.NoAnswer(
                    reason.name, reason.why, rewrite_temporary_paths_to_source_tree(reason.printed, folder, tree)
                )
            ) from None
    for file, result in zip(files, answers):
        write_result(options.answers, file.name, result)


def main() -> int:
    parser = argparse.ArgumentParser(allow_abbrev=False, description=(__doc__ or "").partition(":\n")[0])
    parser.add_argument("--seconds", type=int, default=rt_try.SECONDS, help="what a case may take")
    parser.add_argument("--tree", metavar="FOLDER", type=Path, default=rt_try.TOP, help="the tree of the programs")
    parser.add_argument("starts", metavar="STARTS", type=Path)
    parser.add_argument("answers", metavar="ANSWERS", type=Path)
    options = parser.parse_args()
    signals.install_handlers_raising_at_first_signal()
    try:
        run_start_files_and_write_answer_files(options, options.tree.absolute())
    except rt_try.NotRunError as error:
        print(f"{PROGRAM}: unproved: {error}", file=sys.stderr)
        sys.stderr.flush()
        sys.stderr.buffer.write(error.reason.printed)
        return FAULT
    except signals.StoppedBySignal as signal:
        signals.end_process_by(signal.number)
    return 0


if __name__ == "__main__":
    sys.exit(main())
