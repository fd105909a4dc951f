"""Tests of tools/proved_program.sh: which program counts as proved, in a tree of three crates with checksums."""

import os
import shutil
import subprocess
import sys
from pathlib import Path

import pytest

TOP = Path(__file__).resolve().parents[1]
sys.path.insert(0, str(TOP / "tools"))

import proof_sums  # noqa: E402
import source_sums  # noqa: E402
import stamps  # noqa: E402

SECONDS = 60
TOOLS = (
    "proved_program.py",
    "proved_program.sh",
    "crate_graph.py",
    "proof_sums.py",
    "kit.py",
    "source_sums.py",
    "stamps.py",
)
RULE = "crates/low/specs/Rule.antt"
OTHER = "crates/low/specs/Two.antt"
CODE = "crates/low/src/lib.rt"
PROGRAM = "crates/top/out/top"
OLD = "2001-01-01"
SET_BACK = f"find . -exec touch -h -d {OLD} {{}} +"

# Commands that are run in a tree whose program is proved, and whose sources are all older than the program.
STAYS = {
    "nothing": ":",
    "each file touched": "find . -type f -exec touch {} +",
    "all dates set back": SET_BACK,
    "an edit that is taken back": f"sed -i s/three/two/ {RULE} && sed -i s/two/three/ {RULE}",
    "a file of an editor": f"echo >{CODE}~ && ln -s me@here.1 crates/low/src/.#lib.rt",
    "a crate that it doesn't stand on": "echo 'fn f() {}' >>crates/other/src/lib.rt",
    "no kit on the PATH": 'rm "$KIT/bin/rt"',
}
CHANGES = {
    "an edit": f"sed -i s/three/two/ {RULE}",
    "an edit in place while the clock stands back": f"sed s/3/2/ {CODE} >x && cat x >{CODE} && touch -d {OLD} {CODE}",
    "an older version with its date": f"sed s/three/two/ {RULE} >old && touch -d {OLD} old && cp -p old {RULE}",
    "another commit, all dates set back": f"sed -i 's/three/two/; s/3/2/' {RULE} {CODE} && {SET_BACK}",
    "a folder of sources that is a link": "mv crates/low/src elsewhere && ln -s ../../elsewhere crates/low/src",
    "a link to a folder, with an edit there": (
        f"mv crates/low/specs elsewhere && ln -s ../../elsewhere crates/low/specs && sed -i s/three/two/ {RULE}"
    ),
    "a link to a source, with an edit there": (
        f"mv {CODE} elsewhere && ln -s ../../../elsewhere {CODE} && sed -i s/3/2/ elsewhere"
    ),
    "a crate that is a link": "mv crates/low elsewhere && ln -s ../elsewhere crates/low",
    "a source that is a pipe": f"rm {CODE} && mkfifo {CODE}",
    "a file more": f"cp -p {RULE} crates/low/specs/More.antt",
    "a file less": f"rm {RULE}",
    "a file of another name": f"mv {RULE} crates/low/specs/Other.antt",
    "a name of another case": f"mv {RULE} crates/low/specs/rule.antt",
    "two files with each other's names": f"mv {RULE} x && mv {OTHER} {RULE} && mv x {OTHER}",
    "a folder moved": "mv crates/low/proofs/f crates/low/proofs/g",
    "a crate moved": "mv crates/low crates/lower",
    "its line in crates.txt": "sed -i 's/^top:.*/top may_wait=1: low/' crates.txt",
    "another line in crates.txt, which it stands on": "sed -i 's/^low:/low: toml/' crates.txt",
    "libraries parted by commas": "sed -i 's/^top:.*/top: low,other/' crates.txt",
    "no crates.txt": "rm crates.txt",
    "other handles": "echo 'Handles allowed: none.' >HANDLES",
    "no handles": "rm HANDLES",
    "another program in its place": (
        f"cp -p {PROGRAM} old && sed -i s/proved/other/ {PROGRAM} && touch -r old {PROGRAM}"
    ),
    "another program, of an old date, and a source touched": (
        f"sed s/proved/other/ {PROGRAM} >x && chmod +x x && touch -d {OLD} x && mv x {PROGRAM} && touch {CODE}"
    ),
    "a link to another program": f"sed s/proved/other/ {PROGRAM} >x && chmod +x x && ln -sf ../../../x {PROGRAM}",
    "a program that can't be started": f"chmod -x {PROGRAM}",
    "no program": f"rm {PROGRAM}",
    "no checksums": f"rm {PROGRAM}.sums",
    "checksums of another program": f"sed -i '1s/^./x/' {PROGRAM}.sums",
    "checksums without a kit": f"sed -i '$d' {PROGRAM}.sums",
    "checksums that end early": f"head -n -3 {PROGRAM}.sums >x && cat x >{PROGRAM}.sums",
    "what decides is another": (
        "printf '\\n\\ndef is_proved_keeping_stamps(*_):\\n    return False\\n' >>tools/proof_sums.py"
    ),
    "what says which crates count is another": (
        "printf '\\n\\ndef crates_below_one_in_build_order(*_):\\n    return []\\n' >>tools/crate_graph.py"
    ),
    "another kit": 'echo "kit 2" >"$KIT/KIT-ID"',
    "a command of no kit": 'rm "$KIT/KIT-ID"',
    "another kit first on the PATH": 'mkdir -p "$KIT/../first/bin" && cp -p "$KIT/bin/rt" "$KIT/../first/bin"',
}


class ProvedTree:
    """A tree with a program that prints its name, the kit on the PATH, and the answer of proved_program.sh."""

    def __init__(self, folder: Path) -> None:
        self.top = folder / "tree"
        self.kit = folder / "kit"
        self.environment = {
            **os.environ,
            "PATH": f"{folder}/first/bin:{self.kit}/bin:/usr/bin:/bin",
            "KIT": str(self.kit),
        }
        files = {
            "crates.txt": "low:\nother:\ntop: low\n",
            "HANDLES": "Handles allowed: Threads, Wait.\n",
            CODE: "pub const COUNT: u32 = 3;\n",
            RULE: "count = three\n",
            OTHER: "other = two\n",
            "crates/low/proofs/f/Answers.antt": "-- a lemma\n",
            "crates/other/src/lib.rt": "fn f() {}\n",
            "crates/top/src/main.rt": "fn main() {}\n",
            PROGRAM: "#!/bin/sh\necho proved\n",
        }
        for path, text in files.items():
            (self.top / path).parent.mkdir(parents=True, exist_ok=True)
            (self.top / path).write_text(text)
        (self.top / PROGRAM).chmod(0o755)
        (self.top / "tools").mkdir()
        for name in TOOLS:
            shutil.copy(TOP / "tools" / name, self.top / "tools")
        (self.kit / "bin").mkdir(parents=True)
        (self.kit / "bin/rt").touch(mode=0o755)
        (self.kit / "KIT-ID").write_text("kit 1\n")
        self.run_shell(f"find . ! -path './{PROGRAM}' -exec touch -d '1 hour ago' {{}} +")
        self.run_shell(f"{{ sha256sum {PROGRAM}; tools/proved_program.sh --sums top; }} >x && mv x {PROGRAM}.sums")

    def run_shell(self, command: str) -> str:
        """Does a command of the shell in the tree, and gives what it prints."""
        words = ["sh", "-euc", command]
        return subprocess.run(
            words, cwd=self.top, env=self.environment, check=True, stdout=subprocess.PIPE, text=True
        ).stdout

    def find_proved_program(self) -> tuple[int, str, str]:
        """The status of proved_program.sh, and what it says."""
        words: list[str | Path] = [self.top / "tools/proved_program.sh", "top"]
        done = subprocess.run(words, env=self.environment, capture_output=True, text=True, timeout=SECONDS)
        return done.returncode, done.stdout, done.stderr

    def is_proved(self) -> bool:
        status, out, err = self.find_proved_program()
        assert (status, out != "", err != "") in ((0, True, False), (2, False, True))
        return status == 0


@pytest.fixture(params=["looked at", "not looked at"])
def tree(request: pytest.FixtureRequest, tmp_path: Path) -> ProvedTree:
    """A tree, where the program was found to be proved before, or wasn't looked at."""
    made = ProvedTree(tmp_path)
    if request.param == "looked at":
        assert made.is_proved()
        assert (made.top / f"{PROGRAM}.stamps").exists()
    return made


@pytest.mark.parametrize("done", STAYS.values(), ids=STAYS)
def test_a_program_stays_proved(done: str, tree: ProvedTree) -> None:
    tree.run_shell(done)
    assert tree.find_proved_program() == (0, f"{tree.top}/{PROGRAM}\n", "")


@pytest.mark.parametrize("done", CHANGES.values(), ids=CHANGES)
def test_a_program_is_not_proved_any_more(done: str, tree: ProvedTree) -> None:
    tree.run_shell(done)
    assert not tree.is_proved()
    tree.run_shell(SET_BACK)
    assert not tree.is_proved()


@pytest.mark.parametrize("path", ["crates.txt", "HANDLES", PROGRAM])
def test_an_edit_where_a_link_leads_is_seen(path: str, tree: ProvedTree) -> None:
    tree.run_shell(f'mv {path} own && ln -s "$PWD/own" {path}')
    assert tree.is_proved()
    tree.run_shell("echo '# an edit' >>own")
    assert not tree.is_proved()


def test_what_is_linked_is_named(tree: ProvedTree) -> None:
    tree.run_shell("mv crates/low/proofs/f elsewhere && ln -s ../../../elsewhere crates/low/proofs/f")
    message = "top isn't proved: crates/low/proofs/f is a link: put the file or folder itself there\n"
    assert tree.find_proved_program() == (2, "", message)


def test_a_tree_that_is_copied_or_moved_stays_proved(tree: ProvedTree) -> None:
    tree.run_shell("cp -R . ../other")
    tree.top = tree.top.with_name("other")
    assert tree.is_proved()
    tree.run_shell("mv ../other ../third")
    tree.top = tree.top.with_name("third")
    assert tree.is_proved()


def test_where_nothing_can_be_kept_all_is_read_each_time(tmp_path: Path) -> None:
    tree = ProvedTree(tmp_path)
    tree.run_shell(f"mkdir {PROGRAM}.stamps")
    assert tree.is_proved() and tree.is_proved()
    tree.run_shell(CHANGES["an edit in place while the clock stands back"])
    assert not tree.is_proved()


def test_what_changed_in_the_tick_of_a_look_is_read_again(tmp_path: Path, monkeypatch: pytest.MonkeyPatch) -> None:
    tree = ProvedTree(tmp_path)
    monkeypatch.setenv("PATH", tree.environment["PATH"])
    # As if the clock hadn't moved on since this source was written.
    monkeypatch.setattr(stamps, "probe_file_system_clock_by_new_file", lambda _: (tree.top / CODE).stat())
    assert proof_sums.is_proved_keeping_stamps(str(tree.top), "top")
    assert not (tree.top / f"{PROGRAM}.stamps").exists()


def test_where_a_program_can_set_the_clock_of_a_file_nothing_is_kept(
    tmp_path: Path, monkeypatch: pytest.MonkeyPatch
) -> None:
    tree = ProvedTree(tmp_path)
    monkeypatch.setenv("PATH", tree.environment["PATH"])
    assert stamps.probe_file_system_clock_by_new_file(str(tmp_path))
    # As FAT has it, where the moment of a change is that of the last edit, which any program may set.
    probe = os.stat_result((0o100644, 1, tree.top.stat().st_dev, 1, 0, 0, 0, 0, 0, 0))
    monkeypatch.setattr(os, "fstat", lambda _: probe)
    assert proof_sums.is_proved_keeping_stamps(str(tree.top), "top")
    assert not (tree.top / f"{PROGRAM}.stamps").exists()


@pytest.mark.parametrize("done", [f"echo >>{CODE}", f"cp -p {RULE} crates/low/specs/More.antt", f"touch {RULE}"])
def test_what_changes_while_it_is_read_is_read_again(
    done: str, tmp_path: Path, monkeypatch: pytest.MonkeyPatch
) -> None:
    tree = ProvedTree(tmp_path)
    monkeypatch.setenv("PATH", tree.environment["PATH"])

    def read_and_change(top: str, paths: list[str]) -> dict[str, str]:
        found = source_sums.sums_of_files(top, paths)
        if CODE in found:
            tree.run_shell(done)
        return found

    monkeypatch.setattr(proof_sums, "sums_of_files", read_and_change)
    assert proof_sums.is_proved_keeping_stamps(str(tree.top), "top")
    assert not (tree.top / f"{PROGRAM}.stamps").exists()


def test_what_comes_before_the_stamps_are_taken_is_read_again(tmp_path: Path, monkeypatch: pytest.MonkeyPatch) -> None:
    tree = ProvedTree(tmp_path)
    monkeypatch.setenv("PATH", tree.environment["PATH"])
    taken = stamps.stamps_of

    def take_late(top: str, paths: list[str]) -> dict[str, str]:
        tree.run_shell("cp -p crates/low/src/lib.rt crates/low/src/more.rt")
        return taken(top, paths)

    monkeypatch.setattr(stamps, "stamps_of", take_late)
    assert proof_sums.is_proved_keeping_stamps(str(tree.top), "top")
    assert not tree.is_proved()


def test_stamps_that_were_cut_short_are_not_taken(tree: ProvedTree) -> None:
    assert tree.is_proved()
    tree.run_shell(
        f"head -c -40 {PROGRAM}.stamps >x && cat x >{PROGRAM}.stamps && echo 'fn g() {{}}' >>crates/top/src/main.rt"
    )
    assert not tree.is_proved()


def test_all_is_named_on_which_it_depends(tmp_path: Path) -> None:
    tree = ProvedTree(tmp_path)
    tree.run_shell("rm HANDLES && ln -s nowhere crates/low/src/.#lib.rt && ln -s lib.rt crates/low/src/other.rt")
    below = [
        "HANDLES",
        "crates.txt",
        "crates/low",
        "crates/low/proofs",
        "crates/low/proofs/f",
        "crates/low/proofs/f/Answers.antt",
        "crates/low/specs",
        RULE,
        OTHER,
        "crates/low/src",
        CODE,
        "crates/low/src/other.rt",
        "crates/top",
        PROGRAM,
        f"{PROGRAM}.sums",
        "crates/top/src",
        "crates/top/src/main.rt",
    ]
    found = tree.run_shell("tools/proved_program.sh --files top").split("\0")
    assert sorted(found) == sorted(
        ["", f"{tree.kit}/KIT-ID", f"{tree.kit}/bin/rt", *(f"{tree.top}/{it}" for it in below)]
    )
    tree.run_shell("rm crates.txt")
    assert f"{tree.top}/crates.txt" in tree.run_shell("tools/proved_program.sh --files top").split("\0")


@pytest.mark.parametrize("words", ["", "--sums", "top top", "--all top", "--files"])
def test_other_words_are_refused(words: str, tmp_path: Path) -> None:
    done = subprocess.run([TOP / "tools/proved_program.sh", *words.split()], capture_output=True, text=True)
    assert (done.returncode, done.stdout, done.stderr.splitlines()[0]) == (2, "", "#   tools/proved_program.sh NAME")
