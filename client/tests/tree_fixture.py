"""A tree of a test's own, in which nothing is proved: the client, the tools, and crates that a fake kit builds."""

import hashlib
import os
import shutil
import subprocess
from collections.abc import Iterable, Mapping
from pathlib import Path

from tests.helpers import HANGS, TOP, Called
from tests.schemas import hold_output

HERE = Path(__file__).parent
PROGRAMS = ("pdregress", "pdrecord")
PAGE = "# A page\n\n## Loss\n- An octet is lost when three runs lie above it. (RFC 6675, section 4)\n- Own.\n"
_TOOLS = (
    "batch.rattle",
    "proved_program.py",
    "proved_program.sh",
    "crate_graph.py",
    "proof_sums.py",
    "kit.py",
    "last_proved.py",
    "source_sums.py",
    "stamps.py",
    "signals.py",
    "run_batch.py",
    "run_cases.py",
    "rt_try.py",
)
_AFFECTED_TOOLS = (
    "changed_rules.py",
    "affected.py",
    "affected_defaults.py",
    "affected_rules.py",
    "affected_sections.py",
    "rule_sources.py",
)
_STAND_INS = {
    "rt": "fake_rt.py",
    "pdregress": "fake_pdregress.py",
    "pdrecord": "fake_pdrecord.py",
}


def vouch(top: Path, programs: Iterable[str], environment: Mapping[str, str]) -> None:
    """Keeps the checksums of a tree's programs and sources as they stand, as ./prove does."""
    for name in programs:
        path = f"crates/{name}/out/{name}"
        words: list[str | Path] = [top / "tools/proved_program.sh", "--sums", name]
        kept = subprocess.run(words, env=environment, check=True, capture_output=True).stdout
        kit = b"" if b"\nkit: " in kept else b"kit: a kit\n"  # As where no `rt` is on the PATH.
        own = f"{hashlib.sha256((top / path).read_bytes()).hexdigest()}  {path}\n"
        (top / f"{path}.sums").write_bytes(own.encode() + kept + kit)


def fake_octets(sender: str = "pass 1") -> bytes:
    """A fake of pdregress, whose sender gives this row."""
    return (HERE / "fake_pdregress.py").read_bytes().replace(b'"pass 1"', f'"{sender}"'.encode(), 1)


def put_program(path: Path, octets: bytes) -> Path:
    """Puts a program at a path at once, in place of what lies there."""
    path.parent.mkdir(parents=True, exist_ok=True)
    beside = path.with_name(".beside")
    beside.write_bytes(octets)
    beside.chmod(0o755)
    beside.replace(path)
    return path


class Tree:
    """A tree in a folder, and a folder `suite` beside it, where ./pdsuite is called."""

    def __init__(self, top: Path) -> None:
        self.top = top / "tree"
        self.suite = top / "suite"
        self.notes = top / "notes"
        self.bin = top / "bin"
        for folder in (self.top / "tools", self.suite, self.notes, self.bin):
            folder.mkdir(parents=True)
        shutil.copy(TOP / "pdsuite", self.top)
        shutil.copytree(TOP / "client/pdsuite", self.top / "client/pdsuite")
        shutil.copy(TOP / "client/packages.txt", self.top / "client")
        for name in _TOOLS:
            shutil.copy(TOP / "tools" / name, self.top / "tools")
        (top / "KIT-ID").write_text("a kit\n")  # It names the kit of the fake program for `rt`.
        for name, file in _STAND_INS.items():
            shutil.copy(HERE / file, self.bin / name)
        for name in PROGRAMS:
            (self.top / "crates" / name / "src").mkdir(parents=True)
        (self.top / "crates.txt").write_text("".join(f"{name}:\n" for name in PROGRAMS))

    @property
    def environment(self) -> dict[str, str]:
        """The environment, in which the fake program for `rt` is found, and no folder of programs is named."""
        there = {key: value for key, value in os.environ.items() if key != "PDSUITE_PROGRAMS"}
        return {
            **there,
            "NOTES": str(self.notes),
            "FAKE_PROGRAMS": str(HERE),
            "XDG_CACHE_HOME": str(self.notes / "cache"),
            "PATH": f"{self.bin}:{os.environ['PATH']}",
        }

    def put_proved(self) -> None:
        """Gives it fake programs for its programs, which count as proved."""
        for name in PROGRAMS:
            (self.top / "crates" / name / "out").mkdir()
            shutil.copy(self.bin / name, self.top / "crates" / name / "out")
        vouch(self.top, PROGRAMS, self.environment)

    def put_rows(self, rows: str) -> None:
        """Gives it tests: rows, and what runs them."""
        for name in _AFFECTED_TOOLS:
            shutil.copy(TOP / "tools" / name, self.top / "tools")
        for name in ("drawn", "model", "harness"):
            shutil.copytree(
                TOP / "tests" / name, self.top / "tests" / name, ignore=shutil.ignore_patterns("__pycache__")
            )
        cases = self.top / "tests/cases"
        cases.mkdir()
        (cases / "openings.cases").write_text("[none] opening\n< a\n")
        (cases / "a.cases").write_text(rows)
        (self.top / "docs").mkdir()
        (self.top / "docs/SENDER.md").write_text(PAGE)
        self.put_code("3")

    def put_code(self, value: str) -> None:
        """Gives it a constant of the sender."""
        folder = self.top / "crates/pd_board/src"
        folder.mkdir(parents=True, exist_ok=True)
        (folder / "queries.rt").write_text(f"/// A rule (RFC 6675, section 4).\npub const RULE: u32 = {value};\n")

    def put_program(self, name: str, octets: bytes) -> Path:
        """Puts a program where a proved one lies; its path. Its times are older than those of all else."""
        path = put_program(self.top / "crates" / name / "out" / name, octets)
        os.utime(path, (0, 0))
        return path

    def prove(self, **programs: bytes) -> None:
        """Has these programs count as proved of the tree as it stands."""
        for name, octets in programs.items():
            self.put_program(name, octets)
        vouch(self.top, programs, self.environment)

    def build_fake_programs(self) -> None:
        """Has what isn't proved be built as fake programs, as a source says."""
        shutil.copy(HERE / "fake_build_unproved.py", self.top / "tools/build_unproved.py")

    def change(self, commands: str) -> None:
        """Changes its sender, by commands of `sed`."""
        (self.top / "crates/pdregress/src/change").write_text(commands)

    def builds(self) -> int:
        """How often something was built."""
        file = self.notes / "builds"
        return len(file.read_text().splitlines()) if file.exists() else 0

    def call(self, *words: str | Path, **more: str) -> Called:
        """Calls its ./pdsuite beside the folder of scripts."""
        done = subprocess.run(
            [self.top / "pdsuite", *words],
            cwd=self.suite.parent,
            env={**self.environment, **more},
            capture_output=True,
            timeout=HANGS,
        )
        out = done.stdout.decode()
        hold_output(words, out)
        return Called(done.returncode, out, done.stderr.decode())
