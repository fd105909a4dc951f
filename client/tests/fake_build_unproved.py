#!/usr/bin/python3 -I
"""A fake of tools/build_unproved.py: it builds fake programs whose sender gives the row that a source of the tree says.

NOTES names a folder, which gets a line in `builds` for each build that begins and in `built` for each that ends. A
source that says `wrong` doesn't compile. While `slow` is there, a build goes on.
"""

import hashlib
import os
import sys
import time
from pathlib import Path

NOTES = Path(os.environ["NOTES"])
HERE = Path(os.environ["FAKE_PROGRAMS"])
SOURCE = "crates/pdregress/src/rule.rt"


def note(name: str, words: str) -> None:
    """Notes a line."""
    with (NOTES / name).open("a") as file:
        print(words, file=file)


def put(path: Path, octets: bytes) -> None:
    """Puts a program at a path."""
    path.write_bytes(octets)
    path.chmod(0o755)


def main() -> int:
    """Builds, or finds what is kept."""
    words = sys.argv[1:]
    text = Path(words[words.index("--tree") + 1], SOURCE).read_text()
    folder = NOTES / "kept" / hashlib.sha256(text.encode()).hexdigest()[:16]
    if not folder.exists():
        if "--kept" in words:
            return 3
        note("builds", text.strip())
        note("processes", str(os.getpid()))
        for phase in ("reading", "compiling", "linking"):
            print(phase, flush=True)
            while (NOTES / "slow").exists():
                time.sleep(0.01)
            if "wrong" in text:
                print("unproved: NotCompiled: the program doesn't compile", file=sys.stderr)
                print(f"{Path(words[words.index('--tree') + 1], SOURCE)}:1:4: error[mismatch]: wrong", file=sys.stderr)
                return 2
        beside = folder.with_suffix(".new")
        beside.mkdir(parents=True)
        row = text.removeprefix("// ").strip()
        for name, file in (("pdregress", "fake_pdregress.py"), ("pdrecord", "fake_pdrecord.py")):
            octets = (HERE / file).read_bytes()
            put(beside / name, octets.replace(b'SENDER = "pass 1"', f'SENDER = "{row}"'.encode()))
        beside.rename(folder)
        note("built", text.strip())
    print(f"built {folder}", flush=True)
    return 0


sys.exit(main())
