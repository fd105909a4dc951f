#!/usr/bin/python3 -I
"""A fake of tools/build_mutants.py: fake programs of a sender whose mutants give other rows, as the tree says.

Its file `mutants` has a line `NAME RULES ROW` for each mutant, with rules that commas part, or `NAME lost WHY` for one
that isn't built. In place of a row, `crash` ends the program at once, and `limited` does that where nothing limits its
time and memory. Without the file the kit isn't there; a file `wrong` isn't compiled.
"""

import json
import os
import sys
from pathlib import Path

NOTES = Path(os.environ["NOTES"])
HERE = Path(os.environ["FAKE_PROGRAMS"])
TREE = Path(sys.argv[sys.argv.index("--tree") + 1])
# The last 4 octets of this program choose the sender.
CHOOSING = '#!/bin/sh\nexec {}/sender-$(tail -c 4 "$0" | od -A n -t u4 | tr -d " ") "$@"\n'
CRASH = "#!/bin/sh\nexit 3\n"
LIMITED = '#!/bin/sh\n[ "$(ulimit -t) $(ulimit -v)" = "10 4194304" ] || exit 3\nexec "${0%-*}-0" "$@"\n'


def put(path: Path, octets: bytes) -> None:
    """Puts a program at a path."""
    path.write_bytes(octets)
    path.chmod(0o755)


def sender_octets(row: str) -> bytes:
    """The program of a sender that gives this row."""
    if row in ("crash", "limited"):
        return (CRASH if row == "crash" else LIMITED).encode()
    octets = (HERE / "fake_pdregress.py").read_bytes()
    return octets.replace(b'SENDER = "pass 1"', f'SENDER = "{row}"'.encode())


def main() -> int:
    """Builds, or says why that can't be done."""
    if not (TREE / "mutants").exists():
        print("unproved: NoBuild: no command rt is on the PATH", file=sys.stderr)
        return 3
    lines = (TREE / "mutants").read_text().splitlines()
    print("reading\ncompiling", flush=True)
    if lines == ["wrong"]:
        print("unproved: NotCompiled: the program doesn't compile\na.rt:1:4: error: wrong", file=sys.stderr)
        return 2
    folder = NOTES / "with-mutants"
    folder.mkdir(exist_ok=True)
    built, lost = [], []
    put(folder / "sender-0", sender_octets("pass 1"))
    for number, (name, rules, row) in enumerate((line.split(" ", 2) for line in lines), 1):
        if rules == "lost":
            lost.append({"name": name, "why": row})
            continue
        built.append({"number": number, "name": name, "rules": rules.split(","), "words": f"a.rt: {name} -> {row}"})
        put(folder / f"sender-{number}", sender_octets(row))
    program = CHOOSING.format(folder).encode()
    put(folder / "pdregress", program + bytes(4))
    listed = {"place": len(program), "mutants": built, "left out": lost}
    (folder / "mutants.json").write_text(json.dumps(listed))
    print(f"built {folder}", flush=True)
    return 0


sys.exit(main())
