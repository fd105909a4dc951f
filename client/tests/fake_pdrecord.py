#!/usr/bin/python3 -IS
"""A fake of pdrecord: it takes what stands below a script's first line for the recording, if anything does.

Of files it does so one after the other, and ends itself on one whose first line says `crash`. In a recording SETTINGS
stands for what it was given as such, WAY for the words that say how to record, and RULE for SENDER, so that another
sender can be made of this one.
"""

import os
import signal
import sys

REFUSED = b"pdrecord: nothing to record\n"
WAYS = ("--trace", "--minimal", "--drop-missing")
SENDER = "pass 1"


def recorded(text: bytes, settings: str, way: str) -> bytes:
    """The recording of a script; empty where there is none."""
    stands_for = {b"SETTINGS": settings, b"WAY": way, b"RULE": SENDER}
    recording = text.partition(b"\n")[2]
    for word, value in stands_for.items():
        recording = recording.replace(word, value.encode())
    return recording


def put(word: str, octets: bytes, name: str) -> None:
    """Writes what came of a file after its title."""
    sys.stdout.buffer.write(f"{word} {octets.count(10)} {name}\n".encode() + octets)
    sys.stdout.buffer.flush()


def main() -> int:
    """Writes the recordings, or refuses."""
    way = " ".join(it for it in sys.argv[1:] if it in WAYS)
    words = [it for it in sys.argv[1:] if it not in WAYS]
    settings = ""
    if words[:1] == ["--settings"]:
        settings, words = words[1], words[2:]
    status = 0
    for name in words:
        with open(name, "rb") as file:
            text = file.read()
        if text.startswith(b"crash"):
            os.kill(os.getpid(), signal.SIGSEGV)
        recording = recorded(text, settings, way)
        status = status if recording else 1
        put("recorded" if recording else "refused", recording or REFUSED, name)
    if words:
        return status
    recording = recorded(sys.stdin.buffer.read(), settings, way)
    if not recording:
        sys.stderr.buffer.write(REFUSED)
        return 1
    sys.stdout.buffer.write(recording)
    return 0


sys.exit(main())
