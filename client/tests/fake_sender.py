#!/usr/bin/python3 -IS
"""A fake of pdrecord and pdregress, by the name that it is called by, with a small sender of its own.

It sends what is written in segments of 1,000 octets, two at a time, and the first again after a second, then two, four
and so on. A call of `abort` ends it. In CHANGE_FILE, beside it, stands what it does otherwise: `late` has it wait two
seconds each time after the first; `extra` has it answer an RST by an ACK; `greedy` has it send three at a time under
the setting `mss`.
"""

import os
import sys
from collections.abc import Iterator

SEGMENT = 1_000
CHANGE_FILE = os.path.join(os.path.dirname(os.path.realpath(sys.argv[0])), "change")
CALLS = {b"socket": 3, b"bind": 0, b"listen": 0, b"accept": 4, b"fcntl": 0, b"close": 0, b"setsockopt": 0}


class FakeSender:
    """The sender: its numbers, its timer, and what it has sent and nobody has taken."""

    def __init__(self, change: str, is_set: bool) -> None:
        self.window = 3 if change == "greedy" and is_set else 2
        self.change = change
        self.state = "CLOSED"
        self.una = self.top = self.end = 1
        self.timer: int | None = None
        self.wait = 1_000_000
        self.sent: list[tuple[int, str]] = []

    def advance(self, now: int) -> Iterator[None]:
        """Expires up to a moment."""
        while self.timer is not None and self.timer <= now and len(self.sent) < 1_024:
            at = self.timer
            self.wait = min(2 * self.wait, 60_000_000) if self.change != "late" else 2_000_000
            self.timer = at + self.wait
            self.put(at, self.una, min(self.una + SEGMENT, self.top))
            yield

    def put(self, now: int, start: int, end: int) -> None:
        """Puts a segment out."""
        self.sent.append((now, f"> . {start}:{end}({end - start}) ack 1 win 1000"))

    def send(self, now: int) -> None:
        """Sends what the window takes."""
        while self.top < self.end and self.top < self.una + self.window * SEGMENT:
            end = min(self.top + SEGMENT, self.end)
            self.put(now, self.top, end)
            self.top = end
            self.timer = self.timer or now + self.wait

    def call(self, now: int, name: bytes, arguments: bytes) -> str:
        """Answers a call."""
        if name == b"abort":
            os.abort()
        if name == b"write" and self.state == "ESTABLISHED":
            self.end += int(arguments.rsplit(b",")[-1])
            self.send(now)
            return str(int(arguments.rsplit(b",")[-1]))
        if name == b"listen":
            self.state = "LISTEN"
        return str(CALLS[name]) if name in CALLS else "-1 EBADF"

    def arrive(self, now: int, words: list[bytes]) -> bool:
        """Takes a packet; whether it is run."""
        flags, ack = words[1], int(words[words.index(b"ack") + 1]) if b"ack" in words else 0
        if self.state == "CLOSED" or (self.state == "LISTEN") != (flags == b"S"):
            return False
        if flags == b"S":
            self.state = "ESTABLISHED"
            self.sent.append((now, "> S. 0:0(0) ack 1 win 1000"))
        elif b"R" in flags:
            self.state, self.timer = "CLOSED", None
            if self.change == "extra":
                self.sent.append((now, f"> . {self.top}:{self.top}(0) ack 1 win 1000"))
        elif self.una < ack <= self.top:
            self.una = ack
            self.timer = None if ack == self.top else now + self.wait
            self.send(now)
        return True

    def facts(self, now: int) -> str:
        """The state, as a trace has it."""
        expiry = "none" if self.timer is None else f"{self.timer / 1e6:.6f}"
        numbers = f"una:{self.una} next:{self.top} top:{self.top} end:{self.end} FlightSize:{self.top - self.una}"
        return f"//= at {now / 1e6:.6f} {self.state} {numbers} expiry:{expiry} recovery:none"


def run(text: bytes, change: str, is_set: bool) -> Iterator[tuple[int, str, str]]:
    """The events of a script's inputs: moments, lines and the states after them. An empty line ends it: a fault."""
    sender = FakeSender(change, is_set)
    now = 0
    for number, line in enumerate(text.splitlines(), 1):
        time, _, event = line.partition(b" ")
        if not time.startswith(b"+"):
            continue
        now += round(float(time) * 1e6)
        for _ in sender.advance(now):
            yield from taken(sender)
        if event.startswith(b">"):
            continue
        if event.startswith(b"<"):
            if not sender.arrive(now, event.split(b" ")):
                yield number, "", f"unsupported {number}"
                return
            yield now, event.decode(), sender.facts(now)
        else:
            name, _, rest = event.partition(b"(")
            answer = sender.call(now, name, rest.split(b")")[0])
            yield now, f"{event.rsplit(b' = ')[0].decode()} = {answer}", sender.facts(now)
        yield from taken(sender)


def taken(sender: FakeSender) -> Iterator[tuple[int, str, str]]:
    """The packets that left."""
    for at, line in sender.sent:
        yield at, line, sender.facts(at)
    sender.sent.clear()


def lines_of(text: bytes, change: str, is_set: bool) -> tuple[list[str], str]:
    """The lines of a recording with states, and why there is none."""
    lines, before = [], 0
    header = [line.decode() for line in text.splitlines() if line.startswith(b"--")]
    for at, line, state in run(text, change, is_set):
        if not line:
            return [], state
        gap = f"{(at - before) / 1e6:.6f}".rstrip("0").rstrip(".")
        lines += [f"+{gap} {line}", state]
        before = at
    return header + lines, ""


def record_files(files: list[str], change: str, words: list[str]) -> int:
    """Writes what comes of each file, below its title."""
    for name in files:
        with open(name, "rb") as file:
            lines, fault = lines_of(file.read(), change, "mss" in "".join(words))
        lines = [f"pdrecord: {fault}"] if fault else lines
        print("\n".join([f"{'refused' if fault else 'recorded'} {len(lines)} {name}", *lines]))
    return 0


def record(text: bytes, change: str, words: list[str]) -> int:
    """Writes a recording, or refuses."""
    lines, fault = lines_of(text, change, "mss" in "".join(words))
    if fault:
        print(f"pdrecord: {fault}", file=sys.stderr)
        return 1
    print("\n".join(lines))
    return 0


def row_of(text: bytes, change: str, is_set: bool) -> str:
    """The row of a script: packets that no line takes are no failure."""
    played = list(run(text, change, is_set))
    if played and not played[-1][1]:
        return played[-1][2]
    sent = iter([it[:2] for it in played if it[1].startswith(">")])
    others = iter([it[:2] for it in played if not it[1].startswith(">")])
    now = events = 0
    for number, line in enumerate(text.decode().splitlines(), 1):
        if line.startswith("+"):
            events += 1
            time, _, event = line.partition(" ")
            now += round(float(time) * 1e6)
            got = next(sent if event.startswith(">") else others, None)
            if got != (now, event):
                return f"fail {number} {'missing' if got is None else 'seq'}"
    return f"pass {events}"


def settle(change: str, words: list[str]) -> int:
    """Runs the scripts that are added, and reports."""
    explains, is_set = "--explain" in words, "mss" in "".join(words)
    rows: list[str] = []
    is_explained = False
    while line := sys.stdin.buffer.readline():
        command = line.split()
        if command[:1] == [b"set"]:
            is_set = is_set or command[1] == b"mss"
        elif command[:1] == [b"add"]:
            text = b"".join(sys.stdin.buffer.readline() for _ in range(int(command[2])))
            row = row_of(text, change, is_set)
            rows.append(f"{command[1].decode()} {row}")
            if "--rules" in words:
                list_rules(command[1].decode(), text)
            if explains and not row.startswith("pass"):
                print(explained(command[1].decode(), row.split()[1], "--json" in words), file=sys.stderr)
        elif command[:1] in ([b"settle"], [b"show"]):
            report(rows)
        is_explained = command[:1] == [b"settle"]
    if not is_explained:
        report(rows)
    return 0


def list_rules(name: str, text: bytes) -> None:
    """Prints the rule of each call that listens."""
    for number, line in enumerate(text.splitlines(), 1):
        if b" listen(" in line:
            print(f"job 1 {name} line {number} rules rfc9293.state.listen", file=sys.stderr, flush=True)


def explained(name: str, line: str, by_keys: bool) -> str:
    """The explanation of a script that fails."""
    if not by_keys:
        return f"{name}:{line}: fail seq: so it is"
    return f'{{"name": "{name}", "line": {line}, "verdict": "fail", "kind": "seq", "what": "so it is"}}'


def report(rows: list[str]) -> None:
    """Prints the rows and their totals."""
    counts = {word: sum(row.split()[1] == word for row in rows) for word in ("pass", "fail", "unsupported")}
    total = (
        f"pass {counts['pass']} fail {counts['fail']} syntax 0 unsupported {counts['unsupported']} limit 0 pending 0"
    )
    print("".join(f"{row}\n" for row in rows) + f"total {len(rows)} {total}", flush=True)


def main() -> int:
    """Does what the name and the words say."""
    change = ""
    if os.path.exists(CHANGE_FILE):
        with open(CHANGE_FILE) as file:
            change = file.read().strip()
    if os.path.basename(sys.argv[0]).startswith("pdrecord"):
        if files := [it for it in sys.argv[1:] if it.startswith("/")]:
            return record_files(files, change, sys.argv[1:])
        return record(sys.stdin.buffer.read(), change, sys.argv[1:])
    return settle(change, sys.argv[1:])


if __name__ == "__main__":
    sys.exit(main())
