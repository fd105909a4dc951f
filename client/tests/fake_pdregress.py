#!/usr/bin/python3 -IS
"""A fake of pdregress: it passes each script, unless the script's first line says what it is to do in its place.

It has each setting but those whose names begin with `no_`, and old names.
A script whose first line is `sender` has the row SENDER, so that another sender can be made of this one. At a settle
`touch PATH` changes a file, and `yield PATH` has another program, if one is there, take this one's place.

With --explain it takes a script's first line for its row, and what stands below that for its explanation. With
--leftovers a line `ends WORDS` below the row of a script that passes is what is printed of its end. With --rules each
line `rules LINE RULE..` of a script is an event on that line, which comes to these rules.

It is started a thousand times, so it imports no more than it needs.
"""

import os
import sys
import time

KILL, SEGV = 9, 11
# Settings that have another name now, and words for which there is another.
OLD_KEYS = ("byte_counting", "restart_after_idle", "recovery_rate")
OLD_WORDS = ("pipe", "prr", "prr_crb")
SENDER = "pass 1"
# The origins of packets; without the rules, another program can be made of this one, which names none.
NEW_DATA = {"rule": "rfc9293.new-data", "rule_words": "new data (RFC 9293, section 3.8.6.2.1)"}
EXPIRY = {"rule": "rfc6298.expiry", "rule_words": "first segment at an expiry (RFC 6298, section 5.4)"}
BY_LINE: dict[str, object] = {"line": 1, **NEW_DATA}
BY_TIMER: dict[str, object] = {"timer_us": 7, **EXPIRY}

# The keys that are printed of a script that doesn't pass, by its verdict and, where it fails, its kind.
KEYS: dict[str, dict[str, object]] = {
    "fail": {
        **{"untaken_packets": [], "untaken_sent_by": [], "more_untaken_packets": 0},
        "state": {"name": "ESTABLISHED"},
    },
    "syntax": {"text": "?", "text_line": 1, "column": 0, "expected": []},
    "unsupported": {"rule": "command", "rule_words": "a command", "text": "?", "text_line": 1, "column": 0},
    "limit": {"rule": "time", "rule_words": "a time", "limit": 3_600, "text": "?", "text_line": 1, "column": 0},
    "packet": {
        **{"script_packet": "+0 > . 1:2(1) ack 1", "actual_packet": "+0 > . 1:3(2) ack 1 win 5", "sent_us": 7},
        "sent_by": BY_LINE,
    },
    "time": {
        **{"script_packet": "+0 > . 1:2(1) ack 1", "actual_packet": "+1 > . 1:2(1) ack 1 win 5", "sent_us": 7},
        **{"sent_by": BY_TIMER, "awaited_until_us": None, "early_us": 3},
    },
    "missing": {
        **{"script_packet": "* > . 1:2(1) ack 1", "awaited_until_us": None, "timer_us": None},
        **{"reason": "all_sent", "reason_words": "all was sent"},
    },
    "result": {"call": "0 close(3) = 0", "expected_result": "0", "actual_result": "-1 EBADF"},
    "backwards": {"event": "0 close(3) = 0", "moment_us": 1, "before_us": 2},
}
# The words of lines whose keys are others.
LABELS = {
    **{
        it: it.replace(" ", "_")
        for it in ("script packet", "actual packet", "call", "expected result", "actual result")
    },
    **{"event": "event", "early by": "early_us", "reason": "reason_words", "rule": "rule_words", "state": "state"},
}
texts: dict[str, list[bytes]] = {}
settings: dict[str, str] = {}
owed: dict[str, None] = {}  # the scripts that run at the next settle


def print_line(line: str) -> None:
    """Prints a line at once."""
    print(line, flush=True)


def end(line: str) -> None:
    """Ends as the program does at a fault."""
    print(line, file=sys.stderr, flush=True)
    sys.exit(2)


def write(mark: str, text: str) -> None:
    """Writes a file that says how far this came."""
    with open(mark, "w") as file:
        file.write(text)


def act(words: list[str]) -> None:
    """Does what a script requests at a settle, before the report."""
    match words:
        case ["crash"]:
            os.kill(os.getpid(), SEGV)
        case ["once", mark] if not os.path.exists(mark):
            write(mark, "")
            os.kill(os.getpid(), KILL)
        case ["orphan"]:
            os.kill(os.getppid(), KILL)
            time.sleep(60)
        case ["orphan", mark] if not os.path.exists(mark):
            write(mark, "")
            act(["orphan"])
        case ["exit"]:
            sys.exit(3)
        case ["fault", *fault]:
            end(f"pdregress: {' '.join(fault)}")
        case ["close"]:
            os.close(1)
            time.sleep(60)
        case ["babble"]:
            os.close(1)
            while True:
                print("y", file=sys.stderr)
        case ["stall", mark]:
            write(mark, str(os.getpid()))
            time.sleep(60)
        case ["flood"]:
            while True:
                print_line("x" * 80)
        case ["touch", path]:
            write(path, "// changed meanwhile\n")
        case ["yield", path] if os.path.exists(path):
            os.replace(path, sys.argv[0])
        case ["noise"]:
            sys.stderr.write("y" * 3_000_000 + "\n")
        case ["refuse", *refusal]:
            print_line(f"refused {' '.join(refusal)}")


def wants(name: str) -> list[str]:
    """The words of a script's first line, which say what is to be done."""
    return texts[name][0].decode("latin-1").split() if texts[name] else []


def row(name: str) -> list[str]:
    """The row of a script, or what stands in its place."""
    match wants(name):
        case ["short"]:
            return []
        case ["other"]:
            return ["s999 pass 1"]
        case ["twice"]:
            return [f"{name} pass 1"] * 2
        case ["pending"]:
            return [f"{name} pending"]
        case ["row", *words]:
            return [f"{name} {' '.join(words)}"]
        case ["sender"]:
            return [f"{name} {SENDER}"]
        case ["told", key]:
            return [f"{name} pass {settings.get(key, '1')}"]
    return [f"{name} pass 1"]


def report() -> None:
    """Prints the rows and their totals."""
    rows = [line for name in texts for line in row(name)]
    total = f"total {len(texts)} pass {len(texts)} fail 0 syntax 0 unsupported 0 limit 0 pending 0"
    sys.stdout.write("\n".join([*rows, total]) + "\n")
    sys.stdout.flush()


def take(words: list[str]) -> None:
    """Does what a command says."""
    match words:
        case ["add", name, count]:
            texts[name] = lines(count)
            owed[name] = None
        case ["edit", name, first, removed, count]:
            begin = int(first) - 1
            texts[name][begin : begin + int(removed)] = lines(count)
            owed[name] = None
        case ["remove", name]:
            del texts[name]
        case ["set", key, _] if key.startswith("no_") or key in OLD_KEYS:
            print_line("refused 3 UnknownKey")
        case ["set", "recovery_algorithm", word] if word in OLD_WORDS:
            print_line("refused 4 BadValue")
        case ["set", key, word]:
            settings[key] = word
            owed.update(dict.fromkeys(texts))
        case ["settle"]:
            for name in texts:
                act(wants(name))
            explain()
            report()
        case ["show"]:
            report()


def lines(count: str) -> list[bytes]:
    """So many lines of the input."""
    return [sys.stdin.buffer.readline() for _ in range(int(count))]


def block(name: str, row: list[str], text: list[bytes]) -> bytes:
    """The explanation of a script that doesn't pass."""
    match text[:1]:
        case [b"crash\n"]:
            os.kill(os.getpid(), SEGV)
        case [b"fault\n"]:
            print("pdregress: 19 OutOfMemory", file=sys.stderr)
            sys.exit(2)
        case [b"silent\n"]:
            return b""
        case [b"flood\n"]:
            return b"  x\n" * 2_000_000
        case [b"stall\n"]:
            with open("mark", "w") as file:
                file.write(str(os.getpid()))
            time.sleep(60)
        case [b"other line\n"]:
            row = [row[0], "7", *row[2:]]
    verdict, line, *kind = row
    if "--json" in sys.argv:
        return explained_by_keys(name, verdict, int(line), kind, text)
    means = ": so it is" if text else ""
    return f"{name}:{line}: {' '.join([verdict, *kind])}{means}\n".encode() + b"".join(b"  " + it for it in text)


def explained_by_keys(name: str, verdict: str, line: int, kind: list[str], text: list[bytes]) -> bytes:
    """The explanation of a script that doesn't pass, as JSON.

    A line `WORDS: VALUE` of its text is printed by its key, and any other but a packet or a comment as what is found.
    Where all lines are empty, or a packet comes first, all is printed that the program has of such a row.
    """
    import json

    meaning = "so it is" if text else ""
    explained_keys: dict[str, object] = {"name": name, "line": line, "verdict": verdict, "what": meaning}
    if kind:
        explained_keys["kind"] = kind[0]
    lines = [it.decode("utf-8", "surrogateescape").rstrip("\n") for it in text if it.strip()]
    if not text:
        return b""
    if not lines or lines[0].startswith("+"):
        explained_keys |= KEYS[verdict] | (KEYS.get(kind[0], KEYS["packet"]) if kind else {})
        if "text_line" in explained_keys:
            explained_keys["text_line"] = line
    for each in lines:
        words, colon, value = each.partition(": ")
        if colon and words in LABELS:
            explained_keys[LABELS[words]] = {"name": value} if words == "state" else value
        elif not each.startswith(("+", "//")):
            explained_keys["found"] = each
    return json.dumps(explained_keys).encode() + b"\n"


def ending_of(name: str, words: bytes) -> bytes:
    """The explanation of the end of a script that passes: the first number in the words is that of packets left."""
    if "--json" not in sys.argv:
        return f"{name}:1: pass: ".encode() + words
    import json

    meaning = words.decode().rstrip("\n")
    count = next((int(it) for it in meaning.split() if it.isdecimal()), 0)
    explained_keys: dict[str, object] = {"name": name, "line": 1, "verdict": "pass", "what": meaning}
    explained_keys |= {"awaits_packet": "awaits no packet" not in meaning, "untaken_packets": ["* > . 1:2(1)"] * count}
    return json.dumps({**explained_keys, "more_untaken_packets": 0, "untaken_sent_by": []}).encode() + b"\n"


def explained(name: str) -> bytes:
    """The explanation of a script that has run, or nothing."""
    first, *text = texts[name] or [b""]
    match first.decode("latin-1").split():
        case ["row", verdict, *row] if verdict != "pass":
            return block(name, [verdict, *row], text)
        case ["sender"] if not SENDER.startswith("pass"):
            return block(name, SENDER.split(" "), [f"by {SENDER}\n".encode()])
        case ["row", "pass", _] if "--leftovers" in sys.argv:
            ends = [it.removeprefix(b"ends ") for it in text[:1] if it.startswith(b"ends ")]
            return b"".join(ending_of(name, it) for it in ends)
    return b""


def list_rules(name: str) -> None:
    """Prints the lines of a script's events that come to rules."""
    for words in (it.split() for it in texts[name]):
        if words[:1] == [b"rules"]:
            line = b"job 1 %b line %b rules %b\n" % (name.encode(), words[1], b" ".join(words[2:]))
            sys.stderr.buffer.write(line)


def explain() -> None:
    """Says which rules scripts come to that ran at this settle, and why they don't pass."""
    if "--rules" in sys.argv:
        for name in (it for it in owed if it in texts):
            list_rules(name)
    if "--explain" in sys.argv:
        sys.stderr.buffer.write(b"".join(explained(name) for name in owed if name in texts))
    sys.stderr.flush()
    owed.clear()


def main() -> None:
    """Takes commands to the end of the input."""
    if os.path.exists(os.path.join(os.path.dirname(sys.argv[0]), "dead")):
        end("pdregress: 19 OutOfMemory")
    if "--settings" in sys.argv:
        text = sys.argv[sys.argv.index("--settings") + 1]
        settings.update(dict(it.split(" = ") for it in text.splitlines()))
    words: list[str] = []
    while line := sys.stdin.buffer.readline():
        words = line.decode().split()
        take(words)
    if words[:1] not in (["settle"], ["show"]):
        take(["settle"])


main()
