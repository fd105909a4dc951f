"""Runs the program on random input of several kinds and says how it fared; tools/fuzz.sh calls it."""

import json
import os
import random
import re
import subprocess
import sys
import tempfile
import time
from pathlib import Path

sys.path.insert(0, str(Path(__file__).resolve().parents[1] / "tests"))

from harness.compare import octets_of_add_command  # noqa: E402

OCTETS = 1_000_000
SECONDS = 60
# The bound on the memory of a run, in KiB. The program holds its input's texts and what it read of one of them.
MOST_KIB = 16 * 1024
# How many workers there are beside a stream, and how many streams a round has.
WORKERS = 8
STREAMS = 100
# How many octets an argument has at most: the system takes hardly longer ones, and none with a zero in it.
WORD = 125_000
LAST_LINE = re.compile(
    rb"total \d+ pass \d+ fail \d+ syntax \d+ unsupported \d+ limit \d+ pending \d+\n\Z"
)
FAULT = re.compile(rb"pdregress: \d+ [A-Za-z]+\n")
# The blocks of explanations: lines of octets that print, each with 300 of them at most after its place or indent.
BLOCKS = re.compile(rb"(?:[A-Za-z0-9_.-]+:\d+: [ -~]{1,300}\n(?:  [ -~]{1,300}\n)*)*")

NAMES = [b"a", b"b", b"c", b"script", b"a.b", b"x" * 64]
KEYS = [
    b"mss", b"sack", b"wscale", b"sndbuf", b"rcv_wnd", b"initial_ssthresh", b"min_rto_us",
    b"max_rto_us", b"granularity_us", b"nagle", b"tolerance_us", b"initial_window",
    b"limited_transmit", b"abc_limit", b"slow_start_after_idle", b"recovery_algorithm",
]
VALUES = [
    b"0", b"1", b"true", b"false", b"1000", b"65495", b"1048576", b"x", b"-1", b"18446744073709551616", b"rfc5681",
    b'"rfc6928"', b"rfc6675",
]
# Values that many settings take, and values of one setting.
RIGHT = [b"1000", b"5000", b"60000000", b"true", b"rfc6928", b"rfc9937"]
PIECES = [
    b"+0", b"0", b"+0.1", b"*", b"+0~+1", b"0.5~0.7", b"...", b" ", b" ", b"\t", b"<", b">", b"S", b"S.", b".", b"P.",
    b"F.", b"R", b"R.", b"0:0(0)", b"1:1(0)", b"1:1001(1000)", b"ack 1", b"ack 1001", b"win 257", b"win 32792",
    b"<mss 1000,sackOK,nop,nop,nop,wscale 7>", b"<sack 1001:2001,nop,nop>", b"<...>", b"socket(..., SOCK_STREAM, IPPROTO_TCP)",
    b"bind(3, ..., ...)", b"listen(3, 1)", b"accept(3, ..., ...)", b"write(4, ..., 1000)", b"close(4)", b"= 0", b"= 3",
    b"= 4", b"= -1 EAGAIN (note)", b"(", b")", b"[", b"]", b"{", b"}", b"%{", b"}%", b"`ls`", b'"text"', b"/*", b"*/",
    b"//", b"--tolerance_usecs=5000", b"--", b"0x1f", b"4294967296", b"\\", b"\x00", b"\xff",
]
LINES = [
    b"0 socket(..., SOCK_STREAM, IPPROTO_TCP) = 3", b"+0 bind(3, ..., ...) = 0", b"+0 listen(3, 1) = 0",
    b"+0.1 < S 0:0(0) win 32792 <mss 1000,sackOK,nop,nop,nop,wscale 7>", b"+0 > S. 0:0(0) ack 1 <...>",
    b"+0.1 < . 1:1(0) ack 1 win 257", b"+0 accept(3, ..., ...) = 4",
]
TRAFFIC = [
    b"+0 write(4, ..., %d) = %d", b"+0.1 < . 1:1(0) ack %d win %d", b"+0 > . %d:%d(1000) ack 1",
    b"+0.01 < . 1:1(0) ack 1 win 257 <sack %d:%d,nop,nop>", b"* > P. %d:%d(1000) ack 1", b"+1 < R 1:1(0) win %d%d",
]


def random_octets_of_count(dice, count):
    return dice.randbytes(count)


def random_script_pieces_in_any_order(dice, count):
    """About so many octets of what scripts are made of, in any order."""
    parts, size = [], 0
    while size < count:
        part = dice.choice(PIECES) if dice.random() < 0.9 else b"\n"
        parts.append(part + b" ")
        size += len(part) + 1
    return b"".join(parts)


def random_unordered_traffic_after_setup(dice, count):
    """About so many octets of a connection with any packets and calls."""
    lines, size = list(LINES), 0
    while size < count:
        numbers = (dice.choice((1, 1001, 2001, dice.randrange(1, 100_000))), dice.choice((1001, 2001, 3001, 257)))
        line = dice.choice(TRAFFIC) % numbers
        if dice.random() < 0.02:
            line = bytes(dice.randrange(256) if dice.random() < 0.1 else octet for octet in line).replace(b"\n", b" ")
        lines.append(line)
        size += len(line) + 1
    return b"\n".join(lines)


def add_script_command_of(name, text):
    return octets_of_add_command(name.decode(), text)


def random_add_and_edit_commands_only(dice, make):
    """Scripts of up to 60,000 octets each, some of them edited."""
    parts, size, number = [], 0, 0
    while size < OCTETS:
        number += 1
        part = add_script_command_of(b"s%d" % number, make(dice, dice.randrange(1, 60_000)))
        if dice.random() < 0.3:
            part += b"edit s%d %d %d 1\n+0 close(4) = 0\n" % (number, dice.randrange(1, 40), dice.randrange(8))
        parts.append(part)
        size += len(part)
    return b"".join(parts)


def random_well_formed_command_stream(dice):
    """Commands in any order with any arguments, which a first bad one would end: each is well formed."""
    parts, size = [], 0
    while size < OCTETS:
        kind, name = dice.randrange(8), dice.choice(NAMES)
        if kind < 3:
            part = add_script_command_of(name, random_unordered_traffic_after_setup(dice, dice.randrange(1, 2_000)))
        elif kind < 5:
            lines = [dice.randbytes(dice.randrange(60)).replace(b"\n", b"") for _ in range(dice.randrange(5))]
            part = b"edit %s %d %d %d\n" % (name, dice.randrange(12), dice.randrange(4), len(lines))
            part += b"".join(line + b"\n" for line in lines)
        elif kind < 6:
            part = b"remove %s\n" % name
        else:
            part = b"set %s %s\n" % (dice.choice(KEYS), dice.choice(VALUES))
        if dice.random() < 0.01:
            part += dice.choice((b"show\n", b"settle\n"))
        parts.append(part)
        size += len(part)
    return b"".join(parts)


def random_settings_text(dice):
    """One settings text as long as a word can be: comments and settings, and in every other one noise."""
    keys = dice.sample(KEYS, dice.randrange(len(KEYS)))
    is_noisy = dice.random() < 0.5
    parts, size = [], 0
    while size < WORD - 200:
        draw = dice.random()
        if keys and draw < 0.01:
            value = dice.choice(RIGHT) if dice.random() < 0.9 else dice.choice(VALUES)
            part = b"%s = %s\n" % (keys.pop(), value)
        elif is_noisy and draw < 0.011:
            part = dice.randbytes(20)
        else:
            part = b"# " + bytes(dice.randrange(32, 127) for _ in range(60)) + b"\n"
        parts.append(part)
        size += len(part)
    return b"".join(parts).replace(b"\0", b"0")[:WORD]


def random_command_stream_perhaps_ending_badly(dice):
    """Up to sixty commands without `show`, on scripts of up to 20,000 octets; one in five ends in what is no command."""
    parts = []
    for _ in range(dice.randrange(1, 60)):
        draw, name = dice.random(), dice.choice(NAMES)
        if draw < 0.4:
            part = add_script_command_of(name, random_unordered_traffic_after_setup(dice, dice.choice((1, 200, 2_000, 20_000))))
        elif draw < 0.7:
            lines = [dice.choice((b"+0 close(4) = 0", b"+0 > . 1:1001(1000) ack 1", b"/*", b"*/", b"x"))][: dice.randrange(2)]
            part = b"edit %s %d %d %d\n" % (name, dice.randrange(12), dice.randrange(4), len(lines))
            part += b"".join(line + b"\n" for line in lines)
        elif draw < 0.8:
            part = b"remove %s\n" % name
        elif draw < 0.95:
            part = b"set %s %s\n" % (dice.choice(KEYS), dice.choice(VALUES + RIGHT))
        else:
            part = b"settle\n"
        parts.append(part)
    if dice.random() < 0.2:
        parts.append(dice.choice((b"bye\n", b"add z 3\nx\n", dice.randbytes(20))))
    return b"".join(parts)


KINDS = {
    "octets as commands": lambda dice: [([], random_octets_of_count(dice, OCTETS))],
    "commands": lambda dice: [([], random_well_formed_command_stream(dice))],
    "octets as scripts": lambda dice: [([], random_add_and_edit_commands_only(dice, random_octets_of_count))],
    "pieces as scripts": lambda dice: [([], random_add_and_edit_commands_only(dice, random_script_pieces_in_any_order))],
    "traffic as scripts": lambda dice: [([], random_add_and_edit_commands_only(dice, random_unordered_traffic_after_setup))],
    "octets as settings": lambda dice: [
        ([b"--settings", random_octets_of_count(dice, WORD).replace(b"\0", b"0")], b"") for _ in range(OCTETS // WORD)
    ],
    "settings": lambda dice: [([b"--settings", random_settings_text(dice)], b"") for _ in range(OCTETS // WORD)],
}


class RunFigures:
    def __init__(self):
        self.runs, self.ends, self.seconds, self.kib, self.last_kib, self.octets = 0, {}, 0.0, 0, 0, 0


def run_result_if_ended_updating_figures(command, text, figures):
    """Runs a program, its time and memory added to the figures; how it ended, or none where it came to no end."""
    with tempfile.NamedTemporaryFile() as resident:
        bound = ["timeout", str(SECONDS), "/usr/bin/time", "-f", "%M", "-o", resident.name]
        begin = time.monotonic()
        ended = subprocess.run([*bound, *command], input=text, capture_output=True)
        figures.seconds = max(figures.seconds, time.monotonic() - begin)
        last = resident.read().split()[-1:]
    if ended.returncode == 124 or not last:
        return None
    figures.last_kib = int(last[0])
    figures.kib = max(figures.kib, figures.last_kib)
    return ended


def run_and_find_fault_in_result(program, arguments, text, figures):
    """One run, its figures added; what was wrong, if something was."""
    figures.runs += 1
    ended = run_result_if_ended_updating_figures([program, *arguments], text, figures)
    if ended is None:
        return "no end within %d s" % SECONDS
    figures.ends[ended.returncode] = figures.ends.get(ended.returncode, 0) + 1
    return find_fault_in_status_output_memory(ended.returncode, ended.stdout, ended.stderr, figures.last_kib)


def find_difference_with_and_without_workers(program, text, figures):
    """One stream without workers and with some; how the outputs differ, if they do."""
    outputs = []
    for workers in (0, WORKERS):
        ended = run_result_if_ended_updating_figures([program, "--workers", str(workers)], text, figures)
        if ended is None:
            return "no end within %d s with %d workers" % (SECONDS, workers)
        if figures.last_kib > MOST_KIB:
            return "%d KiB with %d workers" % (figures.last_kib, workers)
        outputs.append((ended.returncode, ended.stdout, ended.stderr))
    status, output, errors = outputs[0]
    figures.runs += 1
    figures.ends[status] = figures.ends.get(status, 0) + 1
    figures.octets += len(output)
    if outputs[1] != outputs[0]:
        return "status %d, then %d with workers, whose output differs" % (status, outputs[1][0])
    if status not in (0, 1, 2) or (status == 2) != bool(FAULT.match(errors)):
        return "status %d, and wrote %r" % (status, errors[:80])
    return None


def find_difference_with_and_without_explain(program, text, figures):
    """One stream without and with reasons; how the outputs differ, if they do."""
    plain = subprocess.run([program], input=text, capture_output=True, timeout=SECONDS)
    with open("/dev/full", "wb") as full:
        unread = subprocess.run([program, "--explain"], input=text, stdout=subprocess.PIPE, stderr=full, timeout=SECONDS)
    if (unread.returncode, unread.stdout) != (plain.returncode, plain.stdout):
        return "another report or status where nobody reads"
    for options in ([], ["--only", "a"], ["--json"]):
        ended = run_result_if_ended_updating_figures([program, "--explain", *options], text, figures)
        if ended is None:
            return "no end within %d s with %s" % (SECONDS, options)
        if figures.last_kib > MOST_KIB:
            return "%d KiB with %s" % (figures.last_kib, options)
        if (ended.returncode, ended.stdout) != (plain.returncode, plain.stdout):
            return "another report or status with %s" % options
        if not ended.stderr.endswith(plain.stderr) or not are_explanation_blocks(ended.stderr[: -len(plain.stderr) or None], options):
            return "wrote %r with %s" % (ended.stderr[-200:], options)
        figures.octets += len(ended.stderr)
    figures.runs += 1
    return None


def are_explanation_blocks(text, options):
    """Whether a text is blocks, or with --json an object a line."""
    if "--json" not in options:
        return bool(BLOCKS.fullmatch(text)) and (not options or all(it.startswith((b"a:", b"  ")) for it in text.split(b"\n")[:-1]))
    try:
        return all(isinstance(json.loads(line), dict) for line in text.decode("ascii").splitlines())
    except ValueError:
        return False


def find_fault_when_output_or_input_fails(program, text, workers):
    """One stream whose output or whose input fails; what is wrong about the fault, if something."""
    command = [program, "--workers", str(workers)]
    with open("/dev/full", "wb") as full:
        ended = subprocess.run(command, input=text + b"settle\n", stdout=full, stderr=subprocess.PIPE, timeout=SECONDS)
    if (ended.returncode, ended.stderr) != (2, b"pdregress: 18 Write\n"):
        return "an output that takes nothing: status %d, wrote %r" % (ended.returncode, ended.stderr[:80])
    folder = os.open("/", os.O_RDONLY)
    try:
        ended = subprocess.run(command, stdin=folder, capture_output=True, timeout=SECONDS)
    finally:
        os.close(folder)
    if (ended.returncode, ended.stdout, ended.stderr) != (2, b"", b"pdregress: 17 Read\n"):
        return "an input that can't be read: status %d, wrote %r" % (ended.returncode, ended.stderr[:80])
    return None


def print_and_count_faults_with_workers(program, rounds, seed):
    """Streams without workers and with some, and streams that fail; prints a line and gives how many were wrong."""
    figures, wrong = RunFigures(), 0
    for number in range(seed, seed + rounds):
        dice = random.Random(f"beside {number}")
        faults = [find_difference_with_and_without_workers(program, random_command_stream_perhaps_ending_badly(dice), figures) for _ in range(STREAMS)]
        faults += [find_fault_when_output_or_input_fails(program, add_script_command_of(b"a", random_unordered_traffic_after_setup(dice, 200)), workers) for workers in (0, WORKERS)]
        for fault in filter(None, faults):
            wrong += 1
            print(f"with workers, seed {number}: {fault}")
    ends = ", ".join(f"{count} with status {status}" for status, count in sorted(figures.ends.items()))
    print(
        f"with {WORKERS} workers: {figures.runs} streams, {ends}, {figures.octets} octets the same; "
        f"{figures.seconds:.2f} s at most, {figures.kib} KiB at most"
    )
    return wrong


def print_and_count_faults_of_explaining(program, rounds, seed):
    """Streams that are explained; prints a line and gives how many were wrong."""
    figures, wrong = RunFigures(), 0
    for number in range(seed, seed + rounds):
        dice = random.Random(f"explaining {number}")
        for fault in filter(None, (find_difference_with_and_without_explain(program, random_command_stream_perhaps_ending_badly(dice), figures) for _ in range(STREAMS))):
            wrong += 1
            print(f"explaining, seed {number}: {fault}")
    print(
        f"explaining: {figures.runs} streams, {figures.octets} octets of blocks; "
        f"{figures.seconds:.2f} s at most, {figures.kib} KiB at most"
    )
    return wrong


def find_fault_in_status_output_memory(status, output, errors, kib):
    if status not in (0, 1, 2):
        return "status %d" % status
    if status < 2 and (errors or not LAST_LINE.search(output)):
        return "status %d, and no report at the end" % status
    if status == 2 and not (FAULT.match(errors) or errors.startswith((b"error: ", b"pdregress: the arguments"))):
        return "status 2, and no fault named: %r" % errors[:80]
    if kib > MOST_KIB:
        return "%d KiB" % kib
    return None


def main():
    program, rounds, seed = sys.argv[1], int(sys.argv[2]), int(sys.argv[3])
    wrong = 0
    for kind, make in KINDS.items():
        figures = RunFigures()
        for number in range(seed, seed + rounds):
            for arguments, text in make(random.Random(f"{kind} {number}")):
                fault = run_and_find_fault_in_result(program, arguments, text, figures)
                if fault:
                    wrong += 1
                    print(f"{kind}, seed {number}: {fault}")
        ends = ", ".join(f"{count} with status {status}" for status, count in sorted(figures.ends.items()))
        print(f"{kind}: {figures.runs} runs, {ends}; {figures.seconds:.2f} s at most, {figures.kib} KiB at most")
    wrong += print_and_count_faults_with_workers(program, rounds, seed)
    wrong += print_and_count_faults_of_explaining(program, rounds, seed)
    print(f"{wrong} wrong, bound {MOST_KIB} KiB and {SECONDS} s a run")
    sys.exit(1 if wrong else 0)


main()
