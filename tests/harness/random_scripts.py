"""Random scripts after a handshake, near what is sent, with comments and blank lines in many places."""

import random
from collections.abc import Iterator
from dataclasses import dataclass


@dataclass(frozen=True)
class RandomScript:
    """A script with its settings; `name` says where it comes from."""

    name: str
    settings: str
    text: bytes


SETUP = b"""0 socket(..., SOCK_STREAM, IPPROTO_TCP) = 3
+0 bind(3, ..., ...) = 0
+0 listen(3, 1) = 0
+0.1 < S 0:0(0) win 32792 <mss 1000,sackOK,nop,nop,nop,wscale 7>
+0 > S. 0:0(0) ack 1 <...>
+0.1 < . 1:1(0) ack 1 win 257
+0 accept(3, ..., ...) = 4
"""


# The texts that may stand before the first event of a random script: half of them are empty.
STARTS = [""] * 4 + ["\n", " \n\n", "/*/ = 3 */ ", "// (\n"]

# The texts that may stand after a random event: most often the end of its line.
ENDS = ["\n"] * 8 + [
    " ",
    " // a\n",
    " /* b */\n",
    "\n\n",
    "\n// c\n",
    "/* d\n e */",
    "\n  \n//= f\n",
    " /*/ g */ // h\n",
    "\n/* i */ ",
    "\n  //= at 0.000000 CLOSED connection:none\n",
]

# The texts that may stand for the octets that are written: half of them are dots.
TEXTS = ["..."] * 5 + ['"a)=b"', '"= 1 (" /* "i" */', "%{ ) = 1 // }% // j\n", "--k=(/*= ", "{k = [1]}"]

# The texts that may stand after a result: half of them are empty.
NOTES = [""] * 5 + [" (l)", " (one /* two */ three)", "  (/*/ m */ (n)) /* o */", ' (")" // p\n)', " (q\n\n)"]


def draw_event_and_advance_top_by_writes(dice: random.Random, top: list[int]) -> str:
    """An event that may follow a handshake, near what was written so far."""
    time = dice.choice(["+0", "+0.1", "+0.25", "+1", "+3.5", "+0.000001"])
    kind = dice.randrange(10)
    if kind < 3:
        count = dice.choice([0, 1, 10, 500, 1000, 2500, 10000])
        top[0] += count
        result = dice.choice([count, 1])
        return f"{time} write(4, {dice.choice(TEXTS)}, {count}) = {result}{dice.choice(NOTES)}"
    if kind < 6:
        ack = dice.randrange(1, top[0] + 2)
        blocks = ""
        if dice.random() < 0.4:
            left = dice.randrange(1, top[0] + 1)
            blocks = f" <nop,nop,sack {left}:{left + dice.choice([1, 1000, 2000])}>"
        return f"{time} < . 1:1(0) ack {ack} win {dice.choice([0, 1, 8, 257, 2000])}{blocks}"
    if kind == 6:
        choices = ["close(4) = 0", "setsockopt(4, SOL_TCP, TCP_NODELAY, [1], 4) = 0", "write(5, ..., 1) = 1"]
        return f"{time} {dice.choice(choices)}"
    if kind == 7 and dice.random() < 0.2:
        return f"{time} < {dice.choice(['F.', 'R.'])} 1:1(0) ack {top[0]} win 257"
    seen = dice.choice(["*", "+0~+2", "+0", "+1", "+0.2~+0.4", "+9"])
    return f"{seen} > P. 1:1001(1000) ack 1"


def random_scripts(count: int) -> Iterator[RandomScript]:
    """Scripts with random events after a handshake.

    Some have comments, texts, notes, several events on a line and blank lines.
    """
    for seed in range(count):
        dice = random.Random(seed)
        top = [1]
        parts = [dice.choice(STARTS), SETUP.decode()]
        for _ in range(dice.randrange(1, 25)):
            parts.append(draw_event_and_advance_top_by_writes(dice, top))
            parts.append(dice.choice(ENDS))
        settings = dice.choice(["", "", "sack = false", "tolerance_us = 0", "min_rto_us = 200000", "mss = 536"])
        yield RandomScript(f"random:{seed}", settings, "".join(parts).encode())
