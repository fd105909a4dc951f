"""Random packets, each as a row of numbers and as it is written in a script, for crates/test_sender."""

from collections.abc import Iterator
from itertools import repeat

from drawn.drawing import Amount, SeededDice

# The flags in the order in which they are written, and one of how many packets has each.
FLAGS = {"F": 4, "S": 4, "R": 4, "P": 2}

# A part of a packet: its words in a row, and how it is written in a script.
Part = tuple[str, str]


def microseconds_as_seconds_text(moment: int) -> str:
    """Microseconds as seconds, with no more decimals than it takes."""
    return f"{moment // 1_000_000}.{moment % 1_000_000:06}".rstrip("0").rstrip(".")


def draw_microseconds(dice: SeededDice) -> int:
    """Microseconds below 3,600 s, often with few decimals."""
    return dice.below(3_600) * (1, 1_000, 100_000, 1_000_000)[dice.below(4)]


def time(dice: SeededDice) -> Part:
    """A time."""
    first = draw_microseconds(dice)
    last = first + draw_microseconds(dice) % 1_000_000_000
    match dice.below(6):
        case 0:
            return "any", "*"
        case 1:
            return f"at {first}", microseconds_as_seconds_text(first)
        case 2:
            return (
                f"between {first} {last}",
                f"{microseconds_as_seconds_text(first)}~{microseconds_as_seconds_text(last)}",
            )
        case 3:
            return (
                f"within {first} {last}",
                f"+{microseconds_as_seconds_text(first)}~+{microseconds_as_seconds_text(last)}",
            )
    return f"after {first}", f"+{microseconds_as_seconds_text(first)}"


def number(dice: SeededDice) -> int:
    """A sequence number, often a small one."""
    return dice.below((20, 100_000, 2**32 - 1)[dice.below(3)])


def flags(dice: SeededDice) -> str:
    """Some of the flags."""
    bits = "".join(flag for flag, packets in FLAGS.items() if dice.below(packets) == 0)
    return bits + ("." if dice.below(4) else "") or "-"


def blocks(dice: SeededDice) -> Part:
    """One to four blocks."""
    edges = [(number(dice), number(dice)) for _ in range(dice.below(4) + 1)]
    words = " ".join(f"{start} {end}" for start, end in edges)
    return f"sack {len(edges)} {words}", "sack " + " ".join(f"{start}:{end}" for start, end in edges)


def option(dice: SeededDice) -> Part:
    """An option."""
    match dice.below(7):
        case 0:
            mss = f"mss {dice.below(65_536)}"
            return mss, mss
        case 1:
            wscale = f"wscale {dice.below(256)}"
            return wscale, wscale
        case 2:
            value, echo = number(dice), number(dice)
            return f"TS {value} {echo}", f"TS val {value} ecr {echo}"
        case 3:
            return blocks(dice)
        case kind:
            word = ("sackOK", "nop", "eol")[kind - 4]
            return word, word


def row(dice: SeededDice) -> str:
    """A packet whose end is at least its start: its row, with how it is written at the end."""
    when, written_when = time(dice)
    bits = flags(dice)
    start, ack, window = number(dice), number(dice), dice.below(65_536)
    octets = dice.below(min(2_000, 2**32 - start))
    options = [option(dice) for _ in range(dice.below(7))]
    words = " ".join([str(len(options)), *(words for words, _ in options)])
    written = ",".join(written for _, written in options)
    event = f"{written_when} > {bits} {start}:{start + octets}({octets}) ack {ack} win {window}"
    behind = f" <{written}>" if options else ""
    return f"packet {when} {bits} {start} {start + octets} {ack} {window} {words} {event}{behind}"


def rows(seed: int, amount: Amount) -> Iterator[str]:
    """All rows: a packet each, and the title that ends them."""
    dice = SeededDice(seed)
    for packet in amount.take_lists_until_enough([row(dice)] for _ in repeat(None)):
        yield from packet
    yield "== random packets"
