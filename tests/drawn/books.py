"""Random lists of calls on a book, each with its answer by the plain model, as rows for crates/test_book."""

import re
from collections import Counter
from collections.abc import Iterator
from functools import cache

from drawn.drawing import Amount, SeededDice
from model.book import (
    CONNECTION,
    DEFAULTS,
    LINES,
    SETTINGS,
    Job,
    Model,
    Text,
    text_as_printed_lines,
    settings_text,
)

# How many calls a list has at most.
CALLS = 32

# Answers are made of the same pieces over and over; each ends after a `|`.
PIECES = re.compile(r"[^|]+\|?|\|")

# How many lines of kind `a` may be drawn in a row: 3 after the last line of the connection, and 15 more.
LONGEST = 3 + 15

# The settings in the order in which one is drawn.
DRAWN = (
    "mss sack wscale rcv_wnd min_rto_us max_rto_us tolerance_us initial_ssthresh granularity_us nagle "
    "initial_window sndbuf limited_transmit abc_limit slow_start_after_idle recovery_algorithm"
).split()


@cache
def fnv_1a_hash_of(answer: str) -> int:
    """The hash by Fowler, Noll and Vo of 32 bits (FNV-1a)."""
    total = 2_166_136_261
    for piece in PIECES.findall(answer):
        low = total % 256
        factor, rest = fnv_1a_factor_and_rest_of_piece(low, piece)
        total = ((total - low) * factor + rest) % 2**32
    return total


@cache
def fnv_1a_factor_and_rest_of_piece(low: int, piece: str) -> tuple[int, int]:
    """The effect of a piece on a sum: a factor for all but its lowest eight bits, and what these, `low`, become.

    Each octet is mixed into the lowest eight bits alone, and then the whole sum is multiplied.
    """
    factor, rest = 1, low
    for octet in piece.encode():
        factor = factor * 16_777_619 % 2**32
        rest = (rest ^ octet) * 16_777_619 % 2**32
    return factor, rest


def draw_line_kind_mostly_passing(dice: SeededDice) -> str:
    """The kind of a line, mostly of one that passes."""
    kind = dice.below(210)
    return list(LINES)[kind] if kind < len(LINES) else "a"


def draw_fewer_line_kinds_than(dice: SeededDice, bound: int) -> Text:
    """Fewer lines than so many."""
    return "".join(draw_line_kind_mostly_passing(dice) for _ in range(dice.below(bound)))


def draw_script_as_line_kinds(dice: SeededDice) -> Text:
    """Lines, in two of three texts after those that make a connection, with others between them."""
    opening = "".join(kind + draw_fewer_line_kinds_than(dice, 4) for kind in CONNECTION) if dice.below(3) else ""
    return opening + draw_fewer_line_kinds_than(dice, 16)


def line_kinds_as_words_of_row(text: Text) -> str:
    """A text as a row writes it after other words: lines of kind `a` in a row as one word with their number."""
    parts = re.findall("a+|[^a]", text)
    return " " + " | ".join(part if len(part) == 1 else f"a{len(part)}" for part in parts) if text else ""


def rows_defining_words_for_lines() -> Iterator[str]:
    """The rows that say for which lines words stand."""
    yield from (f"let {word} {line} -> ok" for word, line in LINES.items())
    yield from (f"let a{count} {text_as_printed_lines('a' * count)} -> ok" for count in range(2, LONGEST + 1))


class BookLists:
    """Draws lists of calls, and counts the kinds of calls by their answers."""

    def __init__(self, seed: int) -> None:
        self.dice = SeededDice(seed)
        self.counts: Counter[tuple[str, str]] = Counter()
        self.spared = 0
        self.spared_behind = 0

    def drawn_lists_without_end(self) -> Iterator[list[str]]:
        """Lists without end."""
        while True:
            yield list(self.rows())

    def rows(self) -> Iterator[str]:
        """One list, on a book that keeps one to three tracks."""
        tracks = self.dice.below(3) + 1
        model = Model(tracks)
        yield f"cache {tracks} -> ok"
        for _ in range(CALLS):
            acts = len(model.acts)
            yield from self.call(model)
            if len(model.acts) != acts:
                yield f"sum whole -> {fnv_1a_hash_of(model.whole())}"
        yield f"sum whole -> {fnv_1a_hash_of(model.whole())}"
        yield f"sum log -> {fnv_1a_hash_of(model.log())}"
        self.spared += model.spared
        self.spared_behind += model.spared_behind

    def call(self, model: Model) -> Iterator[str]:
        """A random call and its answer."""
        script = f"s{self.dice.below(3)}"
        kind = self.dice.below(26)
        if kind < 3:
            text = draw_script_as_line_kinds(self.dice)
            yield self.row("add", f" {script}{line_kinds_as_words_of_row(text)}", model.add(script, text))
        elif kind < 9:
            first, removed = self.dice.below(32), self.dice.below(3)
            text = draw_line_kind_mostly_passing(self.dice) if self.dice.below(3) else ""
            yield self.row(
                "edit",
                f" {script} {first} {removed}{line_kinds_as_words_of_row(text)}",
                model.edit(script, first, removed, text),
            )
        elif kind < 10:
            yield self.row("remove", f" {script}", model.remove(script))
        elif kind < 13:
            key, value = self.draw_setting_key_and_value()
            yield self.row("set", f" {key} {value}", model.set(key, value))
        elif kind < 18:
            yield from self.start(model)
        else:
            yield from self.end(model, kind, script)

    def row(self, call: str, words: str, answer: str) -> str:
        """A row, which is counted."""
        self.counts[call, answer] += 1
        return f"{call}{words} -> {answer}"

    def draw_setting_key_and_value(self) -> tuple[str, str]:
        """One of the settings with one of its values; in one of eight what is refused."""
        match self.dice.below(16):
            case 0:
                return "tolerance", "1"
            case 1:
                return "tolerance_us", "1000001"
        key = DRAWN[self.dice.below(len(DRAWN))]
        return key, SETTINGS[key][1 - self.dice.below(2)]

    def start(self, model: Model) -> Iterator[str]:
        """A start, and the run of its job."""
        job = model.start()
        if not job:
            yield self.row("start", "", "none")
            return
        self.counts["start", "a job"] += 1
        yield f"start -> {job.number} {job.script}, {len(job.text)} lines, {job.settings['tolerance_us']} us"
        whole = f"{job.number} {job.script}, {settings_text(job.settings)}{text_as_printed_lines(job.text)}"
        yield f"sum job {job.number} -> {fnv_1a_hash_of(whole)}"
        yield f"run {job.number} -> {model.run_job_with_its_track(job)}"

    def end(self, model: Model, kind: int, script: str) -> Iterator[str]:
        """The end of a job: of one of the last three, of any, or of another number."""
        jobs = len(model.jobs)
        if kind < 24:
            number = max(jobs - self.dice.below(3), 1) if kind < 23 else self.dice.below(max(jobs, 1)) + 1
            if number <= jobs:
                yield self.row("finish", f" {number}", model.finish(model.jobs[number - 1]))
            return
        number = self.dice.below(jobs + 2)
        if kind == 25:
            yield self.row("abandon", f" {number}", model.abandon(number))
            return
        settings = model.jobs[number - 1].settings if 0 < number <= jobs else DEFAULTS
        tolerance = settings["tolerance_us"]
        name, tolerance, text = ((script, tolerance, "b" * 10), (script, "777", "a"), ("s9", tolerance, "a"))[
            self.dice.below(3)
        ]
        job = Job(number, name, text, settings | {"tolerance_us": tolerance})
        yield self.row(
            "give",
            f" {number} {name} {tolerance}{line_kinds_as_words_of_row(text)}",
            model.refuse_foreign_result_of_job(job),
        )


def rows(seed: int, amount: Amount) -> Iterator[str]:
    """All rows: what is counted, the words that stand for lines, and the lists."""
    lists = BookLists(seed)
    made = list(amount.take_lists_until_enough(lists.drawn_lists_without_end()))
    yield f"== {len(made)} random lists of {CALLS} calls"
    for (call, answer), count in sorted(lists.counts.items()):
        yield f"== {call}: {answer} {count}"
    yield f"== events not run again {lists.spared}"
    yield f"== of them behind another setting {lists.spared_behind}"
    yield from rows_defining_words_for_lines()
    for number, each in enumerate(made, 1):
        yield f"# list {number}"
        yield from each
