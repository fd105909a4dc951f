"""Sets of octets as spans, each from its first number up to the one after its last."""

from collections.abc import Iterable, Iterator

Span = tuple[int, int]
Spans = list[Span]


def joined(spans: Iterable[Span]) -> Spans:
    """The same octets as spans in order, of which no two touch."""
    whole: Spans = []
    for start, end in sorted(spans):
        if whole and start <= whole[-1][1]:
            whole[-1] = (whole[-1][0], max(whole[-1][1], end))
        elif start < end:
            whole.append((start, end))
    return whole


def within(spans: Iterable[Span], first: int, last: int) -> Spans:
    """The parts of spans that lie from one number up to another."""
    return [(max(start, first), min(end, last)) for start, end in spans if max(start, first) < min(end, last)]


def gaps(spans: Spans, first: int, last: int) -> Iterator[Span]:
    """The gaps that joined spans leave from one number up to another."""
    place = first
    for start, end in within(spans, first, last):
        if place < start:
            yield place, start
        place = end
    if place < last:
        yield place, last


def size(spans: Iterable[Span]) -> int:
    """How many octets there are in spans of which no two overlap."""
    return sum(end - start for start, end in spans)
