"""Where the parts of a script stand: its events, and the fields of each."""

from collections.abc import Iterator, Mapping
from dataclasses import dataclass
from functools import cached_property

from pdsuite.packetdrill.items import Call, Item, Packet
from pdsuite.packetdrill.lines import Extent
from pdsuite.packetdrill.reader import parse_items_until_syntax_error
from pdsuite.packetdrill.tokens import ScriptSyntaxError, Token, TokenKind, tokens_of


@dataclass(frozen=True, eq=False)
class Event:
    """An item of a script, and the text that it is of."""

    item: Item
    text: str

    @cached_property
    def field_extents(self) -> Mapping[str, Extent]:
        """The places of its fields, by their names.

        A packet has `time`, `flags`, `seq`, `ack`, `win` and `options`, as far as they are written; a call `time`,
        `call`, `arguments` and `result`.
        """
        return _field_extents(self.text, self.item)

    @property
    def extent(self) -> Extent:
        """Where it stands."""
        return Extent(self.item.start, self.item.end)

    @property
    def is_expected_outbound_packet(self) -> bool:
        """Whether it is a packet that is expected to leave."""
        return isinstance(self.item.what, Packet) and not self.item.what.is_inbound

    @property
    def is_input(self) -> bool:
        """Whether it is a packet that arrives or a call."""
        return isinstance(self.item.what, Call) or (isinstance(self.item.what, Packet) and self.item.what.is_inbound)


@dataclass(frozen=True)
class Layout:
    """A text's items, up to its end or to where no script goes on."""

    text: str
    items: tuple[Event, ...]
    fault: ScriptSyntaxError | None

    @property
    def packets_and_calls(self) -> list[Event]:
        """The packets and calls."""
        return [it for it in self.items if isinstance(it.item.what, Packet | Call)]

    def item_at(self, offset: int) -> Event | None:
        """The item that stands at a place."""
        return next((it for it in self.items if offset in it.extent), None)

    def find_item_starting_on_line(self, line: int, printed: str = "") -> Event | None:
        """The item that begins in a line, counted from 1; of several the one that the program shows as `printed`."""
        found = [it for it in self.items if it.item.line == line]
        alike = [
            it
            for it in found
            if _without_plain_and_escaped_blanks(self.text[it.item.start : it.item.end])
            == _without_plain_and_escaped_blanks(printed)
        ]
        return next(iter([*alike, *found]), None)


NOTHING = Layout("", (), None)


def layout_of(text: str) -> Layout:
    """Where the parts of a text stand, as far as it is a script."""
    reading = parse_items_until_syntax_error(text)
    return Layout(text, tuple(Event(it, text) for it in reading.items), reading.fault)


def _without_plain_and_escaped_blanks(text: str) -> str:
    """A text without blanks, as the program shows others than the blank itself."""
    for blank in (" ", "\t", "\n", "\r", "\\x09", "\\x0a", "\\x0d"):
        text = text.replace(blank, "")
    return text


def _field_extents(text: str, item: Item) -> Mapping[str, Extent]:
    tokens = [Token(it.kind, it.text, it.start + item.start) for it in tokens_of(text[item.start : item.end])]
    time = [it for it in tokens if it.start < item.action]
    action = [it for it in tokens if it.start >= item.action]
    fields = {"time": _extent_of_tokens(time)} if time else {}
    match item.what:
        case Packet():
            fields |= dict(_packet_field_extents_after_arrow(action))
        case Call():
            fields |= dict(_call_field_extents([it for it in action if it.start >= action[0].start]))
    return fields


def _packet_field_extents_after_arrow(tokens: list[Token]) -> Iterator[tuple[str, Extent]]:
    """The fields after the arrow, which may come after the end of a blocking call."""
    arrow = next(place for place, it in enumerate(tokens) if it.text in ("<", ">"))
    number = next(place for place, it in enumerate(tokens) if place > arrow and it.kind is TokenKind.NUMBER)
    yield "flags", _extent_of_tokens(tokens[arrow + 1 : number])
    yield "seq", _extent_of_tokens(tokens[number : number + 6])
    rest = tokens[number + 6 :]
    while rest and rest[0].text in ("ack", "win"):
        yield rest[0].text, _extent_of_tokens(rest[:2])
        rest = rest[2:]
    if rest:
        yield "options", _extent_of_tokens(rest)


def _call_field_extents(tokens: list[Token]) -> Iterator[tuple[str, Extent]]:
    """The name, what stands in its brackets, and the result with the name of an error."""
    name = next(place for place, it in enumerate(tokens) if it.kind is TokenKind.WORD)
    yield "call", _extent_of_tokens(tokens[name : name + 1])
    depth = 0
    for place, it in enumerate(tokens[name + 1 :], name + 1):
        depth += (it.text in ("(", "[", "{")) - (it.text in (")", "]", "}"))
        if depth == 0:
            break
    yield "arguments", _extent_of_tokens(tokens[name + 1 : place + 1])
    result = tokens[place + 2 :]
    note = next((at for at, it in enumerate(result) if it.text == "("), len(result))
    yield "result", _extent_of_tokens(result[:note])


def _extent_of_tokens(tokens: list[Token]) -> Extent:
    return Extent(tokens[0].start, tokens[-1].end)
