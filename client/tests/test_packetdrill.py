"""Foreign scripts as items: what is read of each construct, and where reading ends."""

import random

import pytest

from pdsuite.packetdrill.items import Call, Code, Command, HeaderOption, Packet, TcpOption, Time
from pdsuite.packetdrill.reader import parse_items_until_syntax_error
from pdsuite.packetdrill.tokens import ScriptSyntaxError, TokenKind, tokens_of

TOKENS = [
    ("0 12 0x1F 0xg 0x1g a_1", "number number hexadecimal word word word"),
    (".5 0.25 1.x", "decimal decimal number symbol word"),
    ("... .... 0...1", "dots dots symbol number dots number"),
    ("--a --b=c(d -- --", "option option symbol symbol symbol symbol"),
    ('"a\\"b" `x\ny` %{ } % }%', "string command code"),
    ("a//b\nc/*d\n*/e / *", "word word word symbol symbol"),
]


@pytest.mark.parametrize(("text", "kinds"), TOKENS, ids=range(len(TOKENS)))
def test_the_longest_piece_is_a_token(text: str, kinds: str) -> None:
    tokens = list(tokens_of(text))
    assert [it.kind for it in tokens] == list(map(TokenKind, kinds.split()))
    assert all(text[it.start : it.end] == it.text for it in tokens)


@pytest.mark.parametrize("text", ["a /* b", 'a "b\\"', "a `b", "a %{ b", "a \x00", "a \udcff", "a ü"])
def test_no_token_stands_where_something_is_opened_and_never_closed(text: str) -> None:
    tokens = tokens_of(text)
    assert next(tokens).text == "a"
    with pytest.raises(ScriptSyntaxError) as caught:
        next(tokens)
    assert caught.value.place == 2


TIMES = [
    ("0 ", Time(0, None, False)),
    ("+.1 ", Time(100_000)),
    ("+ 1.2345678 ", Time(1_234_567)),
    ("*", Time(None)),
    ("0.5~0.7", Time(500_000, 700_000, False)),
    ("+.3~+.31", Time(300_000, 310_000)),
    ("+1~2", Time(1_000_000, 2_000_000)),
]


@pytest.mark.parametrize(("text", "time"), TIMES)
def test_times_are_microseconds(text: str, time: Time) -> None:
    item = parse_items_until_syntax_error(f"{text} `x`").items[0]
    assert item.time == time
    assert parse_items_until_syntax_error(f"{time} `x`").items[0].time == time


def test_a_packet_has_its_numbers_and_options() -> None:
    options = "<mss 1000,sackOK,TS val 1 ecr 2,\nnop, wscale 7,sack 1:2 3:4,eol>"
    packet = parse_items_until_syntax_error(f"+0 < SP. 0:10(10) ack 5 win 6 {options}").items[0].what
    numbers = {"mss": (1000,), "sackOK": (), "TS": (1, 2), "nop": (), "wscale": (7,), "sack": (1, 2, 3, 4), "eol": ()}
    values = tuple(TcpOption(name, given_numbers) for name, given_numbers in numbers.items())
    flat = options.replace("\n", " ")
    assert packet == Packet(True, "SP.", 0, 10, 5, 6, values, flat)
    assert str(packet) == f"< SP. 0:10(10) ack 5 win 6 {flat}"


@pytest.mark.parametrize("options", ["", "<>", "<...>"])
def test_a_packet_that_leaves_may_have_any_options(options: str) -> None:
    text = f"> - 1:1(0) {options}".strip()
    assert str(parse_items_until_syntax_error(f"* {text}").items[0].what) == text


def test_a_call_has_its_arguments_and_its_result() -> None:
    text = "0...0.2 f(3, {a = [(1), 2], b=...}, [1], /* c */ O_A|O_B ) = -1 EAGAIN (Try (again))\n+0 g() = 0x10 (g)"
    first, second = parse_items_until_syntax_error(text).items
    assert first.is_blocking
    assert first.what == Call("f", ("3", "{a = [(1), 2], b=...}", "[1]", "O_A|O_B"), -1, "EAGAIN")
    assert second.what == Call("g", (), 16)


def test_options_commands_and_code_may_stand_anywhere() -> None:
    text = "--a=b\n`c`\n0 f() = 0\n%{ d }%\n+0 `e`\n--f"
    items = parse_items_until_syntax_error(text).items
    assert [it.what for it in items] == [
        HeaderOption("a", "b"),
        Command("c"),
        Call("f", (), 0),
        Code(" d "),
        Command("e"),
        HeaderOption("f", None),
    ]
    assert [it.line for it in items] == [1, 2, 3, 4, 5, 6]
    assert [text[it.start : it.end].split("\n")[0] for it in items] == text.split("\n")


UNREAD = [
    ("0 < . 1:1(0)", 1, "the script breaks off here"),
    ("0 f() = 0\n+0 > . 2:1(0)", 2, "no script of this language"),
    ("0 > . 1:2(2)", 1, "no script of this language"),
    ("0 < . 1:1(0) win 1 <md5 0>", 1, "MD5"),
    ("0 > S 1:1(0) <mss 1,\nFO ab>", 2, "Fast Open"),
    ("0 > [ect0] . 1:1(0)", 1, "ECN"),
    ("0 < icmp unreachable", 1, "ICMP"),
    ("0 > udp (10)", 1, "UDP"),
    ("0 f() = ?", 1, "the result ?"),
    ("0 f(1,,2) = 0", 1, "no script of this language"),
    ("0 f(" + "(" * 17, 1, "no script of this language"),
    ("0 f(" + "(" * 16 + ")" * 16 + ") = 4294967296", 1, "no script of this language"),
    ("4294967296 `a`", 1, "no script of this language"),
    ("+1~.5 `a`", 1, "no script of this language"),
    ("0 > Q. 1:1(0)", 1, "no script of this language"),
    ("0 > .\n/* 1:1(0)", 2, "what is opened here is never closed"),
]


@pytest.mark.parametrize(("text", "line", "words"), UNREAD, ids=range(len(UNREAD)))
def test_reading_ends_where_no_script_goes_on(text: str, line: int, words: str) -> None:
    fault = parse_items_until_syntax_error(text).fault
    assert fault is not None
    assert (text.count("\n", 0, fault.place) + 1, fault.words) == (line, words)


def test_reading_ends_by_itself_on_random_octets() -> None:
    """Where it ends a fault is, which no item goes beyond; an item begins where the one before it has ended."""
    dice = random.Random(43)
    faults = 0
    for size in range(300):
        text = dice.randbytes(size).decode("utf-8", "surrogateescape")
        reading = parse_items_until_syntax_error(text)
        ends = [0, *(it.end for it in reading.items)]
        assert all(end <= it.start < it.end for end, it in zip(ends, reading.items))
        assert reading.fault is not None or not text.strip(), text
        assert reading.fault is None or ends[-1] <= reading.fault.place <= len(text)
        faults += reading.fault is not None
    assert faults > 290


# Items that take nothing of what comes after them, each with what it is.
PIECES = (
    ("--b=c ", HeaderOption("b", "c")),
    ("`d` ", Command("d")),
    ("0...+1 f(1, [2]) = -3 E (g) ", Call("f", ("1", "[2]"), -3, "E")),
    (
        "+1~+2 > P. 1:2(1) ack 3 win 4 <sack 1:2> ",
        Packet(False, "P.", 1, 2, 3, 4, (TcpOption("sack", (1, 2)),), "<sack 1:2>"),
    ),
    ('%{ "a" }% ', Code(' "a" ')),
)


def test_each_prefix_has_the_items_that_end_in_it() -> None:
    whole, wanted = "".join(text for text, _ in PIECES), [what for _, what in PIECES]
    ends = [it.end for it in parse_items_until_syntax_error(whole).items]
    for number, end in enumerate(ends, 1):
        reading = parse_items_until_syntax_error(whole[:end])
        assert ([it.what for it in reading.items], reading.fault) == (wanted[:number], None)
    for size in range(1, len(whole)):
        items = parse_items_until_syntax_error(whole[:size]).items
        assert [it.what for it in items[:-1]] == wanted[: len(items[:-1])]
        assert len(items) >= sum(end <= size for end in ends)
