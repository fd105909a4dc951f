"""A script of the kernel's self-tests as a script of this profile, or why it can't be one."""

import re
from collections.abc import Iterator, Mapping, Sequence
from dataclasses import dataclass, replace

from pdsuite.imports.assertions import assertion_comment, parse_assertions
from pdsuite.imports.calls import (
    Spelling,
    octets_to_write_or_zero,
    rewrite_call_text,
    sets_send_buffer,
    profile_spelling_if_call_needs_one,
)
from pdsuite.imports.findings import Finding, Heading, Reason
from pdsuite.imports.packets import (
    Sending,
    count_of_pieces,
    fixed_moments_of_items,
    packets_as_sent,
    script_smss_from_first_syn,
    write_calls_before_each_item,
)
from pdsuite.imports.profile import MSS, mss_setting_of_header, header_tolerance, is_dropped_option, unsupported_reasons
from pdsuite.imports.rewrite import Rewrite, apply_rewrites, comments_keeping_old_text_and_reasons
from pdsuite.imports.setup import ABC_LIMIT, RUN
from pdsuite.imports.setup import (
    CommandPlace,
    LoadSetup,
    ParsedCommand,
    Setup,
    SetupWords,
    union_of_setup_words,
    parse_each_shell_command_in_text,
    setup_from_kernel_header_lines_then_own,
)
from pdsuite.imports.slow_start import fitting_or_greatest_abc_limit, initial_window_octets
from pdsuite.packetdrill.items import Call, Code, Command, HeaderOption, Item, Packet, Time
from pdsuite.packetdrill.reader import Reading, parse_items_until_syntax_error
from pdsuite.packetdrill.tokens import line_number_at
from pdsuite.scripts.defaults import DEFAULTS
from pdsuite.scripts.settings import Settings, Value, sorted_settings
from pdsuite.scripts.text import LINES, UnfitTextError, make_newline_ended_text_within_limits

MOST_EVENTS = 4_096
# Why the commands of an imported script's set-up are comments.
SETUP = "set-up, which is read and never run"
_NOW = Time(0)
_SETTINGS = "settings in pdsuite.toml: "


@dataclass(frozen=True)
class ImportSource:
    """A script to import: its text, the settings that a pdsuite.toml has for it, if any, and what it may load."""

    text: str
    own: Mapping[str, Value] | None
    load: LoadSetup


@dataclass(frozen=True)
class Imported:
    """A script of this profile, with its settings, and what was done to it."""

    text: str
    settings: Settings
    findings: tuple[Finding, ...]
    changed: int  # how many of its packets were
    is_own: bool  # a pdsuite.toml has its settings, and none are a kernel's
    shared: SetupWords  # of files of set-up that scripts share


@dataclass(frozen=True)
class NotImported:
    """A script that isn't imported, and why, in the order of lines."""

    reasons: tuple[Reason, ...]


def convert_script(source: ImportSource, keep_packets: bool) -> Imported | NotImported:
    """Imports a script. With `keep_packets`, and where a pdsuite.toml has settings for it, packets stay as they are."""
    reading = parse_items_until_syntax_error(source.text)
    spellings = _spellings_by_place(reading.items)
    items = [replace(it, what=spellings[n].call) if n in spellings else it for n, it in enumerate(reading.items)]
    looked = _parsed_commands_by_place(items, source.load)
    header = mss_setting_of_header(items)
    smss = script_smss_from_first_syn(items, _number_or_default({**DEFAULTS, **header, **(source.own or {})}, MSS))
    first = _place_of_first_packet_or_call(items)
    lines = [lines for number in range(first) if number in looked for lines in looked[number].lines]
    setup = setup_from_kernel_header_lines_then_own(lines, max(smss, 1), header, source.own)
    reasons = [*_reasons_of_items_and_setup(items, setup, looked), *_syntax_reasons(reading, source.text)]
    keeps = keep_packets or source.own is not None
    if not keeps:
        reasons.extend(_too_many_packet_pieces_reasons(items, smss))
    if reasons:
        return NotImported(_first_reason_of_each_kind_by_line(reasons))
    tolerance = header_tolerance(items)
    if tolerance is None:
        tolerance = _number_or_default({**DEFAULTS, **setup.settings}, "tolerance_us")
    known = _Known(looked, spellings, None if keeps else smss, tolerance)
    rewrites = list(_rewrites_of_items(source.text, items, known))
    text = apply_rewrites(source.text, [it for it, _ in rewrites])
    findings = tuple(finding for _, them in rewrites for finding in them)
    changed = sum(any(it.heading is Heading.CHANGED for it in them) for _, them in rewrites)
    shared = union_of_setup_words(it.shared for it in looked.values())
    settings = sorted_settings(
        setup.settings if source.own is not None else _settings_with_fitting_abc_limit(setup.settings, items, smss)
    )
    return _not_imported_if_text_over_limits(text) or Imported(
        text, settings, findings, changed, source.own is not None, shared
    )


def _settings_with_fitting_abc_limit(
    settings: Mapping[str, Value], items: Sequence[Item], smss: int
) -> dict[str, Value]:
    """A kernel's settings, with the limit of cwnd's growth that a script needs."""
    return {
        **settings,
        ABC_LIMIT: fitting_or_greatest_abc_limit(items, smss, initial_window_octets(settings["initial_window"], smss)),
    }


def _reasons_of_items_and_setup(
    items: Sequence[Item], setup: Setup, looked: Mapping[int, ParsedCommand]
) -> Iterator[Reason]:
    """Why a script isn't imported, as its items and its set-up say."""
    yield from setup.reasons
    yield from unsupported_reasons(items, setup.has_timestamps)
    yield from _reasons_for_times_not_carried(items)
    yield from (reason for it in looked.values() for reason in it.reasons)
    yield from _sndbuf_call_reasons_if_default_too_small(
        items, _number_or_default({**DEFAULTS, **setup.settings}, "sndbuf")
    )


def _syntax_reasons(reading: Reading, text: str) -> Iterator[Reason]:
    """Where the text is no script's, if it isn't."""
    if reading.fault is not None:
        yield Reason(line_number_at(text, reading.fault.place), reading.fault.words, reading.fault.what)


def _number_or_default(settings: Mapping[str, Value], key: str) -> int:
    """A setting that is a number, or its default where a pdsuite.toml has anything else."""
    value = settings[key]
    return value if isinstance(value, int) else _number_or_default(DEFAULTS, key)


def _place_of_first_packet_or_call(items: Sequence[Item]) -> int:
    """The place of the first packet or call: what stands before it is set-up."""
    acts = (number for number, it in enumerate(items) if isinstance(it.what, Packet | Call))
    return next(acts, len(items))


def _spellings_by_place(items: Sequence[Item]) -> dict[int, Spelling]:
    """The calls that others stand for, by the places of the items."""
    found = {
        number: profile_spelling_if_call_needs_one(it.what)
        for number, it in enumerate(items)
        if isinstance(it.what, Call)
    }
    return {number: it for number, it in found.items() if it is not None}


def _parsed_commands_by_place(items: Sequence[Item], load: LoadSetup) -> dict[int, ParsedCommand]:
    """The parsed commands, by the places of the items."""
    first = _place_of_first_packet_or_call(items)
    return {
        number: parse_each_shell_command_in_text(
            it.what.text, it.line, CommandPlace.SETUP if number < first else CommandPlace.MIDST, load
        )
        for number, it in enumerate(items)
        if isinstance(it.what, Command)
    }


def _first_reason_of_each_kind_by_line(reasons: Sequence[Reason]) -> tuple[Reason, ...]:
    """The first reason of each kind, in the order of lines."""
    first: dict[str, Reason] = {}
    for reason in sorted(reasons, key=lambda it: it.line):
        first.setdefault(reason.words, reason)
    return tuple(first.values())


def _sndbuf_call_reasons_if_default_too_small(items: Sequence[Item], sndbuf: int) -> Iterator[Reason]:
    """A send buffer that the default can't stand for, since more is written."""
    written_octets = sum(octets_to_write_or_zero(it.what) for it in items if isinstance(it.what, Call))
    for item in items:
        if isinstance(item.what, Call) and sets_send_buffer(item.what) and written_octets > sndbuf:
            yield Reason(
                item.line, "SO_SNDBUF, where more is written than the default holds", f"{written_octets} octets"
            )


def _too_many_packet_pieces_reasons(items: Sequence[Item], smss: int) -> Iterator[Reason]:
    """Packets that become more than a script may hold."""
    count = 0
    for item in items:
        if isinstance(item.what, Packet) and not item.what.is_inbound:
            count += count_of_pieces(item.what, smss)
            if count > MOST_EVENTS:
                yield Reason(item.line, "more than 4,096 events", str(item.what))
                return


def _not_imported_if_text_over_limits(text: str) -> NotImported | None:
    """Why the text of an import is no script's, if it isn't."""
    octets = text.encode("utf-8", "surrogateescape")
    try:
        make_newline_ended_text_within_limits(octets)
    except UnfitTextError as unfit:
        return NotImported((Reason(min(octets.count(b"\n"), LINES), str(unfit)),))
    events = sum(it.time is not None for it in parse_items_until_syntax_error(text).items)
    return NotImported((Reason(LINES, "more than 4,096 events"),)) if events > MOST_EVENTS else None


# ---- times


def _is_command_code_or_send_buffer_call(what: object) -> bool:
    return isinstance(what, Command | Code) or (isinstance(what, Call) and sets_send_buffer(what))


def _add_carried_time_if_writable(carried: Time, time: Time) -> Time | None:
    """A time after another one that is dropped; None where it can't be written."""
    if carried == _NOW or (time.first is not None and not time.is_relative):
        return time
    if time.first is None or carried.first is None or carried.last is not None:
        return None
    last = None if time.last is None else carried.first + time.last
    return Time(carried.first + time.first, last, carried.is_relative)


def _reasons_for_times_not_carried(items: Sequence[Item]) -> Iterator[Reason]:
    """Times of what is dropped that can't go to the event after it."""
    carried = _NOW
    for item in items:
        if item.time is None:
            continue
        shifted = _add_carried_time_if_writable(carried, item.time)
        if shifted is None or (_is_command_code_or_send_buffer_call(item.what) and not shifted.is_single_moment):
            yield Reason(item.line, "a time of a command that no event can take")
            return
        carried = shifted if _is_command_code_or_send_buffer_call(item.what) else _NOW


# ---- rewrites of items

Rewritten = tuple[Rewrite, tuple[Finding, ...]]


@dataclass(frozen=True, slots=True)
class _Known:
    """The parsed commands, and the calls that others stand for, by the places of items; SMSS, and the tolerance.

    Packets stay where there is no SMSS.
    """

    looked: Mapping[int, ParsedCommand]
    spellings: Mapping[int, Spelling]
    smss: int | None
    tolerance: int


def _rewrites_of_items(text: str, items: Sequence[Item], known: _Known) -> Iterator[Rewritten]:
    """The rewrites of the items that don't stay as they are, with their findings."""
    moments = fixed_moments_of_items(items)
    writes = write_calls_before_each_item(items, moments)
    first = _place_of_first_packet_or_call(items)
    carried = _NOW
    for number, item in enumerate(items):
        old = text[item.start : item.end]
        time = None if item.time is None else _add_carried_time_if_writable(carried, item.time)
        match item.what:
            case HeaderOption():
                if is_dropped_option(item.what):
                    words = "where packets are sent"
                    yield _drop_item_keeping_it_as_comment(item, old, [words], [Finding(Heading.DROPPED, words)])
                elif item.what.name == MSS:
                    yield _drop_item_keeping_it_as_comment(item, old, [f"{_SETTINGS}{MSS}"], [])
            case Command():
                yield _drop_command(item, old, known.looked[number], number < first)
            case Code():
                yield _drop_code_keeping_assertions(item, old, item.what)
            case Call() if sets_send_buffer(item.what):
                words = "SO_SNDBUF: the default holds all that is written"
                yield _drop_item_keeping_it_as_comment(item, old, [words], [Finding(Heading.DROPPED, "SO_SNDBUF")])
            case Call() if number in known.spellings:
                yield _respell_call(text, item, old, time or _NOW, known.spellings[number])
            case Packet() if not item.what.is_inbound and known.smss is not None:
                sending = Sending(known.smss, moments[number], writes[number], known.tolerance)
                if found := _rewrite_packet_if_sent_otherwise(item, old, item.what, time or _NOW, sending):
                    yield found
            case Packet() | Call() if time is not None and time != item.time:
                yield _rewrite_with_carried_time(text, item, old, time)
        if time is not None:
            carried = time if _is_command_code_or_send_buffer_call(item.what) else _NOW


def _drop_item_keeping_it_as_comment(
    item: Item, old: str, reasons: Sequence[str], findings: Sequence[Finding]
) -> Rewritten:
    return Rewrite(item.start, item.end, (), comments_keeping_old_text_and_reasons("dropped", old, reasons)), tuple(
        findings
    )


def _drop_command(item: Item, old: str, looked: ParsedCommand, is_setup: bool) -> Rewritten:
    reasons = [SETUP] if is_setup else []
    if looked.shared != SetupWords():
        reasons.append("what the file says stands in pdsuite.toml")
    for begin, words in (
        (_SETTINGS, looked.own.settings),
        ("" if looked.own.features == (RUN,) else "this sender hasn't: ", looked.own.features),
        ("as this sender has it: ", looked.own.alike),
    ):
        if words:
            reasons.append(begin + ", ".join(words))
    heading = Heading.SETUP if is_setup else Heading.DROPPED
    findings = [Finding(heading, it) for it in looked.words_for_parts_without_setting]
    return _drop_item_keeping_it_as_comment(
        item, old, reasons or [RUN], findings or ([] if is_setup else [Finding(heading, RUN)])
    )


def _drop_code_keeping_assertions(item: Item, old: str, code: Code) -> Rewritten:
    found = parse_assertions(code.text)
    comments = [*comments_keeping_old_text_and_reasons("dropped", old, ())]
    comments.extend(f"// not compared: {it}" for it in found.others)
    comments.extend(map(assertion_comment, found.assertions))
    findings = [Finding(Heading.NOT_COMPARED, it) for it in found.others]
    findings.extend(Finding(Heading.ASSERTED, it.name) for it in found.assertions)
    return Rewrite(item.start, item.end, (), tuple(comments)), tuple(findings)


_MOVED = "the time of what was dropped before it"
_TIME = re.compile(r"[0-9.+~*]+")


def _rewrite_packet_if_sent_otherwise(
    item: Item, old: str, packet: Packet, time: Time, sending: Sending
) -> Rewritten | None:
    """The packets that come in the place of one, where it doesn't stay as it is."""
    sent, changes = packets_as_sent(packet, sending)
    reasons = [*changes, *([_MOVED] if time != item.time else [])]
    if not reasons:
        return None
    begin = _time_text_as_written_or_new(item, old, time)
    # After a moment the others leave at once; at any time each leaves at any.
    after = "*" if time.first is None else "+0".rjust(len(begin))
    lines = [f"{begin} {sent[0]}", *(f"{after} {it}" for it in sent[1:])]
    findings = tuple(Finding(Heading.CHANGED, it) for it in changes)
    return (
        Rewrite(
            item.start,
            item.end,
            tuple(lines),
            comments_keeping_old_text_and_reasons("changed", old, ["; ".join(reasons)]),
        ),
        findings,
    )


def _respell_call(text: str, item: Item, old: str, time: Time, spelling: Spelling) -> Rewritten:
    """A call in the place of one that this profile hasn't."""
    reasons = [spelling.words, *([_MOVED] if time != item.time else [])]
    call = rewrite_call_text(text[item.action : item.end], spelling.call)
    line = f"{_time_text_as_written_or_new(item, old, time)} {call}"
    finding = Finding(Heading.CALLS, spelling.words)
    return Rewrite(
        item.start, item.end, (line,), comments_keeping_old_text_and_reasons("changed", old, ["; ".join(reasons)])
    ), (finding,)


def _time_text_as_written_or_new(item: Item, old: str, time: Time) -> str:
    """The time of an event, as it is written where it stays."""
    as_written = old[: item.action - item.start].rstrip()
    return as_written if time == item.time and _TIME.fullmatch(as_written) else str(time)


def _rewrite_with_carried_time(text: str, item: Item, old: str, time: Time) -> Rewritten:
    line = f"{time} {text[item.action:item.end]}"
    finding = Finding(Heading.DROPPED, "times, which the next event takes")
    return Rewrite(item.start, item.end, (line,), comments_keeping_old_text_and_reasons("changed", old, [_MOVED])), (
        finding,
    )
