"""Variations of inputs: where they are varied, and what is put in more often where the change is about it."""

from pdsuite.packetdrill.items import Call, Packet
from pdsuite.search.inputs import Input, Inputs, make_dataless_inbound_packet, make_unrecorded_call
from pdsuite.search.mutate import CorpusEntry, InputMutator
from pdsuite.search.scenario import Emphasis, Theme
from pdsuite.search.states import TracedState

OPEN = {"cwnd": "4000", "una": "1", "top": "4001", "end": "4001", "recovery": "none"}
STATES = [TracedState("ESTABLISHED", OPEN | {"recovery": "RFC6675" if place == 30 else "none"}) for place in range(41)]
TRACE = "\n".join(
    f"+0 < . 1:1(0) ack 1 win 257\n//= at 0.{place:06} ESTABLISHED cwnd:4000 una:1 top:4001 end:4001 recovery:none"
    for place in range(20)
)
KEPT = CorpusEntry(
    Inputs((), tuple(Input(place, make_dataless_inbound_packet(".", 1, 1, 257)) for place in range(20))), TRACE
)


def made(theme: Theme | None) -> list[Packet | Call]:
    """The packets and calls that variations put in and that weren't there."""
    varying = InputMutator(1, Emphasis(themes=frozenset([theme] if theme else [])))
    variations = [varying.mutate_inputs_and_maybe_truncate(KEPT) for _ in range(600)]
    return [it.what for one in variations for it in one.begun.events if it.what != KEPT.inputs.events[0].what]


def test_half_of_the_variations_are_where_the_sender_recovers() -> None:
    varying = InputMutator(1, Emphasis())
    places = [varying._draw_place_favouring_recovery(STATES, 0, 40) for _ in range(400)]
    assert 0.4 < places.count(30) / len(places) < 0.6 and len(set(places)) > 30
    assert max(varying._draw_place_favouring_recovery(STATES, 0, 20) for _ in range(100)) <= 20


def test_a_theme_has_more_of_what_it_is_about() -> None:
    def closes(theme: Theme | None) -> float:
        found = made(theme)
        return sum(it == make_unrecorded_call("close", 4) for it in found) / len(found)

    assert closes(Theme.CLOSE) > 2 * closes(None) > 0


def test_a_write_may_have_nothing() -> None:
    assert any(isinstance(it, Call) and it.name == "write" and it.arguments[-1] == "0" for it in made(None))
