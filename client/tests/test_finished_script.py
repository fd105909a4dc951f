"""How a find loses whole rounds, and is saved as a script that ends with the line that fails."""

from pdsuite.packetdrill.items import Call, Packet, TcpOption
from pdsuite.programs.verdict import Row, Verdict
from pdsuite.search.find import Find
from pdsuite.search.finished_script import least_script_of_find, prepend_comment_stating_row_of_rerun
from pdsuite.search.inputs import Input, Inputs, make_dataless_inbound_packet, make_unrecorded_call
from pdsuite.search.renumber import inputs_less_one_round
from pdsuite.search.simulate import TICK
from pdsuite.search.states import TracedState
from tests.test_input_search import Toy

OPENING: tuple[Packet | Call, ...] = (
    make_unrecorded_call("listen", 3, 1),
    make_dataless_inbound_packet("S", 0, None, 9),
)


def ack(number: int, *blocks: int) -> Input:
    options = (TcpOption("sack", blocks),) if blocks else ()
    return Input(number, make_dataless_inbound_packet(".", 1, number, 257, options))


def state(una: int, top: int, is_open: bool = True) -> TracedState:
    return TracedState("ESTABLISHED", {"una": str(una), "top": str(top)} | ({"cwnd": "1"} if is_open else {}))


def test_without_a_round_what_arrives_later_acknowledges_as_much_less() -> None:
    inputs = Inputs((), (ack(1), ack(1001), ack(2001), ack(3001, 4001, 5001)))
    states = [state(0, 1, False), state(1, 2001), state(1001, 3001), state(2001, 4001), state(3001, 5001)]
    found = list(inputs_less_one_round(inputs, states))
    assert [[str(it.what) for it in one.events] for one in found] == [
        # All that follows the handshake; then two of three, by how far all is acknowledged and sent.
        ["< . 1:1(0) ack 1 win 257"],
        ["< . 1:1(0) ack 1 win 257", "< . 1:1(0) ack 1001 win 257 <sack 2001:3001>"],
        ["< . 1:1(0) ack 1 win 257", "< . 1:1(0) ack 1001 win 257"],
    ]
    # The time of the round goes, too.
    assert [it.at for it in found[1].events] == [1, 1001]


def test_where_less_is_sent_than_acknowledged_both_numbers_are_tried() -> None:
    inputs = Inputs((), (ack(1001), ack(2001), ack(4001)))
    found = inputs_less_one_round(inputs, [state(1, 2001), state(1001, 2501), state(2001, 3001), state(3001, 3001)])
    # Without the last two the first stays; without the first two the last acknowledges 2,000 or 1,000 less.
    left = sorted({str(it.events[-1].what) for it in found if len(it.events) == 1})
    assert left == [f"< . 1:1(0) ack {number} win 257" for number in (1001, 2001, 3001)]


def find(change: str, *events: Input) -> Find:
    inputs = Inputs((), tuple(Input(0, it) for it in OPENING) + events, is_exact=False)
    (recording,) = Toy().record_inputs_or_scripts([inputs])
    found = Find(inputs, recording.text)
    (row,) = Toy(change).run_scripts_for_rows([least_script_of_find(found, Toy(), Toy(change)).script])
    return Find(inputs, recording.text, row)


def test_a_script_waits_for_no_more_than_it_expects_and_ends_with_the_line_that_fails() -> None:
    waits = [Input(at * 1_000_000, TICK) for at in (1, 3, 9)]
    found = find("late", Input(0, make_unrecorded_call("write", 4, "...", 1_000)), *waits)
    done = least_script_of_find(found, Toy(), Toy("late"))
    lines = done.script.octets.decode().splitlines()
    assert not any("fcntl" in it for it in lines) and done.row == Row(Verdict.FAIL, len(lines), "seq")
    assert [it.split(" ")[0] for it in lines[-3:]] == ["+1", "+2", "+4"]
    (row,) = Toy().run_scripts_for_rows([done.script])
    assert row == Row(Verdict.PASS, len(lines))


def test_the_comment_names_the_line_where_it_stands() -> None:
    found = find("late", Input(0, make_unrecorded_call("write", 4, "...", 1_000)), Input(9_000_000, TICK))
    done = least_script_of_find(found, Toy(), Toy("late"))
    headed = prepend_comment_stating_row_of_rerun(
        done, lambda row: ["one", f"fails {row and row.whole_text_without_name}"], Toy("late")
    )
    assert done.row is not None and done.row.number is not None and headed.row is not None
    assert headed.script.octets.decode().startswith(f"// one\n// fails fail {headed.row.number} seq\n")
    assert headed.row.number == done.row.number + 2 == headed.line_count
