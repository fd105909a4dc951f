"""`pdsuite lsp` with the built programs: what it reports of open texts and of files, and how it lives and ends."""

import os
import signal
import time
from pathlib import Path

import pytest

from pdsuite.faults import Fault
from pdsuite.lsp.documents import uri_of_path
from pdsuite.lsp.features import SenderSession
from pdsuite.lsp.server import Server
from pdsuite.lsp.transport import CONTENT_MODIFIED
from tests.helpers import HANGS, is_alive
from tests.lsp_client import Json, LspClient, RequestRefusedError, span
from tests.lsp_scripts import HEAD, PASSES, WRITES

NEW_DATA = "new data (RFC 9293, section 3.8.6.2.1)"


def marked(client: LspClient, uri: str, found: Json) -> str:
    """The text that a diagnostic marks."""
    document = client.documents[uri]
    start, end = (found["range"][it] for it in ("start", "end"))
    lines = document.text.split("\n")
    assert start["line"] == end["line"]
    octets: bytes = lines[start["line"]].encode("utf-16-le")
    return octets[2 * start["character"] : 2 * end["character"]].decode("utf-16-le")


@pytest.mark.parametrize(
    "line, code, words",
    [
        ("+0 > . 1:1001(1000) ack 1", "flags", "."),
        ("+0 > P. 1:501(500) ack 1", "seq", "1:501(500)"),
        ("+0 > P. 1:1001(1000) ack 2", "ack", "ack 2"),
        ("+0 > P. 1:1001(1000) ack 1 win 510", "win", "win 510"),
        ("+0 > P. 1:1001(1000) ack 1 <nop>", "options", "<nop>"),
        ("+0.1 > P. 1:1001(1000) ack 1", "time", "+0.1"),
        ("+0 write(4, ..., 10) = 9 // \U0001f980", "result", "9"),
        ("/* \U0001f980 */ +0 close(4) = 7", "result", "7"),
        ("0 close(4) = 0", "backwards", "0"),
        ("+0 > P. 1:1001(1000) ack 1 +0 > . 1001:2001(1000) ack 1", "missing", "+0 > . 1001:2001(1000) ack 1"),
        ("+0 frob(4) = 0", "unsupported", "frob"),
        ("+0 > P. 1:1001(1000) ack 1 win 65536", "limit", "win 65536"),
        ("+0 write(4, ..., 10) = \t\u00fc", "syntax", "\u00fc"),
        ("/* \U0001f980 */ +0 foo", "syntax", ""),
    ],
)
def test_a_diagnostic_marks_what_differs(client: LspClient, workspace: Path, line: str, code: str, words: str) -> None:
    uri = client.open(workspace / "a.pkt", WRITES + line + "\n")
    (found,) = client.settled(uri)
    assert (found["code"], found["source"]) == (code, "pdsuite")
    assert found["severity"] == (2 if code in ("unsupported", "limit") else 1)
    assert found["range"]["start"]["line"] == 8
    if words:
        assert marked(client, uri, found) == words


def test_what_was_sent_stands_in_the_diagnostic(client: LspClient, workspace: Path) -> None:
    uri = client.open(workspace / "a.pkt", WRITES + "+0 > P. 1:501(500) ack 1\n")
    (found,) = client.settled(uri)
    assert found["message"].splitlines() == [
        "fail seq: the packet has other octets",
        f"actual packet: +0 > P. 1:1001(1000) ack 1 win 511 // 0.200000, sent by line 8: {NEW_DATA}",
    ]


def test_a_change_starts_no_program(recording_programs: Path, tmp_path: Path, workspace: Path) -> None:
    folder, starts = tmp_path / "counted", tmp_path / "starts"
    folder.mkdir()
    for name in ("pdregress", "pdrecord"):
        (folder / name).write_text(f'#!/bin/sh\necho "$@" >>{starts}\nexec {recording_programs / name} "$@"\n')
        (folder / name).chmod(0o755)
    with LspClient(folder, workspace) as client:
        uri = client.open(workspace / "a.pkt", PASSES)
        assert client.settled(uri) == []
        before = starts.read_text()
        for text, words in [
            (WRITES + "+0 > P. 1:501(500) ack 1\n", "fail seq: "),
            (WRITES + "+0 close(4) = 1\n", "untaken packets: 2"),
            (WRITES, "passes, but 1 packet stands untaken at its end"),
            (WRITES + "+0 > P\n", "syntax: "),
        ]:
            client.change(uri, {"text": text})
            (found,) = client.settled(uri)
            assert words in found["message"]
        assert starts.read_text() == before and "--explain --leftovers --json" in before


def test_untaken_packets_stand_where_they_left(client: LspClient, workspace: Path) -> None:
    text = HEAD + "+0 write(4, ..., 2500) = 2500\n+0.1 < . 1:1(0) ack 2001 win 257\n+0 close(4) = 1\n"
    (found,) = client.settled(client.open(workspace / "a.pkt", text))
    reported = [(it["location"]["range"]["start"]["line"], it["message"]) for it in found["relatedInformation"]]
    assert [line for line, _ in reported] == [7, 7, 8, 9][: len(reported)] and len(reported) >= 3
    packet = "* > . 1:1001(1000) ack 1 win 511 // 0.200000"
    assert reported[0][1] == f"untaken packet: {packet}, sent by line 8: {NEW_DATA}"


def test_a_text_that_is_open_counts_in_place_of_its_file(client: LspClient, workspace: Path) -> None:
    (workspace / "a.pkt").write_text(PASSES)
    (workspace / "b.pkt").write_text("bad\n")
    other = uri_of_path(str(workspace / "b.pkt"))
    client.wait_diagnostics(other, bool, "what is wrong with the file")
    uri = client.open(workspace / "a.pkt", "worse\n")
    assert client.settled(uri)[0]["code"] == "syntax"
    client.close(uri)
    client.wait_diagnostics(uri, lambda found: not found, "that the file passes")
    (workspace / "b.pkt").write_text(PASSES)
    client.wait_diagnostics(other, lambda found: not found, "that the other file passes")
    (workspace / "b.pkt").write_text("bad\n")
    client.wait_diagnostics(other, bool, "what is wrong again")
    (workspace / "b.pkt").unlink()
    client.wait_diagnostics(other, lambda found: not found, "that the file is gone")


def test_a_file_that_is_not_utf_8_is_what_a_run_says(client: LspClient, workspace: Path) -> None:
    (workspace / "a.pkt").write_bytes(b"// \xff\n" + PASSES.encode())
    (workspace / "b.pkt").write_bytes(b"/* \xff */ 0 \xfe() = 1\n")
    (found,) = client.wait_diagnostics(uri_of_path(str(workspace / "b.pkt")), bool, "what is wrong with the file")
    assert (found["code"], found["range"]["start"]) == ("syntax", {"line": 0, "character": 10})
    assert uri_of_path(str(workspace / "a.pkt")) not in client.diagnostics


def test_settings_count_while_they_are_edited(client: LspClient, workspace: Path) -> None:
    uri = client.open(workspace / "a.pkt", PASSES.replace("mss 1000", "mss 1460").replace("1:1001", "1:1001"))
    settings = client.open(workspace / "pdsuite.toml")
    client.settled(uri)
    client.put(settings, "root = true\nsack = false\nnagle = false\n")
    client.put(settings, "root = true\nmss = 10\n")
    (found,) = client.wait_diagnostics(settings, bool, "the fault of the settings")
    assert found["range"]["start"]["line"] == 1 and "BadValue: it takes 64 to 65,495 octets" in found["message"]
    client.put(settings, "root = true\n= 1\n")
    (found,) = client.wait_diagnostics(
        settings, lambda it: bool(it) and "no TOML" in it[0]["message"], "the fault of the text"
    )
    client.put(settings, 'root = true\n["gone.pkt"]\nmss = 1000\n')
    (found,) = client.wait_diagnostics(
        settings, lambda it: bool(it) and "gone.pkt" in it[0]["message"], "the unused table"
    )
    assert found["range"]["start"]["line"] == 1
    client.put(settings, 'root = true\n["a.pkt"]\nexpect = "fail"\nreason = "why"\n')
    client.wait_diagnostics(settings, lambda it: not it, "no fault")
    (found,) = client.wait_diagnostics(uri, bool, "that the script passes, though it is known to fail")
    assert "passes, though" in found["message"]
    client.put(uri, WRITES + "+0 > P. 1:501(500) ack 1\n")
    assert [it["severity"] for it in client.settled(uri)] == [4]
    client.close(settings)
    client.wait_diagnostics(uri, lambda it: bool(it) and it[0]["severity"] == 1, "that no failure is known any more")


def test_what_a_run_warns_of_is_a_diagnostic(client: LspClient, workspace: Path) -> None:
    blind = WRITES + "+0 > P. 1:1001(1000) ack 1\n+0 write(4, ..., 1000) = 1000\n"
    uri = client.open(workspace / "a.pkt", blind)
    left = "1 packet stands untaken at its end"
    assert [(it["severity"], it["message"]) for it in client.settled(uri)] == [(2, f"passes, but {left}")]
    settings = client.open(workspace / "pdsuite.toml")
    client.put(settings, "root = true\nstrict = true\n")
    (found,) = client.wait_diagnostics(
        uri, lambda it: bool(it) and it[0]["severity"] == 1, "that the warning is strict"
    )
    assert (found["code"], found["message"]) == ("warning", f"passes, but {left} (strict)")
    lens = client.request("textDocument/codeLens", {"textDocument": {"uri": uri}})[0]["command"]["title"]
    assert lens.startswith(f"pass: 10 events, but {left}")
    client.put(uri, "// One\n0 socket(..., SOCK_STREAM, IPPROTO_TCP) = 3\n")
    assert [it["message"] for it in client.settled(uri)] == ["passes, but awaits no packet (strict)"]
    (workspace / "b.pkt").write_text(blind)
    other = uri_of_path(str(workspace / "b.pkt"))
    assert client.wait_diagnostics(other, bool, "the warning of a file")[0]["message"] == f"passes, but {left} (strict)"
    client.put(uri, PASSES)
    assert client.settled(uri) == []


def test_what_lies_in_a_folder_that_is_removed_is_told_of_no_more(client: LspClient, workspace: Path) -> None:
    second = workspace.parent / "second"
    second.mkdir()
    (second / "b.pkt").write_text("bad\n")
    (second / "pdsuite.toml").write_text("mss = 10\n")
    opened = client.open(second / "open.pkt", "bad\n")
    place = {"uri": uri_of_path(str(second)), "name": "second"}
    script, settings = (uri_of_path(str(second / it)) for it in ("b.pkt", "pdsuite.toml"))
    client.notify("workspace/didChangeWorkspaceFolders", {"event": {"added": [place], "removed": []}})
    client.wait_diagnostics(script, bool, "what is wrong in the new folder")
    client.wait_diagnostics(settings, bool, "the fault of its settings")
    client.notify("workspace/didChangeWorkspaceFolders", {"event": {"added": [], "removed": [place]}})
    client.wait_diagnostics(script, lambda it: not it, "that the folder isn't followed")
    assert len(client.settled(opened)) == 1


def test_a_burst_is_joined(client: LspClient, workspace: Path) -> None:
    uri = client.open(workspace / "a.pkt", PASSES)
    client.settled(uri)
    for number in range(300):
        client.change(uri, {"range": span(9, 0, 9, 0), "text": f"// {number}\n"})
    assert client.settled(uri) == [] and not client.stale


def test_a_request_that_is_cancelled_is_dropped(client: LspClient, workspace: Path) -> None:
    uri = client.open(workspace / "a.pkt", PASSES)
    client.settled(uri)
    client.put(uri, PASSES + "// more\n")
    number = client.send_request("textDocument/hover", client.at(uri, 8, 2))
    client.notify("$/cancelRequest", {"id": number})
    try:
        client.answer(number)
    except RequestRefusedError as refusal:
        assert refusal.code == -32800
    assert client.settled(uri) == []


def test_a_request_about_an_older_text_is_given_up() -> None:
    handlers = Server(_no_programs).message_handlers()
    handlers["initialize"]({})
    handlers["textDocument/didOpen"]({"textDocument": {"uri": "file:///a.pkt", "version": 1, "text": PASSES}})
    waiting = [handlers["textDocument/hover"]({"textDocument": {"uri": f"file:///{it}.pkt"}}) for it in "ab"]
    changes = {"textDocument": {"uri": "file:///a.pkt", "version": 2}, "contentChanges": [{"text": ""}]}
    handlers["textDocument/didChange"](changes)
    assert [it.done() for it in waiting] == [True, False]
    assert waiting[0].exception().code == CONTENT_MODIFIED


def _no_programs(server: Server) -> SenderSession:
    raise Fault("no programs")


def children(client: LspClient) -> list[int]:
    """The programs that the server has started."""
    task = f"/proc/{client.process.pid}/task/{client.process.pid}/children"
    return [int(it) for it in Path(task).read_text().split()]


def test_a_program_that_is_killed_is_started_anew(client: LspClient, workspace: Path) -> None:
    uri = client.open(workspace / "a.pkt", PASSES)
    client.settled(uri)
    for number in range(3):
        for program in children(client):
            os.kill(program, signal.SIGKILL)
        client.put(uri, PASSES + "bad\n" * (number % 2))
        assert bool(client.settled(uri)) == bool(number % 2)
    client.wait(lambda: bool(client.logged), "the line that says so")
    assert "was ended by SIGKILL" in client.logged[0]


def test_no_program_outlives_a_client_that_goes_away(client: LspClient, workspace: Path) -> None:
    client.settled(client.open(workspace / "a.pkt", PASSES))
    started = children(client)
    assert started
    assert client.process.stdin is not None
    client.process.stdin.close()
    assert client.process.wait(HANGS) == 1
    until = time.monotonic() + HANGS
    while any(map(is_alive, started)):
        assert time.monotonic() < until
        time.sleep(0.01)


def test_it_ends_as_the_protocol_says(client: LspClient, workspace: Path) -> None:
    client.settled(client.open(workspace / "a.pkt", PASSES))
    assert client.end() == 0
    assert client.process.stderr is not None and client.process.stderr.read() == b""


# Each with the code of the error that answers it, if one does: no JSON, or no message.
NONSENSE: list[tuple[bytes, list[int]]] = [
    (b"hello\r\n\r\n", []),
    (b"Content-Length: x\r\n\r\n", []),
    (b"Content-Length: -5\r\n\r\n", []),
    (b"Content-Length: 5\r\n\r\n{{{{{", [-32700]),
    (b'Content-Length: 3\r\n\r\n"\xff"', [-32700]),
    (b"Content-Length: 100000\r\n\r\n" + b"[" * 100_000, [-32700]),
    (b"Content-Length: 4\r\n\r\nnull", [-32600]),
    (b"Content-Length: 2\r\n\r\n[]", [-32600]),
    (b'Content-Length: 17\r\n\r\n{"jsonrpc":"2.0"}', [-32600]),
    (b'Content-Length: 28\r\n\r\n{"jsonrpc":"2.0","method":7}', [-32600]),
    (b'Content-Length: 16\r\n\r\n{"method":"exit"}'[:-1], [-32700]),
    (b'Content-Length: 17\r\n\r\n{"method":"exit"}', [-32600]),
    (b'Content-Length: 42\r\n\r\n{"jsonrpc":"2.0","id":{},"method":"hover"} ', [-32600]),
    (b'X: y\r\nContent-Length: 38\r\n\r\n{"jsonrpc":"2.0","method":"$/unknown"}', []),
    (b"\xff\xfe\r\n\r\n\r\n", []),
]


def test_nonsense_is_left_out_or_answered(client: LspClient, workspace: Path) -> None:
    assert client.process.stdin is not None
    for octets, _ in NONSENSE:
        client.process.stdin.write(octets)
        client.process.stdin.flush()
    wanted = [code for _, codes in NONSENSE for code in codes]
    client.wait(lambda: len(client.refused) >= len(wanted), "the errors")
    assert client.refused == wanted
    reported: list[tuple[str, object]] = [
        ("textDocument/didOpen", {}),
        ("textDocument/didOpen", None),
        ("textDocument/didChange", {"textDocument": {"uri": "file:///nowhere"}, "contentChanges": [{"text": "x"}]}),
        ("textDocument/didChange", {"textDocument": 7, "contentChanges": 8}),
        ("textDocument/didClose", {"textDocument": {"uri": "file:///nowhere"}}),
        ("workspace/didChangeWatchedFiles", {"changes": [{"uri": "file:///%00"}, 7]}),
        ("$/cancelRequest", {"id": 99}),
        ("$/setTrace", {"value": "off"}),
    ]
    for method, params in reported:
        client.notify(method, params)
    uri = client.open(workspace / "a.pkt", PASSES)
    assert client.settled(uri) == []
    for method, wrong in [
        ("textDocument/hover", {}),
        ("textDocument/hover", {"textDocument": {"uri": uri}, "position": {"line": "x"}}),
        ("textDocument/codeAction", {"textDocument": {"uri": "file:///nowhere"}}),
        ("workspace/executeCommand", {"command": "rm"}),
        ("textDocument/fly", {}),
    ]:
        with pytest.raises(RequestRefusedError):
            client.request(method, wrong)
    assert client.end() == 0


def test_what_is_not_proved_is_named_and_syntax_and_outline_serve(tmp_path: Path, workspace: Path) -> None:
    empty = tmp_path / "empty"
    empty.mkdir()
    with LspClient(empty, workspace) as client:
        client.wait(lambda: bool(client.shown), "the message")
        assert "pdregress: no program" in client.shown[0]
        uri = client.open(workspace / "a.pkt", "// One\n" + HEAD + "bad\n")
        (found,) = client.settled(uri)
        assert found["range"]["start"]["line"] == 8 and "nothing was run" in found["message"]
        params = {"textDocument": {"uri": uri}}
        assert len(client.request("textDocument/documentSymbol", params)) == 1
        assert client.request("textDocument/hover", client.at(uri, 1, 0)) is None
        assert client.actions(uri, 8) == [] and client.request("textDocument/codeLens", params) == []
        client.put(uri, PASSES)
        client.wait_diagnostics(uri, lambda it: not it, "that the text can be read")
        assert len(client.shown) == 1


def test_watched_files_are_asked_for_where_the_client_has_them(recording_programs: Path, workspace: Path) -> None:
    can = {"workspace": {"didChangeWatchedFiles": {"dynamicRegistration": True}}}
    with LspClient(recording_programs, workspace, can=can) as client:
        client.wait(lambda: bool(client.requests), "a registration")
        assert client.requests[0]["method"] == "client/registerCapability"
        (workspace / "b.pkt").write_text("bad\n")
        uri = uri_of_path(str(workspace / "b.pkt"))
        client.notify("workspace/didChangeWatchedFiles", {"changes": [{"uri": uri, "type": 1}]})
        client.wait_diagnostics(uri, bool, "what is wrong with the file")


def test_a_script_without_a_workspace_is_served(recording_programs: Path, workspace: Path) -> None:
    with LspClient(recording_programs) as client:
        (workspace / "pdsuite.toml").write_text('root = true\n["a.pkt"]\nexpect = "fail"\nreason = "why"\n')
        uri = client.open(workspace / "a.pkt", WRITES + "+0 > P. 1:501(500) ack 1\n")
        assert [it["severity"] for it in client.settled(uri)] == [4]
