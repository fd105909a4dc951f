"""`pdsuite lsp` without a proof: an editor sees by which sender a row came, what is built, and why it isn't."""

import time
from pathlib import Path

import pytest

from pdsuite.lsp.features import code_lenses
from pdsuite.lsp.workspace import Result
from pdsuite.programs.verdict import Row, Verdict
from pdsuite.run.outcomes import ScriptOutcome
from pdsuite.scripts.discover import ScriptFile
from pdsuite.watch.change_report import BEFORE
from tests.helpers import HANGS
from tests.lsp_client import CAPABILITIES, Json, LspClient
from tests.test_watch_builds import SOURCE, put_rule, refuse_proof, tree_of_one_script
from tests.tree_fixture import Tree, fake_octets

PROGRESS: Json = {**CAPABILITIES, "window": {"workDoneProgress": True}}


@pytest.fixture
def tree(tmp_path: Path) -> Tree:
    return tree_of_one_script(tmp_path)


def served(tree: Tree) -> LspClient:
    return LspClient(None, tree.suite, can=PROGRESS, pdsuite=tree.top / "pdsuite", there=tree.environment)


def lens(client: LspClient, uri: str) -> str:
    """The title of the first lens above a script; empty where there is none."""
    titles = [it["command"]["title"] for it in client.request("textDocument/codeLens", {"textDocument": {"uri": uri}})]
    return str(titles[0]) if titles else ""


def await_lens(client: LspClient, uri: str, title: str) -> None:
    """Waits until this stands above a script."""
    until = time.monotonic() + HANGS
    while (shown := lens(client, uri)) != title:
        assert time.monotonic() < until, shown
        time.sleep(0.05)


def first(reported: Json) -> str:
    """The first line of a diagnostic."""
    return str(reported["message"]).partition("\n")[0]


def test_an_editor_follows_a_sender_that_is_built_and_then_proved(tree: Tree) -> None:
    with served(tree) as client:
        uri = client.open(tree.suite / "a.pkt")
        await_lens(client, uri, "pass: 1 event UNPROVED")
        assert client.shown[0] == "pdsuite: unproved: the sender is being built"
        kinds = [it["value"]["kind"] for it in client.progress]
        assert (kinds[0], kinds[-1]) == ("begin", "end")
        put_rule(tree, "fail 1 seq")
        (reported,) = client.wait_diagnostics(uri, bool, "a row of the sender after")
        assert first(reported) == "fail seq: so it is" and lens(client, uri) == "fail 1 seq UNPROVED"
        client.wait(lambda: any("the sender turned" in it for it in client.shown), "what turned")
        client.wait(lambda: any("a.pkt: turned\n  before: pass 1" in it for it in client.logged), "how it turned")
        tree.prove(pdregress=fake_octets("fail 1 seq"), pdrecord=(tree.bin / "pdrecord").read_bytes())
        await_lens(client, uri, "fail 1 seq")


def test_what_does_not_compile_is_a_diagnostic_of_its_source(tree: Tree) -> None:
    with served(tree) as client:
        uri = client.open(tree.suite / "a.pkt", "row fail 1 ack\n")
        await_lens(client, uri, "fail 1 ack UNPROVED")
        put_rule(tree, "wrong")
        source = (tree.top / SOURCE).as_uri()
        (reported,) = client.wait_diagnostics(source, bool, "what the compiler says")
        assert (reported["message"], reported["range"]["start"]) == (
            "error[mismatch]: wrong",
            {"line": 0, "character": 3},
        )
        (reported,) = client.wait_diagnostics(uri, lambda it: "before" in first(it[0]), "a mark")
        assert first(reported).startswith("(by the sender before) ")
        assert lens(client, uri) == "fail 1 ack (by the sender before)"
        put_rule(tree, "pass 2")
        client.wait_diagnostics(source, lambda it: not it, "no error")
        client.wait_diagnostics(uri, lambda it: "before" not in first(it[0]), "no mark")


def test_a_refused_proof_is_a_message_and_a_diagnostic_of_its_source_until_that_changes(tree: Tree) -> None:
    with served(tree) as client:
        uri = client.open(tree.suite / "a.pkt")
        await_lens(client, uri, "pass: 1 event UNPROVED")
        refuse_proof(tree)
        source = (tree.top / SOURCE).as_uri()
        (reported,) = client.wait_diagnostics(source, bool, "what the prover says")
        assert (reported["message"], reported["range"]["start"]) == ("error: the contract", {"line": 0, "character": 1})
        message = f"pd_board isn't proved, or wasn't built:\n{tree.top / SOURCE}:1:2: error: the contract"
        client.wait(lambda: f"pdsuite: {message}" in client.shown, "a message")
        client.wait(lambda: message in client.logged, "all of it in the log")
        put_rule(tree, "wrong")
        (reported,) = client.wait_diagnostics(
            source, lambda it: bool(it) and "contract" not in it[0]["message"], "the compiler's"
        )
        assert reported["message"] == "error[mismatch]: wrong"
        put_rule(tree, "pass 1")
        client.wait_diagnostics(source, lambda it: not it, "nothing")
        assert sum("isn't proved, or" in it for it in client.shown) == 1


def test_where_the_first_sender_does_not_compile_that_is_told_once_and_the_next_one_serves(tree: Tree) -> None:
    put_rule(tree, "wrong")
    with served(tree) as client:
        uri = client.open(tree.suite / "a.pkt", "+0 wrong\n")
        source = (tree.top / SOURCE).as_uri()
        client.wait_diagnostics(source, bool, "what the compiler says")
        (reported,) = client.wait_diagnostics(
            uri, lambda it: bool(it) and "isn't built" in it[0]["message"], "that nothing was run"
        )
        assert first(reported).endswith("; nothing was run: the sender isn't built")
        place = f"{tree.top / SOURCE}:1:4: error[mismatch]: wrong"
        message = [f"pdsuite: unproved: NotCompiled: the program doesn't compile\n{place}"]
        shown = ["pdsuite: unproved: the sender is being built", *message]
        client.wait(lambda: client.shown == shown, "what the compiler says, once")
        client.put(uri, "row fail 1 ack\n")
        client.notify("textDocument/didSave", {"textDocument": {"uri": uri}})
        put_rule(tree, "pass 1")
        await_lens(client, uri, "fail 1 ack UNPROVED")
        assert client.shown[2:] == []


def test_whose_a_row_is_stands_before_how_much_ran_for_it() -> None:
    outcome = ScriptOutcome("a.pkt", (), Row(Verdict.FAIL, 2, "seq"), None)
    result = Result(ScriptFile("a.pkt", "/", "a.pkt"), outcome, None, None, 1, 3)
    title = code_lenses("file:///a.pkt", result, BEFORE)[0]["command"]["title"]
    assert title == "fail 2 seq (by the sender before); the last change ran 3 steps"
