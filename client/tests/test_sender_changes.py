"""A sender that changes while scripts are watched, edited or run: no row of the one before is shown as current."""

import os
import signal
import subprocess
import time
from pathlib import Path

import pytest

from tests.helpers import PASSES, is_alive, write
from tests.lsp_client import CAPABILITIES, Json, LspClient
from tests.tree_fixture import HERE, Tree, fake_octets, put_program
from tests.watch_process import Watching

LEFT = "the sender has changed: all rows above are of the sender before\n"
BEFORE = " (by the sender before)\n"
ANOTHER = "another program stands: all scripts ran again\n"
AGAIN = "the sender stands again that was before\n"
UNPROVED = "  pdregress isn't proved and built, or has changed since: run ./prove pdregress\n"
SENDER = b"sender\n"
OTHER = fake_octets("fail 1 seq")
SOURCE = "crates/pdregress/src/rule.rt"


@pytest.fixture
def tree(tmp_path: Path) -> Tree:
    """A tree whose programs count as proved, and which builds none without: the row of script `a` is its sender's."""
    made = Tree(tmp_path)
    (made.top / SOURCE).write_text("// a rule\n")
    made.prove(pdregress=fake_octets())
    write(made.suite, a=SENDER, b=PASSES)
    return made


def watched(tree: Tree, *words: str) -> Watching:
    return Watching(tree.suite, None, *words, ".", pdsuite=tree.top / "pdsuite", environment=tree.environment)


def folder_of(tmp_path: Path, octets: bytes) -> Path:
    """A folder of programs."""
    put_program(tmp_path / "programs/pdregress", octets)
    return tmp_path / "programs"


def test_a_replaced_program_is_started_and_all_is_asked_of_it(tmp_path: Path) -> None:
    write(tmp_path / "suite", a=SENDER, b=PASSES)
    programs = folder_of(tmp_path, fake_octets())
    with Watching(tmp_path, programs, "suite") as watching:
        before = watching.programs()
        folder_of(tmp_path, OTHER)
        watching.await_out(f"{ANOTHER}suite/a.pkt:1: fail seq\nsuite/a.pkt: turned\n  before: pass 1\n")
        watching.await_out("  after: line 1: fail seq: so it is\n    found: by fail 1 seq\n")
        watching.await_out("total ", 2)
        assert not any(map(is_alive, before)) and watching.err == ""
        watching.await_truth("suite")
        folder_of(tmp_path, fake_octets())
        watching.await_out(f"{ANOTHER}suite/a.pkt: pass 1\n")
        watching.await_truth("suite")


def test_a_source_that_changes_is_told_and_rows_from_then_on_say_whose_they_are(tree: Tree) -> None:
    with watched(tree) as watching:
        (tree.top / SOURCE).write_text("// another rule\n")
        watching.await_out(LEFT + UNPROVED)
        write(tree.suite, b=b"row fail 1 seq\nx\n")
        watching.await_out(f"b.pkt:1: fail seq{BEFORE}b.pkt:1: fail seq: so it is{BEFORE}  found: x\n")
        (tree.top / SOURCE).write_text("// a rule\n")
        watching.await_out(f"{AGAIN}b.pkt:1: fail seq\n")
        watching.await_out("total ", 3)
        assert watching.out.count(LEFT) == 1
        assert watching.ends(signal.SIGINT).status == 1


def test_where_none_stands_the_status_is_2_whatever_the_last_report(tree: Tree) -> None:
    with watched(tree) as watching:
        (tree.top / SOURCE).write_text("// another rule\n")
        watching.await_out(LEFT)
        assert watching.ends(signal.SIGTERM).status == 2


def test_a_program_that_is_proved_takes_over(tree: Tree) -> None:
    with watched(tree) as watching:
        (tree.top / SOURCE).write_text("// another rule\n")
        watching.await_out(LEFT)
        tree.prove(pdregress=OTHER)
        watching.await_out(f"{ANOTHER}a.pkt:1: fail seq\n")
        watching.await_out("total ", 2)
        assert watching.out.count(LEFT) == 1


def test_another_file_at_the_path_of_a_program_that_ends_is_not_started(tree: Tree) -> None:
    mark = tree.notes / "mark"
    with watched(tree) as watching:
        (run,) = watching.programs()
        os.kill(watching.process, signal.SIGSTOP)
        tree.put_program("pdregress", f"#!/bin/sh\ntouch {mark}\n".encode())
        os.kill(run, signal.SIGKILL)
        os.kill(watching.process, signal.SIGCONT)
        watching.await_out(LEFT + UNPROVED)
        write(tree.suite, b=b"row fail 1 seq\n")
        time.sleep(0.5)
        assert not mark.exists() and watching.programs() == []
        tree.prove(pdregress=fake_octets())
        watching.await_out(f"{ANOTHER}b.pkt:1: fail seq\n")


# Commands of the shell that change a tree whose programs are proved, while its scripts are watched.
LEAVES = {
    "a file goes": "rm crates/pdregress/src/rule.rt",
    "a file comes": ": >crates/pdregress/src/more.rt",
    "a folder comes with a file": "mkdir -p crates/pdregress/proofs/f && : >crates/pdregress/proofs/f/Answers.antt",
    "a file has another name": "mv crates/pdregress/src/rule.rt crates/pdregress/src/other.rt",
    "a file has a name of another case": "mv crates/pdregress/src/rule.rt crates/pdregress/src/Rule.rt",
    "a file is a link": "mv crates/pdregress/src/rule.rt rule && ln -s ../../../rule crates/pdregress/src/rule.rt",
    "a folder is a link": "mv crates/pdregress/src sources && ln -s ../../sources crates/pdregress/src",
    "a folder goes elsewhere": "mv crates/pdregress/src crates/pdregress/sources",
    "a crate goes elsewhere": "mv crates/pdregress crates/elsewhere",
    "a crate has another line": "sed -i 's/^pdregress:.*/pdregress: toml/' crates.txt",
    "no table of crates": "rm crates.txt",
    "handles come": "echo 'Handles allowed: none.' >HANDLES",
    "an older file of the same size": (
        "printf '// a ruse\\n' >x && touch -d 2001-01-01 x && mv x crates/pdregress/src/rule.rt"
    ),
    "an edit in place with its date": (
        "printf '// a ruse\\n' >x && touch -r crates/pdregress/src/rule.rt x && cat x >crates/pdregress/src/rule.rt "
        "&& touch -r x crates/pdregress/src/rule.rt && rm x"
    ),
    "another kit": "echo 'kit 2' >../KIT-ID",
    "no checksums": "rm crates/pdregress/out/pdregress.sums",
    "no program": "rm crates/pdregress/out/pdregress",
}
STAYS = {
    "all sources are touched": "find crates crates.txt -name out -prune -o -exec touch {} +",
    "all their dates are set back": "find crates crates.txt -name out -prune -o -exec touch -d 2001-01-01 {} +",
    "a file of an editor comes": "cd crates/pdregress/src && echo >rule.rt~ && ln -s me@here.1 .#rule.rt",
    "a crate comes on which nothing stands": "mkdir -p crates/other/src && : >crates/other/src/lib.rt",
}


def do(tree: Tree, command: str) -> None:
    """Does a command of the shell in a tree."""
    subprocess.run(["sh", "-euc", command], cwd=tree.top, check=True)


@pytest.mark.parametrize("done", LEAVES.values(), ids=LEAVES)
def test_whatever_changes_of_what_was_proved_no_row_is_current(done: str, tree: Tree) -> None:
    with watched(tree) as watching:
        do(tree, done)
        watching.await_out(LEFT)
        write(tree.suite, c=PASSES)
        time.sleep(0.3)
        assert "c.pkt: pass 1\n" not in watching.out
        assert watching.ends(signal.SIGINT).status == 2


@pytest.mark.parametrize("done", STAYS.values(), ids=STAYS)
def test_where_it_is_the_same_rows_stay_current(done: str, tree: Tree) -> None:
    with watched(tree) as watching:
        do(tree, done)
        write(tree.suite, c=PASSES)
        watching.await_out("c.pkt: pass 1\n")
        time.sleep(0.3)
        assert LEFT not in watching.out and ANOTHER not in watching.out
        assert watching.ends(signal.SIGINT).status == 0


def test_a_row_and_what_explains_it_are_of_one_program(tmp_path: Path) -> None:
    programs = folder_of(tmp_path, fake_octets("fail 1 ack"))
    other = put_program(tmp_path / "programs/other", fake_octets("fail 1 seq"))
    write(tmp_path / "suite", a=SENDER, b=PASSES)
    with Watching(tmp_path, programs, "suite") as watching:
        # Once its scripts are run, and before it explains them, the program's file is another one.
        write(tmp_path / "suite", b=f"yield {other}\n".encode(), c=SENDER)
        watching.await_out(f"{ANOTHER}suite/a.pkt:1: fail seq\n")
        watching.await_out("total ", 2)
        first, second = watching.out.split(ANOTHER)
        assert "by fail 1 seq" not in first and "suite/c.pkt" not in first
        assert "by fail 1 ack" not in second.replace(
            "before: line 1: fail ack: so it is\n    found: by fail 1 ack\n", ""
        )
        assert second.count("    found: by fail 1 seq\n") == 1 and second.count("\n  found: by fail 1 seq\n") == 2


def test_where_nothing_changed_no_process_looks(tree: Tree) -> None:
    tool, looks = tree.top / "tools/proved_program.sh", tree.notes / "looks"
    real = tool.rename(tool.with_name("built_so.sh"))
    put_program(tool, f'#!/bin/sh\necho "$@" >>{looks}\nexec {real} "$@"\n'.encode())
    with watched(tree) as watching:
        time.sleep(0.5)
        before = looks.read_text()
        for number in range(3):
            write(tree.suite, b=b"row fail %d seq\n" % (number + 2))
            watching.await_out(f"b.pkt:{number + 2}: fail seq\n")
        assert looks.read_text() == before
        (tree.top / SOURCE).write_text("// another rule\n")
        watching.await_out(LEFT)
        assert looks.read_text() != before


def test_what_a_package_has_is_looked_at_without_a_process(tmp_path: Path) -> None:
    tree = Tree(tmp_path / "usr/lib")
    (tree.top / "version").write_text("0.2.0\n")
    mark = tmp_path / "mark"
    (tree.top / "tools/proved_program.sh").write_text(f"#!/bin/sh\ntouch {mark}\nexit 2\n")
    put_program(tmp_path / "usr/bin/pdregress", fake_octets())
    write(tree.suite, a=SENDER)
    with watched(tree) as watching:
        (tree.top / SOURCE).write_text("// a rule\n")
        write(tree.suite, a=b"row fail 1 seq\n")
        watching.await_out("a.pkt:1: fail seq\n")
        assert LEFT not in watching.out and not mark.exists()
    assert tree.call("run", "suite").status == 1 and not mark.exists()


@pytest.mark.parametrize(
    ("words", "message"),
    [
        (("run",), "run the scripts again"),
        (("record", "--write"), "nothing is written"),
        (("expect", "--reason", "so it is"), "nothing is written"),
        (("compare", "--base", "base"), "compare again"),
        (("rules",), "list the rules again"),
    ],
    ids=["run", "record", "expect", "compare", "rules"],
)
def test_a_sender_that_changes_in_the_midst_is_said_and_the_status_is_2(
    words: tuple[str, ...], message: str, tree: Tree
) -> None:
    tree.prove(pdregress=fake_octets(), pdrecord=(tree.bin / "pdrecord").read_bytes())
    base = tree.suite.parent / "base"
    base.mkdir()
    for name in ("pdregress", "pdrecord"):
        (base / name).write_bytes((tree.bin / name).read_bytes())
        (base / name).chmod(0o755)
    script = f"touch {tree.top / SOURCE}\n// more\n".encode()
    write(tree.suite, a=script, b=b"row fail 1 seq\nfor pdrecord\n")
    called = tree.call(*words, "suite")
    *_, last = called.err.splitlines()
    assert (called.status, last) == (2, f"pdsuite: the sender has changed meanwhile: {message}")
    assert not (tree.suite / "pdsuite.toml").exists() and b"row" in (tree.suite / "b.pkt").read_bytes()


@pytest.mark.parametrize(
    "words",
    [
        ("compare", "--base", "bin", "--with", "changing", "--search", "1"),
        ("search", "--for", "state:ESTABLISHED", "--with", "changing"),
    ],
    ids=["compare --search", "search"],
)
def test_a_search_whose_sender_changes_in_the_midst_says_so_and_saves_nothing(
    words: tuple[str, ...], tree: Tree
) -> None:
    changing, small = tree.suite.parent / "changing", (HERE / "fake_sender.py").read_bytes()
    for name in ("pdregress", "pdrecord"):
        put_program(tree.bin / name, small)
        put_program(changing / "real" / name, small)
    (changing / "real/change").write_text("late")
    put_program(changing / "pdregress", f'#!/bin/sh\nexec {changing}/real/pdregress "$@"\n'.encode())
    script = f'#!/bin/sh\necho >>{changing}/pdregress\nexec {changing}/real/pdrecord "$@"\n'
    put_program(changing / "pdrecord", script.encode())
    called = tree.call(*words, "--seed", "1", "--save", "suite/found.pkt")
    *_, last = called.err.splitlines()
    assert (called.status, last) == (2, "pdsuite: the sender has changed meanwhile: search again")
    assert called.out == "" and not (tree.suite / "found.pkt").exists()


def test_an_unproved_run_sees_that_sources_changed_in_the_midst(tree: Tree) -> None:
    (tree.top / SOURCE).write_text("// another rule\n")
    write(tree.suite, a=f"touch {tree.top / SOURCE}\n".encode())
    called = tree.call("run", "suite")
    assert called.status == 2 and "the sender has changed meanwhile: run the scripts again" in called.err


def test_a_touched_source_is_no_change(tree: Tree) -> None:
    write(tree.suite, a=f"touch {tree.notes / 'elsewhere'}\n".encode())
    (tree.top / SOURCE).touch()
    assert tree.call("run", "suite").status == 0


DIMS: Json = {
    **CAPABILITIES,
    "textDocument": {**CAPABILITIES["textDocument"], "publishDiagnostics": {"tagSupport": {"valueSet": [1]}}},
}


def served(tree: Tree) -> LspClient:
    """A language server of a tree, in which both programs are proved."""
    tree.prove(pdregress=fake_octets(), pdrecord=(tree.bin / "pdrecord").read_bytes())
    return LspClient(None, tree.suite, can=DIMS, pdsuite=tree.top / "pdsuite", there=tree.environment)


def first(reported: Json) -> str:
    """The first line of a diagnostic."""
    return str(reported["message"]).partition("\n")[0]


def lens(client: LspClient, uri: str) -> str:
    """The title of the first lens above a script."""
    title: str = client.request("textDocument/codeLens", {"textDocument": {"uri": uri}})[0]["command"]["title"]
    return title


def test_an_editor_is_told_of_a_source_that_changes_and_all_is_marked(tree: Tree) -> None:
    with served(tree) as client:
        uri = client.open(tree.suite / "b.pkt", "row fail 1 seq\n")
        (reported,) = client.settled(uri)
        assert (first(reported), "tags" in reported) == ("fail seq", False)
        assert lens(client, uri) == "fail 1 seq"
        (tree.top / SOURCE).write_text("// another rule\n")
        (reported,) = client.wait_diagnostics(uri, lambda it: first(it[0]) != "fail seq", "a mark")
        assert (first(reported), reported["tags"]) == ("(by the sender before) fail seq", [1])
        assert lens(client, uri) == "fail 1 seq (by the sender before)"
        (message,) = client.shown
        assert message == "pdsuite: the sender has changed: rows are old"
        client.put(uri, "row fail 1 ack\n")
        (reported,) = client.settled(uri)
        assert first(reported) == "(by the sender before) fail ack"
        (tree.top / SOURCE).write_text("// a rule\n")
        (reported,) = client.wait_diagnostics(uri, lambda it: first(it[0]) == "fail ack", "no mark")
        assert "tags" not in reported


def test_an_editor_gets_all_anew_of_a_program_that_takes_over(tree: Tree) -> None:
    with served(tree) as client:
        uri = client.open(tree.suite / "a.pkt")
        assert client.settled(uri) == []
        (tree.top / SOURCE).write_text("// another rule\n")
        client.wait(lambda: bool(client.shown), "a message")
        tree.prove(pdregress=OTHER, pdrecord=(tree.bin / "pdrecord").read_bytes())
        (reported,) = client.wait_diagnostics(uri, bool, "a diagnostic")
        assert first(reported) == "fail seq: so it is" and lens(client, uri) == "fail 1 seq"


def test_an_editor_has_no_program_started_that_is_not_proved(tree: Tree) -> None:
    mark = tree.notes / "mark"
    with served(tree) as client:
        uri = client.open(tree.suite / "b.pkt", "row fail 1 seq\n")
        client.settled(uri)
        tree.put_program("pdregress", f"#!/bin/sh\ntouch {mark}\n".encode())
        client.wait(lambda: bool(client.shown), "a message")
        client.actions(uri, 0)
        client.put(uri, "row fail 1 ack\n")
        assert client.actions(uri, 0) == [] and not mark.exists()


def test_an_editor_has_rows_and_reasons_of_the_program_that_took_a_place(tmp_path: Path) -> None:
    programs = folder_of(tmp_path, fake_octets("fail 1 ack"))
    put_program(programs / "pdrecord", (HERE / "fake_pdrecord.py").read_bytes())
    other = put_program(tmp_path / "other", fake_octets("fail 1 seq"))
    write(tmp_path / "suite", a=SENDER, b=PASSES)
    (tmp_path / "suite/pdsuite.toml").write_text("root = true\n")
    with LspClient(programs, tmp_path / "suite", can=DIMS) as client:
        uri = client.open(tmp_path / "suite/a.pkt")
        (reported,) = client.settled(uri)
        assert first(reported) == "fail ack: so it is"
        # Once its scripts are run, and before it explains them, the program's file is another one.
        seen = client.open(tmp_path / "suite/b.pkt", f"yield {other}\n")
        (reported,) = client.wait_diagnostics(
            uri, lambda it: first(it[0]) != "fail ack: so it is", "a row of the other program"
        )
        assert first(reported) == "fail seq: so it is" and lens(client, uri) == "fail 1 seq"
        assert client.settled(seen) == [] and not other.exists()
