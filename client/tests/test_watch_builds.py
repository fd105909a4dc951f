"""`pdsuite watch` without a proof: it follows the sender as it stands, and says of each row whose it is."""

import html
import random
import signal
import time
from pathlib import Path

import pytest

from pdsuite.scripts.text import make_newline_ended_text_within_limits
from pdsuite.signals import Stop
from pdsuite.watch.plan_changes import WantedScript
from pdsuite.watch.turned_scripts import BaseSender, ShownScripts
from tests.helpers import HANGS, PASSES, Replay, is_alive, write
from tests.tree_fixture import Tree, fake_octets, put_program
from tests.watch_process import Watching

LEFT = "the sender has changed: all rows above are of the sender before\n"
BUILT = "the sender is built without proofs: all scripts ran again\n"
PROVED = "the sender is proved: all scripts ran again\n"
BUILDING = "  it is built without proofs\n"
SOURCE = "crates/pdregress/src/rule.rt"
SENDER = b"sender\n"
# A script whose row depends on the sender, and so does what is recorded of it.
RECORDED = b"sender\n+0 rule() = RULE\n//= at 0.000001 ESTABLISHED\n"


@pytest.fixture
def tree(tmp_path: Path) -> Tree:
    """A tree in which nothing is proved, with two scripts: the row of `a` depends on the sender."""
    made = Tree(tmp_path)
    made.build_fake_programs()
    put_rule(made, "pass 1")
    write(made.suite, a=SENDER, b=PASSES)
    return made


def tree_of_one_script(folder: Path) -> Tree:
    """A tree in which nothing is proved, with a script whose row depends on the sender."""
    made = Tree(folder)
    made.build_fake_programs()
    put_rule(made, "pass 1")
    write(made.suite, a=SENDER)
    (made.suite / "pdsuite.toml").write_text("root = true\n")
    return made


def put_rule(tree: Tree, row: str) -> None:
    """Gives the sender a rule: the row of scripts that depend on it."""
    (tree.top / SOURCE).write_text(f"// {row}\n")


def watched(tree: Tree, *words: str) -> Watching:
    return Watching(tree.suite, None, *words, ".", pdsuite=tree.top / "pdsuite", environment=tree.environment)


def refuse_proof(tree: Tree) -> None:
    """Leaves what ./prove leaves where it refuses the rule."""
    put_program(
        tree.top / "crates/pdregress/out/refused",
        f"pd_board isn't proved, or wasn't built:\n{tree.top / SOURCE}:1:2: error: the contract\n".encode(),
    )


def noted(tree: Tree, name: str) -> list[str]:
    """The lines that builds have noted in the file of this name."""
    file = tree.notes / name
    return file.read_text().splitlines() if file.exists() else []


def test_an_unproved_sender_is_built_and_followed(tree: Tree) -> None:
    with watched(tree) as watching:
        watching.await_err("pdsuite: unproved: ")
        assert watching.out.endswith(" UNPROVED\n")
        put_rule(tree, "fail 1 seq")
        watching.await_out(f"{LEFT}{BUILDING}{BUILT}a.pkt:1: fail seq\na.pkt: turned\n  before: pass 1\n")
        watching.await_out("  after: line 1: fail seq: so it is\n    found: by fail 1 seq\n")
        watching.await_out(" UNPROVED\n", 2)
        assert noted(tree, "built") == ["// pass 1", "// fail 1 seq"]
        assert watching.ends(signal.SIGINT).status == 1


def test_rows_while_it_is_built_are_of_the_sender_before_and_come_again(tree: Tree) -> None:
    with watched(tree) as watching:
        (tree.notes / "slow").touch()
        put_rule(tree, "fail 1 seq")
        watching.await_out(LEFT)
        write(tree.suite, b=b"row fail 1 ack\n")
        watching.await_out("b.pkt:1: fail ack (by the sender before)\n")
        watching.await_out(" UNPROVED (by the sender before)\n")
        (tree.notes / "slow").unlink()
        watching.await_out(f"{BUILT}a.pkt:1: fail seq\nb.pkt:1: fail ack\n")
        watching.await_out(" UNPROVED\n", 2)


def test_what_does_not_compile_is_told_and_the_next_save_is_built(tree: Tree) -> None:
    with watched(tree) as watching:
        put_rule(tree, "wrong")
        place = tree.top / SOURCE
        watching.await_out(
            f"the sender isn't built:\n  unproved: NotCompiled: the program doesn't compile\n  {place}:1:4: "
        )
        write(tree.suite, b=b"row fail 1 ack\n")
        watching.await_out("b.pkt:1: fail ack (by the sender before)\n")
        put_rule(tree, "pass 2")
        watching.await_out(f"{BUILT}b.pkt:1: fail ack\na.pkt: pass 2\n")
        assert watching.out.count("isn't built") == 1


def test_ten_saves_in_a_second_make_one_build_and_a_save_ends_a_build(tree: Tree) -> None:
    with watched(tree) as watching:
        for number in range(10):
            put_rule(tree, f"pass 1{number}")
            time.sleep(0.05)
        watching.await_out("a.pkt: pass 19\n")
        assert noted(tree, "builds")[1:] == ["// pass 19"]
        (tree.notes / "slow").touch()
        put_rule(tree, "pass 20")
        until = time.monotonic() + HANGS
        while noted(tree, "builds")[2:] != ["// pass 20"]:
            assert time.monotonic() < until
            time.sleep(0.01)
        put_rule(tree, "pass 21")
        while is_alive(int(noted(tree, "processes")[-1])):
            assert time.monotonic() < until
            time.sleep(0.01)
        (tree.notes / "slow").unlink()
        watching.await_out("a.pkt: pass 21\n")
        assert noted(tree, "built")[2:] == ["// pass 21"] and "pass 20" not in watching.out


def test_a_sender_that_is_taken_back_stands_again(tree: Tree) -> None:
    with watched(tree) as watching:
        put_rule(tree, "pass 2")
        watching.await_out(f"{BUILT}a.pkt: pass 2\n")
        put_rule(tree, "pass 1")
        watching.await_out(f"{BUILT}a.pkt: pass 1\n")
        assert len(noted(tree, "builds")) == 2


def test_a_proof_takes_over_and_its_label_goes(tree: Tree) -> None:
    with watched(tree) as watching:
        tree.prove(pdregress=fake_octets("pass 1"))
        watching.await_out(PROVED)
        watching.await_out("total ", 2)
        assert not watching.out.endswith("UNPROVED\n")


def test_a_refused_proof_is_told_once(tree: Tree) -> None:
    with watched(tree) as watching:
        refuse_proof(tree)
        watching.await_out(f"pd_board isn't proved, or wasn't built:\n  {tree.top / SOURCE}:1:2: error: the contract\n")
        write(tree.suite, b=b"row fail 1 ack\n")
        watching.await_out("b.pkt:1: fail ack\n")
        assert watching.out.count("isn't proved, or") == 1


def test_the_page_tells_of_a_refused_proof_until_its_source_changes(tree: Tree) -> None:
    page = tree.notes / "page/index.html"
    with watched(tree, "--html", str(page.parent)):
        refuse_proof(tree)
        await_page(page, "pd_board isn't proved, or wasn't built:", f"{tree.top / SOURCE}:1:2: error: the contract\n")
        put_rule(tree, "pass 2")
        await_page(page, without="pd_board")


def test_turned_scripts_are_told_against_a_base(tree: Tree) -> None:
    base = tree.suite.parent / "base"
    base.mkdir()
    for name, octets in (("pdregress", fake_octets("pass 7")), ("pdrecord", (tree.bin / "pdrecord").read_bytes())):
        (base / name).write_bytes(octets)
        (base / name).chmod(0o755)
    with watched(tree, "--base", str(base)) as watching:
        watching.await_out("a.pkt: turned\n  before: pass 7\n  after: pass 1\n")
        put_rule(tree, "pass 7")
        watching.await_out(f"{BUILT}a.pkt: pass 7\ntotal ")
        put_rule(tree, "fail 1 seq")
        watching.await_out("a.pkt: turned\n  before: pass 7\n  after: line 1: fail seq: so it is\n")


def test_a_base_runs_anew_what_was_edited_since(tmp_path: Path) -> None:
    program = tmp_path / "pdregress"
    put_program(program, fake_octets("pass 7"))
    rows = []
    with Stop(()) as stop:
        base = BaseSender((program, None), 1, stop, print)
        for text in (SENDER, b"row fail 1 seq\n"):
            now = ShownScripts({}, {"a.pkt": WantedScript((), make_newline_ended_text_within_limits(text))})
            rows += [
                str(it.row.whole_text_without_name)
                for it in base.kept_or_new_outcomes_of_same_scripts(now, now).values()
            ]
    assert rows == ["pass 7", "fail 1 seq"]


def test_a_terminal_says_what_is_built_and_the_page_is_marked(tree: Tree) -> None:
    with watched(tree, "--html", str(tree.notes / "page")) as watching:
        style = tree.notes / "page/sender.css"
        (tree.notes / "slow").touch()
        put_rule(tree, "fail 1 seq")
        until = time.monotonic() + HANGS
        while b"OF THE SENDER BEFORE: the sender has changed; building without proofs: " not in style.read_bytes():
            assert time.monotonic() < until, style.read_bytes()
            time.sleep(0.01)
        (tree.notes / "slow").unlink()
        watching.await_out("a.pkt:1: fail seq\n")
        while style.read_bytes():
            assert time.monotonic() < until, style.read_bytes()
            time.sleep(0.01)
        assert "UNPROVED" in (tree.notes / "page/index.html").read_text()


def await_page(page: Path, *words: str, without: str = "") -> None:
    """Waits until a page has all these words, and these others not."""
    until = time.monotonic() + HANGS
    while True:
        shown = html.unescape(page.read_text()) if page.exists() else ""
        if all(it in shown for it in words) and not (without and without in shown):
            return
        assert time.monotonic() < until, (words, without, shown)
        time.sleep(0.01)


def test_the_page_says_why_the_sender_is_not_built_and_how_it_turned_scripts(tree: Tree) -> None:
    page = tree.notes / "page/index.html"
    write(tree.suite, a=RECORDED)
    with watched(tree, "--html", str(page.parent)) as watching:
        await_page(page, "2 pass")
        put_rule(tree, "wrong")
        await_page(page, "the sender isn't built:", f"{tree.top / SOURCE}:1:4: error[mismatch]: wrong\n")
        put_rule(tree, "fail 1 seq")
        watching.await_out("a.pkt:1: fail seq\n")
        reported = ["1 script that the sender turned", "before: pass 1\n", "after: line 1: fail seq: so it is\n"]
        reported += ["the first event that differs:\n  before: +0 rule() = pass 1", "  after:  +0 rule() = fail 1 seq"]
        await_page(page, *reported, without="isn't built")
        write(tree.suite, b=b"row fail 1 ack\n")
        await_page(page, "ack", *reported)
        write(tree.suite, a=PASSES)
        await_page(page, without="the sender turned")
        assert watching.err.count("\n") == 1


def test_where_the_first_sender_is_not_built_the_page_says_why(tree: Tree) -> None:
    page = tree.notes / "page/index.html"
    put_rule(tree, "wrong")
    watching = watched(tree, "--html", str(page.parent))
    try:
        await_page(page, "the sender isn't built:", f"{tree.top / SOURCE}:1:4: error[mismatch]: wrong\n")
        assert (page.parent / "sender.css").read_bytes() == b""
        put_rule(tree, "pass 1")
        await_page(page, "2 pass", without="isn't built")
    finally:
        watching.__exit__()


@pytest.mark.parametrize("seed", range(4))
def test_after_a_storm_of_saves_the_last_rows_are_those_of_a_run(seed: int, tree: Tree) -> None:
    chance = random.Random(seed)
    rules = ("pass 1", "pass 2", "fail 1 seq", "wrong", "pass 3")
    texts = (SENDER, PASSES, b"row fail 1 ack\n", SENDER + b"// more\n")
    with watched(tree, "-v") as watching:
        for _ in range(40):
            match chance.randrange(5):
                case 0:
                    put_rule(tree, chance.choice(rules))
                case 1:
                    (tree.suite / "pdsuite.toml").write_text(f"root = true\nmss = {chance.choice((1000, 1200))}\n")
                case _:
                    write(tree.suite, **{chance.choice("abcd"): chance.choice(texts)})
            time.sleep(chance.choice((0, 0.01, 0.05, 0.4)))
        last = chance.choice(("pass 4", "fail 1 seq"))
        put_rule(tree, last)
        truth = {it.name: row_of(it.read_bytes(), last) for it in tree.suite.glob("*.pkt")}
        until = time.monotonic() + HANGS
        while rows_of(watching.out) != truth:
            assert time.monotonic() < until, (watching.out, truth)
            time.sleep(0.05)
        hold_marks(watching.out)


def row_of(text: bytes, sender: str) -> str:
    """The row of a script by a sender."""
    if text.startswith(b"sender"):
        return sender
    return "fail 1 ack" if text.startswith(b"row") else "pass 1"


def rows_of(out: str) -> dict[str, str]:
    """The rows that stand last; nothing where they are of a sender that doesn't stand."""
    if out.rfind(LEFT) > max(out.rfind(BUILT), out.rfind("stands again")) or not out.endswith(" UNPROVED\n"):
        return {}
    rows = {}
    for path, line in Replay(out).rows.items():
        place, _, row = line.partition(": ")
        number = place.rpartition(":")[2]
        row = row.partition(": ")[0]
        rows[path] = f"fail {number} {row.split()[1]}" if row.startswith("fail") else row
    return rows


def hold_marks(out: str) -> None:
    """Holds that each row between a change of the sender and the next one that stands says whose it is."""
    is_current = True
    for line in out.splitlines(keepends=True):
        if line == LEFT:
            is_current = False
        elif line == BUILT or "stands again" in line:
            is_current = True
        elif line[:1] in "abcd" and ".pkt" in line and not line.endswith("turned\n"):
            assert line.endswith(" (by the sender before)\n") != is_current, line
