"""Builds without proofs that the tools keep, as the client takes them: a kit and the programs stand in."""

import json
import os
import select
import shutil
import signal
from pathlib import Path

import pytest

from pdsuite.compare.built_senders import build_missing_programs
from pdsuite.compare.senders import Sender
from pdsuite.output.screen import Screen
from pdsuite.programs import build
from pdsuite.programs.build import Build, BuildError, NoKeptBuildError, build_if_needed_and_get_folder, find_kept_build
from pdsuite.programs.verdict import Verdict
from pdsuite.search.oracle import ConfiguredScript, ProgramOracle
from pdsuite.signals import Stop, StoppedError
from tests.helpers import TOP, Called, is_alive, wait_for, write
from tests.tree_fixture import Tree

_TOOLS = (
    *("build_unproved.py", "building.py", "crate_graph.py", "combined.rattle", "fault_handler.c", "fault_places.py"),
    *("build_cache.py", "kit_tools.py", "run_unproved.py", "source_sums.py", "report_fault.py"),
)
ROW = b"row pass 1\n"


@pytest.fixture
def tree(tmp_path: Path, monkeypatch: pytest.MonkeyPatch) -> Tree:
    """A tree in which nothing is proved, with the kit that stands in."""
    tree = Tree(tmp_path)
    for name in _TOOLS:
        shutil.copy(TOP / "tools" / name, tree.top / "tools")
    shutil.copy(TOP / "pdregress", tree.top)
    (tree.top / "pdrecord").symlink_to("pdregress")
    shutil.copytree(TOP / "tests/fake_kit", tmp_path / "kit")
    for name in ("pdregress", "pdrecord"):
        (tree.top / "crates" / name / "src/main.rt").write_text(f"{name}\n")
    write(tree.suite, one=ROW, two=b"row fail 2 seq\n")
    environment = {**tree.environment, "PATH": f"{tmp_path / 'kit/bin'}:{os.environ['PATH']}"}
    for name in ("NOTES", "XDG_CACHE_HOME", "PATH"):
        monkeypatch.setenv(name, environment[name])
    monkeypatch.delenv("PDSUITE_PROGRAMS", raising=False)
    monkeypatch.setattr(build, "BUILD_TOOL", tree.top / "tools/build_unproved.py")
    return tree


def call(tree: Tree, *words: str | Path) -> Called:
    """Calls the tree's ./pdsuite, where what is built is the fake programs."""
    return tree.call(*words, FAKE_PROGRAMS=str(tree.bin), PATH=os.environ["PATH"])


def calls(tree: Tree) -> list[str]:
    """The calls of the kit since the last call of this function, each by its first word."""
    file = tree.notes / "calls"
    found = file.read_text().splitlines() if file.exists() else []
    file.unlink(missing_ok=True)
    return [it.partition(" ")[0] for it in found]


def first(tree: Tree, doing: str) -> str:
    return f"pdsuite: unproved: {doing}; {tree.top / 'prove'} proves the programs\n"


def test_a_run_takes_the_build_that_is_kept(tree: Tree) -> None:
    called = call(tree, "run", "suite")
    assert called.err == first(tree, "building first, then running without proofs")
    assert calls(tree) == ["read", "compile", "compile", "link"]
    again = call(tree, "run", "suite")
    assert again.err == first(tree, "running without proofs")
    assert (called.status, again.status, calls(tree)) == (1, 1, [])
    for it in (called, again):
        assert it.out.startswith("suite/two.pkt:2: fail seq\n") and it.out.endswith(" UNPROVED\n")


def test_a_cluster_is_given_the_build_that_is_kept(tree: Tree) -> None:
    pytest.importorskip("distributed", reason="python3-distributed isn't installed")
    call(tree, "run", "suite")
    called = call(tree, "run", "--scheduler", "nowhere", "suite")
    assert (called.status, called.out) == (2, "")
    assert called.err.startswith(first(tree, "running without proofs") + "pdsuite: nowhere: no address of a scheduler")
    assert "isn't proved and built" in call(tree, "run", "--proved", "--scheduler", "nowhere", "suite").err


def test_only_a_proved_program_runs_where_that_is_asked_for(tree: Tree) -> None:
    call(tree, "run", "suite")
    called = call(tree, "run", "--proved", "suite")
    assert (called.status, called.out) == (2, "") and "isn't proved and built" in called.err


def test_scripts_are_recorded_and_expected_by_a_build(tree: Tree) -> None:
    (tree.suite / "two.pkt").write_bytes(b"row fail 2 seq\n")
    recorded = call(tree, "record", "suite")
    assert recorded.err.startswith(first(tree, "building first, then running without proofs"))
    expected = call(tree, "expect", "--reason", "so", "suite")
    assert expected.status == 0 and expected.err == first(tree, "running without proofs")
    assert '["two.pkt"]' in (tree.suite / "pdsuite.toml").read_text()


def test_rules_are_listed_by_a_build(tree: Tree) -> None:
    write(tree.suite, one=b"row pass 1\nrules 2 rfc9293.ack\n")
    table = call(tree, "rules", "suite")
    assert (table.status, table.err) == (0, first(tree, "building first, then running without proofs"))
    assert table.out.splitlines()[-1].endswith(" UNPROVED") and table.out.count("suite/one.pkt\n") == 1
    for words in (("suite",), ("--rule", "rfc9293.ack", "suite"), ("--script", "suite/one.pkt")):
        assert json.loads(call(tree, "rules", "--json", *words).out)["UNPROVED"] is True


def test_senders_are_compared_by_builds_that_are_kept(tree: Tree) -> None:
    other = tree.suite.parent / "other"
    shutil.copytree(tree.top, other, symlinks=True)
    (other / "crates/pdrecord/src/main.rt").write_text("another\n")
    words = ("compare", "--base", other, "suite")
    called = call(tree, *words)
    assert called.err.splitlines()[1] == "pdsuite: building both senders first"
    assert (called.status, calls(tree).count("read")) == (0, 2)
    assert called.out.endswith(" s UNPROVED\n")
    again = call(tree, *words)
    assert len(again.err.splitlines()) == 1 and calls(tree) == []
    (tree.top / "crates/pdrecord/src/main.rt").write_text("edited\n")
    edited = call(tree, *words)
    assert edited.err.splitlines()[1:] == ["pdsuite: building the sender first"] and calls(tree).count("read") == 1


def test_a_search_takes_an_optimised_build(tree: Tree) -> None:
    shutil.copy(TOP / "client/tests/fake_sender.py", tree.bin / "pdregress")
    shutil.copy(TOP / "client/tests/fake_sender.py", tree.bin / "pdrecord")
    call(tree, "search", "--for", "una:1", "--seed", "1", "--seconds", "1")
    (found,) = (tree.notes / "cache/pdregress/builds").glob("*/optimised")
    assert "# -O1" in (found / "pdregress").read_text()


STOPS = """#!/bin/sh
kind=overflow
case $BUILT in */optimised/*) kind=check ;; esac
echo "pdregress: unproved: Faulted: kind=$kind" >&2
exit 2
"""


def test_where_an_optimised_program_stops_the_plain_one_says_why(tree: Tree, monkeypatch: pytest.MonkeyPatch) -> None:
    (tree.bin / "pdregress").write_text(STOPS)
    monkeypatch.setenv("FAKE_PROGRAMS", str(tree.bin))
    with Stop(()) as stop, Screen(False, False) as screen:
        (sender,) = build_missing_programs([Sender("it", None, tree.top)], "optimised", stop, screen)
        assert (str(sender), sender.is_proved) == ("it, unproved", False)
        (row,) = ProgramOracle(sender, stop).run_scripts_for_rows([ConfiguredScript((), b"x\n")])
    assert (row.verdict, row.word) == (Verdict.ERROR, "pdregress: unproved: Faulted: kind=overflow")


def test_many_scripts_are_run_by_an_optimised_build_where_one_is_kept(
    tree: Tree, monkeypatch: pytest.MonkeyPatch
) -> None:
    (tree.bin / "pdregress").write_text("#!/bin/sh\necho $BUILT >$NOTES/built\nexit 2\n")
    monkeypatch.setenv("FAKE_PROGRAMS", str(tree.bin))
    with Stop(()) as stop:
        for folder in (
            build_if_needed_and_get_folder(tree.top, "optimised", stop),
            build_if_needed_and_get_folder(tree.top, "plain", stop),
        ):
            assert folder.is_dir()
    write(tree.suite / "many", **{f"s{number}": ROW for number in range(1_998)})
    call(tree, "run", "suite")
    assert "/plain/" in (tree.notes / "built").read_text()
    write(tree.suite / "many", last=ROW)
    call(tree, "run", "suite")
    assert "/optimised/" in (tree.notes / "built").read_text()


@pytest.mark.parametrize(
    "words",
    [
        *(("run", "--html", "full", "suite"), ("run", "--settings", "1", "suite"), ("run", "--shard", "3/2", "suite")),
        *(("compare", "--base", "full", "suite"), ("compare", "--base", "other", "--html", "full", "suite")),
        ("search", "--for", "una:1", "--save", "x"),
    ],
)
def test_what_can_be_refused_is_refused_before_anything_is_built(tree: Tree, words: tuple[str, ...]) -> None:
    full = tree.suite.parent / "full"
    full.mkdir()
    (full / "file").touch()
    shutil.copytree(tree.top, tree.suite.parent / "other", symlinks=True)
    called = call(tree, *words)
    assert (called.status, called.out, calls(tree)) == (2, "", [])
    assert "building" not in called.err


def test_what_does_not_compile_is_told_with_its_place(tree: Tree) -> None:
    (tree.top / "tools/combined.rattle").write_text("wrong\n")
    called = call(tree, "run", "suite")
    assert (called.status, called.out) == (2, "")
    assert called.err.splitlines()[1:3] == [
        "pdsuite: unproved: NotCompiled: the program doesn't compile",
        f"{tree.top / 'tools/combined.rattle'}:1:1: error[mismatched-types]: wrong",
    ]


def test_phases_are_heard_through_a_descriptor(tree: Tree) -> None:
    phases = []
    with Stop(()) as stop:
        assert find_kept_build(tree.top) is None
        folder = build_if_needed_and_get_folder(
            tree.top, "plain", stop, lambda phase, seconds: phases.append((phase, seconds >= 0))
        )
    assert folder == find_kept_build(tree.top) and {it.name for it in folder.iterdir()} == {
        "pdregress",
        "pdrecord",
        "sum",
    }
    assert list(dict.fromkeys(phases))[-1] == ("linking", True)


def test_a_build_that_is_ended_leaves_nothing(tree: Tree) -> None:
    (tree.notes / "slow").touch()
    with Build(tree.top, "any") as begun:
        wait_for(tree.notes / "reading")
        assert select.select([begun], [], [], 10)[0]
        begun.read_output_to_update_phase_and_is_over()
        assert (begun.phase, begun.is_over) == ("reading", False)
        reader = int((tree.notes / "reading").read_text())
    assert not is_alive(reader)
    assert not list((tree.notes / "cache/pdregress/builds").glob("*.part"))


def test_what_comes_of_a_build_that_does_not_come_to_an_end(tree: Tree) -> None:
    with Stop(()) as stop:
        (tree.top / "tools/combined.rattle").write_text("wrong\n")
        with pytest.raises(BuildError, match="NotCompiled: the program doesn't compile"):
            build_if_needed_and_get_folder(tree.top, "any", stop)
        (tree.notes.parent / "kit/KIT-ID").write_text("another\n")
        with pytest.raises(NoKeptBuildError, match="is of another kit than rattle-kit-13f"):
            build_if_needed_and_get_folder(tree.top, "any", stop)
    (tree.notes.parent / "kit/KIT-ID").unlink()
    assert find_kept_build(tree.top) is None


def test_a_signal_ends_a_build(tree: Tree) -> None:
    (tree.notes / "slow").touch()
    with Stop((signal.SIGUSR1,)) as stop:
        os.kill(os.getpid(), signal.SIGUSR1)
        with pytest.raises(StoppedError):
            build_if_needed_and_get_folder(tree.top, "any", stop)
    assert not list((tree.notes / "cache/pdregress/builds").glob("*.part"))
