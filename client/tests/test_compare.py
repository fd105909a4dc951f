"""`pdsuite compare`, by fake programs: two senders, of which one is changed."""

import json
import shutil
import signal
import subprocess
from pathlib import Path

import pytest

from pdsuite.commands import compare as comparing
from pdsuite.output.screen import Screen
from pdsuite.signals import StoppedError
from tests.helpers import BLOCK_LINES, TOP, Called, ends, is_alive, wait_for, write
from tests.tree_fixture import Tree

STATE = "//= at 0.100000 ESTABLISHED cwnd:4000 DupAcks:{}\n"
# Each has a row, and below it a recording; of one that doesn't pass that is the explanation, too.
QUICK = f"row pass 9\n+0 > . 1:1001(1000) ack 1\n{STATE.format(2)}".encode()
SLOW = f"row pass 8\n+0 > . 2001:3001(1000) ack 1\n{STATE.format(3)}".encode()
LONE = b"row pass 7\n"
# Changes of the sender, and how the scripts QUICK, SLOW and LONE then compare.
CHANGES = {
    "s/^row pass 9/row fail 2 seq/": ["turned", "as before", "not compared"],
    "s/^+0 > [.] 2001:3001/+0 > . 1:1001/": ["as before", "played otherwise", "not compared"],
    "s/^row pass [78]/row fail 1 missing/": ["as before", "turned", "turned"],
}


@pytest.fixture
def tree(tmp_path: Path) -> Tree:
    """A tree in which nothing is proved, and three scripts."""
    tree = Tree(tmp_path)
    write(tree.suite, quick=QUICK)
    write(tree.suite / "low", lone=LONE, slow=SLOW)
    return tree


def compare(tree: Tree, *words: str | Path) -> Called:
    """Compares the fake programs as they are with the tree's sender."""
    return tree.call("compare", "--base", tree.bin, *words, "suite")


def untimed(out: str) -> str:
    """An output up to the seconds in its last line."""
    lines = out.splitlines()
    return "\n".join([*lines[:-1], lines[-1].split(" in ")[0]])


def test_where_nothing_differs_the_status_is_0(tree: Tree) -> None:
    called = compare(tree)
    assert (called.status, untimed(called.out)) == (
        0,
        "suite/low: 2 scripts, 0 turned, 0 played otherwise, 1 as before, 1 not compared\n"
        "suite: 1 script, 0 turned, 0 played otherwise, 1 as before\n"
        "total 3 turned 0 played otherwise 0 as before 2 not compared 1",
    )
    assert called.out.endswith(" s UNPROVED\n") and tree.builds() == 1
    assert called.err == (
        f"pdsuite: before: {tree.bin}; after: the tree as it stands, unknown, unproved\n"
        "pdsuite: building the sender first\n"
    )


def test_a_script_that_turns_is_told_with_both_blocks_and_where_its_recordings_part(tree: Tree) -> None:
    tree.change("s/^row pass 9/row fail 2 seq/\ns/1:1001(1000)/5001:6001(1000)/\n")
    called = compare(tree)
    assert called.status == 1 and called.out.splitlines()[:11] == [
        "suite/quick.pkt: turned",
        "  before: pass 9",
        "  after: line 2: fail seq: so it is",
        *(f"    {line}" for line in BLOCK_LINES),
        "  the first event that differs:",
        "    before: +0 > . 1:1001(1000) ack 1 // 0.100000",
        "    after:  +0 > . 5001:6001(1000) ack 1 // 0.100000",
        "    state:  none",
        "suite/low: 2 scripts, 0 turned, 0 played otherwise, 1 as before, 1 not compared",
    ]


def test_a_script_that_stays_and_is_played_otherwise_is_told_after_those_that_turn(tree: Tree) -> None:
    tree.change("s/^row pass 8/row fail 2 seq/\ns/^+0 > [.] 1:1001/+0 > . 1:501/\n")
    heads = [line for line in compare(tree).out.splitlines() if line.startswith("suite/") and ".pkt" in line]
    assert heads == ["suite/low/slow.pkt: turned", "suite/quick.pkt: played otherwise"]


def rows(called: Called) -> dict[str, str]:
    """The verdicts of a report as JSON."""
    return {it["path"]: it["verdict"] for it in json.loads(called.out)["scripts"]}


@pytest.mark.parametrize("change", CHANGES)
def test_a_change_turns_what_differs_between_the_two_full_reports(tree: Tree, change: str) -> None:
    before = rows(tree.call("run", "--json", "suite"))
    tree.change(change + "\n")
    after = rows(tree.call("run", "--json", "suite"))
    reported = json.loads(compare(tree, "--json").out)
    turned = [it["path"] for it in reported["scripts"] if it["kind"] == "turned"]
    assert turned == [path for path in after if before[path] != after[path]]
    kinds = dict(zip(["suite/quick.pkt", "suite/low/slow.pkt", "suite/low/lone.pkt"], CHANGES[change]))
    assert {it["path"]: it["kind"] for it in reported["scripts"]} == {
        path: kind for path, kind in kinds.items() if kind in ("turned", "played otherwise")
    }
    assert reported["total"] == {
        "scripts": 3,
        **{kind: CHANGES[change].count(kind) for kind in ("turned", "played otherwise", "as before", "not compared")},
    }


def test_as_json_it_has_both_senders_both_blocks_and_both_events(tree: Tree) -> None:
    tree.change("s/^row pass 9/row fail 2 seq/\ns/1:1001(1000)/5001:6001(1000)/\n")
    reported = json.loads(compare(tree, "--json").out)
    assert (reported["before"], reported["UNPROVED"]) == (str(tree.bin), True)
    (script,) = reported["scripts"]
    assert (script["before"]["row"], script["after"]["row"], script["after"]["line"]) == ("pass 9", "fail seq", 2)
    assert script["parting"]["after"] == {"event": "+0 > . 5001:6001(1000) ack 1", "moment": "0.100000", "state": ""}


def test_two_folders_of_programs_are_compared_without_a_build(tree: Tree) -> None:
    other = tree.suite.parent / "other"
    shutil.copytree(tree.bin, other)
    script = f'#!/bin/sh\nexec sed -u "s/^row pass 9/row fail 2 seq/" | "{tree.bin}/{{}}" "$@"\n'
    for name in ("pdregress", "pdrecord"):
        (other / name).write_text(script.format(name))
    called = compare(tree, "--with", other)
    assert called.status == 1 and called.out.startswith("suite/quick.pkt: turned\n  before: pass 9\n  after: line 2: ")
    assert tree.builds() == 0 and "UNPROVED" not in called.out
    assert called.err == f"pdsuite: before: {tree.bin}; after: {other}\n"


# Has a fake program run scripts once the other sender's does so too, or note that it never does.
TOGETHER = """
def meet():
    open("{notes}/{own}", "w").close()
    for _ in range(200):
        if os.path.exists("{notes}/{other}"):
            return time.sleep({seconds})
        time.sleep(0.05)
    open("{notes}/alone", "w").close()


if "--workers" in sys.argv:
    meet()
KILL,"""


def test_two_folders_of_programs_run_side_by_side_and_are_told_of_in_their_order(tree: Tree) -> None:
    write(tree.suite, one=b"fault one\n", two=b"fault two\n")
    for own, other, fault, seconds in (("before", "after", "one", 0.5), ("after", "before", "two", 0)):
        shutil.copytree(tree.bin, folder := tree.suite.parent / own)
        meet = TOGETHER.format(own=own, other=other, notes=tree.notes, seconds=seconds)
        text = (folder / "pdregress").read_text().replace("KILL,", meet, 1)
        text = text.replace('case ["fault", *fault]', f'case ["fault", *fault] if fault == ["{fault}"]', 1)
        (folder / "pdregress").write_text(text)
    called = tree.call("compare", "--base", "before", "--with", "after", "suite")
    assert not (tree.notes / "alone").exists()
    reported = [line.partition(";")[0] for line in called.err.splitlines() if "; a new run begins at " in line]
    assert reported == ["pdsuite: pdregress: one", "pdsuite: pdregress: two"]


ON = b"told early\n+0 > . 1:1001(1000) ack 1 SETTINGS\n//= at 0.100000 ESTABLISHED cwnd:4000 DupAcks:2\n"
LACKS = "s/^set early /set no_early /"


def lacking(tree: Tree) -> Path:
    """A folder of programs that have no setting `early`."""
    other = tree.suite.parent / "other"
    shutil.copytree(tree.bin, other)
    for name in ("pdregress", "pdrecord"):
        (other / name).write_text(f'#!/bin/sh\nexec sed -u "{LACKS}" | "{tree.bin}/{name}" "$@"\n')
    return other


def test_one_sender_is_compared_with_itself_under_two_settings(tree: Tree) -> None:
    write(tree.suite, on=ON)
    (tree.suite / "pdsuite.toml").write_text("early = 7\n")
    words = ("--with", tree.bin, "--base-settings", "early = 3", "--with-settings", "early = 4\nlate = 5")
    called = compare(tree, *words, "--only", "on.pkt")
    assert (called.status, tree.builds()) == (1, 0)
    assert called.err == f"pdsuite: before: {tree.bin} with early = 3; after: {tree.bin} with early = 4, late = 5\n"
    assert called.out.splitlines()[:7] == [
        "suite/on.pkt: turned",
        "  before: pass 3",
        "  after: pass 4",
        "  the first event that differs:",
        "    before: +0 > . 1:1001(1000) ack 1 early = 3 // 0.100000",
        "    after:  +0 > . 1:1001(1000) ack 1 early = 4 late = 5 // 0.100000",
        "    state:  none",
    ]
    called = compare(tree, *words, "--only", "on.pkt", "--settings", "early = 9")
    assert "  before: pass 3" in called.out.splitlines()


def test_a_tree_is_built_once_for_both_sides(tree: Tree) -> None:
    write(tree.suite, on=ON)
    for name in ("pdregress", "pdrecord"):
        shutil.copy(TOP / name, tree.top)
    called = tree.call("compare", "--base", tree.top, "--with-settings", "early = 4", "--only", "on.pkt", "suite")
    assert (called.status, tree.builds()) == (1, 1)
    assert called.out.splitlines()[1:3] == ["  before: pass 1", "  after: pass 4"]


@pytest.mark.parametrize("place", ["pdsuite.toml", "--settings"])
@pytest.mark.parametrize("is_built", [False, True])
def test_a_key_that_a_sender_lacks_counts_as_its_default_there_and_is_told_once(
    tree: Tree, place: str, is_built: bool
) -> None:
    write(tree.suite, on=ON, two=ON)
    words = ["--settings", "early = 2"]
    if place == "pdsuite.toml":
        (tree.suite / place).write_text('["on.pkt"]\nearly = 2\n')
        words = []
    if is_built:
        tree.change(LACKS + "\n")
        called = tree.call("compare", "--base", tree.bin, *words, "--only", "on.pkt", "suite")
    else:
        called = tree.call("compare", "--base", lacking(tree), "--with", tree.bin, *words, "--only", "on.pkt", "suite")
    message = f"{'the tree as it stands, unknown, unproved' if is_built else tree.suite.parent / 'other'}"
    assert called.status == 1 and called.err.splitlines()[2 if is_built else 1 :] == [
        f"pdsuite: {message}: there is no setting early, which counts as its default"
    ]
    rows = [("before", "2"), ("after", "1")] if is_built else [("before", "1"), ("after", "2")]
    assert called.out.splitlines()[1:3] == [f"  {side}: pass {number}" for side, number in rows]
    assert tree.builds() == (2 if is_built else 0)


def test_a_key_counts_by_its_old_name_with_a_sender_from_before(tree: Tree) -> None:
    write(tree.suite, on=b"told byte_counting\n")
    (tree.suite / "pdsuite.toml").write_text("abc_limit = 2\n")
    other = tree.suite.parent / "other"
    shutil.copytree(tree.bin, other)
    # It is queried on standard input, and called with the settings of a run.
    names = "s/^set abc_limit /set no_abc_limit /; s/^set byte_counting /set abc_limit /"
    for name in ("pdregress", "pdrecord"):
        (other / name).write_text(f'#!/bin/sh\nexec sed -u "{names}" | "{tree.bin}/{name}" "$@"\n')
    called = compare(tree, "--base", other, "--with", tree.bin, "--only", "on.pkt")
    assert called.err.splitlines()[1:] == [f"pdsuite: {other}: the setting abc_limit is byte_counting there"]
    assert called.out.splitlines()[1:3] == ["  before: pass 2", "  after: pass 1"]


@pytest.mark.parametrize(
    ("words", "message"),
    [
        (("--settings", "no_early = 2"), "--settings: no_early: UnknownKey (by {before})"),
        (("--base-settings", "no_early = 2"), "--base-settings: no_early: UnknownKey (by {before} with no_early = 2)"),
        (("--with-settings", "no_early = 2"), "--with-settings: no_early: UnknownKey (by {after} with no_early = 2)"),
    ],
)
@pytest.mark.parametrize("is_search", [False, True])
def test_a_key_that_both_senders_lack_is_refused_and_one_that_a_side_alone_is_given(
    tree: Tree, words: tuple[str, ...], message: str, is_search: bool
) -> None:
    other = tree.suite.parent / "other"
    shutil.copytree(tree.bin, other)
    more = ("--search", "1") if is_search else ("suite",)
    called = tree.call("compare", "--base", tree.bin, "--with", other, *words, *more)
    assert (called.status, called.out) == (2, "")
    assert called.err.splitlines()[-1] == message.format(before=tree.bin, after=other)


def test_scripts_beside_one_that_the_changed_sender_ends_on_are_started_again_one_by_one(tree: Tree) -> None:
    tree.change("s/^row pass 9/crash/\n")
    called = compare(tree, "--json")
    assert called.status == 2 and tree.builds() == 2
    assert called.err.splitlines()[2:] == [
        "pdsuite: pdregress: Faulted: a failed unwrap; 3 scripts are run again, each by itself",
        "pdsuite: pdrecord: Faulted: a failed unwrap; 3 scripts are recorded again, each by itself",
    ]
    reported = json.loads(called.out)
    (script,) = reported["scripts"]
    assert (script["path"], script["after"]["row"]) == ("suite/quick.pkt", "error: pdregress: Faulted: a failed unwrap")
    assert (reported["total"]["turned"], reported["total"]["as before"], reported["total"]["not compared"]) == (1, 1, 1)


def test_a_folder_of_launchers_is_the_tree_that_they_are_of(tree: Tree) -> None:
    links = tree.suite.parent / "links"
    links.mkdir()
    for name in ("pdregress", "pdrecord"):
        shutil.copy(TOP / name, tree.top)
        (links / name).symlink_to(tree.top / name)
    called = tree.call("compare", "--base", links, "--with", tree.bin, "suite")
    message = f"pdsuite: before: {links}, unproved; after: {tree.bin}\npdsuite: building the sender first\n"
    assert (called.status, called.err, tree.builds()) == (0, message, 1)
    assert called.out.endswith(" s UNPROVED\n")
    called = tree.call("compare", "--base", tree.bin, "suite", PDSUITE_PROGRAMS=str(links))
    assert called.err.startswith(f"pdsuite: before: {tree.bin}; after: {links}, unproved\n")


def test_a_tree_whose_programs_are_proved_is_not_built(tree: Tree) -> None:
    for name in ("pdregress", "pdrecord"):
        shutil.copy(TOP / name, tree.top)
    tree.put_proved()
    called = tree.call("compare", "--base", tree.top, "--with", tree.bin, "suite")
    assert (called.status, called.err) == (0, f"pdsuite: before: {tree.top}; after: {tree.bin}\n")
    assert tree.builds() == 0 and "UNPROVED" not in called.out


def git(folder: Path, *words: str) -> None:
    """Runs git in a folder."""
    name = ["-c", "user.name=a", "-c", "user.email=a@example.com"]
    subprocess.run(["git", "-C", folder, *name, *words], check=True, capture_output=True)


@pytest.mark.parametrize("has_tar", [True, False])
def test_a_commit_is_checked_out_and_built_beside(tree: Tree, has_tar: bool) -> None:
    if not has_tar:
        (tree.bin / "tar").write_text("#!/bin/sh\nexit 2\n")
        (tree.bin / "tar").chmod(0o755)
    git(tree.top, "init", "-q")
    (tree.top / "crates/pdrecord/src/x").touch()
    (tree.top / "crates/pdregress/src/x").touch()
    git(tree.top, "add", ".")
    git(tree.top, "commit", "-qm", "one")
    tree.change("s/^row pass 9/row fail 2 seq/\n")
    called = tree.call("compare", "--base", "HEAD", "suite")
    assert called.status == 1 and called.out.startswith("suite/quick.pkt: turned\n")
    assert "pdsuite: before: commit " in called.err and tree.builds() == 2


def test_the_programs_that_were_proved_last_are_the_base_if_nothing_is_said(tree: Tree) -> None:
    called = tree.call("compare", "suite")
    message = "pdsuite: ./prove has kept no programs of this tree: name a sender by --base, or run ./prove\n"
    assert (called.status, called.err) == (2, message)
    for name in ("pdregress", "pdrecord"):
        (tree.top / "crates" / name / "out").mkdir()
        shutil.copy(tree.bin / name, tree.top / "crates" / name / "out")
    keep = "import last_proved as it; it.keep_programs(['pdregress', 'pdrecord'])"
    subprocess.run(["/usr/bin/python3", "-c", keep], cwd=tree.top / "tools", env=tree.environment, check=True)
    for name in ("pdregress", "pdrecord"):
        shutil.rmtree(tree.top / "crates" / name / "out")
    called = tree.call("compare", "suite")
    assert called.status == 0 and called.err.startswith("pdsuite: before: the last proved programs, unknown; after: ")


def test_a_tree_that_does_not_compile_is_told_with_its_errors(tree: Tree) -> None:
    wrong = tree.top / "crates/pdregress/src/main.rt"
    wrong.touch()
    called = compare(tree)
    assert (called.status, called.out) == (2, "")
    assert called.err.splitlines()[2:] == [
        "pdsuite: unproved: NotCompiled: the program doesn't compile",
        f"{wrong}:1:2: error[mismatched-types]: wrong",
    ]


@pytest.mark.parametrize(
    ("word", "message"),
    [
        ("suite", "suite: no folder of programs: it has no pdregress"),
        ("nowhere", "nowhere: neither a folder of programs nor a commit"),
        ("-x", "-x: neither a folder of programs nor a commit"),
    ],
)
def test_a_word_that_names_no_sender_is_refused(tree: Tree, word: str, message: str) -> None:
    called = tree.call("compare", f"--base={word}", "suite")
    assert (called.status, called.out, called.err) == (2, "", f"pdsuite: --base: {message}\n")


def test_the_page_has_both_blocks_and_says_that_nothing_is_proved(tree: Tree) -> None:
    tree.change("s/^row pass 9/row fail 2 seq/\n")
    assert compare(tree, "--html", "page").status == 1
    page = (tree.suite.parent / "page/index.html").read_text()
    assert '<p class="unproved">' in page and "<h2>suite/quick.pkt: turned</h2>" in page
    assert "after: line 2: fail seq: so it is" in page


@pytest.mark.parametrize("words", [["suite"], ["--search", "60"]])
def test_a_signal_while_both_programs_are_built_ends_all(tree: Tree, words: list[str]) -> None:
    (tree.notes / "stall").touch()
    process = subprocess.Popen(
        [tree.top / "pdsuite", "compare", "--base", tree.bin, *words],
        cwd=tree.suite.parent,
        env=tree.environment,
        stdout=subprocess.PIPE,
        stderr=subprocess.PIPE,
        process_group=0,
    )
    wait_for(tree.notes / "mark", process)
    status, out, _ = ends(process, signal.SIGTERM)
    assert (status, out) == (128 + signal.SIGTERM, "")
    assert not is_alive(int((tree.notes / "mark").read_text()))


def test_a_build_that_is_kept_serves_however_it_was_made(monkeypatch: pytest.MonkeyPatch) -> None:
    ways = []

    def stop_building(senders: object, way: str, *more: object) -> None:
        ways.append(way)
        raise StoppedError(signal.SIGINT)

    monkeypatch.setattr(comparing, "build_missing_programs", stop_building)
    paths = [TOP / "examples/suite/close"]
    options = comparing.CompareOptions(paths, [], "", "", "", str(TOP), str(TOP), False, False, None)
    with Screen(False, False) as screen:
        assert comparing.compare_senders(options, screen) == 130
    assert ways == ["any"]
