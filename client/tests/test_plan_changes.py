"""The plan for a change of the folders: a function of two states, tested without folders or programs."""

import random
from collections import Counter
from collections.abc import Iterator, Mapping

import pytest

from pdsuite.scripts.settings import Settings
from pdsuite.scripts.text import ScriptText, make_newline_ended_text_within_limits
from pdsuite.scripts.text_edit import Edit
from pdsuite.watch import plan_changes as module
from pdsuite.watch.plan_changes import AddScript, EditScript, RemoveScript, RunChange, RunContents, SetKey, WantedScript
from pdsuite.watch.plan_changes import plan_changes
from tests.model import settings_words

NONE: Settings = ()
SMALL: Settings = (("mss", 100),)
PLAIN: Settings = (("sack", False),)
ONE, TWO = make_newline_ended_text_within_limits(b"one\n"), make_newline_ended_text_within_limits(b"two\n")


def contents(settings: Settings, **texts: ScriptText) -> RunContents:
    return RunContents(settings, texts)


def wanted(settings: Settings, **texts: ScriptText) -> dict[str, WantedScript]:
    return {path: WantedScript(settings, text) for path, text in texts.items()}


def test_what_is_held_already_takes_no_turn() -> None:
    assert (
        plan_changes(
            [contents(NONE, a=ONE, b=TWO)], wanted(NONE, b=make_newline_ended_text_within_limits(b"two\n"), a=ONE)
        )
        == []
    )


def test_a_save_an_add_and_a_removal_are_one_act_each() -> None:
    (change,) = plan_changes([contents(NONE, a=ONE, b=ONE, c=ONE)], wanted(NONE, a=ONE, b=TWO, d=TWO))
    assert change.acts == (RemoveScript("c"), EditScript("b", Edit(1, 1, TWO)), AddScript("d", TWO))
    assert (change.run, change.after, change.rerun_paths) == (0, contents(NONE, a=ONE, b=TWO, d=TWO), ["b", "d"])


def test_scripts_without_a_run_get_a_new_one_for_each_settings() -> None:
    first, second = plan_changes([], {**wanted(NONE, a=ONE, c=TWO), **wanted(SMALL, b=ONE)})
    assert first == RunChange(None, (AddScript("a", ONE), AddScript("c", TWO)), contents(NONE, a=ONE, c=TWO))
    assert second == RunChange(None, (AddScript("b", ONE),), contents(SMALL, b=ONE))


def test_settings_that_change_for_all_are_set_with_the_default_for_a_key_that_goes() -> None:
    (change,) = plan_changes([contents((("mss", 100), ("sack", False)), a=ONE, b=ONE)], wanted(PLAIN, a=ONE, b=TWO))
    assert change.acts == (SetKey("mss", "1460"), EditScript("b", Edit(1, 1, TWO)))
    assert change.rerun_paths == ["a", "b"]


def test_a_run_whose_key_goes_and_has_no_known_default_ends() -> None:
    later = (("later", 1),)
    (grown,) = plan_changes([contents(NONE, a=ONE)], wanted(later, a=ONE))
    assert grown.acts == (SetKey("later", "1"),)
    ending, new = plan_changes([contents(later, a=ONE, b=ONE)], wanted(NONE, a=ONE, b=TWO))
    assert (ending.acts, ending.after.texts) == ((RemoveScript("a"), RemoveScript("b")), {})
    assert (new.run, new.acts, new.after) == (
        None,
        (AddScript("a", ONE), AddScript("b", TWO)),
        contents(NONE, a=ONE, b=TWO),
    )


def test_a_default_that_is_written_down_changes_no_setting() -> None:
    (change,) = plan_changes([contents(NONE, a=ONE)], wanted((("mss", 1_460), ("sack", False)), a=ONE))
    assert change.acts == (SetKey("sack", "false"),)


def test_one_script_that_changes_its_group_is_removed_here_and_added_there() -> None:
    runs = [contents(NONE, a=ONE, b=ONE), contents(SMALL, c=ONE)]
    first, second = plan_changes(runs, {**wanted(NONE, b=ONE), **wanted(SMALL, a=ONE, c=ONE)})
    assert (first.run, first.acts) == (0, (RemoveScript("a"),))
    assert (second.run, second.acts) == (1, (AddScript("a", ONE),))


def test_the_run_goes_with_most_of_its_scripts() -> None:
    changed = {**wanted(SMALL, a=ONE, b=ONE), **wanted(NONE, c=ONE)}
    first, second = plan_changes([contents(NONE, a=ONE, b=ONE, c=ONE)], changed)
    assert (first.run, first.acts) == (0, (RemoveScript("c"), SetKey("mss", "100")))
    assert (second.run, second.acts) == (None, (AddScript("c", ONE),))


@pytest.mark.parametrize(("stays", "goes"), ["ab", "ba"])
def test_where_equally_many_scripts_want_other_settings_the_run_keeps_its_own(stays: str, goes: str) -> None:
    changed = {it: WantedScript(SMALL if it == stays else NONE, ONE) for it in "ab"}
    first, second = plan_changes([contents(SMALL, a=ONE, b=ONE)], changed)
    assert (first.run, first.acts) == (0, (RemoveScript(goes),))
    assert (second.run, second.acts, second.after.settings) == (None, (AddScript(goes, ONE),), NONE)


def test_a_group_that_joins_another_leaves_no_second_run() -> None:
    runs = [contents(SMALL, a=ONE, b=ONE), contents(NONE, c=ONE)]
    first, second = plan_changes(runs, wanted(NONE, a=ONE, b=ONE, c=ONE))
    assert (first.run, first.acts, first.after.texts) == (0, (RemoveScript("a"), RemoveScript("b")), {})
    assert (second.run, second.acts) == (1, (AddScript("a", ONE), AddScript("b", ONE)))


def test_a_run_without_scripts_ends() -> None:
    (change,) = plan_changes([contents(NONE, a=ONE)], {})
    assert (change.acts, change.after.texts) == ((RemoveScript("a"),), {})


def test_further_runs_begin_where_one_is_full_and_room_is_used_again(monkeypatch: pytest.MonkeyPatch) -> None:
    monkeypatch.setattr(module, "BATCH_SIZE", 2)
    paths = "abcde"
    each = plan_changes([], wanted(NONE, **dict.fromkeys(paths, ONE)))
    runs = [it.after for it in each]
    assert ["".join(it.texts) for it in runs] == ["ab", "cd", "e"]
    first, last = plan_changes(runs, wanted(NONE, **dict.fromkeys("acdefg", ONE)))
    assert (first.run, first.acts) == (0, (RemoveScript("b"), AddScript("f", ONE)))
    assert (last.run, last.acts) == (2, (AddScript("g", ONE),))


def test_all_runs_of_a_group_are_set_where_all_its_scripts_change(monkeypatch: pytest.MonkeyPatch) -> None:
    monkeypatch.setattr(module, "BATCH_SIZE", 2)
    runs = [contents(NONE, a=ONE, b=ONE), contents(NONE, c=ONE, d=ONE), contents(NONE, e=ONE)]
    each = plan_changes(runs, wanted(SMALL, **dict.fromkeys("abcde", ONE)))
    assert [it.acts for it in each] == [(SetKey("mss", "100"),)] * 3


def test_turns_are_the_same_for_equal_states() -> None:
    runs = [contents(NONE, a=ONE, b=ONE), contents(SMALL, c=TWO)]
    after = {**wanted(PLAIN, a=TWO, c=ONE), **wanted(SMALL, d=ONE)}
    assert plan_changes(runs, after) == plan_changes(runs, after)
    assert runs == [contents(NONE, a=ONE, b=ONE), contents(SMALL, c=TWO)]


def random_states(chance: random.Random, count: int) -> Iterator[dict[str, WantedScript]]:
    """States of folders, each made of the one before by some random changes."""
    state: dict[str, WantedScript] = {}
    kinds = (NONE, SMALL, PLAIN, (*SMALL, *PLAIN))
    for _ in range(count):
        if chance.random() < 0.2:
            old, new = chance.choice(kinds), chance.choice(kinds)
            state = {
                path: WantedScript(new if it.settings == old else it.settings, it.text) for path, it in state.items()
            }
        for _ in range(chance.randrange(6)):
            path = chance.choice("abcdefghijkl")
            if chance.random() < 0.3:
                state.pop(path, None)
            else:
                settings = state[path].settings if path in state and chance.random() < 0.8 else chance.choice(kinds)
                lines = [chance.choice((b"x", b"y", b"z", b"")) for _ in range(chance.randrange(5))]
                state[path] = WantedScript(settings, make_newline_ended_text_within_limits(b"\n".join(lines)))
        yield dict(sorted(state.items()))


def carried_out(run: RunContents, change: RunChange, most: int) -> RunContents:
    """The contents of a run, of so many scripts at most, after it has done its change, act by act."""
    texts = {path: text.octets.split(b"\n")[: text.lines] for path, text in run.texts.items()}
    settings = settings_words(run.settings)
    for act in change.acts:
        match act:
            case RemoveScript(path):
                del texts[path]
            case SetKey(key, word):
                assert settings[key] != word
                settings[key] = word
            case EditScript(path, edit):
                put = edit.put.octets.split(b"\n")[: edit.put.lines]
                texts[path][edit.first - 1 : edit.first - 1 + edit.removed] = put
            case AddScript(path, text):
                assert path not in texts and len(texts) < most
                texts[path] = text.octets.split(b"\n")[: text.lines]
    if texts:
        assert settings == settings_words(change.after.settings)
    made = {path: ScriptText(b"".join(it + b"\n" for it in lines), len(lines)) for path, lines in texts.items()}
    assert made == change.after.texts and list(made) == list(change.after.texts)
    return change.after


def hold(runs: list[RunContents], state: Mapping[str, WantedScript]) -> list[RunContents]:
    """The contents of each run after its change, and then those of the new runs."""
    after = list(runs)
    for change in plan_changes(runs, state):
        if change.run is None:
            after.append(carried_out(RunContents(change.after.settings, {}), change, 3))
        else:
            after[change.run] = carried_out(runs[change.run], change, 3)
    return after


@pytest.mark.parametrize("seed", range(200))
def test_after_random_changes_the_runs_hold_what_is_wanted(seed: int, monkeypatch: pytest.MonkeyPatch) -> None:
    monkeypatch.setattr(module, "BATCH_SIZE", 3)
    runs: list[RunContents] = []
    for state in random_states(random.Random(seed), 15):
        after = hold(runs, state)
        holding = [(path, WantedScript(run.settings, text)) for run in after for path, text in run.texts.items()]
        assert len(holding) == len(state) and dict(holding) == state
        assert all(len(it.texts) <= 3 for it in after)
        # No group gets more new runs than it needs, and who wants what the run has stays in it.
        need = {settings: -(-count // 3) for settings, count in Counter(it.settings for it in state.values()).items()}
        begun = Counter(it.settings for it in after if it.texts) - Counter(it.settings for it in runs)
        assert all(count <= need[settings] for settings, count in begun.items())
        for old, new in zip(runs, after):
            if new.settings == old.settings:
                assert all(path in new.texts for path in old.texts if _stays(state.get(path), old))
        runs = [it for it in after if it.texts]


def _stays(it: WantedScript | None, run: RunContents) -> bool:
    return it is not None and it.settings == run.settings
