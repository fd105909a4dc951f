"""`pdsuite search`, and `pdsuite compare --search`: inputs that reach rules or a state, or tell two senders apart."""

import random
from collections.abc import Callable, Sequence
from dataclasses import dataclass, replace
from pathlib import Path
from tempfile import TemporaryDirectory

from pdsuite.compare.affected import changed_functions_and_constants_of_trees
from pdsuite.compare.built_senders import build_missing_programs
from pdsuite.compare.senders import Sender, current_sender, sender_of_folder_or_checked_out_commit
from pdsuite.compare.sides import Side, refuse_commonly_lacked_keys, note_renamed_and_lacking_keys
from pdsuite.faults import Fault
from pdsuite.output.octets import printable_text
from pdsuite.output.screen import Screen
from pdsuite.output.styled_text import styled_text_of_one_plain_piece
from pdsuite.programs.locate import TOP
from pdsuite.programs.lookup import SenderGuard
from pdsuite.programs.verdict import Row
from pdsuite.reports.search import (
    render_find_with_recordings_and_failure,
    render_offer_as_suite_script,
    render_coverage_and_search_totals,
)
from pdsuite.rules.rule_list import refusal_of_rule_pattern_if_unmatched
from pdsuite.scripts.config import Layer, every_claim_of_layers
from pdsuite.scripts.settings import sorted_settings
from pdsuite.search.candidates import CandidateLists
from pdsuite.search.find import DiffersTest, FailsTest, Find, configured_script_of_find
from pdsuite.search.finished_script import (
    least_script_of_find,
    prepend_comment_lines,
    prepend_comment_stating_row_of_rerun,
)
from pdsuite.search.generate import KEYS
from pdsuite.search.goal import RulesOnEitherSide, SearchGoal, parse_goal_if_valid, scripts_at_rules_first
from pdsuite.search.initial_inputs import record_corpus_without_fixed_settings, suite_scripts_of_tree
from pdsuite.search.oracle import (
    SettingsOracle,
    SideOracle,
    open_oracles_building_missing_programs,
    input_counts_of_successive_queries,
)
from pdsuite.search.relevance import emphasis_of_changes, script_name_and_comment_of_changed_rule
from pdsuite.search.save import refuse_save_path_misnamed_or_configured, save_script_and_settings
from pdsuite.search.scenario import Emphasis
from pdsuite.search.search import Search
from pdsuite.signals import Stop, StoppedError

_SEEDS = 1_000_000
_AGAIN = "search again"


@dataclass(frozen=True)
class SearchOptions:
    """How long a search takes in seconds, by which seed, and where its find goes.

    A difference of senders counts only in a script that comes to the rules of a goal, if there is one.
    """

    seconds: int
    seed: int | None
    save: Path | None
    goal: SearchGoal | None = None

    @property
    def rules_in_words(self) -> str:
        """The rules as they are given, if there are any."""
        return "" if self.goal is None else " ".join(f"rule:{printable_text(it)}" for it in self.goal.rules)


def search_goal(text: str, word: str | None, options: SearchOptions, screen: Screen) -> int:
    """Searches for rules and a state, as the text says, and answers the exit status: 1 where no input reaches them."""
    goal = _goal_of_known_rules(text)
    if options.save is not None:
        refuse_save_path_misnamed_or_configured(options.save)
    try:
        with Stop() as stop, TemporaryDirectory(prefix="pdsuite-") as room:
            sender = (
                current_sender()
                if word is None
                else sender_of_folder_or_checked_out_commit(word, "--with", Path(room) / "sender")
            )
            _require_recorders([sender])
            seed, steady = _given_or_random_seed(options), SenderGuard(sender.lookup_of_programs_or_of_unbuilt_tree)
            if not sender.is_proved:
                screen.print_note_on_stderr(f"pdsuite: {sender}")
            (sender,) = build_missing_programs([sender], "optimised", stop, screen)
            with open_oracles_building_missing_programs([sender], stop) as (oracle,):
                test = goal.test_by_oracle(oracle)
                drawing = CandidateLists(
                    seed,
                    input_counts_of_successive_queries(),
                    Emphasis(),
                    record_corpus_without_fixed_settings(suite_scripts_of_tree(TOP, stop), oracle, frozenset()),
                )
                searched = Search(oracle, test, None, drawing, options.seconds).run(
                    _bottom_line_progress_callback(screen)
                )
            steady.require_unchanged(_AGAIN)
            _show_and_save_reached(searched.find, text, sender, options.save, screen)
            screen.show(render_coverage_and_search_totals(searched, seed, not sender.is_proved))
            return 1 if searched.find is None else 0
    except StoppedError as stopped:
        return stopped.status


def _goal_of_known_rules(text: str) -> SearchGoal:
    """The goal that a text says, which names no rule that there isn't."""
    goal = parse_goal_if_valid(text)
    if goal is None:
        raise Fault(f"--for: {printable_text(text)}: no facts as NAME:VALUE with blanks between them")
    for rule in goal.rules:
        if refusal := refusal_of_rule_pattern_if_unmatched(rule):
            raise Fault(f"--for: {refusal}")
    return goal


def goal_of_known_rules_alone(text: str) -> SearchGoal:
    """The goal that a text says of `rule:NAME` alone, which names no rule that there isn't."""
    goal = parse_goal_if_valid(text)
    if goal is None or goal.state.facts:
        raise Fault(f"--for: {printable_text(text)}: compare takes rule:NAME alone, with blanks between several")
    return _goal_of_known_rules(text)


def _show_and_save_reached(find: Find | None, text: str, sender: Sender, save: Path | None, screen: Screen) -> None:
    """Shows what reaches a goal, as it is saved, or that nothing does."""
    if find is None:
        screen.show(styled_text_of_one_plain_piece(f"no input reaches {printable_text(text)}\n"))
        return
    settings = find.inputs.settings
    screen.show(
        render_find_with_recordings_and_failure(
            find, f"an input reaches {printable_text(text)}", [settings], None, None, ()
        )
    )
    if save is not None:
        head = [f"Reaches {printable_text(text)}.", f"Recorded by {sender}."]
        save_script_and_settings(save, prepend_comment_lines(head, configured_script_of_find(find).octets), settings)


def search_difference(
    sides: tuple[Side, Side],
    common: Layer,
    trees: tuple[Path | None, Path | None],
    options: SearchOptions,
    stop: Stop,
    screen: Screen,
) -> int:
    """Searches for what tells two senders apart, and answers the exit status: 1 where something does.

    The layer `common` gives both sides settings, which no input sets then. The trees are the senders' sources, as far
    as they are known.
    """
    if options.save is not None:
        refuse_save_path_misnamed_or_configured(options.save)
    senders = [it.sender for it in sides]
    _require_recorders(senders)
    seed, steady = _given_or_random_seed(options), SenderGuard(
        *(it.lookup_of_programs_or_of_unbuilt_tree for it in senders)
    )
    senders = build_missing_programs(senders, "optimised", stop, screen)
    with open_oracles_building_missing_programs(senders, stop) as oracles:
        before, after = _side_oracles_without_lacked_keys(oracles, sides, common, screen)
        changed = changed_functions_and_constants_of_trees(*trees)
        emphasis = emphasis_of_changes(changed, _keys_fixed_or_lacked(before.side, after.side, common))
        fails, differs = _tests_of_counted_differences(options.goal, before, after)
        scripts = scripts_at_rules_first(suite_scripts_of_tree(trees[0] or TOP, stop), options.goal, before)
        drawing = CandidateLists(
            seed,
            input_counts_of_successive_queries(),
            emphasis,
            record_corpus_without_fixed_settings(scripts, before, emphasis.fixed),
        )
        searched = Search(before, fails, differs, drawing, options.seconds).run(_bottom_line_progress_callback(screen))
        steady.require_unchanged(_AGAIN)
        find = searched.find or searched.unshown
        if find is not None:
            _show_and_save_find(find, before, after, options, screen)
            screen.show(render_offer_as_suite_script(script_name_and_comment_of_changed_rule(changed)))
        elif rules := options.rules_in_words:
            what = f"no script was found that comes to {rules} and on which the senders differ\n"
            screen.show(styled_text_of_one_plain_piece(what))
    screen.show(render_coverage_and_search_totals(searched, seed, not all(it.is_proved for it in senders)))
    return 0 if find is None else 1


def _tests_of_counted_differences(
    goal: SearchGoal | None, before: SideOracle, after: SideOracle
) -> tuple[FailsTest, DiffersTest]:
    """The tests of which inputs tell the senders apart, and come to the rules of a goal, if there is one."""
    if goal is None:
        return FailsTest(after), DiffersTest(after)
    for it in (before, after):
        it.require_that_rules_are_listed()
    counted = RulesOnEitherSide(goal, (before, after))
    return FailsTest(after, counted), DiffersTest(after, counted)


def _side_oracles_without_lacked_keys(
    oracles: Sequence[SettingsOracle], sides: Sequence[Side], common: Layer, screen: Screen
) -> tuple[SideOracle, SideOracle]:
    """The oracle of each sender under the settings of its side, without keys that it lacks."""
    claims = list(every_claim_of_layers([common]))
    found = [
        side.with_keys_that_sender_accepts(claims, oracle.refusals_of_claims) for oracle, side in zip(oracles, sides)
    ]
    refuse_commonly_lacked_keys(found, claims)
    note_renamed_and_lacking_keys(found, screen.print_note_on_stderr)
    # An input sets no key that either of them lacks.
    drawn = list(every_claim_of_layers([replace(common, keys={key: values[0] for key, values in KEYS.items()})]))
    known = [
        side.with_keys_that_sender_accepts(drawn, oracle.refusals_of_claims) for oracle, side in zip(oracles, found)
    ]
    before, after = (SideOracle(oracle, side, sorted_settings(common.keys)) for oracle, side in zip(oracles, known))
    return before, after


def _keys_fixed_or_lacked(before: Side, after: Side, common: Layer) -> frozenset[str]:
    """The keys that no input sets: those that the options set, or that a sender lacks."""
    return frozenset().union(common.keys, *(it.option.keys for it in (before, after)), before.lacks, after.lacks)


def _show_and_save_find(
    find: Find, before: SideOracle, after: SideOracle, options: SearchOptions, screen: Screen
) -> None:
    """Shows what was found, as it is saved."""
    script = least_script_of_find(find, before, after)
    rules = options.rules_in_words
    if options.save is not None:
        head = [f"Comes to {rules}."] if rules else []
        script = prepend_comment_stating_row_of_rerun(
            script, lambda row: [*head, *_recording_sender_and_verdict_comment_lines(row, before, after)], after
        )
    (other,) = after.record_inputs_or_scripts([find.inputs])
    settings = [it.settings_on_side(find.inputs.settings) for it in (before, after)]
    if script.row is None:
        what = "recordings differ, and no script that was tried shows it: the senders' packets differ at the end alone"
        screen.show(render_find_with_recordings_and_failure(find, what, settings, other.text, script.row, ()))
    else:
        what = f"a script{f' that comes to {rules}' if rules else ''} fails under the sender after"
        screen.show(
            render_find_with_recordings_and_failure(
                find, what, settings, other.text, script.row, after.explanation_lines_of_script(script.script)
            )
        )
    if options.save is not None:
        save_script_and_settings(options.save, script.script.octets, before.settings_on_side(find.inputs.settings))


def _recording_sender_and_verdict_comment_lines(row: Row | None, before: SideOracle, after: SideOracle) -> list[str]:
    """The comment of a saved script, which has this row under the sender after, if it fails there."""
    fails = "It passes under" if row is None else f"It fails ({row.whole_text_without_name}) under"
    return [f"Recorded by {before.side.sender}.", f"{fails} {after.side.sender}."]


def _require_recorders(senders: Sequence[Sender]) -> None:
    for it in senders:
        if not it.has_recorder_or_is_unbuilt:
            raise Fault(f"{it} has no pdrecord, and a search records")


def _given_or_random_seed(options: SearchOptions) -> int:
    return random.randrange(_SEEDS) if options.seed is None else options.seed


def _bottom_line_progress_callback(screen: Screen) -> Callable[[int], None]:
    return lambda inputs: screen.keep_bottom_line(f"{inputs:,} inputs")
