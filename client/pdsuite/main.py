"""The commands of pdsuite with their options, and the status that each ends with."""

import gc
import io
import os
import sys
from pathlib import Path
from typing import TYPE_CHECKING, Any

import click

from pdsuite.commands.list import list_script_paths_and_settings
from pdsuite.commands.options import MOST_RUNS, MOST_SECONDS, PathParam, ReasonParam, RuleParam
from pdsuite.commands.options import (
    goal_option,
    html_option,
    no_color_option,
    optional_paths_and_script_options,
    required_paths_and_script_options,
    rules_goal_option,
    last_failed_and_shard_options,
)
from pdsuite.commands.options import plot_selection_options, save_and_seed_options, strict_option, workers_option
from pdsuite.commands.renamed import error_with_new_option_name
from pdsuite.commands.report_files import FileParam, FormatOption, ReportCommand
from pdsuite.commands.run import RunOptions, run_scripts
from pdsuite.commands.version import commit_and_program_checksum_lines
from pdsuite.faults import Fault, PlacedFault, error_reason
from pdsuite.output.octets import printable_octets, printable_text
from pdsuite.output.screen import OutputError, Screen, is_no_color_unset, print_line_on_stderr
from pdsuite.output.styled_text import styled_text_of_one_plain_piece
from pdsuite.packages import raise_if_module_missing
from pdsuite.scripts.shards import Shard
from pdsuite.signals import StoppedError

if TYPE_CHECKING:
    from pdsuite.commands.compare import CompareOptions
    from pdsuite.commands.rules import RulesOptions
    from pdsuite.commands.search import SearchOptions

FAULT = 2


def _print_version_and_exit(context: click.Context, option: click.Parameter, on: bool) -> None:
    if on and not context.resilient_parsing:
        with Screen(False, progress=False) as screen:
            for line in commit_and_program_checksum_lines():
                screen.show(styled_text_of_one_plain_piece(f"{line}\n"))
        context.exit()


@click.group(context_settings={"help_option_names": ["-h", "--help"]})
@click.option(
    "--version",
    is_flag=True,
    is_eager=True,
    expose_value=False,
    callback=_print_version_and_exit,
    help="Show the commit and the programs' SHA-256.",
)
def pdsuite() -> None:
    """Runs folders of packetdrill scripts by the built program pdregress."""


@pdsuite.command(name="run", cls=ReportCommand)
@required_paths_and_script_options
@last_failed_and_shard_options
@click.option("--new-only", is_flag=True, help="Show only rows that the last run of these paths didn't have.")
@strict_option
@workers_option
@html_option
@plot_selection_options
@click.option("--scheduler", metavar="ADDRESS", help="Run scripts on the cluster of this Dask scheduler.")
@click.option("--proved", is_flag=True, help="Run nothing that isn't proved.")
@click.option("--fail-fast", is_flag=True, help="Stop at the first piece that doesn't pass.")
@click.option(
    "--junit",
    metavar="FILE",
    type=FileParam(),
    help="Write JUnit's XML, too.",
)
@click.option(
    "--tap", "form", cls=FormatOption, flag_value="tap", help="Print TAP, version 13, or write it into FILE, too."
)
@click.option("--json", "form", cls=FormatOption, flag_value="json", help="Print JSON, or write it into FILE, too.")
@click.option("--github", "form", flag_value="github", help="Print annotations.")
@click.option("--full-diff", is_flag=True, help="Show what each line of a script that fails was met by.")
@click.option("-v", "--verbose", is_flag=True, help="A line for each script.")
def run_command(no_color: bool, **words: Any) -> int:
    """Runs scripts in files and folders, and reports what came of them."""
    options = RunOptions(**words)
    if options.scheduler is not None and options.workers is not None:
        raise click.UsageError("--workers is of this machine, and --scheduler runs scripts elsewhere")
    if options.scheduler is not None and options.html is not None:
        raise click.UsageError("--html draws what ran on this machine, and --scheduler runs scripts elsewhere")
    if options.new_only and options.form in ("tap", "json"):
        raise click.UsageError("--new-only leaves rows out, and --tap and --json have all")
    _refuse_plots_without_html(options.html, options.plot, options.plots)
    with Screen(is_no_color_unset() and not no_color, progress=options.form is None) as screen:
        return run_scripts(options, screen)


@pdsuite.command(name="watch")
@required_paths_and_script_options
@strict_option
@workers_option
@html_option
@plot_selection_options
@click.option("-v", "--verbose", is_flag=True, help="At first a line for each script.")
@click.option("--base", metavar="SENDER", help="Tell scripts that turn against this sender, as compare does.")
def watch_command(no_color: bool, **words: Any) -> int:
    """Watches files and folders, and shows at once what each change did."""
    # Only who watches pays for what reports changes.
    from pdsuite.commands.watch import WatchOptions, watch_scripts

    options = WatchOptions(**words)
    _refuse_plots_without_html(options.html, options.plot, options.plots)
    gc.enable()  # this may go on for days
    with Screen(is_no_color_unset() and not no_color, progress=False) as screen:
        return watch_scripts(options, screen)


def _refuse_plots_without_html(html: Path | None, plot: str | None, plots: int | None) -> None:
    """Refuses words that say which diagrams are drawn, where no page is asked for."""
    if html is None and (plot is not None or plots is not None):
        raise click.UsageError("--plot and --plots draw into the page of --html FOLDER")


@pdsuite.command(name="list")
@required_paths_and_script_options
@last_failed_and_shard_options
def list_command(
    paths: tuple[Path, ...],
    only: tuple[str, ...],
    settings: str,
    no_color: bool,
    shard: Shard | None,
    last_failed: bool,
) -> int:
    """Lists the scripts with their settings, and runs nothing."""
    with Screen(is_no_color_unset() and not no_color, progress=False) as screen:
        return list_script_paths_and_settings(paths, only, shard, last_failed, settings, screen)


@pdsuite.command(name="expect")
@required_paths_and_script_options
@workers_option
@click.option("--reason", metavar="TEXT", type=ReasonParam(), help="Why those that don't pass are known.")
@click.option("--prune", is_flag=True, help="Take away all tables of scripts that aren't there.")
def expect_command(no_color: bool, **words: Any) -> int:
    """Writes into pdsuite.toml which scripts are known not to pass.

    The rows that they have now are expected from then on, with --reason. What is expected of scripts that pass is taken
    away, and so is the table of a script that isn't there where it says nothing else. All else in the files stays.
    """
    raise_if_module_missing("tomlkit")
    from pdsuite.commands.expect import ExpectOptions, run_scripts_and_update_expectations

    with Screen(is_no_color_unset() and not no_color, progress=True) as screen:
        return run_scripts_and_update_expectations(ExpectOptions(**words), screen)


@pdsuite.command(name="record")
@required_paths_and_script_options
@workers_option
@click.option("--write", "writes", is_flag=True, help="Write the files, and show no diff.")
@click.option("--whole", is_flag=True, help="Record scripts whole, and not by the least change.")
@click.option("--drop-missing", "drops_missing", is_flag=True, help="Leave no comments of packets that aren't sent.")
def record_command(no_color: bool, **words: Any) -> int:
    """Shows what recording scripts anew changes in them, or writes it.

    As little of a script is changed as makes it pass. One that passes stays as it is, and so does one that is known not
    to. PATH is - for standard input; with --write its recording goes to standard output.
    """
    # Only who records pays for what compares texts.
    from pdsuite.commands.record import RecordOptions, record_scripts

    with Screen(is_no_color_unset() and not no_color, progress=True) as screen:
        return record_scripts(RecordOptions(**words), screen)


@pdsuite.command(name="diff")
@click.option("--no-color", is_flag=True, help="No colours on a terminal.")
@click.argument("old", metavar="OLD", type=PathParam())
@click.argument("new", metavar="[NEW]...", nargs=-1, type=PathParam())
def diff_command(old: Path, new: tuple[Path, ...], no_color: bool) -> int:
    """Shows what turned between two reports, and runs nothing.

    They are those that `pdsuite run --json` prints. A file holds one or several, and of a folder all files *.json are
    taken; those of several shards count as one. Without NEW, OLD is compared with what the last run of its scripts
    left.
    """
    # Only who compares pays for what reads reports.
    from pdsuite.commands.diff import diff_reports_returning_1_if_any_worse

    with Screen(is_no_color_unset() and not no_color, progress=False) as screen:
        return diff_reports_returning_1_if_any_worse(old, new, screen)


@pdsuite.command(name="compare")
@optional_paths_and_script_options
@click.option("--base", metavar="SENDER", help="The sender before: a folder of programs, a tree or a commit.")
@click.option("--with", "other", metavar="SENDER", help="The sender after, if not the tree as it stands.")
@click.option("--base-settings", default="", metavar="TEXT", help="Settings of the sender before, before all others.")
@click.option("--with-settings", default="", metavar="TEXT", help="Settings of the sender after, before all others.")
@html_option
@click.option("--json", "is_json", is_flag=True, help="Print JSON.")
@click.option("--markdown", "is_markdown", is_flag=True, help="Print Markdown, for a pull request.")
@click.option("--every", is_flag=True, help="Show all scripts of a group whole, not only its first.")
@click.option(
    "--sort",
    type=click.Choice(("segments", "again", "expiries", "time")),
    default="time",
    help="The quantity whose largest changes come first: time, if nothing is said.",
)
@click.option("--affected", is_flag=True, help="Name rows of tests and paragraphs of pages that say otherwise, too.")
@click.option("--rules", is_flag=True, help="Name rules of the sender that other scripts come to, too.")
@click.option(
    "--search",
    metavar="SECONDS",
    type=click.IntRange(1, MOST_SECONDS),
    help="Search for a script that turns; cutting it down may take as long again.",
)
@rules_goal_option
@save_and_seed_options
def compare_command(
    no_color: bool, search: int | None, pattern: str | None, seed: int | None, save: Path | None, **words: Any
) -> int:
    """Shows what a change of the sender does to scripts: which turn, and which are played otherwise.

    Without --base the sender before is the one that ./prove has proved last in this tree. With --affected, where the
    sender after is a tree, it names before the total what the change affects there: rows of tests/cases that say
    otherwise now, and paragraphs of docs/SENDER.md and docs/LINUX.md that cite a section of what changed. That takes
    some seconds, or minutes where a sender isn't proved. With --rules it names before the total each rule of the sender
    that other scripts come to, with some of them, and each whose sources changed, with the scripts to look at. With
    --search it makes inputs of its own, in place of scripts, until a recording of the sender before fails under the one
    after; with --for, one that comes to a rule.
    """
    # Only who compares senders pays for what runs two.
    from pdsuite.commands.compare import CompareOptions, compare_senders

    options = CompareOptions(**words, search=_search_options_if_requested(search, pattern, seed, save))
    _refuse_conflicting_compare_options(options)
    with Screen(is_no_color_unset() and not no_color, progress=False) as screen:
        return compare_senders(options, screen)


def _search_options_if_requested(
    seconds: int | None, pattern: str | None, seed: int | None, save: Path | None
) -> "SearchOptions | None":
    """The options of a search, if one is requested."""
    if seconds is None:
        if pattern is not None:
            raise click.UsageError("--for is of --search: it says which scripts this counts")
        if seed is not None or save is not None:
            raise click.UsageError("--seed and --save are of --search")
        return None
    from pdsuite.commands.search import SearchOptions, goal_of_known_rules_alone

    gc.enable()  # a search makes many values
    return SearchOptions(seconds, seed, save, None if pattern is None else goal_of_known_rules_alone(pattern))


def _refuse_conflicting_compare_options(options: "CompareOptions") -> None:
    """Refuses words that go with scripts where none are meant, and the other way round."""
    if options.search is None and not options.paths:
        raise click.UsageError("Missing argument 'PATHS...', or --search")
    if options.search is not None and (options.paths or options.only):
        raise click.UsageError("--search makes scripts, and takes no PATH or --only")
    if options.is_json and options.is_markdown:
        raise click.UsageError("--json and --markdown are two forms of one report")
    if options.search is not None and (
        options.html is not None or options.is_json or options.is_markdown or options.affected or options.rules
    ):
        raise click.UsageError(
            "--search shows what it finds as text, without --html, --json, --markdown, --affected and --rules"
        )


@pdsuite.command(name="measure")
@click.option("--base", metavar="SENDER", help="The sender before: a folder of programs, a tree or a commit.")
@click.option("--with", "other", metavar="SENDER", help="The sender after, if not the tree as it stands.")
@click.option("--settings", default="", metavar="TEXT", help="Settings of both senders.")
@click.option("--base-settings", default="", metavar="TEXT", help="Settings of the sender before, before all others.")
@click.option("--with-settings", default="", metavar="TEXT", help="Settings of the sender after, before all others.")
@click.option("--paths", metavar="FILE", type=PathParam(), help="Paths of your own, in TOML.")
@click.option("--only", metavar="PATTERN", multiple=True, help="Only paths whose name fits; again for more.")
@click.option(
    "--runs",
    metavar="N",
    type=click.IntRange(1, MOST_RUNS),
    default=100,
    help="Play each transfer so often, not 100 times.",
)
@click.option("--seed", metavar="N", type=click.IntRange(0), default=1, help="Draw what chance decides by this number.")
@html_option
@click.option("--json", "is_json", is_flag=True, help="Print JSON.")
@click.option("--save", metavar="FOLDER", type=PathParam(), help="Save all transfers as scripts in a new folder.")
@no_color_option
def measure_command(no_color: bool, **words: Any) -> int:
    """Measures what a change of the sender is worth: how soon transfers over modelled paths are delivered, and how.

    The paths are a LAN, a DSL line, a mobile link, a long fat pipe, a datacentre's and a satellite, or those of a
    file. Both senders are programs, which answer each segment; equal seeds lose equal packets. Without --base the
    sender before is the one that ./prove has proved last in this tree.
    """
    raise_if_module_missing("numpy")
    from pdsuite.commands.measure import MeasureOptions, measure_transfers_of_two_senders

    gc.enable()  # transfers are many values
    with Screen(is_no_color_unset() and not no_color, progress=True) as screen:
        return measure_transfers_of_two_senders(MeasureOptions(**words), screen)


@pdsuite.command(name="search")
@goal_option
@click.option(
    "--seconds",
    metavar="N",
    type=click.IntRange(1, MOST_SECONDS),
    default=60,
    help="Search so long at most, not 60; cutting down may take as long again.",
)
@click.option("--with", "sender", metavar="SENDER", help="A folder of programs, a tree or a commit, if not this tree.")
@save_and_seed_options
@no_color_option
def search_command(
    pattern: str, seconds: int, sender: str | None, seed: int | None, save: Path | None, no_color: bool
) -> int:
    """Searches for the least input that brings the sender into a state or to a rule, and records it as a script.

    A fact is NAME:VALUE as a trace has it, and state:NAME the state's name; rule:NAME is a rule, as pdsuite rules
    lists it. VALUE and NAME may have * and ?. All have to hold at one event.
    """
    # Only who searches pays for what makes inputs.
    from pdsuite.commands.search import SearchOptions, search_goal

    gc.enable()  # a search makes many values
    with Screen(is_no_color_unset() and not no_color, progress=False) as screen:
        return search_goal(pattern, sender, SearchOptions(seconds, seed, save), screen)


@pdsuite.command(name="rules")
@optional_paths_and_script_options
@workers_option
@click.option("--rule", metavar="NAME", type=RuleParam(), help="List the scripts that come to this rule.")
@click.option("--script", metavar="FILE", type=PathParam(), help="List the rules that this script comes to.")
@click.option("--mutants", "tries_mutants", is_flag=True, help="Run scripts where rules are broken, too.")
@html_option
@click.option("--json", "is_json", is_flag=True, help="Print JSON.")
def rules_command(no_color: bool, **words: Any) -> int:
    """Lists the rules of the sender, and how many scripts come to each.

    A script comes to a rule when, at an event that passes, a packet leaves by the rule, the rule decides on a segment
    that arrives, or the sender enters that state or phase. Rules that no script comes to stand first, marked none, with
    their words. Each other line names the shortest script. A page has all scripts of each rule, with their lines.

    With --mutants the sender is built with its mutants, wrong changes that break a rule each, and scripts are run under
    each mutant. Each rule with mutants is guarded (each mutant turns a script), only come to, or not come to. Mutants
    that turn no script stand below their rule. Without PATHS the scripts of examples/suite are run.
    """
    # Only who lists rules pays for what counts them.
    from pdsuite.commands.rules import RulesOptions, list_rules_of_scripts

    options = RulesOptions(**words)
    _refuse_conflicting_rules_options(options)
    with Screen(is_no_color_unset() and not no_color, progress=not options.is_json) as screen:
        if options.tries_mutants:
            from pdsuite.commands.rule_mutants import list_guarded_rules

            return list_guarded_rules(options, screen)
        return list_rules_of_scripts(options, screen)


def _refuse_conflicting_rules_options(options: "RulesOptions") -> None:
    """Refuses words that go with a script that is named, where others are meant, and the other way round."""
    if options.tries_mutants and (options.script is not None or options.html is not None):
        raise click.UsageError("--mutants tries rules on scripts, and takes no --script or --html")
    if options.script is None and not options.paths and not options.tries_mutants:
        raise click.UsageError("Missing argument 'PATHS...', --script or --mutants")
    if options.script is not None and (options.paths or options.only or options.rule is not None):
        raise click.UsageError("--script lists the rules of one script, and takes no PATH, --only or --rule")
    if options.html is not None and (options.rule is not None or options.script is not None):
        raise click.UsageError("--html writes a page of all rules, and takes no --rule or --script")


@pdsuite.command(name="lsp")
@click.option("--settings", default="", metavar="TEXT", help="Settings before all others.")
@click.option("--stdio", is_flag=True, help="Nothing else is served; some editors say it.")
def lsp_command(settings: str, stdio: bool) -> int:
    """Serves an editor on standard input and output, by the Language Server Protocol."""
    # Only an editor pays for what serves it.
    from pdsuite.commands.lsp import serve_editor

    return serve_editor(settings)


@pdsuite.command(name="import")
@click.option("--keep-packets", is_flag=True, help="Change nothing of packets.")
@click.option("--json", "is_json", is_flag=True, help="Print JSON.")
@click.option("--no-color", is_flag=True, help="No colours on a terminal.")
@click.argument("source", metavar="FROM", type=PathParam())
@click.argument("target", metavar="TO", type=PathParam())
def import_command(source: Path, target: Path, keep_packets: bool, is_json: bool, no_color: bool) -> int:
    """Brings scripts of the kernel's self-tests over into a new folder, and runs nothing."""
    # Only who imports pays for what reads the kernel's scripts.
    from pdsuite.commands.import_ import import_scripts

    with Screen(is_no_color_unset() and not no_color, progress=False) as screen:
        return import_scripts(source, target, keep_packets, is_json, screen)


def main() -> int:
    """Runs the command that the arguments name, and answers the exit status."""
    if sys.stdout is None:
        print_line_on_stderr("pdsuite: standard output is closed")
        return FAULT
    # Scripts and outcomes make no cycles, and the more there are, the longer it takes to look for some.
    gc.disable()
    if isinstance(sys.stdout, io.TextIOWrapper):
        sys.stdout.reconfigure(encoding="utf-8")
    try:
        status = pdsuite.main(prog_name="pdsuite", standalone_mode=False)
        return status if isinstance(status, int) else 0
    except click.ClickException as error:
        error = error_with_new_option_name(error)
        error.message = printable_text(error.message)
        error.show()
    except StoppedError as stopped:
        return stopped.status
    except PlacedFault as fault:
        print_line_on_stderr(str(fault))
    except Fault as fault:
        print_line_on_stderr(f"pdsuite: {fault}")
    except OutputError as unwritten:
        _redirect_output_to_null()
        if not unwritten.is_reader_gone:
            print_line_on_stderr(f"pdsuite: standard output: {unwritten}")
    except OSError as error:
        _redirect_output_to_null()
        place = f"{printable_octets(os.fsencode(error.filename))}: " if error.filename else ""
        print_line_on_stderr(f"pdsuite: {place}{error_reason(error)}")
    return FAULT


def _redirect_output_to_null() -> None:
    """Lets no end of the process try once more to write what standard output didn't take."""
    null = os.open(os.devnull, os.O_WRONLY)
    os.dup2(null, sys.stdout.fileno())
    os.close(null)
