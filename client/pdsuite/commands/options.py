"""The words that several commands take: their kinds, why others are refused, and what they mean."""

import os
from collections.abc import Callable
from pathlib import Path
from typing import TypeVar

import click

from pdsuite.output.octets import printable_text
from pdsuite.page.diagram_choice import MOST
from pdsuite.scripts.shards import Shard, parse_shard_if_valid

MOST_WORKERS = 64
MOST_SECONDS = 86_400
MOST_RUNS = 5_000

CommandFunction = TypeVar("CommandFunction", bound=Callable[..., int])


class PathParam(click.Path):
    """The path of a file or folder. An empty word, as a shell makes of a variable that isn't set, names none."""

    def convert(self, value: str | os.PathLike[str], param: click.Parameter | None, ctx: click.Context | None) -> Path:
        if not os.fspath(value):
            self.fail("it is empty, and so names no file.", param, ctx)
        return Path(value)


class ShardParam(click.ParamType):
    """A shard, as K/N."""

    name = "shard"

    def convert(self, value: str | Shard, param: click.Parameter | None, ctx: click.Context | None) -> Shard:
        shard = value if isinstance(value, Shard) else parse_shard_if_valid(value)
        if shard is None:
            self.fail(f"{printable_text(str(value))} is no K/N, with K from 1 to N.", param, ctx)
        return shard


class RuleParam(click.ParamType):
    """The name of a rule of the sender."""

    name = "name"

    def convert(self, value: str, param: click.Parameter | None, ctx: click.Context | None) -> str:
        # Only who names a rule pays for what reads their list.
        from pdsuite.rules.rule_list import refusal_of_rule_name_if_unknown

        if refusal := refusal_of_rule_name_if_unknown(value):
            self.fail(refusal, param, ctx)
        return value

    def shell_complete(
        self, ctx: click.Context, param: click.Parameter, incomplete: str
    ) -> list["click.shell_completion.CompletionItem"]:
        return _completions_by_rule_names("", incomplete)


class GoalParam(click.ParamType):
    """The words of a search's goal, of which `rule:NAME` is a rule of the sender."""

    name = "pattern"

    def shell_complete(
        self, ctx: click.Context, param: click.Parameter, incomplete: str
    ) -> list["click.shell_completion.CompletionItem"]:
        before, blank, _ = incomplete.rpartition(" ")
        return _completions_by_rule_names(f"{before}{blank}rule:", incomplete)


def _completions_by_rule_names(before: str, incomplete: str) -> list["click.shell_completion.CompletionItem"]:
    """The names of rules, each after a text, that begin with what is there already."""
    from click.shell_completion import CompletionItem

    from pdsuite.rules.rule_list import load_sender_rules

    words = (f"{before}{it.name}" for it in load_sender_rules())
    return [CompletionItem(it) for it in words if it.startswith(incomplete)]


class ReasonParam(click.ParamType):
    """Why a script is known not to pass, in a line."""

    name = "text"

    def convert(self, value: str, param: click.Parameter | None, ctx: click.Context | None) -> str:
        if not value.strip():
            self.fail("it is empty, and so says nothing.", param, ctx)
        if not value.isprintable():
            self.fail("it is no line of characters that print.", param, ctx)
        return value


goal_option = click.option(
    "--for",
    "pattern",
    metavar="PATTERN",
    type=GoalParam(),
    required=True,
    help="Facts of a state, NAME:VALUE each, and rules, rule:NAME each.",
)
rules_goal_option = click.option(
    "--for",
    "pattern",
    metavar="rule:NAME",
    type=GoalParam(),
    help="Search only for scripts that come to this rule, before or after.",
)
no_color_option = click.option("--no-color", is_flag=True, help="No colours on a terminal.")


def required_paths_and_script_options(command: CommandFunction) -> CommandFunction:
    """The words that say which scripts are meant, and with which settings."""
    return _add_paths_and_script_options(command, is_required=True)


def optional_paths_and_script_options(command: CommandFunction) -> CommandFunction:
    """The same words, where no script may be meant."""
    return _add_paths_and_script_options(command, is_required=False)


def _add_paths_and_script_options(command: CommandFunction, is_required: bool) -> CommandFunction:
    for option in (
        no_color_option,
        click.option("--settings", default="", metavar="TEXT", help="Settings before all others."),
        click.option(
            "--only", metavar="PATTERN", multiple=True, help="Only scripts whose path or name fits; again for more."
        ),
        click.argument("paths", nargs=-1, required=is_required, type=PathParam()),
    ):
        command = option(command)
    return command


def save_and_seed_options(command: CommandFunction) -> CommandFunction:
    """The words that say how a search goes, and where its find is saved."""
    for option in (
        click.option("--save", metavar="FILE", type=PathParam(), help="Save what is found as this script."),
        click.option(
            "--seed", metavar="N", type=click.IntRange(0), help="Make the inputs of this number, not of chance."
        ),
    ):
        command = option(command)
    return command


def last_failed_and_shard_options(command: CommandFunction) -> CommandFunction:
    """The words that choose among the scripts that are found."""
    for option in (
        click.option("--last-failed", is_flag=True, help="Only what didn't pass in the last run of these paths."),
        click.option(
            "--shard", metavar="K/N", type=ShardParam(), help="Only the K-th of N parts of about as many octets."
        ),
    ):
        command = option(command)
    return command


workers_option = click.option(
    "--workers",
    type=click.IntRange(0, MOST_WORKERS),
    help="How many scripts run at once; one a processor if nothing is said.",
)
strict_option = click.option("--strict", is_flag=True, help="A warning makes a script fail.")
html_option = click.option(
    "--html",
    metavar="FOLDER",
    type=PathParam(),
    help="Write a page into this folder, too.",
)


def plot_selection_options(command: CommandFunction) -> CommandFunction:
    """The words that say of which scripts the page has diagrams."""
    for option in (
        click.option("--plots", metavar="N", type=click.IntRange(0), help=f"Draw the first N that fail, not {MOST}."),
        click.option("--plot", metavar="PATTERN", help="Draw scripts whose path or name fits, as files too."),
    ):
        command = option(command)
    return command


def thread_count_or_one_per_processor(workers: int | None) -> int:
    """As many threads as are asked for, or one a processor."""
    return min(len(os.sched_getaffinity(0)), MOST_WORKERS) if workers is None else workers
