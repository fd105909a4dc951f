"""A run of the program that stays up: it gets what changes, and prints the row of each of its scripts, and why."""

from collections.abc import Mapping, Sequence
from typing import TypeVar

from pdsuite.programs.program import Program, ProgramEndedError
from pdsuite.programs.protocol import LONGEST_CAUSE, LONGEST_LINE, SETTLE, Cause, UnexpectedAnswerError
from pdsuite.programs.protocol import (
    add_command,
    edit_command,
    parse_causes_by_script_and_line,
    parse_new_rows,
    parse_step_counts_by_script,
    remove_command,
    script_name_of_number,
    set_command,
)
from pdsuite.programs.verdict import Row
from pdsuite.run.run_batches import Start
from pdsuite.scripts.settings import Settings
from pdsuite.watch.plan_changes import Act, AddScript, EditScript, RemoveScript, RunContents, SetKey

T = TypeVar("T")
# An act is recorded once, and the start and the end of each job that it leads to; with workers a job may come twice.
_PER_JOB = 4


class LiveRun:
    """A started program, what it holds, and what it printed last.

    `acts` is how many acts its history has at most. By the paths of scripts, `causes` has what the program explains of
    them by keys, and `steps` how many the last change cost, where the program does so.
    """

    def __init__(self, settings: Settings, start: Start) -> None:
        self.contents = RunContents(settings, {})
        self.rows: dict[str, Row] = {}
        self.program: Program = start(settings)
        self.acts = 0
        self.causes: dict[str, Cause] = {}
        self.steps: dict[str, int] = {}
        self._names: dict[str, bytes] = {}
        self._count = 0

    def carry_out_acts_and_update_results(self, acts: Sequence[Act], after: RunContents) -> None:
        """Has the program hold something else, and settles it."""
        commands = b"".join(self._command_of_act_updating_names(it) for it in acts)
        names = list(self._names.values())
        longest = LONGEST_LINE * (len(acts) + len(names) + 2)
        answer, errors = self.program.query_with_errors(commands + SETTLE, longest, LONGEST_CAUSE * (len(names) + 1))
        try:
            rows = parse_new_rows(answer, b"", names, len(names))
            causes = {name: it for (name, _), it in parse_causes_by_script_and_line(errors).items()}
        except UnexpectedAnswerError as unexpected:
            raise ProgramEndedError(f"pdregress: {unexpected}") from unexpected
        self.rows = dict(zip(self._names, rows))
        self.contents = after
        self.acts += sum(1 + _PER_JOB * (len(names) if isinstance(it, SetKey) else 1) for it in acts)
        self._replace_causes_of_rerun_scripts(acts, self._key_by_paths(causes))
        self.steps = self._key_by_paths(parse_step_counts_by_script(errors))

    def _replace_causes_of_rerun_scripts(self, acts: Sequence[Act], causes: Mapping[str, Cause]) -> None:
        """Takes the explanations of the scripts that have run again; any other keeps the one before."""
        for it in acts:
            if isinstance(it, SetKey):
                self.causes.clear()
            else:
                self.causes.pop(it.path, None)
        self.causes |= {path: it for path, it in causes.items() if self.rows[path].line in (None, it["line"])}

    def _key_by_paths(self, each: Mapping[bytes, T]) -> dict[str, T]:
        paths = {name: path for path, name in self._names.items()}
        return {paths[name]: it for name, it in each.items() if name in paths}

    def _command_of_act_updating_names(self, act: Act) -> bytes:
        match act:
            case RemoveScript(path):
                return remove_command(self._names.pop(path))
            case SetKey(key, word):
                return set_command(key, word)
            case EditScript(path, change):
                return edit_command(self._names[path], change)
            case AddScript(path, text):
                self._names[path] = name = script_name_of_number(self._count)
                self._count += 1
                return add_command(name, text)
