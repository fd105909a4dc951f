"""A folder that is watched in this process, beside a model of the program and a clock that is moved by hand."""

from collections.abc import Iterable
from dataclasses import dataclass, field
from pathlib import Path
from typing import cast

from pdsuite.output.octets import printable_path
from pdsuite.output.screen import Screen
from pdsuite.output.styled_text import StyledText
from pdsuite.programs.program import Program
from pdsuite.run.batches import SuiteScript
from pdsuite.run.run_batches import load_script_text_or_fault
from pdsuite.scripts.config import Claim, SuiteConfig, layer_of_option
from pdsuite.scripts.discover import find_scripts
from pdsuite.scripts.settings import Settings, set_command_words_or_placeholders
from pdsuite.scripts.text import ScriptText
from pdsuite.signals import Stop
from pdsuite.watch.change_report import ChangeReport
from pdsuite.watch.folders import Folders, WatchChoice
from pdsuite.watch.live_pool import LivePool
from pdsuite.watch.session import rerun_changes_and_show
from pdsuite.watch.settings_files import SettingsFiles
from pdsuite.watch.view import View
from pdsuite.watch.watcher import FileEvent, Watcher
from tests.helpers import Replay
from tests.model import FakeExplainer, Model, meaning_of, row_of, settings_words


class Paper:
    """A fake of a screen."""

    def __init__(self) -> None:
        self.parts: list[str] = []
        self.notes: list[str] = []

    def show(self, text: StyledText) -> None:
        self.parts.append(text.text_without_styles)

    def print_note_on_stderr(self, line: str) -> None:
        self.notes.append(line)

    def keep_bottom_line(self, line: str) -> None:
        """Nobody looks."""


def refused(claims: Iterable[Claim]) -> list[str]:
    """The refusal lines of a program that refuses the value 7 for any setting."""
    return [
        it.refusal_line("BadValue") for it in claims if set_command_words_or_placeholders(it.key, it.value)[1] == "7"
    ]


@dataclass
class WatchFixture:
    """A folder that is watched, beside a clock that is moved by hand."""

    top: Path
    stop: Stop
    watcher: Watcher
    most_acts: int = 65_536
    paper: Paper = field(default_factory=Paper)
    models: list[Model] = field(default_factory=list)
    now: float = 1_000.0

    def __post_init__(self) -> None:
        self.settings_files = SettingsFiles(layer_of_option(""), refused, self.paper.print_note_on_stderr)
        self.folders = Folders(
            WatchChoice([self.top], ()), self.settings_files, self.watcher, self.stop, self.paper.print_note_on_stderr
        )
        self.fleet = LivePool(self._start, self.paper.print_note_on_stderr, lambda doing: None)
        self.view = View(cast(Screen, self.paper), FakeExplainer(), True, ChangeReport())

    def _start(self, settings: Settings) -> Program:
        self.models.append(Model(settings, self.most_acts))
        return cast(Program, self.models[-1])

    def wait(self, seconds: float, events: list[FileEvent] | None = None) -> None:
        """Lets time pass, and then what has been reported be heeded."""
        self.now += seconds
        rerun_changes_and_show(
            self.folders, self.fleet, self.view, self.watcher.read_events() if events is None else events, self.now
        )

    def rest(self) -> None:
        """Waits until nothing more can come."""
        for _ in range(3):
            self.wait(3.0)

    @property
    def rows(self) -> dict[str, str]:
        """The rows as whoever read all reports knows them."""
        return Replay("".join(self.paper.parts)).rows

    def truth(self) -> dict[str, str]:
        """The rows that a run of the folder as it is would show."""
        rows = {}
        suite = SuiteConfig(layer_of_option(""))
        for found in find_scripts([self.top], (), self.stop):
            text = load_script_text_or_fault(SuiteScript(0, found.path, (), found.fault))
            place = printable_path(found.path)
            if isinstance(text, ScriptText):
                settings = suite.settings_of_script(found)
                row = row_of(text.octets, settings_words(settings))
                row_text = f"{place}:{row.line}: {row}: {meaning_of(text.octets, settings)}"
                rows[place] = f"{place}: {row}" if row.line is None else row_text
            else:
                rows[place] = f"{place}: error: {text}"
        return rows
