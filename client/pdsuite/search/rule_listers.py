"""Programs that stay up and list which rules of the sender the events of scripts come to."""

from collections import deque
from collections.abc import Sequence
from pathlib import Path
from threading import Lock

from pdsuite.programs.program import Program
from pdsuite.programs.protocol import (
    LIST_RULES,
    LONGEST_CAUSE,
    LONGEST_LINE,
    SETTLE,
    RulesByLine,
    add_command,
    parse_new_rows,
    parse_rules_by_script,
    remove_command,
    script_name_of_number,
)
from pdsuite.scripts.settings import Settings, settings_as_toml
from pdsuite.scripts.text import ScriptText
from pdsuite.signals import Stop

# A program is worn after so many: each is four entries of its history, which has room for 65,536.
_MOST_SCRIPTS = 16_000
# So many programs stay up while they list nothing.
_MOST_IDLE = 16


class RuleLister:
    """A started program that lists the rules of scripts, some after the others, and holds only the last ones."""

    def __init__(self, program: Path, settings: Settings, stop: Stop) -> None:
        text = settings_as_toml(settings)
        words: list[str | Path] = [program, LIST_RULES, "--cache", "1", *(["--settings", text] if text else [])]
        self.program = Program(words, stop)
        self.settings = settings
        self.script_count = 0
        self._held: list[bytes] = []

    def list_rules(self, texts: Sequence[ScriptText]) -> list[RulesByLine]:
        """The rules that each script comes to, by the lines of its events."""
        names = [script_name_of_number(number) for number in range(len(texts))]
        commands = [*map(remove_command, self._held), *map(add_command, names, texts), SETTLE]
        answer, errors = self.program.query_with_errors(
            b"".join(commands), LONGEST_LINE * (len(texts) + 2), LONGEST_CAUSE * (len(texts) + 1)
        )
        parse_new_rows(answer, b"", names, len(names))  # raises where these scripts weren't run
        self._held = names
        self.script_count += len(names)
        rules = parse_rules_by_script(errors)
        return [rules.get(it, {}) for it in names]


class RuleListers:
    """Programs that list rules, each for one thread at a time. One that is idle stays up for scripts of its settings.

    Its settings never change, since a sender doesn't say which value a key has by default.
    """

    def __init__(self, program: Path, stop: Stop) -> None:
        self._program = program
        self._stop = stop
        self._lock = Lock()
        self._idle: deque[RuleLister] = deque()

    def list_rules(self, settings: Settings, texts: Sequence[ScriptText]) -> list[RulesByLine]:
        """The rules that each script comes to under these settings, by the lines of its events."""
        lister = self._take_idle(settings) or RuleLister(self._program, settings, self._stop)
        try:
            rules = lister.list_rules(texts)
        except BaseException:
            lister.program.kill_and_close()
            raise
        self._leave_idle_or_end(lister)
        return rules

    def close(self) -> None:
        """Ends the programs."""
        while self._idle:
            self._idle.pop().program.kill_and_close()

    def _take_idle(self, settings: Settings) -> RuleLister | None:
        with self._lock:
            found = next((it for it in self._idle if it.settings == settings), None)
            if found is not None:
                self._idle.remove(found)
            return found

    def _leave_idle_or_end(self, lister: RuleLister) -> None:
        """Keeps a program for later, unless it is worn. If too many are idle, the one ends that is so for longest."""
        with self._lock:
            if lister.script_count < _MOST_SCRIPTS:
                self._idle.append(lister)
                if len(self._idle) <= _MOST_IDLE:
                    return
                lister = self._idle.popleft()
        lister.program.kill_and_close()
