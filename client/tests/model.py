"""Fakes of programs in this process. Their answer to a script depends on its text and its settings alone."""

import re
import zlib
from dataclasses import replace

from pdsuite.programs.program import ProgramEndedError
from pdsuite.programs.verdict import Row, Verdict
from pdsuite.run.outcomes import ScriptOutcome
from pdsuite.scripts.defaults import DEFAULTS
from pdsuite.scripts.settings import Settings, set_command_words_or_placeholders
from pdsuite.watch.plan_changes import WantedScript

MOST = 1_024


def settings_words(settings: Settings) -> dict[str, str]:
    """Each setting as a word."""
    return dict(set_command_words_or_placeholders(key, value) for key, value in {**DEFAULTS, **dict(settings)}.items())


def row_of(text: bytes, settings: dict[str, str]) -> Row:
    """A row in which every octet and every setting counts."""
    number = zlib.crc32(text + repr(sorted(settings.items())).encode()) % 1_000
    verdict = Verdict.PASS if number % 2 else Verdict.SYNTAX
    return Row(verdict, number)


def meaning_of(text: bytes, settings: Settings) -> str:
    """The explanation of a row; every octet and every setting counts."""
    return f"it is {zlib.crc32(text + repr(sorted(settings)).encode())}"


class FakeExplainer:
    """A fake of who knows the explanations of scripts."""

    def outcome_with_explanation(self, outcome: ScriptOutcome, wanted: WantedScript) -> ScriptOutcome:
        """Explains a script."""
        return replace(outcome, why=meaning_of(wanted.text.octets, wanted.settings))


class Model:
    """A fake of a started program."""

    def __init__(self, settings: Settings, most_acts: int = 65_536) -> None:
        self.settings = settings_words(settings)
        self.texts: dict[bytes, list[bytes]] = {}
        self.acts = 0
        self.is_closed = False
        self._most_acts = most_acts
        self._jobs_run: list[tuple[int, bytes]] = []
        self._jobs = 0

    def query_answer_regardless_of_errors(self, commands: bytes, longest: int) -> bytes:
        """Carries out commands, and answers the report."""
        left = commands
        while left:
            line, left = left.split(b"\n", 1)
            left = self._act(line.split(b" "), left)
        if self.acts > self._most_acts:
            raise ProgramEndedError("pdregress: refused 11 HistoryFull")
        rows = [b"%s %s" % (name, self._row(lines)) for name, lines in self.texts.items()]
        total = b"total %d pass 0 fail 0 syntax 0 unsupported 0 limit 0 pending 0" % len(self.texts)
        answer = b"\n".join([*rows, total]) + b"\n"
        assert len(answer) <= longest
        return answer

    def query_with_errors(self, commands: bytes, longest: int, longest_errors: int) -> tuple[bytes, bytes]:
        """The same, and on standard error nothing but how many steps each script took: one a line."""
        answer = self.query_answer_regardless_of_errors(commands, longest)
        jobs = [(number, name) for number, name in self._jobs_run if name in self.texts]
        self._jobs_run = []
        lines = (b"job %d %s steps %d\n" % (number, name, len(self.texts[name])) for number, name in jobs)
        return answer, b"".join(lines)

    def require_alive_and_silent(self) -> None:
        """It never ends by itself."""

    def fileno(self) -> int:
        """Nothing can be read of it."""
        raise AssertionError("nobody waits for it")

    def kill_and_close(self) -> None:
        """Notes that it was ended."""
        self.is_closed = True

    def _act(self, words: list[bytes], left: bytes) -> bytes:
        self.acts += words[0] != b"settle"
        if words[0] in (b"add", b"edit"):
            self._jobs += 1
            self._jobs_run.append((self._jobs, words[1]))
        match words:
            case [b"add", name, count]:
                assert name not in self.texts and len(self.texts) < MOST
                self.texts[name], left = _lines(left, int(count))
            case [b"edit", name, first, removed, count]:
                lines = self.texts[name]
                begin, end = int(first) - 1, int(first) - 1 + int(removed)
                assert 0 <= begin <= end <= len(lines)
                lines[begin:end], left = _lines(left, int(count))
            case [b"remove", name]:
                del self.texts[name]
            case [b"set", key, word]:
                assert re.fullmatch(r"[a-z_]+", key.decode()) and key.decode() in self.settings
                self.settings[key.decode()] = word.decode()
            case _:
                assert words == [b"settle"]
        return left

    def _row(self, lines: list[bytes]) -> bytes:
        row = row_of(b"".join(it + b"\n" for it in lines), self.settings)
        return b"%s %d" % (row.verdict.value.encode(), row.number)


def _lines(left: bytes, count: int) -> tuple[list[bytes], bytes]:
    parts = left.split(b"\n", count)
    return parts[:count], parts[count]
