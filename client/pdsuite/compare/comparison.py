"""Compares what two senders do with the same scripts: which turned, and which are played otherwise."""

import os
from collections import Counter
from collections.abc import Iterable, Iterator, Mapping, Sequence
from dataclasses import dataclass, field
from enum import StrEnum

from pdsuite.compare.divergence import Divergence, first_divergence_in_event_or_time
from pdsuite.output.octets import printable_octets
from pdsuite.programs.batch_protocol import ProcessOutput
from pdsuite.programs.protocol import Cause, RulesByLine
from pdsuite.programs.recorder import Recording
from pdsuite.run.outcomes import ScriptOutcome
from pdsuite.scripts.text import ScriptText


class ComparisonKind(StrEnum):
    """How what two senders do with a script compares."""

    TURNED = "turned"  # the row is another
    OTHERWISE = "played otherwise"  # the row stays, and a packet or an answer is another
    SAME = "as before"
    UNKNOWN = "not compared"  # the row stays, and there is no recording


@dataclass(frozen=True)
class SenderResults:
    """The results of a sender: by the places of scripts their outcomes, texts, recordings, and explanations by keys.

    Then come its outputs on rows, in their order. Last come the rules of the scripts of which they are known; there are
    none at all if they weren't requested, or if the sender can't list any.
    """

    outcomes: Mapping[int, ScriptOutcome]
    texts: Mapping[int, ScriptText] = field(default_factory=dict)
    recordings: Mapping[int, Recording] = field(default_factory=dict)
    causes: Mapping[int, Cause] = field(default_factory=dict)
    outputs: Sequence[ProcessOutput] = ()
    rules: Mapping[int, RulesByLine] | None = None


@dataclass(frozen=True)
class ComparedScript:
    """A script: its place, what came of it under both senders, and where their recordings part."""

    index: int
    kind: ComparisonKind
    before: ScriptOutcome
    after: ScriptOutcome
    divergence: Divergence | None = None
    unrecorded: tuple[str, str] = ("", "")  # why there is no recording before and after
    recordings: tuple[str, str] = ("", "")  # with their traces, before and after
    comment: str = ""  # the first line of its text, if that is a comment

    @property
    def path(self) -> str:
        return self.after.path

    @property
    def differs(self) -> bool:
        return self.kind in (ComparisonKind.TURNED, ComparisonKind.OTHERWISE)


def compare_results(before: SenderResults, after: SenderResults) -> list[ComparedScript]:
    """The scripts in the order of their places."""
    return [_compare_script(index, before, after) for index in sorted(after.outcomes)]


def _compare_script(index: int, before: SenderResults, after: SenderResults) -> ComparedScript:
    old, new = before.outcomes[index], after.outcomes[index]
    one, other = (it.recordings.get(index, _NO_RECORDING) for it in (before, after))
    why = (one.fault if not one.text else "", other.fault if not other.text else "")
    parting = first_divergence_in_event_or_time(one.text, other.text) if one.text and other.text else None
    if old.row != new.row:
        kind = ComparisonKind.TURNED
    elif parting is not None or bool(one.text) != bool(other.text):
        kind = ComparisonKind.OTHERWISE
    else:
        kind = ComparisonKind.SAME if one.text else ComparisonKind.UNKNOWN
    return ComparedScript(
        index, kind, old, new, parting, why, (one.text, other.text), _comment_on_first_line(after.texts.get(index))
    )


def _comment_on_first_line(text: ScriptText | None) -> str:
    """The first line of a text, if that is a comment."""
    line = b"" if text is None else text.octets.partition(b"\n")[0].strip()
    return printable_octets(line.removeprefix(_COMMENT).strip()) if line.startswith(_COMMENT) else ""


_COMMENT = b"//"
_NO_RECORDING = Recording("", "nothing is recorded")


@dataclass(frozen=True)
class KindCounts:
    """How many scripts of a folder, or of all, compare in which way."""

    name: str
    counts: Mapping[ComparisonKind, int]

    def __str__(self) -> str:
        """The counts as the last line of a report has them."""
        return " ".join(
            [str(self._script_count), *(f"{it} {self.counts[it]}" for it in self._kinds_without_unknown_if_zero)]
        )

    @property
    def counts_in_words(self) -> str:
        """The counts in words."""
        scripts = f"{self._script_count} {'script' if self._script_count == 1 else 'scripts'}"
        return ", ".join([scripts, *(f"{self.counts[it]} {it}" for it in self._kinds_without_unknown_if_zero)])

    @property
    def _script_count(self) -> int:
        return sum(self.counts.values())

    @property
    def _kinds_without_unknown_if_zero(self) -> list[ComparisonKind]:
        return [it for it in ComparisonKind if it is not ComparisonKind.UNKNOWN or self.counts[it]]


def counts_by_folder_and_total(compared: Sequence[ComparedScript]) -> Iterator[KindCounts]:
    """The count of each folder in the order of paths, and that of all last."""
    folders: dict[str, list[ComparisonKind]] = {}
    for it in compared:
        folders.setdefault(os.path.dirname(it.path), []).append(it.kind)
    for name, kinds in folders.items():
        yield KindCounts(name or os.curdir, _count_kinds(kinds))
    yield KindCounts("total", _count_kinds(it.kind for it in compared))


def _count_kinds(kinds: Iterable[ComparisonKind]) -> Mapping[ComparisonKind, int]:
    return Counter(kinds)
