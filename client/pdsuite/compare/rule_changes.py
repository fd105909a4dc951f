"""Rules of the sender that a change changes: those that other scripts come to, and those whose sources changed.

`rules.changes` and `rules.changed_rules` find them, and reports show them.
"""

from collections.abc import Mapping
from dataclasses import dataclass, field

from pdsuite.compare.comparison import ComparisonKind


@dataclass(frozen=True, slots=True)
class ScriptAtRule:
    """A script that comes to a rule under one sender alone, and the lines of its events that do."""

    path: str
    lines: tuple[int, ...]


@dataclass(frozen=True, slots=True)
class RuleChange:
    """A rule, how many scripts come to it before and after, and those that no longer do and newly do."""

    name: str
    words: str
    before: int
    after: int
    gone: tuple[ScriptAtRule, ...]
    new: tuple[ScriptAtRule, ...]

    @property
    def size(self) -> int:
        """How many scripts come to the rule under one sender alone."""
        return len(self.gone) + len(self.new)


@dataclass(frozen=True, slots=True)
class ScriptOfChangedRule:
    """A script that comes to a rule under a sender, how both senders' results compare, and the lines of its events."""

    path: str
    kind: ComparisonKind
    lines: tuple[int, ...]


@dataclass(frozen=True, slots=True)
class ChangedRule:
    """A rule whose sources changed: what changed of them, and the scripts that come to it before or after."""

    name: str
    words: str
    by: tuple[str, ...]
    scripts: tuple[ScriptOfChangedRule, ...]

    def count_of(self, kind: ComparisonKind) -> int:
        """How many of its scripts compare so."""
        return sum(it.kind is kind for it in self.scripts)

    @property
    def first_turned(self) -> str | None:
        """The path of the first script that turned, if one did."""
        return next((it.path for it in self.scripts if it.kind is ComparisonKind.TURNED), None)


@dataclass(frozen=True)
class ChangedRules:
    """The rules whose sources changed, and what changed and states no rule; or why neither is known.

    The command searches for a script on which the senders differ; the name of a rule that it has to come to is missing.
    """

    rules: tuple[ChangedRule, ...] = ()
    others: tuple[str, ...] = ()
    why_unknown: str = ""
    search_command: str = ""


@dataclass(frozen=True)
class RuleChanges:
    """The rules that other scripts come to, the most changed first, by so many scripts that count.

    Nothing is known of rules if a sender doesn't list them. Such senders stand by their sides, `before` and `after`.
    """

    changes: tuple[RuleChange, ...] = ()
    script_count: int = 0
    senders_without_rules: Mapping[str, str] = field(default_factory=dict)
    changed: ChangedRules | None = None
