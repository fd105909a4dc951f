"""The forms in which rules are reported: a table, the scripts of a rule, or the lines of a script; and each as JSON."""

import json
from collections.abc import Iterable, Mapping, Sequence

from pdsuite.output.octets import printable_path
from pdsuite.output.styled_text import StyledText, styled_text_of_one_plain_piece
from pdsuite.rules.reached_rules import ReachedRules, RuleRun, RuleUse
from pdsuite.run.outcomes import UNPROVED

# Of the objects, as docs/rules.schema.json has them.
VERSION = 1
# In the place of the number of scripts that come to a rule, where it is 0.
_NONE = "none"
_encoded = json.JSONEncoder(ensure_ascii=False).encode


def table_text(uses: Sequence[RuleUse], run: RuleRun, is_unproved: bool) -> StyledText:
    """A line for each rule, with how many scripts come to it, and the shortest of them or its words; and the totals."""
    text = StyledText()
    names = max((len(it.rule.name) for it in uses), default=0)
    counts = max((len(_count_or_none(it)) for it in uses), default=0)
    for it in uses:
        last = it.rule.words if it.shortest is None else printable_path(it.shortest.path)
        line = f"{it.rule.name:<{names}}  {_count_or_none(it):>{counts}}  {last}\n"
        text.append(line, "yellow" if it.shortest is None else "")
    total = " ".join(f"{key} {count}" for key, count in _totals(uses, run).items())
    return text.append(f"total {total.removeprefix('scripts ')}{f' {UNPROVED}' if is_unproved else ''}\n")


def _count_or_none(use: RuleUse) -> str:
    return str(len(use.scripts) or _NONE)


def _totals(uses: Sequence[RuleUse], run: RuleRun) -> dict[str, int]:
    return {
        "scripts": len(run.scripts),
        "not passing": run.not_passing_count,
        "rules": len(uses),
        _NONE: sum(not it.scripts for it in uses),
    }


def scripts_of_rule_text(use: RuleUse) -> StyledText:
    """A line for each script that comes to a rule: its path, and the lines of the events that do."""
    return styled_text_of_one_plain_piece(
        "".join(
            f"{printable_path(it.path)}: {', '.join(map(str, it.lines_of_rule(use.rule.name)))}\n" for it in use.scripts
        )
    )


def rules_of_script_text(script: ReachedRules) -> StyledText:
    """A line for each line of a script with an event that comes to rules."""
    lines = (f"{line}: {' '.join(names)}\n" for line, names in script.rules_by_line.items())
    return styled_text_of_one_plain_piece("".join(lines))


def table_json(uses: Sequence[RuleUse], run: RuleRun, is_unproved: bool) -> StyledText:
    """The object of the table."""
    return object_text({}, "rules", map(_use_object, uses), {"total": _totals(uses, run), **mark_of(is_unproved)})


def _use_object(use: RuleUse) -> Mapping[str, object]:
    rule: dict[str, object] = {"rule": use.rule.name, "words": use.rule.words, "scripts": len(use.scripts)}
    if use.shortest is not None:
        rule["shortest"] = {"path": printable_path(use.shortest.path), "length": use.shortest.line_count}
    return rule


def scripts_of_rule_json(use: RuleUse, is_unproved: bool) -> StyledText:
    """The object of the scripts that come to a rule."""
    name, words = use.rule.name, use.rule.words
    objects = ({"path": printable_path(it.path), "lines": it.lines_of_rule(name)} for it in use.scripts)
    return object_text({"rule": name, "words": words}, "scripts", objects, mark_of(is_unproved))


def rules_of_script_json(script: ReachedRules, is_unproved: bool) -> StyledText:
    """The object of a script with its rules."""
    objects = ({"line": line, "rules": list(names)} for line, names in script.rules_by_line.items())
    return object_text({"path": printable_path(script.path)}, "lines", objects, mark_of(is_unproved))


def mark_of(is_unproved: bool) -> Mapping[str, object]:
    """The member that says that a sender isn't proved."""
    return {UNPROVED: True} if is_unproved else {}


def object_text(
    first: Mapping[str, object], key: str, items: Iterable[Mapping[str, object]], last: Mapping[str, object]
) -> StyledText:
    """An object with a list at this key, a line for each of its items, between other members."""
    begin = _encoded({"version": VERSION, **first, key: []}).removesuffix("]}")
    lines = ",".join(f"\n{_encoded(it)}" for it in items)
    end = f", {_encoded(last)[1:]}" if last else "}"
    return styled_text_of_one_plain_piece(f"{begin}{lines}\n]{end}\n")
