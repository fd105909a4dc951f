"""The rules whose sources changed between two senders: as lines, as Markdown and by keys."""

from collections.abc import Iterator

from pdsuite.compare.comparison import ComparisonKind
from pdsuite.compare.rule_changes import ChangedRule, ChangedRules
from pdsuite.output.octets import printable_path, printable_text
from pdsuite.output.styled_text import StyledText
from pdsuite.reports.affected import collapse_ranges

# So many scripts of a rule are shown, and so much of what changed of it, where not all is requested.
_MOST = 3
# Of a rule to which no script comes, before and after the change.
UNREACHED = "no script comes to it"
_DIFFERENT = (ComparisonKind.TURNED, ComparisonKind.OTHERWISE)


def line_if_changed_rules_unknown_or_none(found: ChangedRules) -> str:
    """The line that says why nothing is known of changed rules, or that no source changed; empty otherwise."""
    if found.why_unknown:
        return f"changed rules: unknown, since {found.why_unknown}"
    return "" if found.rules or found.others else "changed rules: none, since the sources of both senders are the same"


def changed_rule_in_words(it: ChangedRule) -> str:
    """How many scripts come to a rule, and how many of them differ; with the first that turned."""
    if not it.scripts:
        return UNREACHED
    scripts = "1 script comes" if len(it.scripts) == 1 else f"{len(it.scripts)} scripts come"
    counts = [f"{count} {kind}" for kind in _DIFFERENT if (count := it.count_of(kind))] or ["none turned"]
    first = "" if it.first_turned is None else f"; the first that turned is {printable_path(it.first_turned)}"
    return f"{scripts} to it, {', '.join(counts)}{first}"


def what_changed_in_words(it: ChangedRule, is_every: bool) -> str:
    """The definitions, the code and the defaults that changed."""
    return _some_of(it.by, is_every)


def way_to_script_of_changed_rule(it: ChangedRule, found: ChangedRules) -> str:
    """How to get a script for a rule to which none comes."""
    return f"write one, or let {printable_text(found.search_command)}{it.name} make one"


def scripts_of_changed_rule(it: ChangedRule, is_every: bool) -> Iterator[tuple[str, str]]:
    """Scripts that come to a rule, each with how it compares and the lines of its events."""
    for script in it.scripts[: None if is_every else _MOST]:
        word = "line" if len(script.lines) == 1 else "lines"
        yield printable_path(script.path), f"{script.kind} ({word} {', '.join(collapse_ranges(script.lines))})"


def line_on_more_scripts(it: ChangedRule, is_every: bool) -> list[str]:
    """The line that counts the scripts which aren't shown, if there are any."""
    left = 0 if is_every else len(it.scripts) - _MOST
    return [f"{left} more (--every)"] if left > 0 else []


def line_on_what_states_no_rule(found: ChangedRules, is_every: bool) -> list[str]:
    """The line that names what changed and states no rule, if there is any."""
    return [f"changed, and states no rule: {_some_of(found.others, is_every)}"] if found.others else []


def _some_of(names: tuple[str, ...], is_every: bool) -> str:
    most = len(names) if is_every else _MOST
    left = [f"{len(names) - most} more (--every)"] if len(names) > most else []
    return ", ".join([*map(printable_text, names[:most]), *left])


def changed_rules_text(found: ChangedRules, is_every: bool) -> StyledText:
    """A line for each rule, and below it what changed, and some of its scripts, or all."""
    text = StyledText()
    if line := line_if_changed_rules_unknown_or_none(found):
        return text.append(f"{line}\n")
    for it in found.rules:
        style = "" if it.scripts else "yellow"
        text.append(f"changed rule {it.name}: {changed_rule_in_words(it)}\n", style)
        text.append(f"  changed: {what_changed_in_words(it, is_every)}\n")
        if not it.scripts:
            text.append(f"  {way_to_script_of_changed_rule(it, found)}\n", style)
        lines = [f"{path}: {words}" for path, words in scripts_of_changed_rule(it, is_every)]
        text.append("".join(f"  {line}\n" for line in [*lines, *line_on_more_scripts(it, is_every)]))
    return text.append("".join(f"{line}\n" for line in line_on_what_states_no_rule(found, is_every)))


def changed_rules_json_object(found: ChangedRules) -> dict[str, object]:
    """The same by keys, with all scripts."""
    return {
        "unknown": found.why_unknown or None,
        "rules": [_changed_rule_json_object(it, found) for it in found.rules],
        "others": list(found.others),
    }


def _changed_rule_json_object(it: ChangedRule, found: ChangedRules) -> dict[str, object]:
    scripts = [{"path": printable_path(each.path), "kind": each.kind, "lines": list(each.lines)} for each in it.scripts]
    rule: dict[str, object] = {
        "rule": it.name,
        "words": it.words,
        "by": list(it.by),
        "turned": it.count_of(ComparisonKind.TURNED),
        "first_turned": None if it.first_turned is None else printable_path(it.first_turned),
        "scripts": scripts,
    }
    return rule if it.scripts else {**rule, "search": f"{found.search_command}{it.name}"}
