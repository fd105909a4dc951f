"""The rules that other scripts come to after a change of the sender: as lines, and by keys."""

from collections.abc import Iterator

from pdsuite.compare.rule_changes import RuleChange, RuleChanges, ScriptAtRule
from pdsuite.output.octets import printable_path
from pdsuite.output.styled_text import StyledText
from pdsuite.reports.affected import collapse_ranges
from pdsuite.reports.changed_rules import changed_rules_json_object, changed_rules_text

# So many scripts of a rule are shown that no longer come to it, and so many that newly do, where not all are requested.
_MOST = 3
# Of a rule to which no script comes after the change.
UNREACHED = "no script comes to it any more"


def way_to_first_script(it: RuleChange) -> str:
    """How to get a script that comes to a rule to which none comes."""
    return f"write one, or let pdsuite search --for rule:{it.name} make one"


def line_if_unknown_or_unchanged(found: RuleChanges) -> str:
    """The line that says that nothing is known of rules, or that the same scripts come to each; empty otherwise."""
    if names := list(dict.fromkeys(found.senders_without_rules.values())):
        return f"rules: unknown, since {' and '.join(names)} {'know' if names[1:] else 'knows'} no option --rules"
    if found.changes:
        return ""
    scripts = f"{found.script_count} compared {'script' if found.script_count == 1 else 'scripts'}"
    return f"rules: of {scripts}, the same come to each before and after"


def script_counts_in_words(it: RuleChange) -> str:
    """How many scripts come to a rule before and after."""
    before = f"{it.before or 'no'} {'scripts' if it.before > 1 else 'script'}"
    return f"{before} before, {it.after or 'none'} after"


def scripts_with_their_lines(it: RuleChange, is_every: bool) -> Iterator[tuple[str, str]]:
    """The scripts that no longer come to a rule, and then those that newly do, each with the lines of its events."""
    most = None if is_every else _MOST
    yield from ((printable_path(each.path), f"no longer ({_lines_in_words(each)})") for each in it.gone[:most])
    yield from ((printable_path(each.path), f"newly ({_lines_in_words(each)})") for each in it.new[:most])


def _lines_in_words(it: ScriptAtRule) -> str:
    return f"{'line' if len(it.lines) == 1 else 'lines'} {', '.join(collapse_ranges(it.lines))}"


def line_on_scripts_left_out(it: RuleChange, is_every: bool) -> list[str]:
    """The line that counts the scripts which aren't shown, if there are any."""
    left = 0 if is_every else sum(max(0, len(each) - _MOST) for each in (it.gone, it.new))
    return [f"{left} more (--every)"] if left else []


def rule_changes_text(found: RuleChanges, is_every: bool) -> StyledText:
    """The rules that other scripts come to, and below them those whose sources changed."""
    text = _reached_rule_changes_text(found, is_every)
    return text if found.changed is None else text.append_text(changed_rules_text(found.changed, is_every))


def _reached_rule_changes_text(found: RuleChanges, is_every: bool) -> StyledText:
    """A line for each rule with its counts, and below it some of its scripts, or all."""
    text = StyledText()
    if line := line_if_unknown_or_unchanged(found):
        return text.append(f"{line}\n")
    for it in found.changes:
        text.append(f"rule {it.name}: {script_counts_in_words(it)}\n", "" if it.after else "yellow")
        if not it.after:
            text.append(f"  {UNREACHED}: {way_to_first_script(it)}\n", "yellow")
        lines = [f"{path}: {words}" for path, words in scripts_with_their_lines(it, is_every)]
        text.append("".join(f"  {line}\n" for line in [*lines, *line_on_scripts_left_out(it, is_every)]))
    return text


def rule_changes_json_object(found: RuleChanges) -> dict[str, object]:
    """The same by keys, with all scripts."""
    return {
        "unknown": list(found.senders_without_rules),
        "scripts": found.script_count,
        "changes": [_rule_change_json_object(it) for it in found.changes],
        **({} if found.changed is None else {"changed": changed_rules_json_object(found.changed)}),
    }


def _rule_change_json_object(it: RuleChange) -> dict[str, object]:
    sides = {
        side: [{"path": printable_path(each.path), "lines": list(each.lines)} for each in scripts]
        for side, scripts in (("gone", it.gone), ("new", it.new))
    }
    return {"rule": it.name, "words": it.words, "before": it.before, "after": it.after, **sides}
