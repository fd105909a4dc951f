"""Rules of the sender: their names and words, and which scripts come to which.

A `SenderRule` (rules.toml) has its name in the program, its words and its group. `pdregress --rules` says which rules
the events of a script come to; a `RuleRun` has them of each script (`ReachedRules`), and a `RuleUse` the scripts that
come to a rule.

    Step .. --gather_reached_rules--> RuleRun --uses_of_rules_by_name--> RuleUse .. --> report, page
    SenderResults, SenderResults --changes_of_reached_rules--> RuleChanges, which `pdsuite compare --rules` reports
    RulesOfChange, SenderResults .. --changed_rules_with_scripts--> ChangedRules, which it reports, too

- The program alone says what an event comes to. A rule that it names and rules.toml lacks is listed too, without words.
- rule_sources.toml has what states a rule in the sources of the sender; tools/rule_sources.py reads it.
- A script that doesn't pass counts with its events before the one that stops it. If a text is no script, or a file
  can't be read, that is a fault, which is reported after the rules of the others.
- A script that comes to a rule may pass though the rule is broken, so nothing here counts as a test of a rule.
"""
