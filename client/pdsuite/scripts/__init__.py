"""Scripts before they run: their files, their texts, and what pdsuite.toml says of them.

`discover` finds the files (`ScriptFile`), `text` reads one as a `ScriptText` within the limits of the program, and
`config` reads the files pdsuite.toml above it, each of them a `Layer`. `SuiteConfig` says what holds for a script
(`ScriptRules`): its `Settings`, whether warnings make it fail, and the row that it is known to have (`Expectation`).

    paths --discover--> ScriptFile --text--> ScriptText
                            |
    pdsuite.toml --config--> Layer .. Layer --SuiteConfig--> ScriptRules
                            '--> Claim, which the program takes or refuses

- The nearest file wins, key by key; `--settings` wins over all files. A file with `root = true` hides those above it.
- Each file is read once in a command, so that all its scripts run under the same text of it.
- The client doesn't know whether a setting is good: each key with its value is a `Claim` with its place, and the
  program refuses it or not. `defaults` has the settings for the words of such an error, and what holds where none is
  given.
- A pdsuite.toml is edited and never written anew (`toml_text`): comments and order stay.

A text is handed on as octets with the newlines counted, and not as lines of `str`: scripts may hold any octets, and
what `edit` of the program counts are lines that end at the octet 10 alone (`text_edit`).
"""
