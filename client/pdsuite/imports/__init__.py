"""Scripts of the kernel's self-tests as scripts of this profile: functions over texts, which start nothing.

`convert_script` reads an `ImportSource` and gives an `Imported` script with its settings, or `NotImported` with each
`Reason`. `setup` and `shell` read what the set-up says, `kernel` knows what each switch means here, `packets` cuts
packets as this sender sends them, `calls` and `profile` know what this profile doesn't run, and `rewrite` puts it all
into the text.

    text --parse_items_until_syntax_error--> items --setup, kernel--> settings, or Reason
                           '---calls, packets, profile--> Rewrite --apply_rewrites--> text; Finding for each counted

- Nothing of a script is run: shell commands and code are read as text, and what isn't understood is a reason.
- A dropped feature stays in the text as a comment, and says why. So the script shows what its test was about, and
  `run/import_check.py` can say which dropped feature acts where the script fails (`dropped_features`).
- No verdict is needed. An import may fail when it is run; it isn't changed until it passes, since a kernel's script
  that fails here is what one wants to know of.
- Reasons and findings are counted by their words, so equal ones have equal words (docs/IMPORT.md).

Settings come from the set-up, and one is found by playing: `slow_start` takes the greatest limit of cwnd's growth
under which just the packets leave that the script has, as no switch of the kernel says it.
"""
