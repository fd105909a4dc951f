"""The language of packetdrill: a text as tokens, and as the items of a script. tools/kernel reads by it, too.

`tokens` cuts a text, `reader` reads the tokens as items (`Item`: a `Packet`, `Call`, `Command`, `Code` or
`HeaderOption`, each with its `Time`), and `layout` says where the fields of each `Event` stand. `recorded` puts a
recording beside its script: which packet each event met, and how the sender stood after it.

    text --tokens_of--> Token --parse_items_until_syntax_error--> Item --layout_of--> Event with the place of each field
                                                   |
    recording with its trace --recorded_events_in--> RecordedEvent --match_events--> MatchedEvent

- The reader takes more than the program does: commands, code and options of other kernels, since imports and editors
  meet them. It goes as far as the text is a script, and says where that ends (`Reading.fault`, a `ScriptSyntaxError`).
- Nothing is judged here. Whether a packet fits a line is for the program; `alignment` and `columns` only put packets
  beside each other so that people see the difference.
- Places are offsets of characters in the text, and times are whole microseconds.

There is a second reader besides that of the program because an editor and an import need the places of fields in texts
that are no scripts of this profile, and have to have them without a process for each key that is typed.
"""
