"""Output for people: octets as text, styles, a terminal and other outputs.

A report is a `StyledText`: pieces of text, each with a style. `Screen` writes it, with colours on a terminal and
without them elsewhere, and keeps a line of progress at the bottom of a terminal. `Terminal` does what needs rich.

    octets, names, paths --printable_octets()--> text --StyledText--> Screen --> Terminal, or standard output
                                                                         '----> print_note_on_stderr: standard error

- Text from a script, a path or a program goes through `printable_octets` before it is printed or written: it is
  printable afterwards, and no two octet strings look alike. So there is one function for terminals, JSON, XML and
  pages.
- Reports go to standard output, notes to standard error: a program that reads a report gets no line of another kind.
- If standard output takes no more, `OutputError` ends the command.

`StyledText` is not rich's own text, since importing rich takes longer than many a run: `Screen` imports it only where
there is a terminal, and text for a file or a pipe never needs it.
"""
