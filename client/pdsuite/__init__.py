"""The client of pdregress: runs folders of packetdrill scripts by the built programs, and shows what they printed.

It makes no verdict: `pdregress` judges scripts and explains its rows, `pdrecord` records them, and the client writes
their input, reads what they print, and shows that. All else is its own work: it finds the scripts and their settings,
spreads the runs over processors, and compares, keeps and draws the results.

A command goes from left to right; each package uses only those to its left:

    output -- scripts -- packetdrill -- programs -- imports -- run -- compare -- search
                                 diagram -- reports -- rules -- page -- measure -- watch -- lsp -- commands

`main` reads the arguments by click and hands the options of a command to its module in `commands`.

- An error that ends a command is a `Fault`, whose text is one line for people; `main` prints it. All other exceptions
  have names that end in `Error`.
- Signals come between two steps of the work (`signals.Stop`), so that what is done until then is shown.
- A file is written whole or not at all (`files`). Texts of others are printed only as `output.octets` shows them.
- Modules that only some commands need are imported where they are used, since the start of a short command is mostly
  imports.
"""
