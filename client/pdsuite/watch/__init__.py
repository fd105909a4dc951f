"""Watching: what lies in folders, what a change of it means for the runs, and how that is shown.

`Watcher` reports names that change, `Folders` says which scripts are wanted (`WantedScript`), and `plan_changes` says
what the runs have to do for that: one pure function. `LivePool` keeps the runs (`LiveRun`, a program that stays up),
and `View` shows what changed. `SenderFollower` follows which sender stands, `Session` puts all together.

    Watcher --FileEvent--> Folders --WantedScript--> plan_changes --RunChange--> LivePool --rows--> View

    a live run:       started --acts: add, edit, remove, set; settle--> its rows are right --acts--> ..
                        | it ends                     '--renew_long_runs: a new one, before this one ends
                        v
                      a new one with the same scripts; ends again: the fatal scripts are found and set apart
    a watched script: seen --closed, or moved--> read --> wanted --> its row
                        '--gone, or torn--> kept as it was for GRACE seconds --> gone, or read again
    a sender:         proved, or built of the sources --a source changes--> of before, rows are marked --> the next one

- Rows are right when they are shown: they are those that `pdsuite run` would print of the files as they were read.
- Events only say where to look. Nothing counts but what is read; walks find what no event reported.
- A file that is being written isn't taken: a save that replaces a file is no removal.
- A row is shown only of a program whose file is the one that was started (SenderChangedError).

Runs stay up because the program reruns only what an edit can change; starting anew for each save would take a suite's
time.
"""
