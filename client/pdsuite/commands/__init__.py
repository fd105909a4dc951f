"""The commands of pdsuite, a module each.

A command's module has its options as a frozen dataclass (`RunOptions`, `CompareOptions`, ..), whose fields are the
names of click's options, and one function that does the command and answers the exit status. `main` has the options'
texts.

    main --RunOptions--> run.run_scripts --> collect, batches, a Mapper --> Report, files, page --> exit status

- `options` has what several commands take, `report_files` the flags that may have a file, `renamed` the old names.
- The statuses are 0 where all is well, 1 where a script fails or something differs, 2 where something couldn't be
  done.
- A command checks all that can be refused (settings, places of files, programs) before it runs the first script, and
  writes what was requested even where a signal ends it early.
- Code that two commands need is a module of a lower package; commands import each other only for a search within a
  comparison.

Options are checked here and not in the packages below: those take values that are right, and raise a `Fault` only for
what the world outside does.
"""
