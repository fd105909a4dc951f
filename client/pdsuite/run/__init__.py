"""A run of scripts: which are meant, how they are spread over programs, what comes of each, and why it doesn't pass.

`collect` finds the scripts that are meant (`SuiteScript`); `batches` groups those with equal settings (`Batch`), cut
into pieces; a `Mapper` has them settled, by the processors of this machine (`local_mapper`), a Dask cluster (`cluster`)
or `rt try` (`unproved_run`). It yields a stream of `Step`: a `SettledPiece` with its outcomes, or a note that a program
ended. `ScriptOutcome` has a script's row and what explains it, `OutcomeTotals` the counts.

    SuiteScript .. --batch_scripts_by_equal_settings--> Batch --Mapper--> Step, Step, ..  --> reports
                                         |
    a batch:  piece by piece --> settled
                 | the program ends: Restart
                 v
              each script of that piece by itself --> settled
                 | it ends again on the same script
                 v
              once without explanation: UnexplainedScript and its row, or else an error

- Steps come in the order of the batches, whichever mapper takes them and however many programs run: so two runs print
  the same octets, and a mapper can be replaced by another one.
- A program that ends costs only the script on which it does; all others have their rows.
- Only plain values go to a cluster (`serialize`): no class travels, and a worker counts only if its program has the
  same SHA-256.
- An outcome says why by what the program explained; `line_diff` and `locate_row` put that beside the text.

Scripts share a program because starting one costs more than running a script, and a piece is small so that the first
rows show soon and a signal loses little.
"""
