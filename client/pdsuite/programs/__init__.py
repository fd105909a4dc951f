"""The programs: where they are, how they are started, what is written to them and what they print.

`locate` and `lookup` say where programs are and whether they stand as they were found; `program` starts one
(`Program`); `protocol` writes commands and reads answers; `verdict` has the `Row` of a script. `Recorder` has scripts
recorded. Where nothing is proved, `build` makes both programs without proofs, and `unproved_batch` and
`unproved_session` run a tree's sources by `rt try`.

    a program:  started --query--> answers .. answers --kill_and_close, or ProgramEndedError--> ended
    a build:    begun --> reading --> compiling --> linking --> a folder, BuildError or NoKeptBuildError
                  '--> waiting, while another call builds the same --> as above

- No other package starts a program. A `Program` is in a process group of its own, and ends with its `with` block.
- An answer ends with the line `total`. If it isn't the answer to the query, or longer than one can be, the program
  counts as ended: `UnexpectedAnswerError` and `ProgramEndedError` have the reason in the program's words.
- Output is read while commands are written, and standard error together with it, so that no full pipe blocks either
  side.
- Names of scripts in commands are given here (`s0`, `s1`, ..) and seen nowhere else: a path may hold any octets.
- Which program stands is looked up once, and again only if the stamp of a file differs on which that depends
  (`ProgramLookup`). `StampedProgram.raise_if_changed` raises SenderChangedError if the program's file is another one,
  so that no row is shown of a program that was replaced meanwhile.

The client asks the tools whether a program is proved, and keeps no rule of its own for it: `./pdregress` asks the same
tools, and both have to agree.
"""
