"""Comparing: what two senders do with the same scripts, and where they are.

A `Sender` is a folder of programs, a tree or a commit (`senders`); a `Side` is a sender with the settings of its own
option and the keys that it lacks. `run_both_senders` runs and records the same scripts on both, and
`compare_results` pairs the results: each `ComparedScript` has its `ComparisonKind`, and a `Divergence`, the first event
in which both recordings differ.

    words --> Sender, Sender --> Side, Side --run_both_senders--> SenderResults, SenderResults
    SenderResults, SenderResults --compare_results--> ComparedScript ..
                                                           |
    group_by_first_difference: a field or a state <--------+
    find_affected: rows of tests/cases and paragraphs of the tree's pages

- Both sides get the same scripts and the same settings but for their own options. A key that one sender lacks counts
  as its default there, and that is noted once; a key that both lack is refused.
- A script that turns (its row changed) comes before one that only is played otherwise: recordings with equal rows are
  compared event by event, and a state alone makes no difference.
- Trees without programs are built side by side.

Recordings are compared and not only rows, since a suite whose rows stay may well send other packets, and that is what
a change of a sender is about.
"""
