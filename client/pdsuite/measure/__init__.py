"""Measuring: what a sender makes of transfers over modelled paths, and how much a change of it is worth.

A `NetworkPath` (paths.toml) has a rate, a queue, delays, losses and a peer. A `Transfer` plays one over it: `Link`
carries the segments, `Receiver` acknowledges them, `TransferWriter` writes at the near end. `Measurement` plays the
same transfers on both sides of a comparison, and `statistics` says what the differences show.

    Measurement --> TransferCase --play_transfers--> Transfer <--inputs, SenderReply--> pdregress
                                        |
                                        v
          two TransferResults by equal seeds --figure_tables_with_holm_verdicts--> FigureRow with its ChangeVerdict

    a transfer:  handshake --> inputs --> reply --> inputs .. --> delivered
                                                       '--> UnfinishedTransferError, StalledTransferError

- Time is virtual: whole microseconds, and nanoseconds within the queue. Chance is drawn by seeds of case and run, equal
  for both sides, so pairs compare.
- Inputs go to the program only once nothing can arrive before them: what left is known first
  (`Transfer.earliest_peer_arrival_if_sent_at_or_after`).
- Many transfers share a program, as scripts that grow at their ends; each is independent of those beside it.
- A transfer that comes to no end counts on neither side, and is reported.
- A verdict of a figure holds together with all others of the table (Holm), so more figures don't make more findings.

The sender is queried for every step and not modelled, since a model of it would measure itself.
"""
