"""The time-sequence diagram of a script: from its recording to strokes, and from strokes to a picture.

`timeline_if_any_packet` reads the events of a recording with its trace and gives a `Timeline`: segments, arrivals,
SACK blocks, staircases of cwnd and of what is outstanding, notes, and the `FailedExpectation` of a script that fails
(`failing_line`). `plot` draws that on a `Canvas`, and `pictures` turns the figure into SVG for a page, or into files.

    recording --programs.trace--> TracedEvent --timeline--> Timeline --draw_figure--> Figure --pictures--> SVG, PNG

- `timeline` alone decides what is drawn, as values that tests compare; `plot` and `canvas` know of no recording.
- The same timeline gives the same octets: ids are numbered, and nothing of the time or of the machine is in a picture.
- Colours are names, which a page defines for light and dark (`palette`). A picture in a page has no colour of its own.
- Times are microseconds and numbers are octets, SYN and FIN counting one each (RFC 9293).

A diagram is made from a recording and not from the script's own lines, as it has to show what the sender does, and a
script has only what it expects.
"""
