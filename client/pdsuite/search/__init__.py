"""Searching: a model of a peer and a network makes inputs under which two senders differ, or a goal is reached.

A `Scenario` says what a connection meets; a simulation (`simulate`) plays it against recordings of the sender, and
gives `Inputs`: calls and packets, each at its moment. `CandidateLists` makes the lists that are tried, from new
scenarios (`generate`) and variations of inputs that reached something new (`mutate`). A `FindTest` decides what is a
`Find`; `shrink` makes it small, and `finished_script` a script that ends with the line that fails.

    CandidateLists --lists--> played in joint recordings --> PlayedInputs --FindTest--> Find --shrink--> finished_script
        ^                       ^                      |
        +---- keep: what reached a new step ---------+
                                |
                      SenderOracle: recordings, rows, explanations of one sender

- All is drawn from the seed: the same seed and the same recordings give the same lists, on any machine.
- Senders are queried by an oracle alone, either programs (`ProgramOracle`) or a tree's sources (`UnprovedOracle`), so
  no other module here knows how a sender is run.
- A find is what a program says it is: a script that passes before and fails after, or one of which an event reaches
  the `SearchGoal`: its recording has the state, and `pdregress --rules` lists the rules. Programs that list rules stay
  up (`rule_listers`), since many candidates have equal settings.
- The states that inputs reach are counted by kinds (`states`), in which numbers count by order and rough size;
  otherwise each input would be new.

Inputs are played and not just drawn: a peer that acknowledges what really was sent gets deep into a connection, where
random packets would be dropped.
"""
