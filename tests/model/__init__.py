"""Models that share nothing with the programs: a second reading of the RFCs, a peer, a network, and a book."""
