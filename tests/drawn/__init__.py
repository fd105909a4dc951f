"""Random rows for programs that test: packets, and lists of calls with the answers of a plain model."""
