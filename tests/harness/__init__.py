"""Reads the rows of tests/cases, and tells them to the programs; tests/README.md says how they are written."""
