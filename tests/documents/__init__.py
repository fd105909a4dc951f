"""Tests of the documents: their links, their words, the parts that tools make, and the commands that they show."""
