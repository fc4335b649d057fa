"""Refusals of the program in words: what a line on standard error means, and where it stands in the caller's files."""
