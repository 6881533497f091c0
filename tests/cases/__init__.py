"""Worked cases, and random cases that are the same in each run."""
