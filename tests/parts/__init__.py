"""The parts that tests/run.py plays.

The `TESTS` of a part are generators of checks. A check has a name, the result of a program, and the right result."""
