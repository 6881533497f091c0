"""Plays the tests of a part."""


def played(part, tests):
    """Runs these tests and prints each check that fails. Answers how many passed and how many failed."""
    passed = failed = 0
    for test in tests:
        for name, got, want in test():
            if got == want:
                passed += 1
            else:
                failed += 1
                print(f"FAILED: {part}: {name}\n  got  {got!r:.300}\n  want {want!r:.300}", flush=True)
    return passed, failed
