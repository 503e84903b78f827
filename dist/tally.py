"""Counts what is as it should be, for the scripts that try a release."""


class Tally:
    """Counts what is as it should be, and tells what is not."""

    def __init__(self):
        self.passed = self.failed = 0

    def holds(self, name, is_so, told=""):
        self.passed += bool(is_so)
        self.failed += not is_so
        if not is_so:
            print(f"{name} differs {told}".rstrip(), flush=True)

    def ended(self):
        """Prints the counts, and answers the status."""
        print(f"{self.passed} passed, {self.failed} failed", flush=True)
        return 1 if self.failed else 0
