"""Counts what a test compares, and says what differs."""

import threading


class Tally:
    """What passed and what failed of a test of this name."""

    def __init__(self, name):
        self.name, self.passed, self.failed, self.lock = name, 0, 0, threading.Lock()

    def count(self, holds, text):
        """Counts a comparison, and says this of one that failed."""
        with self.lock:
            self.passed, self.failed = self.passed + bool(holds), self.failed + (not holds)
            if not holds:
                print(f"FAILED: {text}", flush=True)

    def fail(self, place, text):
        self.count(False, f"{place}: {text}")

    def expect(self, what, found, wanted):
        self.count(found == wanted, f"{what}: {repr(found)[:1000]}, not {repr(wanted)[:1000]}")

    def end(self):
        """Says how many passed, and gives the exit status."""
        print(f"{self.name}: {self.passed} passed, {self.failed} failed")
        return 1 if self.failed or not self.passed else 0
