"""What passed and what failed."""


class Score:
    """What passed and what failed, told as it comes, and how many runs it took."""

    def __init__(self):
        self.passed, self.failed, self.runs = 0, 0, 0

    def tell(self, part, name, faults, what, runs=0):
        self.passed, self.failed, self.runs = self.passed + (not faults), self.failed + bool(faults), self.runs + runs
        print(f"{part}: {name}: {what}" + "".join(f"\n    FAILED {fault}" for fault in faults[:5]), flush=True)

    def end(self):
        """Prints the last line, and gives the exit status."""
        print(f"{self.passed} passed, {self.failed} failed")
        return 1 if self.failed or not self.passed else 0
