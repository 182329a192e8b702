"""Counts the checks of a tool's self-test, and prints each."""


class Checks:
    def __init__(self):
        self.all = self.failed = 0

    def same(self, what, seen, wanted):
        self.all += 1
        self.failed += seen != wanted
        print(f"ok: {what}" if seen == wanted else f"not ok: {what}: {seen}")
