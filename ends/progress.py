"""A line on standard error that shows how far a diagnosis is, since the tool writes nothing but its answer."""

import sys
import time


class Progress:
    """Counts loads, and shows them once a second and at the end."""

    def __init__(self, most):
        self._most, self._loads, self._shown = most, 0, time.monotonic()

    def count(self):
        self._loads += 1
        if time.monotonic() - self._shown >= 1:
            self._shown = time.monotonic()
            self._show("\r")

    def end(self):
        self._show("\n")

    def _show(self, end):
        sys.stderr.write(f"\rloads {self._loads} of at most {self._most} without faults{end}")
        sys.stderr.flush()
