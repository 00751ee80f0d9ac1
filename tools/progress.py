"""Says on standard error what is being done, and for how long: once a second on a terminal, and else now and then in a line."""

from contextlib import contextmanager
import os
import signal
import time

from console import ERRORS, warn

# seconds before anything is said, and at most from one line to the next where these stay
QUIET, LONGEST = 2, 60


class Progress:
    """How long a run has taken, and the step that it is in."""

    def __init__(self, name):
        self.name, self.begun, self.due = name, time.monotonic(), QUIET
        self.step, self.detail, self.shown = None, "", False
        self.is_terminal = os.isatty(ERRORS)
        signal.signal(signal.SIGALRM, self.tick)
        signal.setitimer(signal.ITIMER_REAL, 1, 1)

    @contextmanager
    def doing(self, step):
        """A step, which has a name."""
        self.step, self.detail = step, ""
        try:
            yield
        finally:
            self.step = None
            self.clear()

    def passed(self):
        """The seconds since the run began."""
        return time.monotonic() - self.begun

    def tick(self, _number, _frame):
        """A second has passed."""
        passed = self.passed()
        if self.step is None or passed < self.due:
            return
        text = f"{self.name}: {self.step}{self.detail and ', '}{self.detail}, {passed:.0f} s"
        if self.is_terminal:
            warn(f"\r\x1b[K{text}")
            self.shown = True
        else:
            warn(text + "\n")
            self.due = passed + min(passed, LONGEST) - 0.5

    def clear(self):
        """Takes the line of a terminal away."""
        if self.shown:
            warn("\r\x1b[K")
            self.shown = False

    def line(self, text):
        """A line of its own."""
        self.clear()
        warn(f"{text}\n")

    def end(self):
        """The run is done."""
        signal.setitimer(signal.ITIMER_REAL, 0)
        self.clear()
        if self.passed() > QUIET:
            self.line(f"{self.name}: took {self.passed():.0f} s")
