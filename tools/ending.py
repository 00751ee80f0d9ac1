"""Ends a run on a signal, with nothing left behind: what has to be done as a whole is done before the run ends."""

from contextlib import contextmanager
import os
import shutil
import signal
from tempfile import mkdtemp

# Ctrl-C, the end of an editor's task, and a terminal that is closed
SIGNALS = (signal.SIGINT, signal.SIGTERM, signal.SIGHUP)


class Ended(BaseException):
    """The signal that ends the run."""

    def __init__(self, number):
        super().__init__(number)
        self.number = number

    def end(self):
        """Ends the process as the signal would have done."""
        signal.signal(self.number, signal.SIG_DFL)
        os.kill(os.getpid(), self.number)


class Signals:
    """Raises `Ended` at the first signal, at once or after what is to be done as a whole. Later signals are passed over."""

    def __init__(self):
        self.holding, self.waiting, self.raised = 0, None, False
        for number in SIGNALS:
            if signal.getsignal(number) != signal.SIG_IGN:
                signal.signal(number, self.come)

    def come(self, number, _frame):
        """A signal has come."""
        if self.holding:
            self.waiting = self.waiting or number
        elif not self.raised:
            self.raised = True
            raise Ended(number)

    @contextmanager
    def held(self):
        """What is done within is done as a whole."""
        self.holding += 1
        try:
            yield
        finally:
            self.holding -= 1
        if self.waiting and not self.holding:
            number, self.waiting = self.waiting, None
            self.come(number, None)

    @contextmanager
    def scratch(self, folder):
        """A folder inside another one, which is gone at the end."""
        made = []
        try:
            try:
                with self.held():
                    made.append(made_in(folder))
                yield made[0]
            finally:
                self.clear(made)
        finally:
            # where the first signal came just as the folder was to be cleared
            self.clear(made)

    def clear(self, made):
        """Takes the folders away."""
        with self.held():
            for name in made:
                shutil.rmtree(name, ignore_errors=True)


def made_in(folder):
    """A new folder inside another one."""
    try:
        return mkdtemp(prefix=".qmbuild-", dir=folder)
    except OSError as fault:
        fault.filename = folder
        raise
