"""The prompt of the module for Python at a terminal, for the scripts of this folder."""
import contextlib
import os
import pathlib
import pty
import signal
import sys
import time

PYTHON = pathlib.Path(__file__).resolve().parent.parent / "python"


class Terminal:
    """The prompt at a terminal: what is typed, and what is shown."""

    def __init__(self, home, *words, **names):
        self.child, self.end = pty.fork()
        if self.child == 0:
            # A script that runs in the background may have it ignored, and a program at a terminal has not.
            signal.signal(signal.SIGINT, signal.SIG_DFL)
            os.chdir(PYTHON)
            os.environ.update(HOME=str(home), TERM="dumb", **names)
            os.execv(sys.executable, [sys.executable, "-m", "poincare", *words])
        self.shown = ""
        self.before = ""

    def wait_for(self, text, seconds=20):
        """Reads until this is shown behind what was waited for before; whether it is."""
        os.set_blocking(self.end, False)
        until = time.monotonic() + seconds
        while text not in self.shown and time.monotonic() < until:
            with contextlib.suppress(BlockingIOError, OSError):
                self.shown += os.read(self.end, 4096).decode(errors="replace")
            time.sleep(0.01)
        self.before, found, behind = self.shown.partition(text)
        self.shown = behind if found else self.before
        return found != ""

    def type(self, text):
        os.write(self.end, text.encode())

    def status(self):
        status = os.waitstatus_to_exitcode(os.waitpid(self.child, 0)[1])
        os.close(self.end)
        return status
