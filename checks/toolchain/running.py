"""Commands that a script runs in crates' folders. None of them outlives the script."""
import os
import shutil
import signal
import subprocess
import sys
import tempfile
import time
from pathlib import Path

# The signals that ask a script to end, and those of them that have come.
ENDING = signal.SIGHUP, signal.SIGINT, signal.SIGTERM
CAME = []
# Seconds between two looks at what has ended.
PAUSE = 0.2


class Ended(Exception):
    """A signal asked the script to end."""

    def __init__(self, number):
        super().__init__(signal.Signals(number).name)
        self.status = 128 + number


def want_toolchain():
    """Ends the script where the toolchain is missing. From here on Runs heed signals."""
    if not shutil.which("rt"):
        sys.exit("There is no rt on the path: README.md names the toolchain.")
    for it in ENDING:
        if signal.getsignal(it) != signal.SIG_IGN:
            signal.signal(it, lambda number, _: CAME.append(number))


class Run:
    """A command in a folder, which reads a file. Its errors go to a log, and so does its output where no
    other place is given.
    """

    def __init__(self, name, words, folder, log, given=os.devnull, output=None):
        self.name, self.command, self.log = name, " ".join(words), log
        with open(given, "rb") as read, open(log, "wb") as told:
            places = {"stdin": read, "stdout": output or told, "stderr": told}
            self.process = subprocess.Popen(words, cwd=folder, start_new_session=True, **places)

    def said(self):
        """What stands in the log so far."""
        return self.log.read_text(encoding="utf-8", errors="replace")

    def status(self):
        """The status that the command ended with, or None where it still runs."""
        return self.process.poll()

    def end(self):
        """Ends the command, and what it has started in its session."""
        if self.status() is None:
            os.killpg(self.process.pid, signal.SIGTERM)
            self.process.wait()


class Runs:
    """Commands that run side by side. Those that still run when the block is left are ended."""

    def __init__(self):
        self.running = []

    def __enter__(self):
        self.room = tempfile.TemporaryDirectory(prefix="runs-")
        return self

    def __exit__(self, *_):
        for run in self.running:
            run.end()
        self.room.cleanup()

    def start(self, name, words, folder, **places):
        """Starts a command under a name that no other has."""
        log = Path(self.room.name) / name
        self.running.append(Run(name, words, folder, log, **places))

    def ended(self):
        """Waits a moment: the runs that have ended since the last such moment.

        It raises Ended where a signal came.
        """
        time.sleep(PAUSE)
        if CAME:
            raise Ended(CAME[0])
        ended = [run for run in self.running if run.status() is not None]
        self.running = [run for run in self.running if run not in ended]
        return ended

    def wait(self):
        """Waits until a run has ended: the runs that have then."""
        ended = []
        while not ended:
            ended = self.ended()
        return ended
