"""Runs of a program in surroundings that hinder it, and the endings that a run may have."""
import fcntl
import os
import resource
import signal
import subprocess
import threading
import time
from dataclasses import dataclass, field, fields

from model.manual import complaint_for, help_fault
from model.races import fault_of

WIDE_STACK = resource.RLIM_INFINITY
# A user who owns nothing and runs nothing.
OTHER_USER = 61_234
LONGEST_RUN = 30
F_SETPIPE_SZ = 1031

MESSAGES = {
    "graph": (b"officer: cannot read the graph\n", 3),
    "second file": (b"officer: cannot read the second file\n", 3),
    "too large": (b"officer: input too large\n", 3),
    "memory": (b"officer: no memory\n", 3),
    "write": (b"officer: cannot write\n", 3),
}


@dataclass(frozen=True)
class Ran:
    """How a run ended. Output and complaint are None where nobody took them."""

    status: int
    output: bytes = None
    complaint: bytes = None
    is_late: bool = False


# the endings that a run may have


@dataclass(frozen=True)
class Whole:
    """The whole report, its status, and no message."""

    text: bytes
    status: int

    def fits(self, ran):
        """Whether a run ended so."""
        is_whole = ran.output in (None, self.text) and not ran.complaint
        return is_whole and ran.status == self.status

    def __str__(self):
        return f"the whole report {shown(self.text)}, {self.status}"


@dataclass(frozen=True)
class Says:
    """The message of a cause with its status, and no byte of a report."""

    cause: str

    def fits(self, ran):
        """Whether a run ended so."""
        line, status = MESSAGES[self.cause]
        return ran.complaint in (None, line) and ran.status == status and not ran.output

    def __str__(self):
        line, status = MESSAGES[self.cause]
        return f"{line.decode().strip()!r}, {status}"


@dataclass(frozen=True)
class BadLine:
    """The message for words that have none of the forms with its status, and no byte of a report."""

    words: list

    def fits(self, ran):
        """Whether a run ended so."""
        is_told = ran.complaint in (None, complaint_for(self.words))
        return is_told and ran.status == 2 and not ran.output

    def __str__(self):
        return f"{complaint_for(self.words).decode()!r}, 2"


@dataclass(frozen=True)
class Helps:
    """What the program says of its command lines, status 0, and no message."""

    def fits(self, ran):
        """Whether a run ended so."""
        is_whole = ran.output is None or help_fault(ran.output) is None
        return is_whole and ran.status == 0 and not ran.complaint

    def __str__(self):
        return "a text with the forms, limits and statuses of the manual page, 0"


@dataclass(frozen=True)
class CutOff:
    """The message that the output can't be written, after a beginning of the report.

    A report that is not known in advance has no text.
    """

    text: bytes

    def fits(self, ran):
        """Whether a run ended so."""
        line, status = MESSAGES["write"]
        is_known = self.text is not None and ran.output is not None
        is_part = not is_known or self.text.startswith(ran.output) and ran.output != self.text
        return ran.complaint in (None, line) and ran.status == status and is_part

    def __str__(self):
        return "'officer: cannot write' after a part of the report, 3"


@dataclass(frozen=True)
class Lawful:
    """A report that obeys the laws of races, status 0, and no message."""

    graph: object
    script: object
    may_want_memory: bool = False

    def fits(self, ran):
        """Whether a run ended so."""
        if ran.status != 0 or ran.complaint:
            return False
        return ran.output is None or self.fault(ran) is None

    def fault(self, ran):
        """The law that the report of a run breaks, or None."""
        report = ran.output.decode(errors="replace")
        return fault_of(self.graph, self.script, report, self.may_want_memory)

    def __str__(self):
        return f"a lawful report of {len(self.script.events)} events, 0"


def shown(text):
    """Bytes as text, cut off where they are many."""
    if text is None:
        return "not taken"
    return repr(text[:100]) + (f".. of {len(text)} bytes" if len(text) > 100 else "")


# what hinders a run


@dataclass(frozen=True)
class Hindrance:
    """What stands on standard input, what becomes of the outputs, and the limits.

    `given` is a file, or "closed", or "endless" for a pipe that never ends, or "slow" for a pipe
    that brings `pieces` byte by byte. `output` is "taken", or "closed", or "left" for a pipe that
    nobody reads any more, or "leaving" for one whose reader leaves after the first byte, or
    "late" for one whose reader comes late, or a file. `complaint` is "taken", "closed" or a file.
    """

    given: str = os.devnull
    pieces: bytes = b""
    output: str = "taken"
    complaint: str = "taken"
    memory: int = None
    threads: int = None
    file_size: int = None
    is_other_user: bool = False
    stack: int = None

    def __str__(self):
        told = ((it.name, it.default, getattr(self, it.name)) for it in fields(self))
        return ", ".join(f"{name}={value!r}" for name, usual, value in told if value != usual)

    def limit(self):
        """Sets the limits of this process, which is about to become the program."""
        for number, stream in enumerate((self.given, self.output, self.complaint)):
            if stream == "closed":
                os.close(number)
        if self.file_size is not None:
            signal.signal(signal.SIGXFSZ, signal.SIG_IGN)
        # (memory last, since Python goes on under it)
        limits = {
            resource.RLIMIT_STACK: self.stack,
            resource.RLIMIT_FSIZE: self.file_size,
            resource.RLIMIT_NPROC: self.threads,
            resource.RLIMIT_AS: self.memory,
        }
        for limit, value in limits.items():
            if value is not None:
                resource.setrlimit(limit, (value, value))

    def user(self):
        """The words for a process of another user, none where this one is not to be left."""
        if not self.is_other_user or os.geteuid():
            return {}
        return {"user": OTHER_USER, "group": OTHER_USER, "extra_groups": []}


@dataclass(frozen=True)
class Case:
    """The words of a run, what hinders it, its folder, and the endings that are allowed."""

    title: str
    words: list
    allowed: list
    hindrance: Hindrance = field(default_factory=Hindrance)
    folder: str = None


class Streams:
    """The three streams of a run, opened as its hindrance says."""

    def __init__(self, hindrance):
        self.opened = []
        self.feeder = None
        self.reader = None
        self.stdin = self.source(hindrance.given)
        self.stdout = self.sink(hindrance.output)
        self.stderr = self.sink(hindrance.complaint)

    def source(self, given):
        """What the program is to read."""
        if given == "slow":
            return subprocess.PIPE
        if given == "endless":
            self.feeder = subprocess.Popen(["yes"], stdout=subprocess.PIPE)
            return self.feeder.stdout
        return self.file(os.devnull if given == "closed" else given, os.O_RDONLY)

    def sink(self, output):
        """Where the program is to write."""
        if output in ("taken", "late"):
            return subprocess.PIPE
        if output in ("left", "leaving"):
            return self.small_pipe(output == "leaving")
        return self.file(os.devnull if output == "closed" else output, os.O_WRONLY | os.O_CREAT)

    def small_pipe(self, has_reader):
        """The end to write to of a pipe as small as may be."""
        self.reader, writer = os.pipe()
        self.opened.append(writer)
        fcntl.fcntl(writer, F_SETPIPE_SZ, 1)
        if not has_reader:
            os.close(self.reader)
        return writer

    def file(self, path, flags):
        """An open file."""
        self.opened.append(os.open(path, flags, 0o644))
        return self.opened[-1]

    def leave(self):
        """Leaves what was opened to the program, which has started."""
        for file in self.opened:
            os.close(file)
        if self.feeder:
            self.feeder.stdout.close()

    def close(self):
        """Ends what feeds the program."""
        if self.feeder:
            self.feeder.kill()
            self.feeder.wait()


def feed(process, pieces):
    """Brings bytes one by one to a program."""
    try:
        for byte in pieces:
            process.stdin.write(bytes([byte]))
            process.stdin.flush()
            time.sleep(0.0005)
        process.stdin.close()
    except BrokenPipeError:
        pass


def taken(process, streams, output):
    """The output of a run, as far as it was taken."""
    if output == "leaving":
        first = os.read(streams.reader, 1)
        os.close(streams.reader)
        return first
    if output == "late":
        time.sleep(0.5)
    if process.stdout:
        return process.stdout.read()
    return None


def played(process, streams, hindrance):
    """How a started run ended."""
    end = time.monotonic() + LONGEST_RUN
    killer = threading.Timer(LONGEST_RUN, process.kill)
    killer.start()
    if hindrance.given == "slow":
        feed(process, hindrance.pieces)
    output = taken(process, streams, hindrance.output)
    complaint = process.stderr.read() if process.stderr else None
    status = process.wait()
    killer.cancel()
    killer.join()
    if hindrance.file_size is not None:
        with open(hindrance.output, "rb") as file:
            output = file.read()
    return Ran(status, output, complaint, time.monotonic() > end)


def play(program, case):
    """Runs the program as a case says. It answers how it ended."""
    hindrance = case.hindrance
    streams = Streams(hindrance)
    try:
        with subprocess.Popen(
            [program, *case.words],
            cwd=case.folder,
            stdin=streams.stdin,
            stdout=streams.stdout,
            stderr=streams.stderr,
            preexec_fn=hindrance.limit,
            **hindrance.user(),
        ) as process:
            streams.leave()
            return played(process, streams, hindrance)
    finally:
        streams.close()
