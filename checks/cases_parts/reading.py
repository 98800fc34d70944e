"""Reads the files of cases: texts, and what is asked of the program with which answer."""
import re
import shlex
from dataclasses import dataclass, field

from cases_parts.spelling import SpellingFault, bytes_of, numbered_bytes

TEXT_NAME = re.compile(r"[A-Za-z0-9_]+(\.[A-Za-z0-9_]+)+")
CASE_NAME = re.compile(r"[A-Za-z0-9_]+")
STATUS = re.compile(r"[0-9]{1,3}")
REPEATED = re.compile(r"\* ([0-9]{1,7})(?: (.*))?", re.DOTALL)
# The statuses with which a message stands on standard error.
FAULTY = (2, 3)


@dataclass
class Block:
    """The lines of a text, a report or a message."""

    place: int
    parts: list = field(default_factory=list)

    @property
    def bytes(self):
        """The bytes that the lines stand for."""
        return b"".join(self.parts)


@dataclass
class Text(Block):
    """A text that asks name."""

    name: str = ""
    is_used: bool = False


@dataclass
class Ask:
    """Words and texts that the program is given, and how it has to end."""

    place: int
    words: list
    texts: dict
    standard_input: Text = None
    status: int = None
    report: Block = None
    error: Block = None

    def faults(self):
        """What it lacks, or has in vain."""
        if self.status is None:
            yield "the ask has no status"
        if self.report is None:
            yield "the ask has no report"
        if self.status in FAULTY and self.error is None:
            yield f"the ask has status {self.status} and no error"
        if self.status not in FAULTY and self.error is not None:
            yield f"the ask has an error and status {self.status}"

    def line(self):
        """The command line, as one would write it in a shell."""
        words = " ".join(shlex.quote(word) for word in ["officer", *self.words])
        return words if self.standard_input is None else f"{words} < {self.standard_input.name}"


@dataclass
class Case:
    """A name, and what is asked."""

    place: int
    name: str
    asks: list = field(default_factory=list)

    def whole_asks(self):
        """The asks that lack nothing."""
        return [ask for ask in self.asks if not any(ask.faults())]


class LineFault(Exception):
    """A line that can't stand where it does."""


class Reader:
    """Reads a file line by line. Its faults have their lines; what is at fault is passed over."""

    def __init__(self):
        self.cases, self.faults, self.texts = [], [], []
        self.named, self.ask, self.block = {}, None, None
        self.number = 0

    def read(self, lines):
        """Reads all lines of a file."""
        for self.number, line in enumerate(lines, 1):
            try:
                self.read_line(line)
            except (LineFault, SpellingFault, ValueError) as fault:
                self.faults.append((self.number, str(fault)))
        self.close()

    def read_line(self, line):
        """Reads a line."""
        word, _, rest = line.partition(" ")
        if not line.strip() or line.startswith("#"):
            return
        if word in ("|", "*"):
            self.lines_of_block(line, word, rest)
        elif word in self.READERS:
            self.block = None
            self.READERS[word](self, rest.strip())
        else:
            raise LineFault(f"{word!r} begins no line")

    def lines_of_block(self, line, word, rest):
        """Lines of the text, report or error that they stand below."""
        if self.block is None:
            raise LineFault("no text, report or error stands above the line")
        if word == "|":
            self.block.parts.append(bytes_of(rest))
            return
        found = REPEATED.fullmatch(line)
        if found is None:
            raise LineFault("a line that stands several times begins with * and a number")
        self.block.parts.append(numbered_bytes(found[2] or "", int(found[1])))

    def text(self, name):
        """A text of that name, which takes the place of an earlier one."""
        if not TEXT_NAME.fullmatch(name):
            raise LineFault("the name of a text has a dot, and letters, digits and _ beside it")
        self.end_ask()
        self.block = self.named[name] = Text(self.number, name=name)
        self.texts.append(self.block)

    def case(self, name):
        """A case of that name."""
        self.end_ask()
        if not CASE_NAME.fullmatch(name):
            raise LineFault("the name of a case is letters, digits and _")
        if name in (it.name for it in self.cases):
            self.faults.append((self.number, f"an earlier case is named {name}"))
        self.cases.append(Case(self.number, name))

    def begin_ask(self, rest):
        """What the program is asked."""
        self.end_ask()
        if not self.cases:
            raise LineFault("no case stands above the ask")
        words, standard_input = shlex.split(rest), None
        if words[-2:-1] == ["<"]:
            name = words[-1]
            if name not in self.named:
                raise LineFault(f"no text {name} stands above the ask")
            words, standard_input = words[:-2], self.named[name]
        texts = {word: self.named[word] for word in words if word in self.named}
        for text in [*texts.values(), *filter(None, [standard_input])]:
            text.is_used = True
        self.ask = Ask(self.number, words, texts, standard_input)
        self.cases[-1].asks.append(self.ask)

    def part(self, name, value):
        """The status, the report or the error of the ask above it."""
        if self.ask is None:
            raise LineFault(f"no ask stands above the {name}")
        if getattr(self.ask, name) is not None:
            raise LineFault(f"the ask has a {name} already")
        setattr(self.ask, name, value)

    def status(self, rest):
        """With which status the program has to end."""
        if not STATUS.fullmatch(rest):
            raise LineFault("a status is a number")
        self.part("status", int(rest))

    def lines_named(self, name, rest):
        """The lines of a report or error follow."""
        if rest:
            raise LineFault(f"the lines of the {name} stand below the word")
        self.block = Block(self.number)
        self.part(name, self.block)

    def report(self, rest):
        """What the program has to print."""
        self.lines_named("report", rest)

    def error(self, rest):
        """What it has to print on standard error."""
        self.lines_named("error", rest)

    def end_ask(self):
        """Notes what the ask above lacks."""
        if self.ask is not None:
            self.faults += ((self.ask.place, fault) for fault in self.ask.faults())
        self.ask = None

    def close(self):
        """Notes what the file lacks, or has in vain."""
        self.end_ask()
        self.faults += ((it.place, f"no ask uses the text {it.name}") for it in self.texts if not it.is_used)
        self.faults += ((it.place, f"the case {it.name} has no ask") for it in self.cases if not it.asks)
        if not self.cases:
            self.faults.append((self.number, "the file has no case"))

    READERS = {"text": text, "case": case, "ask": begin_ask, "status": status, "report": report, "error": error}


@dataclass
class CaseFile:
    """A file of cases: its name without the ending, its cases, and its faults with their lines."""

    name: str
    cases: list
    faults: list


def read_file(path):
    """The cases and the faults of a file."""
    reader = Reader()
    try:
        reader.read(path.read_bytes().decode().split("\n"))
    except UnicodeDecodeError:
        reader.faults.append((1, "the file is no UTF-8 text"))
    return CaseFile(path.stem, reader.cases, sorted(reader.faults))
