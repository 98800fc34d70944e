"""The graph, rules and script texts: lines and words, and the value or first fault of each."""
import re
from dataclasses import dataclass, field

from model.graphs import FIRST, LETTERS, VERSIONS, Graph

MOST_LINE_BYTES = 256
MOST_RULES = 131_072
MOST_EVENTS = 65_536
MOST_CELLS = 4_096
MOST_SEATS = 64
NAME = re.compile(rb"[a-z_][a-z0-9_]{0,15}")
NUMBER = re.compile(rb"[1-9][0-9]{0,3}")
BLANKS = re.compile(rb"[ \t\r]+")

# For each rule or question, what stands behind its word: names N, a set of rights S, a right R.
FORMS = {
    b"take": "NNNS",
    b"grant": "NNNS",
    b"create": "NNS",
    b"remove": "NNS",
    b"holds": "RNN",
    b"share": "RNN",
}
RULES = (b"take", b"grant", b"create", b"remove")
SESSION_EVENTS = (b"begin", b"commit", b"abort")


class TextFault(Exception):
    """The first fault of a text: the line, and the word for the kind of fault."""

    def __init__(self, line, kind):
        super().__init__(line, kind)
        self.line = line
        self.kind = kind


@dataclass
class Script:
    """A script: an event is its line, its seat, and the words of its act."""

    seats: int = 0
    cells: int = 0
    events: list = field(default_factory=list)


def lines_of(text):
    """The lines without their line feeds."""
    lines = text.split(b"\n")
    return lines if lines[-1] else lines[:-1]


def words_of(line):
    """The longest runs of bytes that are no blanks."""
    return [word for word in BLANKS.split(line) if word]


def is_name(word):
    """Whether a word is a name."""
    return NAME.fullmatch(word) is not None


def is_rights(word, letters=LETTERS):
    """Whether a word is a set of rights, of these letters."""
    written = word.decode("latin-1")
    once = len(set(written)) == len(written)
    return word == b"-" or bool(word) and once and set(written) <= set(letters)


def is_right(word):
    """Whether a word is one right."""
    return len(word) == 1 and word.decode("latin-1") in LETTERS


def is_number(word, most):
    """Whether a word is a number from 1 to `most`."""
    return NUMBER.fullmatch(word) is not None and int(word) <= most


def kind_of_form(form, words):
    """The kind of fault in the words behind the first, or None."""
    if len(words) != len(form):
        return "word-count"
    if not all(is_name(word) for part, word in zip(form, words) if part == "N"):
        return "bad-name"
    tests = {"S": is_rights, "R": is_right, "N": is_name}
    fits = all(tests[part](word) for part, word in zip(form, words))
    return None if fits else "bad-rights"


def texts(words):
    """The words as text."""
    return [word.decode() for word in words]


class Reader:
    """Takes in the lines of a text one after another. Its kinds of line are a subclass's."""

    def read(self, text):
        """The value of a text. It raises TextFault."""
        lines = lines_of(text)
        for number, line in enumerate(lines, 1):
            if len(line) > MOST_LINE_BYTES:
                raise TextFault(number, "line-too-long")
            words = words_of(line)
            if words and not words[0].startswith(b"#"):
                kind = self.take_in(number, words)
                if kind:
                    raise TextFault(number, kind)
        return self.value(len(lines))


class GraphReader(Reader):
    """Reads a graph text, of the first version where no line names one."""

    def __init__(self):
        self.graph = Graph()
        self.version = None

    def take_in(self, _, words):
        """The kind of fault of a line, or None."""
        is_first = self.version is None
        self.version = self.version or FIRST
        kind, *rest = words
        if kind == b"version" and is_first:
            return self.begin(rest)
        if kind == b"vertex":
            return kind_of_form("N", rest) or self.add_vertex(*texts(rest))
        if kind == b"edge":
            fault = kind_of_form("NNS", rest)
            if fault or rest[2] == b"-" or not is_rights(rest[2], self.version.letters):
                return fault or "bad-rights"
            return self.add_edge(*texts(rest))
        return "bad-word"

    def begin(self, words):
        """Takes in which version the text is of, or says what is wrong with it."""
        if len(words) != 1:
            return "word-count"
        if words[0] not in (b"1", b"2"):
            return "bad-number"
        self.version = VERSIONS[int(words[0]) - 1]
        return None

    def add_vertex(self, name):
        """Adds a vertex, or says what is wrong with it."""
        if name in self.graph.names:
            return "duplicate-vertex"
        if len(self.graph.names) >= self.version.most_vertices:
            return "too-many-vertices"
        self.graph.names.add(name)
        return None

    def add_edge(self, x, y, rights):
        """Adds an edge, or says what is wrong with it."""
        if not {x, y} <= self.graph.names:
            return "unknown-vertex"
        if (x, y) in self.graph.edges:
            return "duplicate-edge"
        self.graph.add(x, y, set(rights))
        return None

    def value(self, _):
        """The graph."""
        return self.graph


class RulesReader(Reader):
    """Reads a rules text, as a list of lines with the words of their rules."""

    def __init__(self):
        self.rules = []

    def take_in(self, number, words):
        """The kind of fault of a line, or None."""
        kind, *rest = words
        if kind not in RULES:
            return "bad-word"
        fault = kind_of_form(FORMS[kind], rest)
        if fault or len(self.rules) >= MOST_RULES:
            return fault or "too-many"
        self.rules.append((number, texts(words)))
        return None

    def value(self, _):
        """The rules."""
        return self.rules


class ScriptReader(Reader):
    """Reads a script."""

    def __init__(self):
        self.script = Script()

    def take_in(self, number, words):
        """The kind of fault of a line, or None."""
        if not self.script.seats:
            return self.header(b"seats", "seats", MOST_SEATS, words)
        if not self.script.cells:
            return self.header(b"cells", "cells", MOST_CELLS, words)
        return self.event(number, words)

    def header(self, word, part, most, words):
        """Takes in a header line, or says what is wrong with it."""
        if words[0] != word:
            return "bad-word"
        if len(words) != 2:
            return "word-count"
        if not is_number(words[1], most):
            return "bad-number"
        setattr(self.script, part, int(words[1]))
        return None

    def event(self, number, words):
        """Takes in an event, or says what is wrong with it."""
        seat, *act = words
        if not act or act[0] not in (*FORMS, *SESSION_EVENTS):
            return "bad-word"
        fault = kind_of_form(FORMS.get(act[0], ""), act[1:])
        if fault == "word-count":
            return fault
        if not is_number(seat, self.script.seats):
            return "bad-number"
        if fault or len(self.script.events) >= MOST_EVENTS:
            return fault or "too-many"
        self.script.events.append((number, int(seat), texts(act)))
        return None

    def value(self, count):
        """The script, once it has both header lines."""
        if not self.script.cells:
            raise TextFault(count + 1, "no-header")
        return self.script


def read_graph(text):
    """The graph of a text. It raises TextFault."""
    return GraphReader().read(text)


def read_rules(text):
    """The rules of a text, each with its line. It raises TextFault."""
    return RulesReader().read(text)


def read_script(text):
    """The script of a text. It raises TextFault."""
    return ScriptReader().read(text)


def parts_of(text):
    """The graph and the rules of standard input."""
    start = 0
    for line in lines_of(text):
        end = start + len(line) + 1
        if len(line) <= MOST_LINE_BYTES and words_of(line) == [b"rules"]:
            return text[:start], text[end:]
        start = end
    return text, b""
