"""Runs of tools/from_rbac and of the program, and what a graph text of the one says."""
import os
import re
import subprocess
import tempfile
from dataclasses import dataclass
from pathlib import Path

TOOL = Path(__file__).resolve().parent.parent.parent / "tools/from_rbac"
NAME = "[a-z_][a-z0-9_]{0,15}"
THROUGH = re.compile(f"# ({NAME}) ({NAME}) through ({NAME})")
LONGEST_RUN = 60


class Failure(Exception):
    """What is wrong with an answer."""


def expect(wanted, found, what):
    """Fails where something is not what it has to be."""
    if wanted != found:
        raise Failure(f"{what}: wanted {shown(wanted)}, found {shown(found)}")


def shown(value):
    """A value, cut off where it is long."""
    text = repr(value)
    return text if len(text) <= 600 else f"{text[:600]} .. of {len(text)} characters"


@dataclass(frozen=True)
class Ran:
    """How a run of the tool ended: its status, its standard output, and its standard error."""

    status: int
    output: bytes
    told: str


def run_tool(listing, *words, command=(str(TOOL),), folder=None):
    """Runs the tool, by a command in a folder, on a listing as bytes."""
    ran = subprocess.run(
        [*command, *words], input=listing, capture_output=True, timeout=LONGEST_RUN, cwd=folder,
        check=False,
    )
    return Ran(ran.returncode, ran.stdout, ran.stderr.decode())


def leaving(patterns):
    """The words that leave out what has these names."""
    return [word for pattern in patterns for word in ("--without", pattern)]


def text_for(listing, *words):
    """The text that the tool writes for a listing. It has to write one."""
    ran = run_tool(listing, *words)
    expect((0, True), (ran.status, bool(ran.output)), f"status and output, {ran.told!r}")
    return ran.output


def refusal_of(listing, *words, status=1):
    """What the tool tells where it has to write nothing."""
    ran = run_tool(listing, *words)
    expect((status, b""), (ran.status, ran.output), f"status and output, {ran.told!r}")
    return ran.told


def has_parts(told, *parts):
    """Fails where what is told lacks one of the parts."""
    for part in parts:
        if part not in told:
            raise Failure(f"{part!r} is not told: {told!r}")


class GraphText:
    """A graph text of the tool, by what its names stand for.

    `vertices` are in order, `names` has the name of each, `edges` the letters of each pair, and
    `through` for each pair by whom it is said to have come about.
    """

    def __init__(self, text):
        lines = text.decode("ascii").splitlines()
        named = [line.split()[1] for line in lines if line.startswith("vertex ")]
        first = lines.index(f"vertex {named[0]}") if named else len(lines)
        ends, behind = first + len(named), [line for line in lines if line.startswith("edge ")]
        self.comments = lines[ends : len(lines) - len(behind)]
        legends = legends_of(lines[1 : first - 1])
        is_ordered = lines[first:ends] == [f"vertex {name}" for name in named]
        is_ordered &= lines[len(lines) - len(behind) :] == behind
        is_ordered &= all(line.startswith("# ") for line in self.comments)
        expect((True, ["version 2"]), (is_ordered, lines[first - 1 : first]), "order of lines")
        expect(sorted(named), list(legends), "comments at the top")
        self.names = {words: name for name, words in legends.items()}
        self.vertices = list(self.names)
        self.edges = {
            (legends[x], legends[y]): letters for _, x, y, letters in map(str.split, behind)
        }
        self.through = self.ways(legends)

    def ways(self, legends):
        """By whom the edges came about that are no edges of the cluster."""
        found = [THROUGH.fullmatch(line) for line in self.comments]
        others = [line for line, match in zip(self.comments, found) if not match]
        expect(others, self.comments[: len(others)], "comments behind the vertices")
        left_out, ways = legends_of(others), [match.groups() for match in found if match]
        expect(sorted(ways), ways, "ways in order")
        expect(sorted({name for *_, name in ways}), list(left_out), "names of what is left out")
        return {(legends[x], legends[y]): left_out[name] for x, y, name in ways}


def legends_of(lines):
    """What names stand for, from comments: of each line 16 columns have the name."""
    legends = {}
    for line in lines:
        name, words = line[2:18].rstrip(" "), line[19:]
        expect(("# ", " "), (line[:2], line[18:19]), f"comment {line!r}")
        legends[name] = legends.get(name, "") + words
    return legends


class Officer:
    """The program, asked about a graph text in a folder of its own."""

    def __init__(self, program, text):
        self.program, self.text = program, text

    def ask(self, command, *words, second=None):
        """The status and the report of a command; a second text is its second file."""
        with tempfile.TemporaryDirectory() as folder:
            files = [os.path.join(folder, "graph"), os.path.join(folder, "second")]
            texts = [self.text] if second is None else [self.text, second]
            for path, text in zip(files, texts):
                Path(path).write_bytes(text)
            ran = subprocess.run(
                [self.program, command, *files[: len(texts)], *words],
                capture_output=True, timeout=LONGEST_RUN, check=False,
            )
        expect("", ran.stderr.decode(), f"what {command} tells")
        return ran.returncode, ran.stdout.decode()

    def reach(self, name):
        """The rights that a vertex can come to: letters by name."""
        status, report = self.ask("reach", name)
        expect(0, status, "status of reach")
        return dict(line.split() for line in report.splitlines())
