#!/usr/bin/env python3
"""Counts the memory that `officer cut` asks for, and says whether it is within its bound.

memory.py PROGRAM. Beyond words, text and graph a cut may take 8 bytes an edge and 16 a vertex, beside
its rules, which take less here. Each request is counted as it is made: by requests.c, which the
compiler of the toolchain builds, and which stands before the C library.

What words, text and graph take is what the program holds when it refuses the same question with
another last name, which no vertex has: as far as that, the two runs ask for the same. The list of
kept edges is made with their first, so there are two of them where there are any. The last line is
`N cases, M failures`; the status is 1 where a case failed.
"""
import os
import struct
import subprocess
import sys
import tempfile
from dataclasses import dataclass, field

sys.dont_write_bytecode = True
from refusals import preloaded_library  # noqa: E402

# how much a cut may take
AN_EDGE, A_VERTEX = 8, 16
# the time limit of a run
SECONDS = 120
# the block that was there, the one that is there now, and how many bytes were asked for
REQUEST = "QQQ"


@dataclass
class Case:
    """A graph in which the first vertex is asked about and the last one is what it may come to read."""

    title: str
    vertices: int
    edges: list
    answer: str
    kept: list = field(default_factory=list)

    def text(self):
        """The text of the graph."""
        lines = ["version 2"] if self.vertices > 1024 else []
        lines += [f"vertex v{i}" for i in range(self.vertices)]
        lines += [f"edge v{x} v{y} {rights}" for x, y, rights in self.edges]
        return "\n".join(lines) + "\n"

    def words(self, path):
        """The words that ask what has to go. The last of them names a vertex."""
        kept = [word for x, y in self.kept for word in ("--keep", f"v{x}", f"v{y}")]
        return ["cut", path, "r", "v0", f"v{self.vertices - 1}", *kept]

    def most(self):
        """How many bytes the cut may take."""
        return AN_EDGE * len(self.edges) + A_VERTEX * self.vertices


def chain(links):
    """So many links, each from a vertex to the next."""
    return [(i, i + 1, "t") for i in range(links)]


def island(count, step, ties, readers):
    """Links from the first vertex to some of an island, of which some read the last vertex."""
    inner = range(1, count - 1)
    links = [(i, j, "t") for i in inner for j in inner[i % step :: step]]
    tied = [(0, i, "t") for i in inner[:ties]]
    return tied + links + [(i, count - 1, "r") for i in inner[-readers:]]


def cases():
    """The graphs, with the first line of the answer, worked by hand."""
    yield Case("nobody reads it", 64, chain(32), "# no")
    yield Case("few edges", 64, [*chain(31), (31, 63, "r")], "# cut 1")
    yield Case("many vertices, few edges", 4096, [*chain(15), (15, 4095, "r")], "# cut 1")
    yield Case("x reads it and has nobody", 64, [(0, 63, "rw")], "# cut 1")
    kept = [(0, 1), (1, 63)]
    yield Case("a kept way", 64, [(0, 1, "g"), (1, 63, "r")], "# none", kept)
    yield Case("few ties", 256, island(256, 1, 10, 200), "# cut 10")
    yield Case("few readers, kept ties", 256, island(256, 1, 2, 3), "# cut 3", [(0, 1), (0, 2)])
    yield Case("many units", 1024, island(1024, 16, 400, 300), "# cut 300")


def run(library, argv):
    """How many bytes the program held after each request, and the first line that it printed."""
    with tempfile.TemporaryFile() as told:
        given = {"LD_PRELOAD": library, "REQUESTS_TOLD": str(told.fileno())}
        how = {"stdin": subprocess.DEVNULL, "capture_output": True, "text": True}
        ran = subprocess.run(argv, env=given, pass_fds=[told.fileno()], timeout=SECONDS, **how)
        told.seek(0)
        requests = told.read()
    held, sizes, series = 0, {}, []
    for before, now, size in struct.iter_unpack(REQUEST, requests):
        held += size - sizes.pop(before, 0)
        sizes[now] = size
        series.append(held)
    return series, ran.stdout.partition("\n")[0]


def taken_by(library, program, path, case):
    """How many bytes the cut took beyond words, text and graph, and the first line of the answer."""
    *words, last = case.words(path)
    asked, answer = run(library, [program, *words, last])
    refused, _ = run(library, [program, *words, last.replace("v", "w")])
    alike = os.path.commonprefix([asked, refused])
    return max(asked[len(alike) :], default=0) - alike[-1], answer


def failure_of(case, taken, answer):
    """What is wrong with a case, or nothing."""
    if answer != case.answer:
        return f"it says {answer}, not {case.answer}"
    return "" if 0 < taken <= case.most() else "out of bounds"


def main():
    if len(sys.argv) != 2:
        sys.exit(__doc__)
    program, count, failed = os.path.abspath(sys.argv[1]), 0, 0
    with tempfile.TemporaryDirectory(prefix="memory-") as folder:
        library, path = preloaded_library("requests.c", folder), f"{folder}/graph"
        for case in cases():
            with open(path, "w", encoding="utf-8") as text:
                text.write(case.text())
            taken, answer = taken_by(library, program, path, case)
            failure = failure_of(case, taken, answer)
            size = f"{case.vertices} vertices, {len(case.edges)} edges"
            said = f"{case.title}, {size}: {taken} bytes of {case.most()}"
            print(said + (f": FAILED, {failure}" if failure else ""), flush=True)
            count, failed = count + 1, failed + bool(failure)
    print(f"{count} cases, {failed} failures")
    sys.exit(1 if failed else 0)


if __name__ == "__main__":
    main()
