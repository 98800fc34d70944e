#!/usr/bin/env python3
"""Asks the program as `rt try` builds it from the sources as they stand: nothing is proved.

trial.py [--graph FILE] [--top FOLDER] [--program CRATE] [ASK]. ASK is a command line without the
program's name, cut as a shell would cut it: 'share graph r client payroll'. These texts are there:

    graph    examples/file_service.graph, or FILE where one is given
    policy   examples/file_service.policy
    rules    examples/file_service.rules; refused has rules of which one is refused
    script   examples/file_service.script, for run; race has one for race
    case     examples/file_service.case: a graph, a line `rules`, and rules

So are files below this folder, by their paths. A last pair '< FILE' gives one of all these as standard
input. Where ASK is empty, the program gets no words, and reads standard input: a text such as case.

The report, the messages and the status are the program's. Where it can't be built, or does not end by
itself, they are the toolchain's.
"""
import argparse
import os
import re
import shlex
import sys

from toolchain.crates import TOP, Repository
from toolchain.running import Ended, Runs, want_toolchain

STANDARD_INPUT = "/dev/stdin"
# Each plain name, and what its file has behind `examples/file_service`.
NAMES = {
    "graph": ".graph",
    "policy": ".policy",
    "rules": ".rules",
    "refused": ".refused.rules",
    "script": ".script",
    "race": ".race.script",
    "case": ".case",
}
# What the toolchain says behind the program's messages, and last of all where that ended by itself.
SAYS = re.compile(r"(interpreter|checked|races|run)[:=]")
ENDED = "run=ended "


class Ask:
    """What is asked: the words, the texts that are there by their names, and what standard input is."""

    def __init__(self, ask, graph):
        self.words = shlex.split(ask)
        given = self.words.pop() if self.words[-2:-1] == ["<"] else None
        if given:
            self.words.pop()
        paths = [it for it in (*self.words, given) if it and is_below(it)]
        self.texts = {it: os.path.abspath(it) for it in paths}
        self.texts.update((it, f"{TOP}/examples/file_service{end}") for it, end in NAMES.items())
        self.texts["graph"] = os.path.abspath(graph or self.texts["graph"])
        self.stdin = self.texts.get(given, given) if given else os.devnull
        if not given and (not self.words or STANDARD_INPUT in self.words):
            self.stdin = STANDARD_INPUT

    def missing(self):
        """Those of the files that it takes which are not there."""
        return [it for it in (*self.texts.values(), self.stdin) if not os.path.exists(it)]

    def command(self):
        """The command that builds the program and asks it."""
        handed = [it for text in self.texts.items() for it in ("--data", "=".join(text))]
        return ["rt", "try", *handed, "--", *self.words]


def is_below(path):
    """Whether a path leads to a file below this folder."""
    return os.path.isfile(path) and not os.path.isabs(path) and ".." not in path.split("/")


def is_answered(said):
    """Whether the program was built, and ended by itself."""
    return any(line.startswith(ENDED) for line in said.splitlines()[-1:])


def messages(said):
    """What the program said where it ended by itself, and else all that was said."""
    lines = said.splitlines()
    while is_answered(said) and lines and SAYS.match(lines[-1]):
        lines.pop()
    return "".join(line + "\n" for line in lines)


def options():
    """What the command line asks for."""
    parser = argparse.ArgumentParser(
        description=__doc__, formatter_class=argparse.RawDescriptionHelpFormatter
    )
    parser.add_argument("ask", nargs="?", default="", metavar="ASK")
    parser.add_argument("--graph", metavar="FILE", help="stands for the file service's graph")
    parser.add_argument("--top", default=TOP, metavar="FOLDER", help="of another repository")
    parser.add_argument("--program", default="officer", metavar="CRATE", help="of that repository")
    return parser.parse_args()


def main():
    """Asks what the command line says."""
    given = options()
    want_toolchain()
    try:
        ask = Ask(given.ask, given.graph)
    except ValueError as fault:
        sys.exit(f"ASK can't be cut into words: {fault}.")
    if ask.missing():
        sys.exit(f"There is no file {ask.missing()[0]}.")
    print("Building it without a proof, which takes a minute.", file=sys.stderr, flush=True)
    folder = Repository(given.top).folder(given.program)
    with Runs() as runs:
        runs.start("trial", ask.command(), folder, given=ask.stdin, output=sys.stdout)
        try:
            run = runs.wait()[0]
        except Ended as ended:
            sys.exit(ended.status)
        said = run.said()
    told = "The program ended" if is_answered(said) else "The program did not answer, and rt try ended"
    sys.stderr.write(messages(said))
    print(f"{told} with status {run.status()}. Nothing was proved.", file=sys.stderr)
    sys.exit(run.status())


if __name__ == "__main__":
    main()
