#!/usr/bin/env python3
"""Races a program's seats against one another, and checks each report by a small model.

races.py PROGRAM [--rounds N]. In each round the program runs `race` on sparse and dense graphs of
up to 4,000 vertices, with scripts of 16 seats and 4,096 commits: one in which the seats seldom
touch the same vertices, and one in which they often do. Of each report it checks that

- the lines are those of the seats in the order of their numbers, and within a seat in the order of
  its events, and each outcome is one that the event may come to there;
- the places of the commits that were put are 0, 1, .. without a gap, each once, and rise within
  each seat;
- the replies of these sessions are those that a model gives when the sessions are played one after
  another in the order of their places;
- a commit that was refused names the first record that spoils it, and its replies are true before
  that record;
- the graph is the one that the model has then.

It ends with status 1 at the first report that breaks one of these.
"""
import argparse
import os
import random
import subprocess
import sys
import tempfile
from itertools import product

from model.graphs import FIRST, LETTERS, Graph
from model.races import fault_of
from model.texts import read_script

LABELS = ["t", "g", "r", "w", "a", "rw", "tg", "ad"]


def vertices(count):
    """So many names."""
    return [f"v{i}" for i in range(count)]


def sparse(count, size, chance):
    """A graph with so many vertices, and so many edges at random places."""
    names, edges = vertices(count), {}
    while len(edges) < size:
        edges[chance.choice(names), chance.choice(names)] = chance.choice(LABELS)
    return Graph(names, edges)


def dense(count, letters=LETTERS):
    """A graph in which each vertex has one right over each."""
    pairs = product(range(count), repeat=2)
    labels = {(f"v{i}", f"v{j}"): letters[(i * 9 + j) % len(letters)] for i, j in pairs}
    return Graph(vertices(count), labels)


def step(number, reach, chance):
    """One step among the first `reach` vertices."""
    x, y, z = (f"v{chance.randrange(reach)}" for _ in range(3))
    return chance.choice(
        [
            f"remove {x} {y} w",
            f"remove {x} {y} ae",
            f"holds d {x} {y}",
            f"take {x} {y} {z} r",
            f"grant {x} {y} {z} a",
            f"create {x} n{number % 64} rad" if number % 97 == 0 else f"holds w {x} {y}",
        ]
    )


def script(seats, commits, reach, chance):
    """The text of a script whose seats take turns with sessions of three steps."""
    lines = [f"seats {seats}", "cells 4096"]
    for i in range(commits):
        seat = i % seats + 1
        lines.append(f"{seat} begin")
        lines.extend(f"{seat} {step(i, reach, chance)}" for _ in range(3))
        lines.append(f"{seat} commit")
    return "".join(line + "\n" for line in lines)


def races(chance):
    """Title, graph and script of each race."""
    wide, narrow = sparse(4000, 16000, chance), sparse(256, 4096, chance)
    yield "sparse, seldom the same vertices", wide, script(16, 4096, 4000, chance)
    yield "sparse, often the same vertices", narrow, script(16, 4096, 48, chance)
    yield "dense, seldom the same vertices", dense(256), script(16, 4096, 256, chance)
    first = dense(64, FIRST.letters)
    yield "dense, often the same vertices", first, script(16, 4096, 24, chance)


def race(program, graph, script_text):
    """The status and the report of one race."""
    with tempfile.TemporaryDirectory() as folder:
        words = [os.path.abspath(program), "race"]
        for name, text in (("graph", graph.text()), ("script", script_text)):
            words.append(os.path.join(folder, name))
            with open(words[-1], "w", encoding="ascii") as file:
                file.write(text)
        ran = subprocess.run(words, capture_output=True, timeout=600, text=True, check=False)
    return ran.returncode, ran.stdout


def commits_in(report):
    """How many commits of a report were put."""
    return sum(" done " in line for line in report.partition("graph\n")[0].splitlines())


def main():
    """Races as the command line says."""
    options = argparse.ArgumentParser(
        description=__doc__, formatter_class=argparse.RawDescriptionHelpFormatter
    )
    options.add_argument("program")
    options.add_argument("--rounds", type=int, default=3)
    given = options.parse_args()
    for title, graph, text in races(random.Random(23)):
        put, played = set(), read_script(text.encode())
        for _ in range(given.rounds):
            status, report = race(given.program, graph, text)
            fault = f"status {status}" if status else fault_of(graph, played, report)
            if fault:
                sys.exit(f"{title}: {fault}")
            put.add(commits_in(report))
        counts = f"{min(put)} to {max(put)} commits put"
        told = f"{given.rounds} reports, each that of its sessions one after another"
        print(f"{title}: {told}; {counts}", flush=True)


if __name__ == "__main__":
    main()
