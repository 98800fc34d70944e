#!/usr/bin/env python3
"""Proves a program and the crates below it, and builds it, telling how far it is.

build.py [--top FOLDER] [--lanes N] [PROGRAM]. A crate is proved by `rt lib` once those below it are,
the program by `rt run`, which also runs it, on the file `stdin` of its folder. Of the crates that can
begin the one comes first above which the longest way to the program lies, in lines of code.

The toolchain lets no two runs into one crate, and a run holds all crates below its own until it ends.
So up to N crates are proved side by side where no crate is below two of them, and each other one
alone, on as many processors as the toolchain takes for it.

A crate that is not proved ends it with status 1, and the end of what the toolchain said is shown. A
signal ends it with all that it has started. What was proved is kept, and the next call goes on there.
"""
import argparse
import re
import sys
import time

from toolchain.crates import TOP, Repository
from toolchain.running import Ended, Runs, want_toolchain

# How many lines of what the toolchain said are shown where it fails.
SHOWN = 20
# Seconds between two lines where nothing else is to be told.
SILENCE = 60
# What a run says of the functions that it has checked so far.
CHECKED = re.compile(r"^(?:so far:|checked .*,) (\d+ of \d+)\b", re.M)
WAITS = "rt: waiting for another rt"
# Lines that say nothing of what is not proved.
LISTS = re.compile(r"(fn .*: proved$|logic /|library |statements |crate )")


class NotProved(Exception):
    """A run failed."""

    def __init__(self, run):
        lines = [it for it in run.said().splitlines() if not LISTS.match(it)]
        self.tail = "\n".join(lines[-SHOWN:])
        super().__init__(f"{run.name} is not built: {run.command} ended with status {run.status()}")


def highest_first(repository, program):
    """The program and the crates below it, each before those that it stands on."""
    depth = {it: len(repository.with_all_below(it)) for it in repository.with_all_below(program)}
    return sorted(depth, key=depth.get, reverse=True)


def lines_ahead(repository, crates):
    """The lines of code on the longest way from each crate to the program, which is the first of them."""
    ahead = {}
    for crate in crates:
        above = [ahead[it] for it in ahead if crate in repository.below[it]]
        ahead[crate] = repository.lines(crate) + max(above, default=0)
    return ahead


def is_built(repository, crates):
    """Whether the program is there, and younger than each file that it is made of."""
    built = repository.folder(crates[0]) / "out" / crates[0]
    if not built.is_file():
        return False
    made_of = [it for crate in crates for it in repository.files(crate)]
    return all(it.stat().st_mtime < built.stat().st_mtime for it in made_of)


def progress(run):
    """The crate that a run is at work on, and how far it is."""
    said = run.said()
    if said.rstrip().rpartition("\n")[2].startswith(WAITS):
        return f"{run.name} (waits for another rt)"
    checked = CHECKED.findall(said)
    return f"{run.name} ({checked[-1]} functions)" if checked else run.name


class Build:
    """How far a program and the crates below it are proved."""

    def __init__(self, repository, program, lanes, runs):
        self.repository, self.lanes, self.runs = repository, lanes, runs
        crates = highest_first(repository, program)
        self.ahead = lines_ahead(repository, crates)
        self.proved = crates[1:] if is_built(repository, crates) else []
        waiting = [it for it in crates if it not in self.proved]
        self.waiting = sorted(waiting, key=self.ahead.get, reverse=True)
        self.begun = self.told = time.monotonic()

    def minutes(self):
        """For how many minutes it has gone on."""
        return round((time.monotonic() - self.begun) / 60)

    def can_begin(self, crate):
        """Whether what the crate stands on is proved, and no run holds any of it."""
        crates = set(self.repository.with_all_below(crate))
        held = {it for run in self.runs.running for it in self.repository.with_all_below(run.name)}
        return crates - {crate} <= set(self.proved) and crates.isdisjoint(held)

    def start(self, crate):
        """Starts a crate. Where one with a longer way ahead is at work, it leaves the processors to it."""
        folder = self.repository.folder(crate)
        words = ["rt", "run" if self.repository.is_program(crate) else "lib"]
        if any(self.ahead[run.name] > self.ahead[crate] for run in self.runs.running):
            words = ["nice", *words]
        places = {"given": folder / "stdin"} if (folder / "stdin").is_file() else {}
        self.runs.start(crate, words, folder, **places)

    def start_all(self):
        """Starts each crate that can begin."""
        for crate in [*self.waiting]:
            if len(self.runs.running) < self.lanes and self.can_begin(crate):
                self.waiting.remove(crate)
                self.start(crate)

    def tell(self):
        """Says how far it is."""
        self.told = time.monotonic()
        count = len(self.proved) + len(self.waiting) + len(self.runs.running)
        at_work = ", ".join(progress(run) for run in self.runs.running)
        told = f"{len(self.proved)} of {count} crates proved, at work on {at_work}"
        print(f"{self.minutes():3} min: {told}", flush=True)

    def take_all(self, ended):
        """Takes in the runs that have ended."""
        for run in ended:
            if run.status():
                raise NotProved(run)
            self.proved.append(run.name)

    def go_on(self):
        """Proves what is still to be proved, and builds the program."""
        self.start_all()
        self.tell()
        while self.runs.running:
            ended = self.runs.ended()
            self.take_all(ended)
            self.start_all()
            if self.runs.running and (ended or time.monotonic() - self.told > SILENCE):
                self.tell()


def options():
    """What the command line asks for."""
    parser = argparse.ArgumentParser(
        description=__doc__, formatter_class=argparse.RawDescriptionHelpFormatter
    )
    parser.add_argument("program", nargs="?", default="officer", help="a crate that is a program")
    parser.add_argument("--top", default=TOP, metavar="FOLDER", help="of another repository")
    parser.add_argument("--lanes", type=int, default=1, metavar="N", help="crates side by side")
    return parser.parse_args()


def main():
    """Builds the program that the command line names."""
    given = options()
    want_toolchain()
    repository = Repository(given.top)
    with Runs() as runs:
        build = Build(repository, given.program, given.lanes, runs)
        try:
            build.go_on()
        except NotProved as fault:
            sys.exit(f"{fault.tail}\n{fault}")
        except Ended as ended:
            print(f"{ended} after {build.minutes()} minutes: what is proved is kept", flush=True)
            sys.exit(ended.status)
    if build.waiting:
        sys.exit(f"crates.txt has {' and '.join(build.waiting)} stand on one another")
    built = repository.folder(given.program).relative_to(repository.top) / "out" / given.program
    print(f"{build.minutes():3} min: {built} is built, and all {len(build.proved)} crates are proved")


if __name__ == "__main__":
    main()
