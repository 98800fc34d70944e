#!/usr/bin/env python3
"""Tries the tests of the crates that have changed, and of those above them, and then the cases.

quick.py [--all] [--top FOLDER]. Nothing is proved. A crate has changed where a file of it, or its line
in crates.txt, is not as it was when HEAD and origin/main parted, be it committed or not. With --all,
and where there is no origin/main, each crate is tried.

`rt try --test` builds the tests of a crate with all that is below it, and runs them: three crates at
once. Of tests that fail it is shown what was said. Tests that can't be built, or don't end, are one
failure. A library without tests can't be tried alone: it passes where a crate above it was built. A
program without tests passes where it was built and has ended. `checks/cases.py --trial` tries the cases.

The last line is `N passed, M failed`; the status is 1 where something failed.
"""
import argparse
import os
import re
import subprocess
import sys
import time

from toolchain.crates import TOP, Repository, libraries_in
from toolchain.running import Ended, Runs, want_toolchain

# How many crates are tried at once, and how many seconds the tests of one may take.
LANES, LONGEST = min(3, os.cpu_count() or 1), 600
# The counts of a crate's tests, and those of the cases.
TESTED = re.compile(r"^test result: .*?(\d+) passed; (\d+) failed", re.M)
COUNTED = re.compile(r"^(\d+) passed, (\d+) failed$", re.M)
# What is said of a test that passed, and of a program that ended by itself.
PASSED = re.compile(r"^test .* \.\.\. ok\n", re.M)
ENDED = re.compile(r"^run=ended ", re.M)
CASES = "checks/cases.py"


def git(top, *words):
    """What git says in a folder, or None where it fails."""
    ran = subprocess.run(["git", *words], cwd=top, capture_output=True, text=True)
    return None if ran.returncode else ran.stdout


def changed_crates(repository):
    """The crates that have changed since HEAD and origin/main parted, or None where no origin/main is."""
    parted = git(repository.top, "merge-base", "HEAD", "origin/main")
    if parted is None:
        return None
    since = parted.strip()
    changed = git(repository.top, "diff", "--name-only", "--no-renames", "--relative", "-z", since)
    new = git(repository.top, "ls-files", "--others", "--exclude-standard", "-z")
    folders = {tuple(path.split("/")[:2]) for path in f"{changed}{new}".split("\0")}
    before = libraries_in(git(repository.top, "show", f"{since}:./crates.txt") or "")
    libraries = repository.libraries
    return [it for it in libraries if ("crates", it) in folders or before.get(it) != libraries[it]]


class Quick:
    """What was tried without a proof: how much passed and failed, and which crates were built."""

    def __init__(self, repository, runs):
        self.repository, self.runs = repository, runs
        self.passed = self.failed = 0
        self.built = []

    def count(self, name, passed, failed):
        """Counts what was tried under a name."""
        self.passed += passed
        self.failed += failed
        print(f"{name}: {passed} passed, {failed} failed", flush=True)

    def start(self, crate):
        """Builds a crate's tests and runs them, or runs a program that has none."""
        words = ["--test", "--seconds", str(LONGEST)] if self.repository.has_tests(crate) else []
        self.runs.start(crate, ["rt", "try", *words], self.repository.folder(crate))

    def take(self, run):
        """Counts what the tests of a crate came to, and shows what was said where one failed."""
        said = run.said()
        counts = TESTED.search(said)
        is_built = counts or ENDED.search(said)
        passed, failed = map(int, counts.groups() if counts else (bool(is_built), not is_built))
        if run.status() and counts:
            failed = max(failed, 1)
        self.count(run.name, passed, failed)
        if is_built:
            self.built.append(run.name)
        if failed:
            print(PASSED.sub("", said).rstrip(), flush=True)

    def try_crates(self, crates):
        """Tries each of these crates, those with most below them first."""
        repository = self.repository
        can_run = [it for it in crates if repository.has_tests(it) or repository.is_program(it)]
        waiting = sorted(can_run, key=lambda it: len(repository.with_all_below(it)))
        while waiting or self.runs.running:
            for _ in range(min(LANES - len(self.runs.running), len(waiting))):
                self.start(waiting.pop())
            for run in self.runs.wait():
                self.take(run)
        for crate in sorted(set(crates) - set(can_run)):
            is_built = any(crate in repository.with_all_below(it) for it in self.built)
            self.count(f"{crate}, which has no tests", int(is_built), int(not is_built))

    def try_cases(self):
        """Tries the cases."""
        if not (self.repository.top / CASES).is_file():
            print(f"There is no {CASES}.")
            self.count("cases", 0, 1)
            return
        self.runs.start("cases", [sys.executable, CASES, "--trial"], self.repository.top)
        run = self.runs.wait()[0]
        counts = COUNTED.findall(run.said())
        passed, failed = map(int, counts[-1] if counts else (0, 0))
        print(run.said().rstrip(), flush=True)
        self.count("cases", passed, max(failed, int(run.status() != 0)))


def options():
    """What the command line asks for."""
    parser = argparse.ArgumentParser(
        description=__doc__, formatter_class=argparse.RawDescriptionHelpFormatter
    )
    parser.add_argument("--all", action="store_true", help="try each crate")
    parser.add_argument("--top", default=TOP, metavar="FOLDER", help="of another repository")
    return parser.parse_args()


def main():
    """Tries what the command line asks for."""
    given, begun = options(), time.monotonic()
    want_toolchain()
    repository = Repository(given.top)
    changed = None if given.all else changed_crates(repository)
    crates = repository.with_all_above(repository.below if changed is None else changed)
    if changed is not None:
        print("changed since origin/main:", *changed or ["no crate"])
    print(f"{len(crates)} of {len(repository.below)} crates are tried, then the cases", flush=True)
    with Runs() as runs:
        quick = Quick(repository, runs)
        try:
            quick.try_crates(crates)
            quick.try_cases()
        except Ended as ended:
            sys.exit(ended.status)
    minutes = (time.monotonic() - begun) / 60
    print(f"Nothing was proved. It took {minutes:.1f} minutes.")
    print(f"{quick.passed} passed, {quick.failed} failed")
    sys.exit(1 if quick.failed else 0)


if __name__ == "__main__":
    main()
