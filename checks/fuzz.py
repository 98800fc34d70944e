#!/usr/bin/env python3
"""Runs a program on random texts and words, and compares its answers with a small model's.

fuzz.py PROGRAM [--seconds 60 | --cases N | --case N] [--seed N] [--jobs N]. Each case makes a graph,
its text of the one version or the other, and rules, a script, a policy or words for it. Often it
spoils them: bytes are flipped, lines dropped, doubled or swapped, words replaced, numbers put at
their limits, versions named where none may be. The kinds of cases:

- `check`, `case`, `apply`, `islands`, `share`, `derive`, `table`, `who`, `reach`, `verify`, `cut`,
  `run`: report and status are the model's, which reads docs/TEXTS.md alone; so the first fault, its
  line and its kind are, too.
- besides, `check` prints again what it printed, and the graph that `apply` printed; `apply`
  accepts each rule that `derive` printed, and the right is there then; `share` says of a pair what
  its cell in the table, `who` and `reach` say, and whether `verify` lets a line with `may` hold;
  `derive` prints what stands below a line of `verify --why`; `apply` accepts each rule that `cut`
  printed, `share` says no then, and it says yes where one of their rights was left.
- `race`: with one seat it prints what `run` prints; else the report obeys the laws of a race.
- `words`: a command line has one of the forms, or it is a bad one.
- `limits`: texts with as many vertices, rules, events, commits or lines of a policy as there may
  be, or one more; rules and sessions that create more vertices than there may be.

It goes on for so many seconds, or with --cases for so many cases, those of the numbers from 0 on,
however long they take. The seed is printed first. A case is known by the seed and its number:
--seed and --case repeat it alone. What a failed case was run on is kept in a folder that is named.
The status is 1 then, and where no case was played.
"""
import argparse
import os
import subprocess
import sys
import tempfile
import time
from collections import Counter
from concurrent.futures import ProcessPoolExecutor
from math import inf
from random import Random, SystemRandom

from fuzz_cases.comparing import KINDS, Failure, Program
from fuzz_cases.making import Maker

KEPT_FAILURES = 5


def kind_of(chance):
    """The kind of a case."""
    weights = [weight for _, weight in KINDS.values()]
    return chance.choices(list(KINDS), weights)[0]


def failure_in(path, folder, seed, number):
    """Plays a case in a folder. It answers its kind, and what failed as text or None."""
    chance = Random(f"{seed} {number}")
    kind, program = kind_of(chance), Program(path, folder)
    try:
        KINDS[kind][0](program, Maker(chance))
        return kind, None
    except Failure as failure:
        fault, told, wanted = failure.difference(), failure.told, failure.wanted
    except subprocess.TimeoutExpired as late:
        fault, told, wanted = f"{late.cmd} had not ended in {program.longest} seconds", [], []
    kept = os.path.join(tempfile.gettempdir(), f"fuzz-{seed}-{number}")
    program.keep(kept, told, wanted)
    again = f"texts, words and answers in {kept}; again: --seed {seed} --case {number}"
    return kind, f"FAILED {kind}: {fault}\n  {again}"


def play(path, seed, numbers, seconds):
    """Plays the cases of these numbers until the time is over: counts by kind, and failures."""
    counts, failures, end = Counter(), [], time.monotonic() + seconds
    with tempfile.TemporaryDirectory() as folder:
        for number in numbers:
            kind, failure = failure_in(path, folder, seed, number)
            counts[kind] += 1
            failures += [failure] if failure else []
            if time.monotonic() > end or len(failures) >= KEPT_FAILURES:
                break
    return counts, failures


def play_all(path, seed, count, seconds, jobs):
    """Plays at most so many cases side by side: counts by kind, and the failures."""
    with ProcessPoolExecutor(jobs) as pool:
        shares = [range(first, count, jobs) for first in range(jobs)]
        lanes = [pool.submit(play, path, seed, share, seconds) for share in shares]
        results = [lane.result() for lane in lanes]
    counts = sum((counts for counts, _ in results), Counter())
    return counts, [failure for _, failures in results for failure in failures]


def main():
    """Fuzzes as the command line says."""
    options = argparse.ArgumentParser(
        description=__doc__, formatter_class=argparse.RawDescriptionHelpFormatter
    )
    options.add_argument("program")
    ends = options.add_mutually_exclusive_group()
    ends.add_argument("--seconds", type=float, help="goes on for that long; 60 where nothing is said")
    ends.add_argument("--cases", type=int, help="plays so many cases")
    ends.add_argument("--case", type=int, help="plays that case alone")
    options.add_argument("--seed", type=int, help="repeats the cases of that seed")
    options.add_argument("--jobs", type=int, default=os.cpu_count())
    given = options.parse_args()
    seed = SystemRandom().randrange(10**9) if given.seed is None else given.seed
    print(f"seed {seed}", flush=True)
    path = os.path.abspath(given.program)
    if given.case is not None:
        counts, failures = play(path, seed, [given.case], inf)
    elif given.cases is not None:
        counts, failures = play_all(path, seed, given.cases, inf, given.jobs)
    else:
        seconds = 60 if given.seconds is None else given.seconds
        counts, failures = play_all(path, seed, sys.maxsize, seconds, given.jobs)
    for failure in failures:
        print(failure)
    print(", ".join(f"{kind} {counts[kind]}" for kind in KINDS if counts[kind]))
    print(f"{sum(counts.values())} cases, {len(failures)} failures")
    sys.exit(1 if failures or not counts else 0)


if __name__ == "__main__":
    main()
