#!/usr/bin/env python3
"""Runs a program on texts as large as may be, and compares its answers with what they have to be.

limits.py PROGRAM [--only TEXT] [--jobs N]. On graphs of 4,096 vertices each question is asked: along
one chain of all of them, of which the derivation of a right has 16,380 rules and that of all seven
114,660; of stars whose cuts have as many edges as a cut may have; and on sparse graphs by chance. A
session of 65,534 steps is played and committed, by `run` and by `race`.

What has to be printed is reckoned by a small model, or follows from how the graph was made. The
rules of a derivation are carried out besides, one after another. What a failed case was run on is
kept in a folder that is named. The last line is `N passed, M failed`; the status is 1 where a case
failed, and where none was run.
"""
import argparse
import os
import subprocess
import sys
import tempfile
import time
from concurrent.futures import ProcessPoolExecutor
from functools import partial

from fuzz_cases.comparing import Failure, Program
from limits_cases import questions, sessions

LONGEST_RUN = 120
CASES = sessions.CASES + questions.CASES


def title_of(case):
    """What a case is about."""
    return case.__doc__.partition("\n")[0]


def failure_of(path, number):
    """Plays a case. It answers what failed as text or None, and how many seconds it took."""
    case, begun = CASES[number], time.monotonic()
    with tempfile.TemporaryDirectory(prefix="limits-") as folder:
        program = Program(path, folder, LONGEST_RUN)
        try:
            case(program)
            return None, time.monotonic() - begun
        except Failure as failure:
            fault, told, wanted = failure.difference(), failure.told, failure.wanted
        except subprocess.TimeoutExpired:
            fault, told, wanted = f"a run had not ended in {LONGEST_RUN} seconds", [], []
        kept = tempfile.mkdtemp(prefix=f"limits-{case.__name__}-")
        program.keep(kept, told, wanted)
    fault = fault if len(fault) <= 2000 else f"{fault[:2000]} .. of {len(fault)} characters"
    return f"{fault}\n  texts, words and answers in {kept}", time.monotonic() - begun


def main():
    """Plays the cases that the command line asks for."""
    options = argparse.ArgumentParser(
        description=__doc__, formatter_class=argparse.RawDescriptionHelpFormatter
    )
    options.add_argument("program", type=os.path.abspath)
    options.add_argument("--only", default="", metavar="TEXT")
    options.add_argument("--jobs", type=int, default=os.cpu_count())
    given = options.parse_args()
    numbers = [at for at, case in enumerate(CASES) if given.only in title_of(case)]
    failures = 0
    with ProcessPoolExecutor(given.jobs) as pool:
        played = pool.map(partial(failure_of, given.program), numbers)
        for number, (failure, seconds) in zip(numbers, played):
            told = f"FAILED, {failure}" if failure else "as it has to be"
            print(f"{title_of(CASES[number])}: {told} ({seconds:.1f} s)", flush=True)
            failures += failure is not None
    print(f"{len(numbers) - failures} passed, {failures} failed")
    sys.exit(1 if failures or not numbers else 0)


if __name__ == "__main__":
    main()
