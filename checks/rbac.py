#!/usr/bin/env python3
"""Runs tools/from_rbac on small and large listings, and checks what it says.

rbac.py PROGRAM [--only TEXT] [--seed N] [--listings N] [--list]. PROGRAM is asked about the graphs
that the tool writes. The cases:

- a listing, questions, and their answers: what is left out with --without, aggregated roles, and
  pods and what they mount;
- names, which --without leaves as they are, and --same, which compares them with a policy's;
- what the tool refuses, with which words, and what it tells besides;
- texts as long as they may be and longer, and how long a large one takes;
- random listings. What each of those who stay comes to alone in the whole graph, by a search of
  these checks, PROGRAM has to find in the graph that leaves others out; and so all that comes about
  by rules that those who stay carry out, and for t, r, w, e and d nothing else.

The seed of the random listings is printed. --only runs the cases whose titles have the text. The
last line is `N passed, M failed`; the status is 1 where a case failed.
"""
import argparse
import os
import sys
import time
from concurrent.futures import ThreadPoolExecutor
from functools import partial
from random import SystemRandom

from rbac_cases import leaving_out, naming, refusals, roles, searching, sizes
from rbac_cases.runs import Failure

KINDS = [sizes.cases, leaving_out.cases, roles.cases, naming.cases, refusals.cases]


def failure_of(program, case):
    """What is wrong with a case, or None."""
    title, play = case
    try:
        play(program)
    except Failure as failure:
        return f"FAILED {title}\n  {failure}"
    except Exception as fault:  # (the other cases are played all the same)
        return f"FAILED {title}\n  {type(fault).__name__}: {fault}"
    return None


def main():
    """Plays the cases that the command line asks for."""
    options = argparse.ArgumentParser(
        description=__doc__, formatter_class=argparse.RawDescriptionHelpFormatter
    )
    options.add_argument("program", type=os.path.abspath)
    options.add_argument("--only", default="", metavar="TEXT")
    options.add_argument("--seed", type=int, default=SystemRandom().randrange(1_000_000))
    options.add_argument("--listings", type=int, default=60)
    options.add_argument("--list", action="store_true")
    given = options.parse_args()
    begun = time.monotonic()
    print(f"seed {given.seed}, {given.listings} random listings", flush=True)
    cases = [case for kind in KINDS for case in kind()]
    cases += searching.cases(given.seed, given.listings)
    cases = [case for case in cases if given.only in case[0]]
    if given.list:
        print("\n".join(title for title, _ in cases))
        return
    with ThreadPoolExecutor(os.cpu_count()) as pool:
        failures = [it for it in pool.map(partial(failure_of, given.program), cases) if it]
    for failure in failures:
        print(failure)
    print(f"{time.monotonic() - begun:.0f} seconds")
    print(f"{len(cases) - len(failures)} passed, {len(failures)} failed")
    sys.exit(1 if failures else 0)


if __name__ == "__main__":
    main()
