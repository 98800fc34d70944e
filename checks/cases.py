#!/usr/bin/env python3
"""Gives the program what each case of cases/ asks, and compares how it ends.

cases.py [PROGRAM] [NAME..] [--trial]. cases/README.md says what a case is. PROGRAM is a path with a
slash, crates/officer/out/officer where none is given; it has to be there, and nothing is proved. NAME
is a file without its `.cases`, for all cases in it, or a case. Of each ask the status, the report and
standard error are compared, and what differs is shown by line.

With --trial the program is not needed: `rt try --cases` builds the sources as they are, once, with no
proof, and is given each ask. Its lines tell of a run the status and whether the report is the wanted
one, and these are compared; standard error is not. What it can't do is skipped and counted: texts or
a report of more than 1 MiB, and runs that take over 60 seconds.

Each ask counts as one. What is wrong in a file counts too, whatever is named: an ask without status or
report, a case without ask, a text that no ask uses, a line that is none, a file in cases/ that is
neither a file of cases nor README.md; so does a NAME that nothing has. Each time it first tries whether
it finds such faults, and wrong answers, in small files that have them, with cat for the program.

The last line is `N passed, M failed`; the status is 1 where something failed, and where no case was
found.
"""
import argparse
import os
import sys
import time
from pathlib import Path

from cases_parts.faults import own_faults
from cases_parts.finding import Found
from cases_parts.running import differences_with
from cases_parts.trial import differences_in_trial

TOP = Path(__file__).resolve().parent.parent
CRATE = TOP / "crates/officer"
PROGRAM = CRATE / "out/officer"


def options():
    """What the command line asks for: the program, the names, and whether it is a trial."""
    parser = argparse.ArgumentParser(
        usage="cases.py [PROGRAM] [NAME..] [--trial]",
        description=__doc__,
        formatter_class=argparse.RawDescriptionHelpFormatter,
    )
    parser.add_argument("words", nargs="*", metavar="PROGRAM, NAME..")
    parser.add_argument("--trial", action="store_true", help="try a build of which nothing is proved")
    given = parser.parse_intermixed_args()
    given.program = PROGRAM
    if given.words and "/" in given.words[0]:
        given.program = Path(given.words.pop(0)).resolve()
        if given.trial:
            parser.error("--trial builds the program itself")
    if not given.trial and not os.access(given.program, os.X_OK):
        parser.error(f"there is no program {given.program}: make build proves and builds it")
    return given


def main():
    """Tries the cases that the command line names."""
    given, begun = options(), time.monotonic()
    found = Found(TOP / "cases", given.words)
    if given.trial:
        print("A trial build is made, and given each ask: nothing is proved.", flush=True)
        differences = differences_in_trial(CRATE, found.asks)
        print(f"{differences.count(None)} asks skipped; nothing was proved")
    else:
        differences = differences_with(given.program, found.asks)
    failures = own_faults() + found.failures(differences)
    for failure in failures:
        print(f"FAILED {failure}")
    print(f"{time.monotonic() - begun:.0f} seconds")
    print(f"{differences.count([])} passed, {len(failures)} failed")
    sys.exit(1 if failures else 0)


if __name__ == "__main__":
    main()
