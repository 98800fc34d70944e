#!/usr/bin/env python3
"""Prints the graph of a chain of shops: 1,200 tills in 40 branches, and the ledgers of their sales.

tills.py [--apart]. The updater brings all tills up to date, and the archive as well; with --apart
the archive has an installer of its own. The text is canonical.
"""
import sys

BRANCHES = range(1, 41)
TILLS = range(1, 31)


def edges(is_apart):
    """Source, target and rights of each edge."""
    for branch in BRANCHES:
        ledger = f"ledger_{branch:02}"
        for number in TILLS:
            till = f"till_{branch:02}_{number:02}"
            yield till, ledger, "a"
            yield "updater", till, "t"
        yield f"manager_{branch:02}", ledger, "r"
        yield "auditor", ledger, "r"
        yield "archive", ledger, "rd"
        yield "pruner", ledger, "d"
    yield "archive", "pruner", "g"
    yield "installer" if is_apart else "updater", "archive", "t"


def main():
    """Prints the graph that the command line asks for."""
    found = sorted(edges(sys.argv[1:] == ["--apart"]))
    names = {name for source, target, _ in found for name in (source, target)}
    print("version 2")
    for name in sorted(names):
        print("vertex", name)
    for edge in found:
        print("edge", *edge)


if __name__ == "__main__":
    main()
