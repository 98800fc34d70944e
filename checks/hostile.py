#!/usr/bin/env python3
"""Runs a program in hostile surroundings, and checks how each run ends.

hostile.py PROGRAM [--only TEXT] [--keep FOLDER] [--jobs N] [--list]. For each command there are
files that are directories, missing, not to be read, empty, as large as an input may be or larger,
endless, noise or one long line; outputs that are closed, full or left by their reader; standard
inputs that are closed or directories; words that are too many, too long, empty or no text; and
limits on memory, stack and threads.

Each case says which endings are allowed: a report that is whole, with its status, or one message
with its status. A run that ends by a signal, or not in time, or with a status and only a part of
the report, fails. What a whole report is, a small model of the texts says; a race's report has to
obey the laws of races.

--only runs the cases whose titles have the text, --keep leaves the files in a folder, --list only
prints the titles. The last line is `N cases, M failures`; the status is 1 where a case failed.
"""
import argparse
import multiprocessing
import os
import shlex
import shutil
import subprocess
import sys
import tempfile
import time
from collections import Counter
from concurrent.futures import ProcessPoolExecutor
from functools import partial

from hostile_cases import files, limits, outputs, words
from hostile_cases.commands import MIB, Files
from hostile_cases.runs import LONGEST_RUN, Case, Hindrance, Lawful, play, shown

# The status of the system's loader where it can't load a program.
NOT_LOADED = 127
# What the files take.
ROOM = 512 * MIB
# Each job may hold an input as large as may be, several times.
MOST_JOBS = 8

KINDS = [
    files.graph_cases,
    files.second_cases,
    files.order_cases,
    files.input_cases,
    files.unread_input_cases,
    outputs.output_cases,
    outputs.part_cases,
    outputs.refusal_cases,
    outputs.empty_report_cases,
    outputs.silent_cases,
    words.bad_line_cases,
    words.untold_word_cases,
    words.question_cases,
    words.own_text_cases,
    words.option_path_cases,
    words.long_path_cases,
    words.many_word_cases,
    limits.memory_cases,
    limits.stack_cases,
    limits.large_graph_cases,
    limits.large_second_cases,
    limits.group_cases,
    limits.thread_cases,
]


def is_possible(program, hindrance):
    """Whether the system starts the program in surroundings, however it then ends."""
    try:
        ran = play(program, Case("", [b"fly"], [], hindrance))
    except (OSError, subprocess.SubprocessError):
        return False
    return ran.status != NOT_LOADED


def why_not(program, cases):
    """What cases are left out on this system: why, and the hindrances that can't be had."""
    if not is_possible(program, Hindrance(is_other_user=True)):
        yield "another user can't run the program here", lambda it: it.is_other_user
    for memory in sorted({case.hindrance.memory for case in cases} - {None}):
        if not is_possible(program, Hindrance(memory=memory)):
            why = f"the program can't be loaded in {memory // MIB} MiB here"
            yield why, lambda it, memory=memory: it.memory == memory


def possible(program, cases):
    """The cases that can be played on this system. It prints why others are left out."""
    for why, is_hindered in list(why_not(program, cases)):
        left = [case for case in cases if not is_hindered(case.hindrance)]
        print(f"left out: {len(cases) - len(left)} cases, since {why}", flush=True)
        cases = left
    return cases


# Set before the processes that play cases are made, which have it from this one.
CASES = []


def failure_of(program, number):
    """What is wrong with how a case ended, or None."""
    case = CASES[number]
    try:
        ran = play(program, case)
    except OSError as fault:
        return f"FAILED {case.title}\n  it was not started: {fault}"
    if any(ending.fits(ran) for ending in case.allowed):
        return None
    ended = f"status {ran.status}, output {shown(ran.output)}, complaint {shown(ran.complaint)}"
    if ran.is_late:
        ended = f"not in {LONGEST_RUN} seconds"
    for ending in case.allowed:
        if isinstance(ending, Lawful) and ran.status == 0 and ran.output is not None:
            ended += f"; {ending.fault(ran)}"
    line = shortened(shlex.join(map(os.fsdecode, case.words)))
    again = f"hostile.py PROGRAM --keep FOLDER --only {shlex.quote(case.title)}"
    allowed = "\n  or      ".join(map(str, case.allowed))
    return (
        f"FAILED {case.title}\n  ended   {ended}\n  allowed {allowed}\n"
        f"  words   {line}\n  with    {case.hindrance}\n  again   {again}"
    )


def shortened(text):
    """A text, cut off where it is long."""
    return text if len(text) <= 500 else f"{text[:500]} .. of {len(text)} characters"


def play_all(program, jobs):
    """Plays the cases side by side. It prints the failures and answers their number."""
    failures = 0
    context = multiprocessing.get_context("fork")
    with ProcessPoolExecutor(jobs, mp_context=context) as pool:
        for failure in pool.map(partial(failure_of, program), range(len(CASES))):
            if failure:
                failures += 1
                print(failure, flush=True)
    return failures


def cases_in(folder, text):
    """The cases whose titles have a text. Their files are made in a folder."""
    made = Files(folder)
    files.make_shared(made)
    cases = [case for kind in KINDS for case in kind(made)]
    twice = [title for title, count in Counter(case.title for case in cases).items() if count > 1]
    if twice:
        raise ValueError(f"two cases have one title: {twice}")
    return [case for case in cases if text in case.title]


def room_in(folder, program):
    """Makes a folder that others may enter, with a copy of the program."""
    if shutil.disk_usage(folder).free < ROOM:
        sys.exit(f"hostile.py: {folder} has not {ROOM // MIB} MiB of room; set TMPDIR")
    os.chmod(folder, 0o755)
    copy = os.path.join(folder, "program")
    shutil.copyfile(program, copy)
    os.chmod(copy, 0o755)
    return copy


def run(folder, given):
    """Plays the cases of a command line in a folder, and answers the number of failures."""
    begun = time.monotonic()
    program = room_in(folder, given.program)
    CASES.extend(possible(program, cases_in(folder, given.only)))
    print(f"{len(CASES)} cases made in {time.monotonic() - begun:.0f} seconds", flush=True)
    if given.list:
        print("\n".join(case.title for case in CASES))
        return 0
    failures = play_all(program, given.jobs)
    print(f"{time.monotonic() - begun:.0f} seconds")
    print(f"{len(CASES)} cases, {failures} failures")
    return failures


def main():
    """Plays the cases that the command line asks for."""
    options = argparse.ArgumentParser(
        description=__doc__, formatter_class=argparse.RawDescriptionHelpFormatter
    )
    options.add_argument("program")
    options.add_argument("--only", default="", metavar="TEXT")
    options.add_argument("--keep", metavar="FOLDER", help="a new folder for the files")
    options.add_argument("--jobs", type=int, default=min(os.cpu_count(), MOST_JOBS))
    options.add_argument("--list", action="store_true")
    given = options.parse_args()
    if given.keep:
        os.makedirs(given.keep)
        failures = run(os.path.abspath(given.keep), given)
    else:
        with tempfile.TemporaryDirectory(prefix="hostile-") as folder:
            failures = run(folder, given)
    sys.exit(1 if failures else 0)


if __name__ == "__main__":
    main()
