"""Gives asks to the program, and says where its answers differ."""
import os
import subprocess
import tempfile
from concurrent.futures import ThreadPoolExecutor
from functools import partial
from itertools import zip_longest
from pathlib import Path

from cases_parts.spelling import spelled

LONGEST_RUN = 60
# How many lines that differ are shown of a report.
MOST_DIFFERENCES = 4


def differences_with(program, asks):
    """What differs in each ask when the program is given it, as lines; none where all is as it has to be."""
    with ThreadPoolExecutor(os.cpu_count()) as pool:
        return list(pool.map(partial(difference_of, program), asks))


def difference_of(program, ask):
    """What differs when the program is given an ask, as lines."""
    with tempfile.TemporaryDirectory(prefix="cases-") as folder:
        for name, text in ask.texts.items():
            Path(folder, name).write_bytes(text.bytes)
        given = ask.standard_input.bytes if ask.standard_input else b""
        words = [program, *ask.words]
        try:
            ran = subprocess.run(words, input=given, cwd=folder, env={}, capture_output=True, timeout=LONGEST_RUN)
        except subprocess.TimeoutExpired:
            return [f"it had not ended in {LONGEST_RUN} seconds"]
    return [
        *differing_numbers("status", ask.status, ran.returncode),
        *differing_lines("report", ask.report.bytes, ran.stdout),
        *differing_lines("error", ask.error.bytes if ask.error else b"", ran.stderr),
    ]


def differing_numbers(what, wanted, found):
    """A line that says which number was wanted and which found, where they differ."""
    if wanted != found:
        yield f"{what}: wanted {wanted}, found {found}"


def differing_lines(what, wanted, found):
    """The first lines that differ, as they are written in a case."""
    pairs = zip_longest(lines_of(wanted), lines_of(found))
    differing = [(number, *pair) for number, pair in enumerate(pairs, 1) if pair[0] != pair[1]]
    for number, one, other in differing[:MOST_DIFFERENCES]:
        yield f"{what} line {number}"
        yield f"  wanted {shown(one)}"
        yield f"  found  {shown(other)}"
    if len(differing) > MOST_DIFFERENCES:
        yield f"{what}: {len(differing) - MOST_DIFFERENCES} lines more differ"


def lines_of(text):
    """The lines of a text, each with its line feed where it has one."""
    lines = [line + b"\n" for line in text.split(b"\n")]
    last = lines.pop()[:-1]
    return [*lines, last] if last else lines


def shown(line):
    """A line as it is written in a case."""
    return "no line" if line is None else f"| {spelled(line)}"
