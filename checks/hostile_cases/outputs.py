"""Outputs that take no report, or not all of it."""
import os
from itertools import product

from hostile_cases.commands import COMMANDS, all_loads, second_name, title_of, words_for
from hostile_cases.runs import BadLine, Case, CutOff, Hindrance, Says, Whole

TAKING_NOTHING = {
    "a closed output": "closed",
    "a full device": "/dev/full",
    "a pipe that was left": "left",
}


def output_cases(files):
    """Outputs that take nothing."""
    for (size, load), (title, output) in product(all_loads(files), TAKING_NOTHING.items()):
        name = f"{title_of(load.command)}: a {size} report to {title}"
        hindrance = Hindrance(given=load.given(), output=output)
        yield Case(name, load.words(), [Says("write")], hindrance)


def part_cases(files):
    """Outputs that take a part, and one that takes all, but late."""
    for size, load in all_loads(files):
        name = f"{title_of(load.command)}: a {size} report to"
        cut_off = CutOff(load.ending.text if isinstance(load.ending, Whole) else None)
        sized = os.fsdecode(files.text(f"sized_{size}_{title_of(load.command)}"))
        hindrance = Hindrance(given=load.given(), output=sized, file_size=3)
        yield Case(f"{name} a file of 3 bytes", load.words(), [cut_off], hindrance)
        late = Hindrance(given=load.given(), output="late")
        yield Case(f"{name} a reader that comes late", load.words(), [load.ending], late)
        # (a pipe takes the whole of a small report before its reader leaves)
        if size == "large" and load.command != b"share":
            leaving = Hindrance(given=load.given(), output="leaving")
            yield Case(f"{name} a reader that leaves early", load.words(), [cut_off], leaving)


def refusal_cases(files):
    """Reports that are refusals, to outputs that take nothing."""
    for command, (title, output) in product(COMMANDS[1:], TAKING_NOTHING.items()):
        words = words_for(command, files.path("faulty"), files.path("empty"))
        name = f"{title_of(command)}: a refusal to {title}"
        yield Case(name, words, [Says("write")], Hindrance(output=output))


def empty_report_cases(files):
    """Reports without a byte, to outputs that take nothing: they are whole all the same."""
    empty, no_edges = files.path("empty"), files.text("no_edges", b"vertex a\nvertex c\n")
    graphs = dict.fromkeys((b"check", b"islands", b"table"), empty)
    graphs |= dict.fromkeys((b"who", b"reach"), no_edges)
    for (command, graph), (title, output) in product(graphs.items(), TAKING_NOTHING.items()):
        name = f"{title_of(command)}: an empty report to {title}"
        words, hindrance = words_for(command, graph), Hindrance(output=output)
        yield Case(name, words, [Whole(b"", 0)], hindrance)


def silent_cases(files):
    """Messages that nobody takes: the status tells."""
    hindrances = {
        "standard error is closed": Hindrance(complaint="closed"),
        "standard error is full": Hindrance(complaint="/dev/full"),
        "all streams are closed": Hindrance(given="closed", output="closed", complaint="closed"),
    }
    missing, graph = files.path("missing"), files.path("graph")
    for command, (title, hindrance) in product(COMMANDS[1:], hindrances.items()):
        name = f"{title_of(command)}: {title}, and"
        words = words_for(command, missing, missing)
        yield Case(f"{name} the graph is missing", words, [Says("graph")], hindrance)
        words = words_for(command, graph, files.path(second_name(command)))
        full = Hindrance(given=hindrance.given, output="/dev/full", complaint=hindrance.complaint)
        yield Case(f"{name} standard output is full", words, [Says("write")], full)
        words = [*words, b"x"]
        yield Case(f"{name} a word too many", words, [BadLine(words)], hindrance)
