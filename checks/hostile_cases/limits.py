"""Limits on memory, stack and threads."""
import os
import random
from dataclasses import replace
from itertools import product

from hostile_cases.commands import COMMANDS, GRAPH, MIB, SECOND, all_loads, ending_for
from hostile_cases.commands import groups_of_all, load, long_names, title_of, words_for
from hostile_cases.runs import Case, Hindrance, Lawful, Says, Whole
from races import script, sparse

SOME_MEMORY = (4, 8, 12, 16, 24, 32, 64, 128, 256, 512)
AMPLE_MEMORY = 16_384


def memory_case(title, memory, words, allowed, given=os.devnull):
    """A case with so many MiB of memory."""
    hindrance = Hindrance(given=given, memory=memory * MIB)
    return Case(f"{title}, {memory} MiB of memory", words, allowed, hindrance)


def memory_cases(files):
    """The report is whole, or there is none. Events of a race may be refused for want of memory."""
    for size, it in all_loads(files):
        title = f"{title_of(it.command)}: a {size} load"
        told = it.ending
        if isinstance(told, Lawful):
            told = replace(told, may_want_memory=True)
        for memory in SOME_MEMORY:
            allowed = [told, Says("memory")]
            yield memory_case(title, memory, it.words(), allowed, it.given())
        yield memory_case(title, AMPLE_MEMORY, it.words(), [it.ending], it.given())


def stack_cases(files):
    """A stack that is small, and large enough."""
    for size, it in all_loads(files):
        hindrance = Hindrance(given=it.given(), stack=MIB // 4)
        title = f"{title_of(it.command)}: a {size} load, 256 KiB of stack"
        yield Case(title, it.words(), [it.ending], hindrance)


def large_graph_cases(files):
    """A graph as large as an input may be, and less memory than it needs, or little more."""
    full = files.path("graph_full")
    for command in COMMANDS[1:]:
        if command in SECOND:
            continue
        ending = ending_for(command, GRAPH)
        for memory in (8, 32, 64, 96, 160, 256, AMPLE_MEMORY):
            allowed = [Says("memory")] if memory <= 64 else [ending, Says("memory")]
            allowed = [ending] if memory == AMPLE_MEMORY else allowed
            title = f"{title_of(command)}: a graph of 64 MiB"
            yield memory_case(title, memory, words_for(command, full), allowed)


def large_second_cases(files):
    """A second file as large as an input may be, and less memory than it needs."""
    for command, memory in product(SECOND, (8, 32, 64)):
        words = [command, files.path("graph"), files.path("line_feeds")]
        title = f"{title_of(command)}: a second file of 64 MiB"
        yield memory_case(title, memory, words, [Says("memory")])


def group_cases(files):
    """A policy of little more than a MB whose groups have 266 million members, and a smaller one."""
    graph = files.text("group_graph", long_names())
    for count, limits in {65_000: (16, 64, 256), 256: (64, AMPLE_MEMORY)}.items():
        policy = groups_of_all(count)
        kept = Whole(b"%d holds\nkept\n" % policy.count(b"\n"), 0)
        words = [b"verify", graph, files.text(f"{count}_groups", policy)]
        title = f"verify: {count:,} groups of all vertices"
        for memory in limits:
            allowed = [kept] if memory == AMPLE_MEMORY else [kept, Says("memory")]
            yield memory_case(title, memory, words, allowed)


def thread_cases(files):
    """Where a thread can't be started, its work is done all the same."""
    graph = sparse(256, 1024, random.Random(31)).text().encode()
    events = script(64, 640, 256, random.Random(37)).encode()
    loads = [load(files, "threads", b"race", graph, events)]
    for workers in (b"1", b"4", b"16"):
        further = [b"t", b"--workers", workers]
        loads.append(load(files, "threads", b"table", graph, further=further))
    # (the limit counts all threads of a user: of one who has others running, none can be started)
    limits = (1, 2, 3, 8, 1000) if os.geteuid() == 0 else (1,)
    for it, threads in product(loads, limits):
        name = " ".join([title_of(it.command), *(word.decode() for word in it.further)])
        hindrance = Hindrance(threads=threads, is_other_user=True)
        yield Case(f"{name}: {threads} threads", it.words(), [it.ending], hindrance)
