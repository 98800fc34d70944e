#!/usr/bin/env python3
"""Times the program on heavy inputs that it makes itself, and prints seconds and peak memory for each command.

bench.py PROGRAM [--beside OTHER] [--only WORD] [--rounds N]. A time is the best of the rounds. Each workload comes
twice, on graphs of 1,024 and of 4,096 vertices, the second time with how many times as long it took, and for how many
times as much. A time of a few milliseconds says little.

With --beside another program, as one built before a change, has its turns in the same rounds, in random order, since
the pace of a machine changes from one minute to the next. Its figures follow, with the first program's time in units
of its own, and a word where the two print something else.
"""
import argparse
import ctypes
import itertools
import os
import random
import re
import subprocess
import sys
import tempfile
import time


def vertices(count):
    version = "version 2\n" if count > 1024 else ""
    return version + "".join(f"vertex v{i}\n" for i in range(count))


def even(count, edges):
    """As many edges of one right, equally many out of each vertex."""
    step = count * count // edges
    targets = ((i, j) for i in range(count) for j in range(i * step // count, count, step))
    return vertices(count) + "".join(f"edge v{i} v{j} {'tgrwe'[(3 * i + j) % 5]}\n" for i, j in targets)


def shuffled(graph, seed=19):
    """The same graph, its edges in random order."""
    lines = graph.splitlines(True)
    edges = [line for line in lines if line.startswith("edge")]
    random.Random(seed).shuffle(edges)
    return "".join(line for line in lines if not line.startswith("edge")) + "".join(edges)


def falling(graph):
    """The same graph, its edges from the last to the first."""
    lines = graph.splitlines(True)
    edges = [line for line in lines if line.startswith("edge")]
    return "".join(line for line in lines if not line.startswith("edge")) + "".join(reversed(edges))


def colliding(count):
    """As many names that the hash of the index map puts into one group of places, which it has for 512."""
    low, factor, start = 2**64 - 1, 0x9E3779B97F4A7C15, 0x243F6A8885A308D3 + 16
    found = []
    for letters in itertools.product("abcdefghijklmnopqrstuvwxyz", repeat=5):
        name = "".join(letters) + "_on"
        product = (int.from_bytes(name.encode(), "little") ^ start) * factor
        folded = (product ^ product >> 64) & low
        if (folded ^ folded >> 32) & 511 == 3:
            found.append(name)
            if len(found) == count:
                return found


def in_name_order(graph):
    """The same graph, its edges as the program writes them: by the names of source and target."""
    lines = graph.splitlines(True)
    edges = sorted((line for line in lines if line.startswith("edge")), key=str.split)
    return "".join(line for line in lines if not line.startswith("edge")) + "".join(edges)


def alike(count):
    """As many names of 16 bytes, of which each 37 share the first 15."""
    ends = itertools.product("_0123456789abcdefghijklmnopqrstuvwxyz", repeat=3)
    return ["same_for_all_" + "".join(end) for end in itertools.islice(ends, count)]


def with_names(graph, names):
    """The same graph with other names: names[i] for v{i}."""
    return re.sub(r"\bv([0-9]+)\b", lambda number: names[int(number[1])], graph)


def sparse(count, edges, seed=11):
    """As many edges at random places."""
    chance, pairs = random.Random(seed), set()
    while len(pairs) < edges:
        pairs.add((chance.randrange(count), chance.randrange(count)))
    rights = ["t", "g", "r", "w", "rw", "tg"]
    return vertices(count) + "".join(f"edge v{i} v{j} {chance.choice(rights)}\n" for i, j in sorted(pairs))


def commented(graph, size):
    """The same graph, before each of its lines so many comments and blank lines that the text has some such size."""
    lines = graph.splitlines(True)
    filler = "#" + 24 * " comment" + "\n\n"
    before = filler * ((size - len(graph)) // (len(filler) * len(lines)))
    return "".join(before + line for line in lines)


def chain(count, right, held="r"):
    """Each vertex has the right over the next one, and the last but one holds what is asked for over the last."""
    links = "".join(f"edge v{i} v{i + 1} {right}\n" for i in range(count - 2))
    return vertices(count) + links + f"edge v{count - 2} v{count - 1} {held}\n"


def tied(count, edges, ties, holders):
    """Some such number of edges: so many links from one vertex to the others, which are an island, dense with links; so
    many of these hold a right over the last vertex."""
    inner = count - 2
    step = -(-inner * inner // edges)
    links = ((i, j) for i in range(inner) for j in range(i * step // inner, inner, step))
    lines = [f"edge v0 v{i + 1} t\n" for i in range(ties)]
    lines += (f"edge v{i + 1} v{j + 1} t\n" for i, j in links)
    lines += (f"edge v{inner - i} v{count - 1} r\n" for i in range(holders))
    return vertices(count) + "".join(lines)


def star(count):
    """One vertex has take and grant over all."""
    return vertices(count) + "".join(f"edge v0 v{i} tg\n" for i in range(count))


def rules(count, number, seed=13):
    """Rules that a star accepts, one after another."""
    chance, lines = random.Random(seed), []
    for i in range(number):
        x, y = chance.randrange(1, count), chance.randrange(count)
        lines.append(f"remove v{x} v{y} rwe" if i % 3 == 1 else f"grant v0 v{x} v{y} {chance.choice(['t', 'g', 'tg'])}")
    return "\n".join(lines) + "\n"


def script(seats, commits, count, seed=17):
    """Sessions of three steps, one seat after another."""
    chance, lines = random.Random(seed), [f"seats {seats}", "cells 4096"]
    for i in range(commits):
        seat = i % seats + 1
        lines.append(f"{seat} begin")
        for kind in ("remove v{} v{} w", "holds r v{} v{}", "remove v{} v{} e"):
            lines.append(f"{seat} " + kind.format(chance.randrange(count), chance.randrange(count)))
        lines.append(f"{seat} commit")
    return "\n".join(lines) + "\n"


def policy(count, number, seed=29):
    """So many lines of all kinds, about vertices and groups of 16, behind the lines of these groups."""
    chance = random.Random(seed)
    names, groups = [f"v{i}" for i in range(count)], [f"@g{i}" for i in range(64)]
    lines = [f"group {group[1:]} {' '.join(chance.sample(names, 16))}" for group in groups]
    for i in range(number):
        name, some, others = chance.choice(names), chance.choice(groups), chance.choice(groups)
        forms = f"never ad {some} {name}", f"may r {name} {some}", f"only we {name} {some}", f"never e {some} {others}"
        lines.append(forms[i % len(forms)])
    return "\n".join(lines) + "\n"


def group_of_all(count):
    """The lines of a group of all vertices, 16 in each."""
    names = [f"v{i}" for i in range(count)]
    return [f"group all {' '.join(names[i:i + 16])}" for i in range(0, count, 16)]


def policy_of_all(count, number):
    """A group of all vertices, and so many lines of which each names it and holds."""
    lines = group_of_all(count) + [f"only tgrwe v{i * 7 % count} @all" for i in range(number)]
    return "\n".join(lines) + "\n"


def policy_of_groups(count, number):
    """A group of all vertices, and so many groups of which each takes it in."""
    lines = group_of_all(count) + [f"group g{i} @all" for i in range(number)]
    return "\n".join(lines) + "\n"


SIZES = (1024, 4096)
MANY = 1024 * 1024


def workloads(count):
    """Workloads on graphs of so many vertices: what is done, how much of what, and the run.

    A run is the first input, the second or None, and the words; without words the first input is standard input.
    """
    edges, last = even(count, MANY), f"v{count - 1}"
    yield "rules on standard input", 65536, "rules", star(count) + "rules\n" + rules(count, 65536), None, []
    yield "apply", 65536, "rules", star(count), rules(count, 65536), ["apply"]
    yield "check", MANY, "edges", edges, None, ["check"]
    yield "check in random order", MANY, "edges", shuffled(edges), None, ["check"]
    yield "check from last to first", MANY, "edges", falling(edges), None, ["check"]
    yield "check in name order", MANY, "edges", in_name_order(edges), None, ["check"]
    full = alike(count)
    yield "check of names that share 15 bytes", MANY, "edges", with_names(edges, full), None, ["check"]
    few = with_names(sparse(count, 4 * count), full)
    yield "check of few edges and such names", 4 * count, "edges", few, None, ["check"]
    talk = commented(sparse(count, 4 * count), 20_000_000)
    yield "check of comments", 20, "MB", talk, None, ["check"]
    collided = with_names(edges, colliding(count))
    yield "check of names that collide", MANY, "edges", collided, None, ["check"]
    yield "the same in random order", MANY, "edges", shuffled(collided), None, ["check"]
    hub, acts = with_names(star(count), colliding(count)), with_names(rules(count, 65536), colliding(count))
    yield "apply with names that collide", 65536, "rules", hub, acts, ["apply"]
    yield "islands", MANY, "edges", edges, None, ["islands"]
    yield "islands of one vertex", count, "islands", chain(count, "r"), None, ["islands"]
    yield "share", MANY, "edges", edges, None, ["share", "r", "v0", last]
    yield "derive along a chain", count - 2, "links", chain(count, "g"), None, ["derive", "r", "v0", last]
    five = chain(count, "g", "tgrwe")
    yield "derive five rights along a chain", count - 2, "links", five, None, ["derive", "tgrwe", "v0", last]
    yield "table of one island", count * count, "cells", chain(count, "g"), None, ["table", "r"]
    yield "table of islands of one vertex", count * count, "cells", chain(count, "r"), None, ["table", "r"]
    yield "who", MANY, "edges", edges, None, ["who", "r", last]
    yield "reach", MANY, "edges", edges, None, ["reach", "v0"]
    yield "who of few edges", 4 * count, "edges", sparse(count, 4 * count), None, ["who", "r", last]
    few_ties, few_holders = tied(count, MANY, 10, count - 2), tied(count, MANY, 600, 300)
    yield "cut of 10 edges", MANY, "edges", few_ties, None, ["cut", "r", "v0", last]
    yield "share of that graph", MANY, "edges", few_ties, None, ["share", "r", "v0", last]
    yield "cut of 300 edges", MANY, "edges", few_holders, None, ["cut", "r", "v0", last]
    yield "share of this graph", MANY, "edges", few_holders, None, ["share", "r", "v0", last]
    yield "verify", 10000, "lines", edges, policy(count, 10000), ["verify"]
    yield "verify of few edges", 10000, "lines", sparse(count, 4 * count), policy(count, 10000), ["verify"]
    yield "verify with a group of all", 10000, "lines", edges, policy_of_all(count, 10000), ["verify"]
    grouped = policy_of_groups(count, 1000)
    yield "verify with many groups of all", 1000 * count, "members", sparse(count, 4 * count), grouped, ["verify"]
    asked = f"never r v0 {last}\n" * 16
    yield "verify --why along a chain", 16, "lines", chain(count, "g"), asked, ["verify", "--why"]
    for seats in (1, 16, 64):
        title = f"run by {seats} seat{'s' * (seats > 1)}"
        yield title, 4096, "commits", sparse(count, 4096), script(seats, 4096, count), ["run"]
    graph, events = with_names(sparse(count, 4096), colliding(count)), with_names(script(16, 4096, count), colliding(count))
    yield "run by 16 seats with names that collide", 4096, "commits", graph, events, ["run"]


# The shell leaves the program to this process and ends; only then does the program begin. A process's peak counts
# the process that it was started from as well, and a shell is small.
START = 'exec 3<&0; { read -r _ <&3; exec "$@" < "$0" > /dev/null 3<&-; } &'
ADOPT_ORPHANS = 36


def measured(argv, given):
    """Seconds, status, and peak memory in MiB of one run."""
    gate, hold = os.pipe()
    subprocess.run(["sh", "-c", START, given] + argv, stdin=gate, check=True)
    os.close(gate)
    begun = time.perf_counter()
    os.close(hold)
    _, status, used = os.wait4(-1, 0)
    return time.perf_counter() - begun, os.waitstatus_to_exitcode(status), used.ru_maxrss / 1024


def output(argv, given):
    with open(given) as text:
        run = subprocess.run(argv, stdin=text, stdout=subprocess.PIPE, stderr=subprocess.DEVNULL)
    return run.stdout, run.returncode


def runs_of(programs, rounds, first, second, words):
    """Of each program the runs on these inputs, in turns of random order, and whether all print the same."""
    with tempfile.TemporaryDirectory() as folder:
        paths = []
        for name, text in (("first", first), ("second", second)):
            if text is not None:
                paths.append(os.path.join(folder, name))
                with open(paths[-1], "w") as out:
                    out.write(text)
        rest, given = (words[:1] + paths + words[1:], os.devnull) if words else ([], paths[0])
        is_same = len(programs) == 1 or len({output([it] + rest, given) for it in programs}) == 1
        runs = [[] for _ in programs]
        for _ in range(rounds):
            for place in random.sample(range(len(programs)), len(programs)):
                runs[place].append(measured([programs[place]] + rest, given))
        return runs, is_same


def figures(runs):
    """The best time of some runs, their status, and their peak memory."""
    return min(run[0] for run in runs), runs[0][1], max(run[2] for run in runs)


def main():
    options = argparse.ArgumentParser(description=__doc__)
    options.add_argument("program")
    options.add_argument("--beside")
    options.add_argument("--only", default="")
    options.add_argument("--rounds", type=int, default=3)
    given = options.parse_args()
    programs = [os.path.abspath(it) for it in (given.program, given.beside) if it]
    ctypes.CDLL(None).prctl(ADOPT_ORPHANS, 1)
    for sizes in zip(*map(workloads, SIZES)):
        base = None
        for count, (title, amount, unit, *run) in zip(SIZES, sizes):
            if given.only not in title:
                continue
            runs, is_same = runs_of(programs, given.rounds, *run)
            seconds, status, memory = figures(runs[0])
            what = f"{title}, {count:,} vertices, {amount:,} {unit}"
            line = f"{what:<68} {seconds:8.3f} s {memory:8.1f} MiB  status {status}"
            if base:
                line += f"; {seconds / base[0]:.1f} times as long for {amount / base[1]:.0f} times as many {unit}"
            for other in map(figures, runs[1:]):
                line += f"; beside {other[0]:.3f} s {other[2]:.1f} MiB, {seconds / other[0]:.2f} of its time"
            print(line if is_same else line + "; THEY PRINT SOMETHING ELSE", flush=True)
            base = base or (seconds, amount)


if __name__ == "__main__":
    sys.exit(main())
