"""Sessions of as many steps as a script has room for."""
from itertools import chain, product
from random import Random

from fuzz_cases.comparing import Failure, require_same
from model.graphs import LETTERS, MOST_VERTICES, Graph
from model.races import fault_of
from model.reports import report_of
from model.texts import MOST_EVENTS, MOST_SEATS, read_script

# Beside its begin and its commit a session has room for so many steps.
MOST_STEPS = MOST_EVENTS - 2
# (the lines of seats and cells are the first two)
LAST_LINE = MOST_EVENTS + 2
KINDS = ["take", "take", "grant", "grant", "remove", "holds"]


def dense(names):
    """A graph in which each vertex has one right over each, itself included."""
    places = product(range(len(names)), repeat=2)
    rights = {(names[i], names[j]): LETTERS[(9 * i + j) % len(LETTERS)] for i, j in places}
    return Graph(names, rights)


def numbered(count):
    """So many names."""
    return [f"v{number}" for number in range(count)]


def step(names, chance):
    """The words of a rule that creates nothing, or of a question who holds what, by chance."""
    kind, right = chance.choice(KINDS), chance.choice(LETTERS)
    x, y, z = chance.choices(names, k=3)
    if kind == "holds":
        return [kind, right, x, y]
    return [kind, x, y, right] if kind == "remove" else [kind, x, y, z, right]


def session(seat, steps):
    """The events of a session that is committed."""
    return [[seat, *words] for words in (["begin"], *steps, ["commit"])]


def script(seats, events, cells=1):
    """The text of a script."""
    lines = [f"seats {seats}", f"cells {cells}", *map(" ".join, events)]
    return "".join(line + "\n" for line in lines).encode()


def require_run(program, graph, played, last):
    """Requires `run` to print what the model's prints, each reply and the graph; and answers it.

    `last` is the last event's seat and outcome.
    """
    text = graph.text().encode()
    wanted, status = report_of([b"run", b"graph", b"script"], text, played)
    replies = wanted.partition(b"graph\n")[0].splitlines()
    require_same("the model's last outcome", replies[-1].decode(), f"{LAST_LINE} {last}")
    require_same("run", program.report(b"run", text, played), (wanted, b"", status))
    return wanted, b"", status


def require_session(program, graph, steps):
    """Requires a session to be committed by `run` and by `race`, with the model's replies.

    Where one seat alone has events, a race has the lines of a run.
    """
    require_same("how many steps there are", len(steps), MOST_STEPS)
    events, text = session("1", steps), graph.text().encode()
    wanted = require_run(program, graph, script(1, events), "1 done 0")
    for seats in 1, MOST_SEATS:
        told = program.report(b"race", text, script(seats, events))
        require_same(f"race with {seats} seats", told, wanted)


def play_steps_by_chance(program):
    """a session of 65,534 steps by chance, in which it creates until there is no room"""
    names, chance = numbered(40), Random(5)
    steps = [step(names, chance) for _ in range(MOST_STEPS)]
    for place in range(0, MOST_STEPS, 14):
        steps[place] = ["create", chance.choice(names), f"n{place}", "rwe"]
    for place in range(1, MOST_STEPS, 140):
        steps[place] = ["share", chance.choice(LETTERS), *chance.choices(names, k=2)]
    require_same("too many creates", MOST_STEPS // 14 + len(names) > MOST_VERTICES, True)
    require_session(program, dense(names), steps)


def play_accepted_rules(program):
    """a session of 65,534 rules, each of them accepted"""
    graph = Graph("abc", {("a", "b"): "t", ("b", "c"): "rw"})
    turn = [["take", "a", "b", "c", "rw"], ["remove", "a", "c", "rw"]]
    require_session(program, graph, turn * (MOST_STEPS // len(turn)))


def play_questions(program):
    """a session of 65,534 questions"""
    names, chance = numbered(12), Random(6)
    graph = dense(names)
    graph.names.add("apart")
    asked = [chance.choices([*names, "apart"], k=2) for _ in range(MOST_STEPS)]
    kinds = ["holds", "share"] * (MOST_STEPS // 2)
    steps = [[kind, chance.choice(LETTERS), *pair] for kind, pair in zip(kinds, asked)]
    require_session(program, graph, steps)


def play_beside_another(program):
    """a session of 65,531 steps, committed after another one, and refused for its last step

    The other one writes a, which the first step of all that follow does not touch.
    """
    names, chance = numbered(40), Random(8)
    graph = dense(names)
    graph.names |= {"a", "b"}
    graph.add("a", "b", {"r"})
    begin, *other = session("2", [["remove", "a", "b", "r"]])
    steps = [step(names, chance) for _ in range(MOST_STEPS - len(other) - 2)]
    for asked, last in (["b", "a"], "1 done 1"), (["a", "b"], "1 refused changed 0 a"):
        first, *further = session("1", [*steps, ["holds", "r", *asked]])
        events = [first, begin, *other, *further]
        require_run(program, graph, script(2, events, 2), last)


def play_all_seats(program):
    """64 sessions at once, of 1,022 steps each, by `run` and by `race`

    Each seat has vertices of its own, and seldom takes a step among those of the next one.
    """
    chance, size = Random(9), MOST_EVENTS // MOST_SEATS - 2
    names = [[f"v{seat}_{place}" for place in range(4)] for seat in range(MOST_SEATS)]
    graph = Graph(chain.from_iterable(names))
    for some in names:
        graph.edges.update(dense(some).edges)
    sessions = []
    for seat in range(MOST_SEATS):
        ways = [names[seat], names[(seat + 1) % MOST_SEATS]]
        steps = [step(chance.choices(ways, [5000, 1])[0], chance) for _ in range(size)]
        sessions.append(session(str(seat + 1), steps))
    played = script(MOST_SEATS, chain.from_iterable(zip(*sessions)), MOST_SEATS)
    text = graph.text().encode()
    wanted, status = report_of([b"run", b"graph", b"script"], text, played)
    require_same("run", program.report(b"run", text, played), (wanted, b"", status))
    told = program.report(b"race", text, played)
    require_same("the end of the race", told, (told[0], b"", 0))
    law = fault_of(graph, read_script(played), told[0].decode())
    if law:
        raise Failure(f"law of a race: {law}", told, None)


CASES = [
    play_steps_by_chance,
    play_accepted_rules,
    play_questions,
    play_beside_another,
    play_all_seats,
]
