"""Least cuts: which rights have to go so that a vertex can't come to have one over another.

Where few edges come into question all sets of them are tried, and all parts of their labels. Else
units are sent through a network of pipes, as many as go through; the program has another way.
"""
from collections import defaultdict, deque
from itertools import chain, combinations, product
from math import inf

from model.graphs import letters_of

LINKS = frozenset("tg")
# Of so many edges all sets are tried.
FEW = 7
END = "the end of the pipes"


def able(edges, right, y):
    """Whoever can come to have the right over y: those that hold it, and all linked with them."""
    linked = defaultdict(set)
    for (u, v), rights in edges.items():
        if rights & LINKS:
            linked[u].add(v)
            linked[v].add(u)
    met = {u for (u, v), rights in edges.items() if v == y and right in rights}
    queue = deque(met)
    while queue:
        new = linked[queue.popleft()] - met
        met |= new
        queue.extend(new)
    return met


# by trying all sets of edges


def left_without(edges, right, gone):
    """The edges once each of these has lost its link, the right, or both, in all ways."""
    parts = (LINKS, {right}, LINKS | {right})
    for lost in product(parts, repeat=len(gone)):
        yield {**edges, **{pair: edges[pair] - part for pair, part in zip(gone, lost)}}


def able_after_sets(edges, right, x, y, free):
    """Whoever can after the least cut nearest to x; or None where there is no cut."""
    for size in range(len(free) + 1):
        sets = combinations(free, size)
        left = chain.from_iterable(left_without(edges, right, gone) for gone in sets)
        after = [those for those in (able(it, right, y) for it in left) if x not in those]
        if after:
            return set().union(*after)
    return None


# by sending units


def pipes(edges, right, y, kept):
    """How many units may go from one place to another: along a link, or by the right to the end."""
    room = defaultdict(lambda: defaultdict(int))
    for (u, v), rights in edges.items():
        most = inf if (u, v) in kept else 1
        if v == y and right in rights:
            # (whoever comes to either end of a link that has the right comes to it)
            for end in (u, v) if rights & LINKS else (u,):
                room[end][u, v] = inf
            room[u, v][END] = most
        elif rights & LINKS:
            room[u][v] += most
            room[v][u] += most
    return room


def met_from(room, x):
    """What a further unit from x can come to, each with the place before it, up to the end."""
    met_by, left = {x: None}, [x]
    while left and END not in met_by:
        at = left.pop()
        new = [place for place, most in room[at].items() if most > 0 and place not in met_by]
        met_by.update(dict.fromkeys(new, at))
        left += new
    return met_by


def send(room, met_by):
    """Sends a unit to the end, the way that it was met."""
    place = END
    while met_by[place] is not None:
        before = met_by[place]
        room[before][place] -= 1
        room[place][before] += 1
        place = before


def able_after_units(edges, right, x, y, kept):
    """Whoever can after the least cut nearest to x; or None where there is no cut."""
    if x in able({pair: edges[pair] for pair in edges if pair in kept}, right, y):
        return None
    room = pipes(edges, right, y, kept)
    near = met_from(room, x)
    while END in near:
        send(room, near)
        near = met_from(room, x)
    beyond = {}
    for (u, v), rights in edges.items():
        # (who is near x holds nothing, and is linked with nobody else)
        if u not in near:
            beyond[u, v] = rights - LINKS if v in near else rights
    return able(beyond, right, y)


# the cut


def in_question(edges, right, x, y):
    """The edges that can bring x to the right: links of its island, and rights over y there."""
    island = able({**edges, (x, ""): {"r"}}, "r", "")
    for (u, v), rights in edges.items():
        if u in island and (rights & LINKS or v == y and right in rights):
            yield u, v


def least_cut(graph, right, x, y, kept):
    """The lines of the least cut nearest to x, or None where the kept edges leave no cut."""
    edges = {pair: rights for pair, rights in graph.edges.items() if rights}
    free = [pair for pair in in_question(edges, right, x, y) if pair not in kept]
    if len(free) <= FEW:
        after = able_after_sets(edges, right, x, y, free)
    else:
        after = able_after_units(edges, right, x, y, kept)
    if after is None:
        return None
    lines = []
    for (u, v), rights in sorted(edges.items()):
        gone = {right} if v == y and u not in after else set()
        gone |= LINKS if (u in after) != (v in after) else set()
        if gone & rights:
            lines.append(f"remove {u} {v} {letters_of(gone & rights)}\n")
    return lines
