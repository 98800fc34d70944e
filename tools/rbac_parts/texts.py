"""The graph text of what stays, and what is told where it would be too long."""
from collections import Counter, defaultdict
from glob import escape
from shlex import quote

from rbac_parts.graphs import count_of, over_whom
from rbac_parts.listing import full_name
from rbac_parts.names import legend
from rbac_parts.parts import Fault

MOST_VERTICES, MOST_BYTES, MOST_KINDS = 4096, 67_108_864, 8


def text_of(blocks, fault):
    """Blocks of lines as one text. Where it is longer than a text may be, the fault is raised."""
    parts, room = [], MOST_BYTES
    for block in blocks:
        parts.append("\n".join([*block, ""]))
        room -= len(parts[-1])
        if room < 0:
            raise Fault(fault())
    return "".join(parts)


def graph_of(remainder):
    """The graph text in blocks of lines, with what each name stands for in a comment."""
    things, names, kept = remainder.graph.things, remainder.names, remainder.kept
    yield ["# Made by tools/from_rbac; docs/RBAC.md says which right stands for what."]
    yield from (legend(things[place], names[place]) for place in kept)
    yield ["version 2", *("vertex " + names[place] for place in kept)]
    yield from ways_through(remainder)
    for x, pairs in remainder.edges():
        yield [f"edge {x} {y} {label}" for y, label in pairs]


def ways_through(remainder):
    """Comments on the edges that came of leaving out: through whom, and who that is."""
    things, names = remainder.graph.things, remainder.names
    named = {hub for ways in remainder.through for hub, _ in ways}
    yield from (legend(things[hub], names[hub]) for hub in remainder.left_out if hub in named)
    for place in remainder.kept:
        x = names[place]
        yield [f"# {x} {y} through {name}" for y, name in remainder.by_whom(place)]


def too_many(things, graph):
    """What is told where more things stay than a text has room for."""
    return f"{len(things)} vertices, {MOST_VERTICES} at most; leave out:{advice_on(things, graph)}"


def too_long(remainder):
    """What is told where the graph text had too many bytes."""
    told = f"{remainder.count()} edges, and more than {MOST_BYTES} bytes; leave out"
    graph, counts, masks = remainder.graph, Counter(), defaultdict(int)
    for ways in remainder.through:
        for hub, mask in ways:
            counts[hub] += count_of(mask)
            masks[hub] |= mask
    if not counts:
        return f"{told}:{advice_on([graph.things[place] for place in remainder.kept], graph)}"
    (hub, count), = counts.most_common(1)
    return (f"{told} of what {full_name(graph.things[hub])!a} holds, which is left out and brings "
            f"most, {count} edges:{advice_on(graph.things_in(masks[hub]), graph)}")


def advice_on(things, graph):
    """Lines with the patterns that leave out most of these things.

    Kinds that hold no rights stand first: no edge comes of leaving them out.
    """
    by_kind = defaultdict(list)
    holding = {thing.kind for thing, row in graph.rows.items() if over_whom(row)}
    for thing in things:
        by_kind[thing.kind].append(thing)
    kinds = sorted(by_kind, key=lambda kind: (kind in holding, -len(by_kind[kind]), kind))
    return "".join(f"\n  --without {pattern_of(by_kind[kind])}    ({len(by_kind[kind])})"
                   for kind in kinds[:MOST_KINDS])


def pattern_of(things):
    """The pattern, as a shell takes it, of things of one kind: in their namespace, or in all."""
    places = {thing.namespace for thing in things}
    place = "".join(places) + "/" if len(places) == 1 and places != {""} else ""
    return quote(escape(f"{things[0].kind} {place}") + "*")
