"""What is left of a graph once vertices are left out, all at once.

Who comes to a left-out vertex needs nobody's help to have what it holds. Let its *takers* be those
that stay and come to it along edges with t, through left-out ones alone. Each of them gets the
rights that it holds over those that stay. And who may grant to it, or one of its takers, may leave
rights there for these to fetch: each granter gets g over each taker, but nobody over itself; the
granters of a vertex are those that stay and have g over it, and the takers of a left-out one that
has. So no way between those that stay is lost, whatever stands on it.
"""
from collections import defaultdict, deque

from rbac_parts.graphs import count_of, labels_in, over_whom, places_in


class Remainder:
    """The things that stay, in the order of their names, and the rights among them.

    By place: `rows` has the row of each; `through` has of each that stays pairs of the place of a
    left-out thing and a mask: over whom it has rights that are not its own and that it comes to by
    that thing, the first in name order.
    """

    def __init__(self, names, graph, left_out):
        self.graph, in_order = graph, sorted(names, key=names.get)
        self.kept = [graph.places[thing] for thing in in_order if thing not in left_out]
        self.left_out = [graph.places[thing] for thing in in_order if thing in left_out]
        self.names = [names.get(thing) for thing in graph.things]
        self.order = {graph.places[thing]: number for number, thing in enumerate(in_order)}
        stays, count = sum(1 << place for place in self.kept), len(graph.things)
        self.own = [{right: mask & stays for right, mask in graph.rows[thing].items()}
                    for thing in graph.things]
        self.rows = [defaultdict(int, row) for row in self.own]
        self.takers, self.granters = self.those_with("t"), self.those_with("g")
        self.fetchers, self.told = [0] * count, [0] * count
        self.through, self.passed = [[] for _ in range(count)], {}
        self.spread_takers()
        self.spread_granters()
        for place in self.left_out:
            self.pass_on(place)

    def ways(self, right, places):
        """Of each of some places, those left out over which it has a right."""
        gone = sum(1 << place for place in self.left_out)
        rows, things = self.graph.rows, self.graph.things
        return {place: list(places_in(rows[things[place]][right] & gone)) for place in places}

    def those_with(self, right):
        """Of each place that is left out, which of those that stay have a right over it."""
        found = [0] * len(self.graph.things)
        for place, others in self.ways(right, self.kept).items():
            for other in others:
                found[other] |= 1 << place
        return found

    def spread_takers(self):
        """Makes whoever takes from a left-out place a taker of all from which that one takes."""
        ways, takers = self.ways("t", self.left_out), self.takers
        todo, waiting = deque(self.left_out), set(self.left_out)
        while todo:
            place = todo.popleft()
            waiting.discard(place)
            grown = [it for it in ways[place] if takers[place] & ~takers[it]]
            for it in grown:
                takers[it] |= takers[place]
            todo.extend(it for it in grown if it not in waiting)
            waiting.update(grown)

    def spread_granters(self):
        """Finds the granters that are takers, and who fetches what takers of each may leave."""
        for place, others in self.ways("g", self.left_out).items():
            for it in others:
                self.granters[it] |= self.takers[place]
                self.fetchers[place] |= self.takers[it]

    def pass_on(self, hub):
        """Gives those who take from a left-out place, or grant to it, what they get by it."""
        takers, fetchers = self.takers[hub], self.fetchers[hub]
        granters = self.granters[hub] if takers else 0
        held = [(right, mask) for right, mask in self.own[hub].items() if mask]
        if self.was_passed_on((takers, fetchers, granters), held):
            return
        for place in places_in(takers | granters):
            bit = 1 << place
            given = held if takers & bit else []
            if takers & bit and fetchers:
                given = [*given, ("g", fetchers & ~bit)]
            if granters & bit:
                given = [*given, ("g", takers & ~bit)]
            self.give(place, given, hub)

    def was_passed_on(self, ends, held):
        """Whether what has these takers, fetchers and granters brings nothing by what it holds.

        So it is where earlier ones with the same have brought all of it.
        """
        is_new = ends not in self.passed
        before = self.passed.setdefault(ends, defaultdict(int))
        more = [(right, mask) for right, mask in held if mask & ~before[right]]
        for right, mask in more:
            before[right] |= mask
        return not is_new and not more

    def give(self, place, given, hub):
        """Gives one that stays rights that it comes to by a left-out place."""
        row, own, new = self.rows[place], self.own[place], 0
        for right, mask in given:
            row[right] |= mask
            new |= mask & ~own.get(right, 0)
        new &= ~self.told[place]
        if new:
            self.told[place] |= new
            self.through[place].append((hub, new))

    def count(self):
        """How many edges there are."""
        return sum(count_of(over_whom(self.rows[place])) for place in self.kept)

    def count_new(self):
        """How many of them have rights that came of leaving out."""
        return sum(map(count_of, self.told))

    def by_whom(self, place):
        """Over whom one that stays has rights that came of leaving out, and by whom: names."""
        hubs = {end: hub for hub, mask in self.through[place] for end in places_in(mask)}
        return [(self.names[end], self.names[hubs[end]])
                for end in sorted(hubs, key=self.order.get)]

    def edges(self):
        """The edges from each that stays: its name, and pairs of a name and its letters."""
        for place in self.kept:
            labels = dict(labels_in(self.rows[place]))
            ends = sorted(labels, key=self.order.get)
            yield self.names[place], [(self.names[end], labels[end]) for end in ends]
