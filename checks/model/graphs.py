"""Protection graphs by sets: rules, islands, sharing and derivations.

Steps and replies are the words of the texts: a step is ["take", "a", "b", "c", "r"] or
["holds", "r", "a", "b"], a reply is "done" or "refused not-held r".
"""
from collections import defaultdict, deque, namedtuple
from itertools import count

# What a graph text of a version can say: the letters of its rights, and how many vertices.
Version = namedtuple("Version", "letters most_vertices")
FIRST, SECOND = VERSIONS = (Version("tgrwe", 1024), Version("tgrwead", 4096))
LETTERS, MOST_VERTICES = SECOND
QUESTIONS = ("holds", "share")


def letters_of(rights):
    """The word of a set of rights that is not empty."""
    return "".join(letter for letter in LETTERS if letter in rights)


class Graph:
    """A set of names, and the rights that one has over another."""

    def __init__(self, names=(), edges=()):
        self.names = set(names)
        self.edges = {pair: frozenset(rights) for pair, rights in dict(edges).items()}

    def copy(self):
        """A graph of its own with the same names and rights."""
        graph = Graph(self.names)
        graph.edges = dict(self.edges)
        return graph

    def rights(self, x, y):
        """The rights of x over y."""
        return self.edges.get((x, y), frozenset())

    def add(self, x, y, rights):
        """Gives x rights over y."""
        if rights:
            self.edges[x, y] = self.rights(x, y) | rights

    def remove(self, x, y, rights):
        """Takes from x rights over y."""
        self.edges[x, y] = self.rights(x, y) - rights

    def fits(self, version):
        """Whether a text of a version can say the graph."""
        letters, most = version
        return len(self.names) <= most and all(map(set(letters).issuperset, self.edges.values()))

    def text(self):
        """The canonical text. It names its version only where the first one can't say the graph."""
        lines = [] if self.fits(FIRST) else ["version 2\n"]
        lines += (f"vertex {name}\n" for name in sorted(self.names))
        pairs = sorted(pair for pair, rights in self.edges.items() if rights)
        lines += (f"edge {x} {y} {letters_of(self.edges[x, y])}\n" for x, y in pairs)
        return "".join(lines)

    # rules and questions

    def refusal(self, kind, named, rights, most):
        """The first refusal that applies to a rule, or None. `most` is the limit of vertices."""
        for name in named[:1] if kind == "create" else named:
            if name not in self.names:
                return f"unknown {name}"
        if kind == "create":
            if named[1] in self.names:
                return f"taken {named[1]}"
            return "full" if most is not None and len(self.names) >= most else None
        if not rights:
            return "empty"
        if kind == "remove":
            return None
        x, y, z = named
        needed, source = ("t", (y, z)) if kind == "take" else ("g", (x, z))
        if needed not in self.rights(x, y):
            return f"no-{kind}"
        missing = rights - self.rights(*source)
        return f"not-held {letters_of(missing)}" if missing else None

    def apply(self, step, most=None):
        """Carries out a rule if nothing refuses it, and replies."""
        kind, *named, word = step
        rights = set(word) - {"-"}
        refusal = self.refusal(kind, named, rights, most)
        if refusal:
            return f"refused {refusal}"
        if kind == "remove":
            self.remove(*named, rights)
        elif kind == "create":
            self.names.add(named[1])
            self.add(*named, rights)
        else:
            self.add(named[0] if kind == "take" else named[1], named[2], rights)
        return "done"

    def reply(self, step, most=None):
        """Plays a rule or a question, and replies."""
        kind, right, *pair = step
        if kind not in QUESTIONS:
            return self.apply(step, most)
        for name in pair:
            if name not in self.names:
                return f"refused unknown {name}"
        holds = right in self.rights(*pair) if kind == "holds" else self.can_share(right, *pair)
        return "yes" if holds else "no"

    # sharing

    def neighbours(self):
        """The linked vertices of each vertex: those with take or grant on an edge between them."""
        linked = {name: set() for name in self.names}
        for (x, y), rights in self.edges.items():
            if rights & {"t", "g"}:
                linked[x].add(y)
                linked[y].add(x)
        return linked

    def islands(self):
        """The islands as sorted lists, in order of their least names."""
        linked, left, found = self.neighbours(), set(self.names), []
        for name in sorted(self.names):
            if name in left:
                found.append(sorted(reached(linked, name)))
                left.difference_update(found[-1])
        return found

    def can_share(self, rights, x, y):
        """Whether each of the rights over y is one that some vertex of the island of x has."""
        island = reached(self.neighbours(), x)
        return all(any(right in self.rights(s, y) for s in island) for right in rights)

    def table(self, right):
        """Each island, and those over whom its vertices can come to have the right."""
        held = defaultdict(set)
        for (x, y), rights in self.edges.items():
            if right in rights:
                held[x].add(y)
        return [(island, set().union(*(held[x] for x in island))) for island in self.islands()]

    def reach(self):
        """Of each vertex the rights that it can come to have, by the vertex that they are over."""
        found = {}
        for island in self.islands():
            found.update(dict.fromkeys(island, {}))
        for (x, y), rights in self.edges.items():
            if rights:
                found[x][y] = found[x].get(y, frozenset()) | rights
        return found

    # derivations

    def chain(self, right, x, y):
        """The vertices from a holder of the right over y to x, found breadth first, or None."""
        met_by = {}
        for vertex, earlier in breadth_first(self.neighbours(), x):
            met_by[vertex] = earlier
            if right in self.rights(vertex, y):
                return followed(met_by, vertex)
        return None

    def move(self, q, p, helpers, goal):
        """The rules that move a right from q to its neighbour p; `goal` is the vertex and right."""
        if "t" in self.rights(p, q):
            return [f"take {p} {q} {goal}"]
        if "g" in self.rights(q, p):
            return [f"grant {q} {p} {goal}"]
        helper = next(helpers)
        hand_over = f"grant {p} {q} {helper} g"
        if "g" not in self.rights(p, q):
            hand_over = f"take {q} {p} {helper} g"
        leave, fetch = f"grant {q} {helper} {goal}", f"take {p} {helper} {goal}"
        return [f"create {p} {helper} tg", hand_over, leave, fetch]

    def derivation(self, rights, x, y):
        """The lines of the rules that give x the rights over y, or None where no rules do.

        There is a part for each right, in the order of the letters.
        """
        chains = [(right, self.chain(right, x, y)) for right in LETTERS if right in rights]
        if any(chain is None for _, chain in chains):
            return None
        helpers = (name for name in map("_{}".format, count()) if name not in self.names)
        rules = []
        for right, chain in chains:
            for q, p in zip(chain, chain[1:]):
                rules += self.move(q, p, helpers, f"{y} {right}")
        return rules


def breadth_first(linked, start):
    """All that chains of links reach from a vertex, each with the one by which it was met."""
    met_by, queue = {start: None}, deque([start])
    while queue:
        vertex = queue.popleft()
        yield vertex, met_by[vertex]
        new = sorted(linked[vertex] - met_by.keys())
        met_by.update(dict.fromkeys(new, vertex))
        queue.extend(new)


def reached(linked, start):
    """All that chains of links reach from a vertex, itself included."""
    return {vertex for vertex, _ in breadth_first(linked, start)}


def followed(met_by, vertex):
    """The chain from a vertex back to where a search began."""
    chain = []
    while vertex is not None:
        chain.append(vertex)
        vertex = met_by[vertex]
    return chain
