"""Each question on graphs of as many vertices as there may be."""
import re
from collections import defaultdict
from random import Random

from fuzz_cases.comparing import require_answer, require_same
from model.graphs import LETTERS, SECOND, Graph, letters_of

VERTICES = SECOND.most_vertices
# A chain of all vertices has so many links. To move a right along a link costs at most so many
# rules, where a vertex has to be made for it. So no derivation of a right has more than 16,380.
LINKS = VERTICES - 1
RULES_A_LINK = 4
MOST_KEPT = 64
NAMES_A_LINE = 20
LABELS = ["t", "g", "r", "w", "a", "rw", "tg", "ad"]


class Chain:
    """All vertices, in an order that is not that of their names, each linked with the next one.

    Neither may a vertex take from the next one, nor the next one grant to it: so along each link a
    right moves by making a vertex. The last one has r over the middle one, and all rights over
    itself.
    """

    def __init__(self, missing=()):
        self.names = [f"v{number}" for number in range(VERTICES)]
        Random(7).shuffle(self.names)
        self.first, self.middle, self.last = (self.names[at] for at in (0, VERTICES // 2, -1))
        self.graph = Graph(self.names)
        for place in range(LINKS):
            if place not in missing:
                source, target, right = self.link(place)
                self.graph.add(source, target, {right})
        self.graph.add(self.last, self.middle, {"r"})
        self.graph.add(self.last, self.last, set(LETTERS))

    def link(self, place):
        """Source, target and right of the link behind the vertex at a place."""
        vertex, beyond = self.names[place : place + 2]
        return (vertex, beyond, "g") if place % 2 else (beyond, vertex, "t")


def encoded(*words):
    """Words as bytes."""
    return [word.encode() for word in words]


def require_told(program, graph, words, wanted, status=0):
    """Requires the report of a command on a graph."""
    command, *further = encoded(*words)
    told = program.report(command, graph.text().encode(), further=further)
    require_same(" ".join(words[:6]), told, (wanted.encode(), b"", status))


# yes, no, and the rules of a yes


def share_along_a_chain(program):
    """`share` along a chain of all vertices"""
    chain = Chain()
    for rights, y, answer in (
        ("r", chain.middle, "yes\n"),
        (LETTERS, chain.last, "yes\n"),
        ("w", chain.middle, "no\n"),
        ("rw", chain.middle, "no\n"),
    ):
        require_told(program, chain.graph, ["share", rights, chain.first, y], answer)


def share_where_a_link_is_missing(program):
    """`share` and `derive` along a chain of which a link is missing"""
    for place in 0, VERTICES // 2, LINKS - 1:
        chain = Chain([place])
        before, behind = chain.names[place : place + 2]
        require_told(program, chain.graph, ["share", "r", before, chain.middle], "no\n")
        require_told(program, chain.graph, ["derive", "r", before, chain.middle], "# no\n")
        require_told(program, chain.graph, ["share", "r", behind, chain.middle], "yes\n")


def require_derivation(program, graph, rights, x, y):
    """Requires a derivation along all links, each rule of it accepted in its turn.

    The rules are carried out by the model; `apply` has to say the same of them.
    """
    text, count = graph.text().encode(), RULES_A_LINK * LINKS * len(rights)
    told = program.report(b"derive", text, further=encoded(rights, x, y))
    wanted = "".join(rule + "\n" for rule in graph.derivation(rights, x, y))
    require_same("derive", told, (f"# yes {count}\n{wanted}".encode(), b"", 0))
    rules, after = told[0].decode().splitlines()[1:], graph.copy()
    require_same("how many rules there are", len(rules), count)
    require_same("the replies to them", {after.apply(rule.split()) for rule in rules}, {"done"})
    require_same("the rights after them", set(rights) <= after.rights(x, y), True)
    # (the first line is that with the number of rules)
    replies = "".join(f"{line} done\n" for line in range(2, count + 2))
    report = f"{replies}graph\n{after.text()}".encode()
    require_same("apply of them", program.report(b"apply", text, told[0]), (report, b"", 0))


def derive_along_a_chain(program):
    """`derive` along a chain of all vertices, 16,380 rules, and `apply` of them"""
    chain = Chain()
    require_derivation(program, chain.graph, "r", chain.first, chain.middle)


def derive_all_rights_along_a_chain(program):
    """`derive` of all rights along it, 114,660 rules, and `apply` of them"""
    chain = Chain()
    require_derivation(program, chain.graph, LETTERS, chain.first, chain.last)


# cuts


def cut_a_chain(program):
    """`cut` of a chain of all vertices, with none of its links kept and with 64

    The first link that may go is the one: whoever is behind it comes to the right all the same.
    """
    chain = Chain()
    for kept in 0, 1, MOST_KEPT:
        words = ["cut", "r", chain.first, chain.middle]
        for place in range(kept):
            words += ["--keep", *chain.link(place)[:2]]
        rule = " ".join(["remove", *chain.link(kept)])
        require_told(program, chain.graph, words, f"# cut 1\n{rule}\n")


def star(ways_back):
    """The first vertex linked with all others but the last, which all of them may read.

    With ways back each link is two, and the last one is linked so too, and reads itself.
    """
    graph = Graph(f"v{number}" for number in range(VERTICES))
    *inner, last = (f"v{number}" for number in range(1, VERTICES))
    for place, name in enumerate(inner):
        ends = [("v0", name, {"t"}), (name, "v0", {"g"})]
        for source, target, right in ends if ways_back else ends[place % 2 :][:1]:
            graph.add(source, target, right)
        graph.add(name, last, {"r"})
    if ways_back:
        graph.add("v0", last, {"t", "r"})
        graph.add(last, "v0", {"g"})
        graph.add(last, last, {"r"})
    return graph, inner, last


def cut_the_links_of_a_star(program):
    """`cut` of 4,094 links

    Each way is a link and a right. One of the two has to go; without the links all others still
    come to the right.
    """
    graph, inner, last = star(False)
    rules = sorted(
        f"remove {name} v0 g\n" if place % 2 else f"remove v0 {name} t\n"
        for place, name in enumerate(inner)
    )
    require_told(program, graph, ["cut", "r", "v0", last], f"# cut {len(inner)}\n{''.join(rules)}")


def cut_as_much_as_may_be(program):
    """`cut` of 4,096 edges

    Each of the others has two links with the first vertex, and one right: the right goes. Beside
    its own right the first one has two links with the last, which reads itself: from either two
    edges have to go, and without the links the last one still comes to the right.
    """
    graph, inner, last = star(True)
    lines = [f"remove {name} {last} r\n" for name in inner]
    lines += [f"remove v0 {last} tr\n", f"remove {last} v0 g\n"]
    rules = "".join(sorted(lines))
    require_told(program, graph, ["cut", "r", "v0", last], f"# cut {VERTICES}\n{rules}")


# policies, and all pairs


def verify_along_a_chain(program):
    """`verify --why` along a chain of all vertices, with derivations of up to 16,380 rules"""
    chain = Chain()
    starts = [chain.names[place] for place in range(0, LINKS, LINKS // 12)]
    parts = (chain.names[at : at + NAMES_A_LINE] for at in range(0, VERTICES, NAMES_A_LINE))
    lines = [" ".join(["group all", *part]) for part in parts]
    lines += [f"never r {x} {chain.middle}" for x in starts]
    lines += [
        f"never w @all {chain.middle}",
        f"only r {chain.middle} @all",
        f"only r {chain.middle} {chain.last}",
        f"may r @all {chain.middle}",
        f"may rw @all {chain.middle}",
        f"never tgrwead @all {chain.last}",
    ]
    policy = "\n".join(lines).encode()
    told, _ = require_answer(program, b"verify", [chain.graph.text().encode(), policy], [b"--why"])
    counts = [int(count) for count in re.findall(rb"(?m)^# yes ([0-9]+)$", told)]
    longest = [RULES_A_LINK * (LINKS - chain.names.index(x)) for x in starts]
    require_same("how long the derivations are", counts[: len(starts)], longest)


def ask_all_along_a_chain(program):
    """`check`, `islands`, `who`, `reach` and `table` of a chain of all vertices"""
    chain, names = Chain(), sorted(Chain().names)
    digits = "".join("01"[name in (chain.middle, chain.last)] for name in names)
    # (all are of one island, so each can come to what any of them holds)
    over = defaultdict(set)
    for (_, y), rights in chain.graph.edges.items():
        over[y] |= rights
    lines = [f"{y} {letters_of(over[y])}\n" for y in sorted(over)]
    for words, wanted in (
        (["check"], chain.graph.text()),
        (["islands"], " ".join(names) + "\n"),
        (["who", "r", chain.middle], "".join(f"{name}\n" for name in names)),
        (["who", "w", chain.middle], ""),
        (["reach", chain.first], "".join(lines)),
        (["table", "r", "--workers", "1"], "".join(f"{name} {digits}\n" for name in names)),
        (["table", "r", "--workers", "16"], "".join(f"{name} {digits}\n" for name in names)),
    ):
        require_told(program, chain.graph, words, wanted)


# graphs without such an order


def by_chance(chance, edges):
    """As many vertices as there may be, and so many edges at places by chance."""
    names, graph = [f"v{number}" for number in range(VERTICES)], Graph()
    graph.names.update(names)
    for _ in range(edges):
        graph.add(chance.choice(names), chance.choice(names), set(chance.choice(LABELS)))
    return graph


def ask_graphs_by_chance(program):
    """each question on sparse graphs by chance, with all vertices"""
    chance = Random(11)
    for edges in VERTICES, 2 * VERTICES, 4 * VERTICES:
        graph = by_chance(chance, edges)
        text, names, held = graph.text().encode(), sorted(graph.names), sorted(graph.edges)
        for _ in range(3):
            x, (_, y) = chance.choice(names), chance.choice(held)
            asked = encoded(chance.choice(LETTERS), x, y)
            for command in b"share", b"derive", b"cut":
                require_answer(program, command, [text], asked)
            policy = " ".join(["never", chance.choice(["rw", LETTERS]), x, y]).encode()
            require_answer(program, b"verify", [text, policy], [b"--why"])


CASES = [
    share_along_a_chain,
    share_where_a_link_is_missing,
    derive_along_a_chain,
    derive_all_rights_along_a_chain,
    cut_a_chain,
    cut_the_links_of_a_star,
    cut_as_much_as_may_be,
    verify_along_a_chain,
    ask_all_along_a_chain,
    ask_graphs_by_chance,
]
