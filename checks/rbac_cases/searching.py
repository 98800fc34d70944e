"""Random listings: what stays true where some are left out, by searches that leave nobody out.

One search floods the whole graph along edges with t: what an account comes to that acts alone. The
other carries out rules by those who stay, until nothing comes of it, where each of them has first
created one helper.
"""
from collections import defaultdict
from itertools import product
from random import Random

from rbac_cases.listings import account, binding, cluster_role, item, rule, secret, text_of
from rbac_cases.listings import token
from rbac_cases.runs import Failure, GraphText, Officer, expect, leaving, run_tool, text_for

EXACT = "trwed"
PLACES = ("ci", "pay", "shop")
# Verbs and resources of rules, and how often they are drawn.
RULES = {
    ("get", "secrets"): 5,
    ("update delete", "secrets"): 2,
    ("impersonate", "users"): 6,
    ("impersonate", "serviceaccounts"): 6,
    ("impersonate", "groups"): 2,
    ("create", "pods/exec"): 2,
    ("create", "deployments"): 2,
    ("create", "serviceaccounts/token"): 2,
    ("create", "secrets"): 1,
    ("get", "configmaps"): 2,
    ("update", "configmaps"): 1,
    ("use", "printers"): 2,
    ("create", "rolebindings"): 2,
    ("bind", "clusterroles"): 0.2,
    ("*", "*"): 0.2,
}
NAMED = {
    "secrets": ("key", "seal", "pass"),
    "users": ("ann", "bob", "cid", "dot"),
    "serviceaccounts": ("robot", "clerk"),
    "groups": ("team",),
}


class Listings:
    """Draws listings, and what is left out of them."""

    def __init__(self, chance):
        self.chance, self.number = chance, 0

    def some(self, likely, made):
        """Of some things each with a chance."""
        return [it for it in made if self.chance.random() < likely]

    def rules(self, count):
        """Rules for all of a kind or for some by name."""
        for verbs, resources in self.chance.choices(list(RULES), RULES.values(), k=count):
            names = self.some(0.4, NAMED.get(resources, ())) if self.chance.random() < 0.8 else ()
            yield rule(verbs, resources, *names)

    def subjects(self, places):
        """One or two whom a binding names."""
        names = [f"users {name}" for name in NAMED["users"]] + ["groups team"]
        names += [f"serviceaccounts {place}/{name}"
                  for place in places for name in NAMED["serviceaccounts"]]
        names += ["groups system:serviceaccounts", f"groups system:serviceaccounts:{places[0]}"]
        weights = [0.3 if "system:" in name else 2 for name in names]
        return set(self.chance.choices(names, weights, k=self.chance.choice((1, 1, 2))))

    def role(self, places):
        """A role and what binds it, in one namespace or in all."""
        self.number += 1
        name, place = f"role-{self.number}", self.chance.choice([None, None, *places])
        rules, subjects = list(self.rules(self.chance.choice((1, 1, 2)))), self.subjects(places)
        if place and self.chance.random() < 0.5:
            role = item("Role", name, place, rules=rules)
            return [role, binding(f"{place}/{name}", *subjects, place=place)]
        labels = {"to": self.chance.choice("xyz")}
        selectors = [{"matchLabels": {"to": self.chance.choice("xyz")}}]
        more = {"selectors": selectors} if self.chance.random() < 0.15 else {}
        return [cluster_role(name, *rules, labels=labels, **more),
                binding(name, *subjects, place=place)]

    def listing(self, size):
        """A listing of so many roles; the fewer, the fewer namespaces."""
        places = PLACES[: 1 + (size > 4) + (size > 8)]
        items = [cluster_role("none")]
        for place in places:
            items += [account(f"{place}/{name}") for name in self.some(0.5, ("robot", "clerk"))]
            items += [secret(f"{place}/{name}") for name in self.some(0.6, ("key", "seal"))]
            items += [token(f"{place}/pass", name) for name in self.some(0.3, ("robot",))]
        for _ in range(size):
            items += self.role(places)
        self.chance.shuffle(items)
        return text_of(items)

    def left_out(self, graph):
        """Patterns that leave out some, and sometimes a kind."""
        accounts = [it for it in graph.vertices if not it.startswith("secrets ")]
        patterns = self.some(self.chance.choice((0.3, 0.5, 0.7)), accounts)
        for pattern in self.some(0.15, ("pods *", "serviceaccounts *", "* pay/*", "users *")):
            begin, end = pattern[: pattern.index("*")], pattern[pattern.index("*") + 1 :]
            if any(it.startswith(begin) and end[:-1] in it for it in graph.vertices):
                patterns.append(pattern)
        return patterns


def alone(edges, x):
    """The rights that somebody comes to who acts alone: pairs of a right and what it is over."""
    met, todo = {x}, [x]
    while todo:
        taker = todo.pop()
        new = {y for (holder, y), letters in edges.items() if holder == taker and "t" in letters}
        todo += new - met
        met |= new
    held = [(y, letters) for (holder, y), letters in edges.items() if holder in met]
    return {(right, y) for y, letters in held for right in letters}


def saturated(edges, acting):
    """The rights that come about by all rules that some carry out: letters by pair."""
    rights = defaultdict(set)
    for pair, letters in edges.items():
        rights[pair] |= set(letters)
    for x in acting:
        rights[x, ("helper", x)] |= {"t", "g"}
    is_growing = True
    while is_growing:
        is_growing = any([add_by_rules(rights, x) for x in acting])
    return rights


def add_by_rules(rights, x):
    """Adds what one comes to by taking from all, and others by its grants. Whether that is more."""
    before = sum(map(len, rights.values()))
    held = {y: letters for (holder, y), letters in rights.items() if holder == x and letters}
    for y, letters in held.items():
        if "t" in letters:
            for z, more in [(z, more) for (holder, z), more in rights.items() if holder == y]:
                rights[x, z] |= more
        if "g" in letters:
            for z, more in held.items():
                rights[y, z] |= more
    return sum(map(len, rights.values())) > before


def found_by(officer, graph):
    """What the program says that each vertex can come to: sets of a right and what it is over."""
    things = {name: thing for thing, name in graph.names.items()}
    reports = {thing: officer.reach(name) for thing, name in graph.names.items()}
    return {x: {(right, things[y]) for y, letters in report.items() for right in letters}
            for x, report in reports.items()}


def check_ways(whole, graph):
    """Fails unless the comments are on those edges that have rights besides the cluster's."""
    new = {pair for pair, letters in graph.edges.items()
           if not set(letters) <= set(whole.edges.get(pair, ""))}
    expect(new, set(graph.through), "edges that came of leaving out")
    left_out = set(whole.vertices) - set(graph.vertices)
    expect(set(), set(graph.through.values()) - left_out, "ways through what is not left out")


def check_alone(whole, graph, found):
    """Fails where somebody comes to less than alone in the whole graph."""
    for x in graph.vertices:
        facts = {(right, y) for right, y in alone(whole.edges, x) if y in graph.names}
        if not facts <= found[x]:
            raise Failure(f"{x} comes to {facts - found[x]}, and the program says no")


def check_saturated(whole, graph, found):
    """Fails unless all comes about that those who stay bring about, and nothing else but g."""
    rights = saturated(whole.edges, graph.vertices)
    for x, y in product(graph.vertices, graph.vertices):
        wanted, said = rights[x, y], {right for right, thing in found[x] if thing == y}
        if not wanted <= said or (said - wanted) & set(EXACT):
            raise Failure(f"{x} comes to {wanted} over {y}, and the program says {said}")


def check_policy(listing, words, officer):
    """Fails unless the first policy is written and kept where there is a secret."""
    ran = run_tool(listing, *words, "--policy")
    if ran.status == 0:
        status, report = officer.ask("verify", second=ran.output)
        expect((0, "kept"), (status, report.splitlines()[-1]), "what verify says of the policy")


def play(seed, number, program):
    """Leaves out some of a random listing, and compares what is found with what is so."""
    chance = Random(f"{seed} {number}")
    listings = Listings(chance)
    listing = listings.listing(chance.choice((4, 5, 6, 8, 10, 12)))
    whole = GraphText(text_for(listing))
    words = leaving(listings.left_out(whole))
    text = text_for(listing, *words)
    graph, officer = GraphText(text), Officer(program, text)
    expect({it: whole.names[it] for it in graph.names}, graph.names, "names")
    check_ways(whole, graph)
    found = found_by(officer, graph)
    check_alone(whole, graph, found)
    check_saturated(whole, graph, found)
    check_policy(listing, words, officer)


def cases(seed, count):
    """Titles, and what plays them."""
    for number in range(count):
        yield f"random listing {number} of seed {seed}", lambda program, number=number: play(
            seed, number, program)
