"""Random policies."""
from model.graphs import LETTERS

GROUPS = ["a", "b", "_0", "v10", "staff", "guests", "abcdefghijklmnop"]
UNKNOWN = ["no_vertex", "@no_group", "@no_group", "@a", "@staff"]
ODD_OPERANDS = [*UNKNOWN, "@", "@@a", "@9", "A", "a@", "-", "@abcdefghijklmnopq"]
ODD_RIGHTS = ["-", "rr", "q", "R", "tgrwead", "tgrweadt", "@a"]
# With names of 16 bytes, a line of so many is no longer than may be.
MOST_NAMES = 13


class PolicyMaker:
    """Makes a policy about a graph by chance. Most of its lines have no fault."""

    def __init__(self, make):
        self.make = make
        self.chance = make.chance
        self.reach = make.graph.reach()
        self.groups = set()
        self.odd = self.chance.choices([0, 0.02, 0.1], [8, 2, 1])[0] if self.reach else 0.5

    def lines(self):
        """The lines of the policy, each a list of words."""
        found = []
        for _ in range(self.chance.randint(0, 14)):
            ways = [self.group, self.claim, self.fitting_claim]
            found += self.chance.choices(ways, [3, 4, 4])[0]()
        return found

    def operand(self):
        """The word of a vertex or of a group that an earlier line made, seldom another one."""
        if self.chance.random() < self.odd:
            return self.chance.choice(ODD_OPERANDS)
        if self.groups and self.chance.random() < 0.7:
            return "@" + self.chance.choice(sorted(self.groups))
        return self.chance.choice(sorted(self.reach) or ["a"])

    def operands(self, fewest):
        """The words of some operands."""
        return [self.operand() for _ in range(self.chance.randint(fewest, 5))]

    def rights(self):
        """A word of a set of rights that is not empty, seldom another word."""
        if self.chance.random() < self.odd:
            return self.chance.choice(ODD_RIGHTS)
        return "".join(self.chance.sample(LETTERS, self.chance.choice([1, 1, 2, 3, 7])))

    def group(self):
        """A line of a group, which may have been there and may join itself."""
        if self.chance.random() < self.odd:
            return [["group", self.chance.choice(ODD_OPERANDS), *self.operands(0)]]
        name, operands = self.chance.choice(GROUPS), self.operands(1)
        self.groups.add(name)
        return [["group", name, *operands]]

    def claim(self):
        """A line of another kind."""
        word = self.chance.choice(["never", "may", "only"])
        operands = self.operands(1) if word == "only" else [self.operand(), self.operand()]
        return [[word, self.rights(), *operands]]

    def fitting_claim(self):
        """Lines that hold on the graph, where chance finds some, and seldom just not."""
        if not self.reach:
            return self.claim()
        right, x, y = (self.chance.choice(list(them)) for them in (LETTERS, self.reach, self.reach))
        if self.chance.random() < 0.5:
            return [["may" if right in self.reach[x].get(y, ()) else "never", right, x, y]]
        rights = {right, self.chance.choice(LETTERS)}
        who = [x for x in sorted(self.reach) if rights & self.reach[x].get(y, set())]
        if who and self.chance.random() < 0.3:
            who.remove(self.chance.choice(who))
        lines, operands = self.listed(who)
        return lines + [["only", "".join(sorted(rights)), y, *operands]]

    def listed(self, names):
        """Operands for names: themselves, or a group with the lines in which they join it."""
        if len(names) <= MOST_NAMES and (not names or self.chance.random() < 0.7):
            return [], names
        group = self.chance.choice(GROUPS)
        self.groups.add(group)
        parts = [names[at : at + MOST_NAMES] for at in range(0, len(names), MOST_NAMES)]
        return [["group", group, *part] for part in parts], ["@" + group]
