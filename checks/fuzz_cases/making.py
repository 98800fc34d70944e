"""Random graphs, rules, scripts, policies and words."""
from itertools import product

from fuzz_cases.claiming import PolicyMaker
from fuzz_cases.spoiling import Spoiler
from model.graphs import FIRST, LETTERS, SECOND, Graph
from model.policies import MOST_POLICY_LINES
from model.texts import MOST_EVENTS, MOST_RULES

NAMES = ["a", "b", "c", "d", "e", "f", "_0", "_1", "_2", "v10", "z_9", "_", "abcdefghijklmnop"]
FRESH = ["n", "m", "p0", "_3", "_10", "q"]
SPACES = [" ", " ", " ", " ", " ", "  ", "\t", " \r", "\r\t "]
FILLERS = ["", "#", "# vertex a", "  # x", "\t", " \r"]
COMMANDS = "check islands apply run race table share derive who reach verify cut".split()
# The line that names each version, and the most vertices that it has room for.
LINES_OF_VERSIONS = [
    (b"", FIRST.most_vertices),
    (b"version 1\n", FIRST.most_vertices),
    (b"version 2\n", SECOND.most_vertices),
]


def vertex_lines(count):
    """The lines of so many vertices."""
    return b"".join(b"vertex v%d\n" % i for i in range(count))


class Maker:
    """Makes texts and words by chance. Most of what it makes fits together."""

    def __init__(self, chance):
        self.chance = chance
        self.spoil = Spoiler(chance)
        names = chance.sample(NAMES, chance.randint(0, 8))
        if chance.random() < 0.04:
            names = [f"v{i}" for i in range(chance.randint(20, 60))]
        elif chance.random() < 0.004:
            names = [f"v{i}" for i in range(chance.randint(1020, 1030))]
        self.graph = Graph(names)
        self.new_names = chance.sample(NAMES + FRESH, chance.choice([1, 3, 10]))
        self.fresh = chance.choice([0.02, 0.05, 0.25])
        dense = chance.choice([0.05, 0.2, 0.4, 0.8, 1])
        labels = chance.choice([LETTERS, "tg", "rwe", "tgr", "tgrw", "gr", "tr", "tgad", "ad"])
        most = 4 if len(names) > 9 else len(names)
        for x in names:
            for y in chance.sample(names, most):
                if chance.random() < dense:
                    self.graph.add(x, y, set(chance.sample(labels, chance.randint(1, 2))))

    # pieces

    def name(self):
        """A vertex of the graph, seldom another name."""
        if not self.graph.names or self.chance.random() < self.fresh:
            return self.chance.choice(self.new_names)
        return self.chance.choice(sorted(self.graph.names))

    def rights(self):
        """A word of a set of rights."""
        if self.chance.random() < 0.06:
            return "-"
        return "".join(self.chance.sample(LETTERS, self.chance.choice([1, 1, 1, 2, 2, 3, 7])))

    def right(self):
        """A word of one right."""
        return self.chance.choice(LETTERS)

    def rule(self):
        """The words of a rule."""
        kind = self.chance.choice(["take", "take", "grant", "grant", "create", "remove"])
        if kind == "create":
            return [kind, self.name(), self.chance.choice(self.new_names), self.rights()]
        if kind == "remove":
            return [kind, self.name(), self.name(), self.rights()]
        return [kind, self.name(), self.name(), self.name(), self.rights()]

    def fitting_rule(self, graph):
        """The words of a rule that a graph accepts, where chance finds one."""
        kind, needed = self.chance.choice([("take", "t"), ("grant", "g")])
        edges = sorted(pair for pair, rights in graph.edges.items() if rights)
        ways = [pair for pair in edges if needed in graph.rights(*pair)]
        if not ways or self.chance.random() < 0.3:
            return self.rule()
        x, y = self.chance.choice(ways)
        source = y if kind == "take" else x
        held = [z for holder, z in edges if holder == source]
        if not held:
            return self.rule()
        z = self.chance.choice(held)
        rights = sorted(graph.rights(source, z))
        some = self.chance.sample(rights, self.chance.randint(1, len(rights)))
        return [kind, x, y, z, "".join(some)]

    def accepted_rule(self, graph):
        """The words of a rule that a graph mostly accepts. The graph is changed by it."""
        rule = self.fitting_rule(graph) if self.chance.random() < 0.9 else self.rule()
        graph.reply(rule)
        return rule

    def question(self, rights):
        """The words of a question about sharing these rights."""
        return [rights.encode(), self.name().encode(), self.name().encode()]

    def workers(self):
        """The words that say how many workers make a table, or none."""
        if self.chance.random() < 0.4:
            return []
        numbers = "1 2 3 5 16 16 0 17 9999 01 0016 00016 0000 -1 +1 x 1x".split() + [""]
        options = ["--worker", "-workers", "", "4"]
        option = "--workers" if self.chance.random() < 0.95 else self.chance.choice(options)
        number = self.chance.choice(numbers)
        return [option.encode(), number.encode()]

    def keeping(self):
        """The words that keep edges, most of them edges of the graph; or none."""
        if self.chance.random() < 0.4:
            return []
        words, pairs = [], sorted(self.graph.edges)
        for _ in range(self.chance.choice([1, 1, 2, 3, 5, 64])):
            is_edge = pairs and self.chance.random() < 0.9
            ends = self.chance.choice(pairs) if is_edge else (self.name(), self.name())
            words += [b"--keep", *(self.spoil.word(end.encode(), 0.01) for end in ends)]
        return words

    def with_one_less(self, rules):
        """The text of rules that take rights away, but for one of the rights."""
        header, *lines = rules.decode().splitlines(True)
        place = self.chance.randrange(len(lines))
        *words, rights = lines[place].split()
        left = rights.replace(self.chance.choice(rights), "")
        lines[place] = " ".join([*words, left]) + "\n" if left else ""
        return "".join([header, *lines]).encode()

    # texts

    def text(self, lines):
        """The text of lines, each a list of words, with fillers between them."""
        wild = self.chance.random() < 0.3
        found = []
        for words in lines:
            if wild and self.chance.random() < 0.15:
                found.append(self.chance.choice(FILLERS))
            gap = self.chance.choice(SPACES) if wild else " "
            found.append(gap.join(words) + self.chance.choice(["", "", " ", "\r"]) * wild)
        return "".join(line + "\n" for line in found).encode()

    def graph_text(self):
        """The text of the graph, its edges in any order or in that of the vertex lines."""
        names = sorted(self.graph.names)
        pairs = sorted(pair for pair, rights in self.graph.edges.items() if rights)
        self.chance.shuffle(names)
        if self.chance.random() < 0.5:
            self.chance.shuffle(pairs)
        else:
            pairs.sort(key=lambda pair: [names.index(name) for name in pair])
        edges = [["edge", x, y, self.shuffled(self.graph.rights(x, y))] for x, y in pairs]
        return self.text(self.version() + [["vertex", name] for name in names] + edges)

    def version(self):
        """The lines that name the version of the graph's text: one, or none for the first."""
        ways = [[["version", "2"]]]
        if self.graph.fits(FIRST) or self.chance.random() < 0.05:
            ways += [[], [], [["version", "1"]]]
        return self.chance.choice(ways)

    def shuffled(self, letters):
        """Letters in any order."""
        letters = sorted(letters)
        self.chance.shuffle(letters)
        return "".join(letters)

    def rules_text(self):
        """The text of rules, most of them accepted on the graph."""
        graph = self.graph.copy()
        return self.text([self.accepted_rule(graph) for _ in range(self.chance.randint(0, 10))])

    def graph_and_rules(self):
        """The two texts of `apply`."""
        return [self.graph_text(), self.rules_text()]

    def case_text(self):
        """The text of standard input."""
        odd = [b" \trules\r\n", b"rules rules\n", b"", b"rules\nrules\n", b"rule\n", b"#\nrules\n"]
        long = [b"rules".ljust(size) + b"\n" for size in (255, 256, 257)]
        between = self.chance.choice([b"rules\n"] * 24 + odd + long)
        return between.join(self.graph_and_rules())

    def event(self, is_open):
        """The words of an event of a seat, most of them fit to its being in a session or not."""
        if self.chance.random() < 0.05:
            return self.chance.choice([["begin"], ["commit"], ["abort"], self.rule()])
        if not is_open:
            return ["begin"]
        if self.chance.random() < 0.3:
            return ["commit"] if self.chance.random() < 0.9 else ["abort"]
        asked = [self.right(), self.name(), self.name()]
        steps = [self.rule(), ["holds", *asked], ["share", *asked]]
        steps += [self.accepted_rule(self.graph.copy()) for _ in range(3)]
        return self.chance.choices(steps, [4, 4, 1, 4, 4, 4])[0]

    def script_text(self, seats=None):
        """The text of a script."""
        seats = seats or self.chance.choices([1, 2, 3, 4, 64, 65], [4, 8, 8, 4, 2, 0.2])[0]
        cells = self.chance.choices([1, 2, 3, 8, 4096, 4097], [4, 4, 4, 12, 3, 0.2])[0]
        lines = [["seats", str(seats)], ["cells", str(cells)]]
        is_open = [False] * seats
        for _ in range(self.chance.randint(0, 40)):
            seat = self.chance.randrange(min(seats, 6))
            words = self.event(is_open[seat])
            is_ended = words[0] in ("commit", "abort")
            is_open[seat] = not is_ended and (is_open[seat] or words[0] == "begin")
            lines.append([str(seat + 1), *words])
        return self.text(lines)

    def graph_and_script(self, seats=None):
        """The two texts of `run` and `race`."""
        return [self.graph_text(), self.script_text(seats)]

    def graph_and_policy(self):
        """The two texts of `verify`."""
        return [self.graph_text(), self.text(PolicyMaker(self).lines())]

    def form(self, graph):
        """The words of a command line."""
        ask = [b"r", b"a", self.chance.choice([b"b", b"--workers"])]
        forms = {b"check": [], b"islands": [], b"apply": [graph], b"run": [graph], b"race": [graph]}
        forms.update({b"share": ask, b"derive": ask, b"table": [b"r", b"--workers", b"3"]})
        forms.update({b"who": [b"r", b"a"], b"reach": [b"a"], b"verify": [graph, b"--why"]})
        keeping = [b"--keep", b"a", b"b"] * self.chance.choice([0, 1, 2, 64, 65])
        forms[b"cut"] = [b"r", b"a", b"b", *keeping]
        command = self.chance.choice(sorted(forms))
        return [command, graph, *forms[command]]

    def words(self, files):
        """The words of a command line, good or bad, with one of the files or several."""
        pool = "r t a b --workers 4 16 Check --help -V -h --version sh --why --keep".split()
        pool += [*COMMANDS, "", "\xe9"]
        pool = [word.encode() for word in pool] + [b"\xff", b"\xe2\x82"] + files * 3
        words = self.form(files[0] if self.chance.random() < 0.8 else self.chance.choice(files))
        way = self.chance.randrange(6)
        if way == 0:
            words.insert(self.chance.randrange(len(words) + 1), self.chance.choice(pool))
        elif way == 1:
            words.pop(self.chance.randrange(len(words)))
        elif way == 2:
            words[self.chance.randrange(len(words))] = self.chance.choice(pool)
        return self.chance.choices(pool, k=self.chance.randint(0, 7)) if way == 3 else words

    # limits

    def at_limits(self):
        """A command, its texts and its further words, at the limits of the texts."""
        ways = [self.many_vertices, self.many_rules, self.many_events, self.many_commits]
        ways += [self.full_graph, self.full_sessions, self.many_claims, self.many_members]
        return self.chance.choice(ways)()

    def many_vertices(self):
        """As many vertices as there may be, one less or one more, and a chain of links."""
        version, most = self.chance.choice(LINES_OF_VERSIONS)
        count = most + self.chance.choice([-1, 0, 0, 1])
        lines = [["vertex", f"v{i}"] for i in range(count)]
        self.chance.shuffle(lines)
        links = self.chance.choice(["t", "g", "tg", "r"])
        lines += (["edge", f"v{i}", f"v{i + 1}", links] for i in range(count - 2))
        lines.append(["edge", f"v{count - 2}", f"v{count - 1}", "rwe"])
        rights = self.chance.choice([b"w", b"ew", b"wre", b"wa", b"-"])
        ends = [rights, b"v0", f"v{count - 1}".encode()]
        further = {"check": [], "islands": [], "share": ends, "derive": ends, "table": [b"w"]}
        further.update({"who": [rights, ends[2]], "reach": [b"v0"]})
        keeping = [b"--keep", b"v0", b"v1"] * self.chance.choice([0, 1])
        further["cut"] = [b"w", *ends[1:], *keeping]
        command = self.chance.choice(sorted(further))
        return command.encode(), [version + self.text(lines)], further[command]

    def full_graph(self):
        """Rules that create more vertices than a text of a version has room for."""
        version, most = self.chance.choice(LINES_OF_VERSIONS)
        graph = version + vertex_lines(most - self.chance.randint(0, 2))
        rules = b"".join(b"create v0 n%d a\n" % i for i in range(self.chance.randint(0, 4)))
        return b"apply", [graph, rules + b"remove v0 n0 a\nremove v0 n1 ad\n"], []

    def many_rules(self):
        """As many rules as there may be, or one more."""
        count = self.chance.choice([MOST_RULES, MOST_RULES + 1])
        rules = b"remove a a r\n" * count
        return b"apply", [self.chance.choice([b"vertex a\n", b""]), rules], []

    def many_events(self):
        """As many events as there may be, or one more."""
        count = self.chance.choice([MOST_EVENTS, MOST_EVENTS + 1])
        return b"run", [b"", b"seats 64\ncells 1\n" + b"64 commit\n" * count], []

    def many_commits(self):
        """As many commits as there are cells, and one more."""
        cells = self.chance.choice([4095, 4096, 4097])
        events = b"1 begin\n1 commit\n" * self.chance.choice([4096, 4097])
        return b"run", [b"", b"seats 1\ncells %d\n" % cells + events], []

    def full_sessions(self):
        """Sessions that create as many vertices as there may be, and crowd one another."""
        version, most = self.chance.choice(LINES_OF_VERSIONS)
        graph = version + vertex_lines(most - self.chance.randint(0, 3))
        events = [b"1 begin", b"2 begin"]
        creates = [b"%d create v%d n%d r" % (i % 2 + 1, i % 2, i) for i in range(4)]
        events += creates[: self.chance.randint(1, 4)] + [b"2 commit", b"1 commit", b"1 begin"]
        events += [b"1 create v0 last -", b"1 commit"]
        return b"run", [graph, b"seats 2\ncells 9\n" + b"\n".join(events)], []

    def many_claims(self):
        """As many lines of a policy as there may be, or one more."""
        count = self.chance.choice([MOST_POLICY_LINES, MOST_POLICY_LINES + 1])
        line = self.chance.choice([b"group b @a\n", b"never r @a a\n", b"only rw a @a\n"])
        graph = self.chance.choice([b"vertex a\n", b"vertex a\nedge a a r\n"])
        return b"verify", [graph, b"group a a\n" + line * (count - 1)], []

    def many_members(self):
        """A group of as many vertices as there may be, or of all but one."""
        version, most = self.chance.choice(LINES_OF_VERSIONS)
        links = [["edge", f"v{i}", f"v{i + 1}", self.chance.choice("tgr")] for i in range(most - 1)]
        graph = version + vertex_lines(most) + self.text(links)
        names = [f"v{i}" for i in range(self.chance.randrange(2), most)]
        self.chance.shuffle(names)
        lines = [["group", "all", *names[at : at + 20]] for at in range(0, most, 20)]
        lines += [["only", "rt", name, "@all"] for name in self.chance.sample(names, 9)]
        lines += [["never", "g", "@all", name] for name in self.chance.sample(names, 9)]
        lines += [["may", "r", name, "@all"] for name in self.chance.sample(names, 9)]
        lines += [["only", "rw", "@all", "@all"], ["group", "all", "v0", "@all"]]
        return b"verify", [graph, self.text(lines)], self.chance.choice([[], [b"--why"]])

    def crowded_race(self):
        """The two texts of a race whose seats create more vertices at once than there may be."""
        graph = b"version 2\n" + vertex_lines(SECOND.most_vertices - 24)
        lines = [b"seats 4", b"cells 200"]
        for seat, i in product(range(1, 5), range(self.chance.randint(5, 30))):
            # (the questions take time, in which others commit)
            acts = [b"begin", b"create v%d n%d_%d -" % (seat, seat, i)]
            acts += [b"holds r v%d v0" % seat] * 20 + [b"commit"]
            lines += (b"%d %s" % (seat, act) for act in acts)
        return [graph, b"\n".join(lines)]
