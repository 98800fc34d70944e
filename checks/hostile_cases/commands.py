"""The commands, with small and large texts for each, and the endings of runs on them."""
import os
import random
from dataclasses import dataclass
from functools import cached_property, lru_cache

from hostile_cases.runs import Lawful, Whole
from model.graphs import MOST_VERTICES
from model.reports import WITH_SECOND_FILE, race_refusal, report_of
from model.texts import read_graph, read_script
from races import dense, script, sparse

MOST_INPUT_BYTES = 67_108_864
MIB = 1_048_576

GRAPH = b"""vertex a
vertex b
vertex c
vertex d
edge a b t
edge b c rw
edge d c tg
"""
RULES = b"""take a b c r
create a n tg
grant a n b t
remove b c w
"""
SCRIPT = b"""seats 2
cells 4
1 begin
2 begin
1 take a b c r
2 create d n g
2 holds r b c
2 commit
1 commit
2 begin
2 share r a c
2 commit
"""
POLICY = b"""group staff a b
group staff @staff
never a @staff c
only rw c b
may tg d @staff
only t b @staff
"""
CASE = GRAPH + b"rules\n" + RULES
QUESTION = [b"r", b"a", b"c"]

FURTHER = {
    b"share": QUESTION,
    b"derive": QUESTION,
    b"table": [b"r", b"--workers", b"16"],
    b"who": [b"r", b"c"],
    b"reach": [b"a"],
    b"verify": [b"--why"],
    b"cut": [*QUESTION, b"--keep", b"a", b"b"],
}
SECOND = {b"apply": RULES, b"run": SCRIPT, b"race": SCRIPT, b"verify": POLICY}
COMMANDS = [b"", b"check", b"apply", b"islands", b"share", b"derive", b"table", b"run", b"race"]
COMMANDS += [b"who", b"reach", b"verify", b"cut"]
# The word for the second text in reports.
SECOND_TITLES = {b"apply": "rules", b"run": "script", b"race": "script", b"verify": "policy"}


def title_of(command):
    """A command as its cases are called."""
    return command.decode() or "no words"


def second_name(command):
    """The name of the file with the second text of a command."""
    return f"second_{title_of(command)}"


class Files:
    """A folder with the files that cases name."""

    def __init__(self, folder):
        self.folder = folder

    def path(self, name):
        """The path of a file, as a word."""
        return os.fsencode(os.path.join(self.folder, name))

    def text(self, name, *pieces):
        """Writes pieces one after another to a file, and answers its path."""
        with open(self.path(name), "wb") as file:
            for piece in pieces:
                file.write(piece)
        return self.path(name)

    def padded(self, name, size, text=b""):
        """A file of that size: a text, and zero bytes that take no room on the disk."""
        os.truncate(self.text(name, text), size)
        return self.path(name)

    def filled(self, name, text):
        """A file that is as large as an input may be: a text, and comments."""
        line = b"# " + b"x" * 254 + b"\n"
        room = MOST_INPUT_BYTES - len(text)
        return self.text(name, text, line * (room // len(line)), b"#" * (room % len(line)))


def further_words(command):
    """The words that a command has behind its files."""
    return FURTHER.get(command, [])


def ending_for(command, first, second=b"", further=None):
    """The ending for texts that were read."""
    further = further_words(command) if further is None else further
    if command == b"race":
        refusal = race_refusal(first, second)
        if refusal:
            return Whole(refusal, 1)
        return Lawful(read_graph(first), read_script(second))
    files = [b"graph", b"second"] if command in WITH_SECOND_FILE else [b"graph"]
    words = [command, *files, *further] if command else []
    return Whole(*report_of(words, first, second))


def words_for(command, graph, second=None, further=None):
    """The words of a command, none for standard input. It takes `second` where it has one."""
    if not command:
        return []
    files = [graph, second] if command in WITH_SECOND_FILE else [graph]
    return [command, *files, *(further_words(command) if further is None else further)]


# commands with their texts: graphs of as many vertices as there may be


def vertices(name="v{}"):
    """The lines of the vertices, before them the one that names the version."""
    numbers = range(MOST_VERTICES)
    return ["version 2\n", *(f"vertex {name.format(number)}\n" for number in numbers)]


def star():
    """The text of a graph in which one vertex has take and grant over all."""
    edges = (f"edge v0 v{i} tg\n" for i in range(MOST_VERTICES))
    return "".join([*vertices(), *edges]).encode()


def chain():
    """The text of a graph of vertices that may grant to the next one; the last holds a right."""
    last = MOST_VERTICES - 1
    links = (f"edge v{i} v{i + 1} g\n" for i in range(last))
    return "".join([*vertices(), *links, f"edge v{last} v0 d\n"]).encode()


def many_holders():
    """The text of a graph in which one vertex is linked with all others, which hold a right."""
    numbers = range(2, MOST_VERTICES)
    edges = (f"edge v0 v{i} tg\nedge v{i} v0 r\nedge v{i} v1 r\n" for i in numbers)
    return "".join([*vertices(), *edges]).encode()


def long_names():
    """The text of a graph without edges whose names are as long as may be."""
    return "".join(vertices("v{:015}")).encode()


def star_rules(count):
    """The text of rules that a star accepts."""
    pairs = ((i % (MOST_VERTICES - 1) + 1, i * 7 % MOST_VERTICES) for i in range(count))
    return "".join(f"grant v0 v{x} v{y} tg\n" for x, y in pairs).encode()


def chain_policy(size, count, chance):
    """The text of a policy about a chain, with a group of so many vertices and so many claims.

    Behind them stand three claims whose derivations are as long as may be.
    """
    names = [f"v{chance.randrange(MOST_VERTICES)}" for _ in range(size)]
    lines = [f"group some {name}\n" for name in names]
    for _ in range(count):
        kind, right = chance.choice(["never", "may", "only"]), chance.choice("rwea")
        lines.append(f"{kind} {right} {chance.choice(names)} @some\n")
    return "".join(lines + ["never d v0 v0\n"] * 3).encode()


def groups_of_all(count):
    """The text of a policy about long names: so many groups of all vertices, and one claim."""
    names = [f"v{number:015}" for number in range(MOST_VERTICES)]
    lines = [f"group all {' '.join(names[at : at + 14])}\n" for at in range(0, MOST_VERTICES, 14)]
    lines += (f"group g{number} @all\n" for number in range(count))
    return "".join([*lines, f"never r {names[0]} {names[1]}\n"]).encode()


@dataclass(frozen=True)
class Load:
    """A command with its texts, the files in which they stand, and the words behind these."""

    command: bytes
    texts: tuple
    paths: tuple
    further: list

    def words(self):
        """The words of the command line."""
        return words_for(self.command, *self.paths, further=self.further)

    def given(self):
        """What stands on standard input."""
        return os.devnull if self.command else os.fsdecode(self.paths[0])

    @cached_property
    def ending(self):
        """How it ends without hindrance."""
        return ending_for(self.command, *self.texts, further=self.further)


def load(files, size, command, *texts, further=None):
    """A command with its texts, in files that are named for a size."""
    name = f"{size}_{title_of(command).replace(' ', '_')}"
    paths = [files.text(f"{name}_{number}", text) for number, text in enumerate(texts)]
    further = further_words(command) if further is None else further
    return Load(command, texts, tuple(paths), further)


def small_loads(files):
    """Each command with a small report."""
    for command in COMMANDS:
        texts = [GRAPH, SECOND[command]] if command in SECOND else [GRAPH if command else CASE]
        yield load(files, "small", command, *texts)


def large_loads(files):
    """Each command with much to do."""
    chance = random.Random(29)
    many = dense(400).text().encode()
    wide = sparse(MOST_VERTICES, 8192, chance).text().encode()
    events = script(16, 1024, 1024, chance).encode()
    rules = star_rules(20_000)
    yield load(files, "large", b"", star() + b"rules\n" + rules)
    yield load(files, "large", b"check", many)
    yield load(files, "large", b"apply", star(), rules)
    yield load(files, "large", b"islands", long_names())
    yield load(files, "large", b"share", many, further=[b"a", b"v0", b"v399"])
    yield load(files, "large", b"derive", chain(), further=[b"d", b"v0", b"v0"])
    yield load(files, "large", b"table", star(), further=[b"t", b"--workers", b"16"])
    yield load(files, "large", b"run", wide, events)
    yield load(files, "large", b"race", wide, events)
    yield load(files, "large", b"who", star(), further=[b"tg", b"v1"])
    yield load(files, "large", b"reach", star(), further=[b"v1"])
    yield load(files, "large", b"verify", chain(), chain_policy(256, 2048, chance))
    yield load(files, "large", b"cut", many_holders(), further=[b"r", b"v0", b"v1"])


@lru_cache
def all_loads(files):
    """The small and the large loads, each with its size."""
    loads = [("small", it) for it in small_loads(files)]
    return loads + [("large", it) for it in large_loads(files)]
