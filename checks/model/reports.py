"""What the program prints for its words and texts, and with which status."""
import re
from functools import partial

from model.cuts import least_cut
from model.graphs import letters_of
from model.policies import first_break, read_policy
from model.sessions import Hall
from model.texts import TextFault, is_name, is_right, is_rights
from model.texts import parts_of, read_graph, read_rules, read_script

MOST_WORKERS = 16
MOST_KEPT = 64
WORKERS = re.compile(rb"[0-9]{1,4}")
# The numbers of words that each command may have, its own included.
WORD_COUNTS = {
    b"check": (2,),
    b"islands": (2,),
    b"apply": (3,),
    b"run": (3,),
    b"race": (3,),
    b"table": (3, 5),
    b"share": (5,),
    b"derive": (5,),
    b"who": (4,),
    b"reach": (3,),
    b"verify": (3, 4),
    b"cut": range(5, 6 + 3 * MOST_KEPT, 3),
}
WITH_SECOND_FILE = (b"apply", b"run", b"race", b"verify")


class Refused(Exception):
    """A fault that is the whole report."""


def is_call(words):
    """Whether the words of a command line have one of the forms."""
    if not words:
        return True
    if len(words) not in WORD_COUNTS.get(words[0], ()) or not all(map(is_utf8, words)):
        return False
    if words[0] == b"verify":
        return words[3:] in ([], [b"--why"])
    if words[0] == b"cut":
        return all(word == b"--keep" for word in words[5::3])
    if words[0] != b"table" or len(words) == 3:
        return True
    return words[3] == b"--workers" and WORKERS.fullmatch(words[4]) is not None


def is_utf8(word):
    """Whether the bytes are text."""
    try:
        word.decode()
    except UnicodeDecodeError:
        return False
    return True


def read(reader, title, text):
    """The value of a text, or the refusal of its first fault."""
    try:
        return reader(text)
    except TextFault as fault:
        raise Refused(f"{title} line {fault.line} {fault.kind}") from fault


def right_in(word, test=is_right):
    """The right that a word is; by another test, the set of rights."""
    if not test(word):
        raise Refused("bad-right")
    return word.decode()


def vertices_in(graph, words):
    """The vertices of a graph that words name."""
    if not all(map(is_name, words)):
        raise Refused("bad-name")
    names = [word.decode() for word in words]
    for name in names:
        if name not in graph.names:
            raise Refused(f"unknown {name}")
    return names


def question_in(text, rights, *words):
    """The graph, rights and vertices of a question."""
    graph = read(read_graph, "graph", text)
    rights = set(right_in(rights, is_rights)) - {"-"}
    return graph, rights, *vertices_in(graph, words)


def check(text):
    """The report of `check`."""
    return read(read_graph, "graph", text).text(), 0


def islands(text):
    """The report of `islands`."""
    graph = read(read_graph, "graph", text)
    return "".join(" ".join(island) + "\n" for island in graph.islands()), 0


def share(text, *words):
    """The report of `share`."""
    graph, *question = question_in(text, *words)
    return "yes\n" if graph.can_share(*question) else "no\n", 0


def derived(graph, rights, x, y):
    """The lines of a derivation on a graph."""
    rules = graph.derivation(rights, x, y)
    if rules is None:
        return "# no\n"
    return f"# yes {len(rules)}\n" + "".join(rule + "\n" for rule in rules)


def derive(text, *words):
    """The report of `derive`."""
    return derived(*question_in(text, *words)), 0


def who(text, *words):
    """The report of `who`."""
    graph, rights, y = question_in(text, *words)
    found = graph.reach()
    names = [x for x in sorted(graph.names) if rights <= found[x].get(y, set())]
    return "".join(name + "\n" for name in names), 0


def reach(text, word):
    """The report of `reach`."""
    graph = read(read_graph, "graph", text)
    (x,) = vertices_in(graph, [word])
    found = sorted(graph.reach()[x].items())
    return "".join(f"{y} {letters_of(rights)}\n" for y, rights in found), 0


def cut(text, right, x, y, *keeping):
    """The report of `cut`."""
    graph = read(read_graph, "graph", text)
    right, pair = right_in(right), vertices_in(graph, [x, y])
    ends = (keeping[at + 1 : at + 3] for at in range(0, len(keeping), 3))
    kept = {tuple(vertices_in(graph, words)) for words in ends}
    rules = least_cut(graph, right, *pair, kept)
    if rules is None:
        return "# none\n", 1
    return f"# cut {len(rules)}\n" + "".join(rules) if rules else "# no\n", 0


def verify(text, policy_text, why=None):
    """The report of `verify`."""
    graph = read(read_graph, "graph", text)
    policy = read(partial(read_policy, graph), "policy", policy_text)
    found, lines, broken = graph.reach(), [], 0
    for claim in policy:
        fault = first_break(claim, found)
        lines.append(f"{claim.line} {'fails ' + ' '.join(fault) if fault else 'holds'}\n")
        broken += fault is not None
        if fault and why and claim.word != "may":
            lines.append(derived(graph, *fault))
    lines.append(f"broken {broken}\n" if broken else "kept\n")
    return "".join(lines), 1 if broken else 0


def table(text, right, _="--workers", workers=b"4"):
    """The report of `table`."""
    graph = read(read_graph, "graph", text)
    right = right_in(right)
    if not 1 <= int(workers) <= MOST_WORKERS:
        raise Refused("workers")
    names, lines = sorted(graph.names), []
    for island, over in graph.table(right):
        digits = "".join("01"[y in over] for y in names)
        lines += (f"{x} {digits}\n" for x in island)
    return "".join(sorted(lines)), 0


def apply(text, rules_text):
    """The report of `apply`."""
    graph = read(read_graph, "graph", text)
    lines, reply = [], "done"
    for line, words in read(read_rules, "rules", rules_text):
        reply = graph.apply(words)
        lines.append(f"{line} {reply}\n")
        if reply != "done":
            break
    return "".join(lines) + "graph\n" + graph.text(), 0 if reply == "done" else 1


def case(text):
    """The report of no words, for standard input."""
    return apply(*parts_of(text))


def played(graph_text, script_text):
    """The graph and the script of two texts."""
    graph = read(read_graph, "graph", graph_text)
    return graph, read(read_script, "script", script_text)


def run(graph_text, script_text):
    """The report of `run`."""
    graph, script = played(graph_text, script_text)
    hall = Hall(graph, script.cells, script.seats)
    lines = [f"{line} {seat} {hall.act(seat, words)}\n" for line, seat, words in script.events]
    return "".join(lines) + "graph\n" + hall.last().text(), 0


REPORTS = {
    b"check": check,
    b"islands": islands,
    b"apply": apply,
    b"run": run,
    b"table": table,
    b"share": share,
    b"derive": derive,
    b"who": who,
    b"reach": reach,
    b"verify": verify,
    b"cut": cut,
}


def report_of(words, first, second=b""):
    """The bytes and the status of the report of all commands but `race`.

    `words` are those of a command line that has one of the forms; `first` and `second` are the
    texts of the files that they name, or `first` is standard input where there are no words.
    """
    texts = [first, second] if words and words[0] in WITH_SECOND_FILE else [first]
    further = words[1 + len(texts) :]
    try:
        text, status = REPORTS[words[0]](*texts, *further) if words else case(first)
    except Refused as fault:
        text, status = f"refused {fault}\n", 1
    return text.encode(), status


def race_refusal(first, second):
    """The bytes of the report of a race whose texts are refused, or None."""
    try:
        played(first, second)
    except Refused as fault:
        return f"refused {fault}\n".encode()
    return None
