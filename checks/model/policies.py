"""The policy text: its value or first fault, and what breaks a line of it on a graph."""
from dataclasses import dataclass
from itertools import product

from model.graphs import LETTERS
from model.texts import Reader, TextFault, is_name, is_rights, texts

MOST_POLICY_LINES = 65_536
# For each word of a line, the fewest words behind it, and the most where there is such a limit.
COUNTS = {b"group": (2, None), b"never": (3, 3), b"may": (3, 3), b"only": (2, None)}


@dataclass
class Claim:
    """What a line claims: its number and word, the rights, and the names of each operand."""

    line: int
    word: str
    rights: set
    operands: list


def is_operand(word):
    """Whether a word is that of a vertex or of a group."""
    return is_name(word.removeprefix(b"@"))


def kind_of_words(words):
    """The kind of fault that the words of a line have by themselves, or None."""
    word, *rest = words
    if word not in COUNTS:
        return "bad-word"
    fewest, most = COUNTS[word]
    if len(rest) < fewest or most and len(rest) > most:
        return "word-count"
    first, *operands = rest
    if not all(map(is_operand, operands)) or word == b"group" and not is_name(first):
        return "bad-name"
    is_bad = word != b"group" and (first == b"-" or not is_rights(first))
    return "bad-rights" if is_bad else None


class PolicyReader(Reader):
    """Reads a policy about a graph, as a list of claims."""

    def __init__(self, graph):
        self.graph = graph
        self.groups = {}
        self.count = 0
        self.claims = []

    def take_in(self, number, words):
        """The kind of fault of a line, or None."""
        fault = kind_of_words(words)
        if fault:
            return fault
        word, first, *operands = texts(words)
        fault = self.kind_of_unknown(operands)
        if fault or self.count >= MOST_POLICY_LINES:
            return fault or "too-many"
        self.count += 1
        self.add(number, word, first, [self.members(operand) for operand in operands])
        return None

    def kind_of_unknown(self, operands):
        """The kind of fault of operands that stand for nothing, or None."""
        groups = {operand[1:] for operand in operands if operand[0] == "@"}
        if any(operand[0] != "@" and operand not in self.graph.names for operand in operands):
            return "unknown-vertex"
        return None if groups <= self.groups.keys() else "unknown-group"

    def members(self, operand):
        """The names that an operand stands for."""
        return self.groups[operand[1:]] if operand[0] == "@" else frozenset([operand])

    def add(self, number, word, first, operands):
        """Takes in a line that has no fault."""
        if word == "group":
            self.groups[first] = self.groups.get(first, frozenset()).union(*operands)
        else:
            self.claims.append(Claim(number, word, set(first), operands))

    def value(self, line_count):
        """The claims. There is one at least."""
        if not self.claims:
            raise TextFault(line_count + 1, "no-claim")
        return self.claims


def read_policy(graph, text):
    """The claims of a policy about a graph. It raises TextFault."""
    return PolicyReader(graph).read(text)


def ends(claim, names):
    """The x and the y of a claim about a graph with these names, each in name order."""
    first, *others = claim.operands
    if claim.word == "only":
        return sorted(names - frozenset().union(*others)), sorted(first)
    return sorted(first), sorted(others[0])


def first_break(claim, reach):
    """The first right, x and y that break a claim, or None. `reach` is that of a graph."""
    letters = [letter for letter in LETTERS if letter in claim.rights]
    for right, x, y in product(letters, *ends(claim, reach.keys())):
        can = right in reach[x].get(y, ())
        if can != (claim.word == "may"):
            return right, x, y
    return None
