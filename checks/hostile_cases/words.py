"""Command lines that are good, bad or refused."""
import os
import shlex
from itertools import product

from hostile_cases.commands import COMMANDS, GRAPH, MIB, QUESTION, ending_for, title_of, words_for
from hostile_cases.outputs import TAKING_NOTHING
from hostile_cases.runs import WIDE_STACK, BadLine, Case, CutOff, Helps, Hindrance, Says, Whole
from model.manual import HELP_WORDS, VERSION_WORDS, version

MOST_WORD_BYTES = 131_071
LONG_WORD = b"a" * MOST_WORD_BYTES
# Words that have none of the forms; G is the graph.
BAD_LINES = """
fly|fly G|Check G|CHECK G|check|check G G|islands|islands G G|apply|apply G|apply G G G|run G
run G G G|race|race G|race G G G|share G r a|share G r a c c|share r a c|derive G r a
derive G r a c c|table G|table|table G r 4|table G r --workers|table G r --workers 4 4
table G r --worker 4|table G r -workers 4|table G --workers 4 r|G|table G r --workers 00004
table G r --workers 12345|table G r --workers -1|table G r --workers +1|table G r --workers x
table G r --workers 4x|table G r --workers 0x4|table G r --workers 1.0|table G r --workers \u0664
table G r --workers ''|table G r --workers ' 4'|'check ' G|''|'' ''|'' check G|check G ''
who|who G|who G r|who G r a c|who r a|reach|reach G|reach G a c|reach a|reach G r a|verify|verify G
verify G G G|verify G G -why|verify G G --Why|verify G G --why=|verify G G ''|verify G G --why --why
verify G --why G|verify --why G G|verify G G --workers 4|who G r a --why|verify G G --wh\u0443
cut|cut G|cut G r|cut G r a|cut r a c|cut G r a c c|cut G r a c --keep|cut G r a c --keep a
cut G r a c --keep a b c|cut G r a c --kept a b|cut G r a c -keep a b|cut G r a c --Keep a b
cut G r a c --keep=a b c|cut G r a c a --keep b|cut G r a c a b --keep|cut --keep a b G r a c
cut G --keep a b r a c|cut G r a c --keep a b --keep|cut G r a c --keep a b --keep a
cut G r a c --keep a b --kept a b|cut G r a c --keep a b a b --keep|cut G r a c --ke\u0435p a b
cut G r a c --workers 4|cut G r a c --why|share G r a c --keep a b|derive G r a c --keep a b
table G r --keep a b|verify G G --keep a b
--help G|--help --help|-h -h|-h check|--help ''|'' --help|--Help|--HELP|-help|--hel|--helps|--help=|-H
--version G|-V -V|-V check|--versio|--versions|-version|-v|-hV|-|--|help|version|check -h G
s|sh|sha|shar|shark G r a c|shares|sharr|S|share\u0301|re|rea|reaches|reach\u0301 G a|r|ra|ru|rac|races|rune|runs
c|ch|chek G|checks|cu|cuts|cat G|a|ap|app|ape G G|ally|i|is|island G|islandss|d|de|dare|t|ta|tables|tab
w|wh|whose|whoso|v|ve|verified G G|vary|x|xcheck|\u0441heck G|\u00e9|1|check\u0020|0 check
"""
# What stands behind the graph of a question, good or bad.
QUESTIONS = """
q a c|'' a c|rw A z|r '' c|r a z|r z A|r z y|r a \u00e9|R a c|- a c|r abcdefghijklmnop c
r abcdefghijklmnopq c|r 9a c|a a c|d a c|ad a c|A a c|rw a c|wr a c|tgrwead a c|rwr a c|-r a c
-- a c|- a z|tgrweadt a c
"""
# What stands behind the graph where somebody is looked for, good or bad.
LOOKUPS = """
r c|q c|'' c|- c|rw A|r ''|r z|r \u00e9|R c|a c|A c|tg c|gt c|tgrwead c|rwr c|-r c|-- c|- z|q z|q A
r abcdefghijklmnop|r abcdefghijklmnopq|r 9a|r @c|r c@
"""
# What stands behind the graph where it is asked what a vertex can come to, good or bad.
VERTICES = """
a|b|c|d|A|''|z|\u00e9|abcdefghijklmnop|abcdefghijklmnopq|9a|@a|-|r
"""
# What stands behind the graph where it is asked what has to go, good or bad.
CUTS = """
r a c|w a c|t a b|g d c|r a a|a a c|- a c|'' a c|rw a c|q a c|R a c|r A c|r a C|r z A|r z y|r a z
r a c --keep a b|r a c --keep b c|r a c --keep a b --keep b c|r a c --keep b a|r a c --keep d d
r a c --keep a b --keep a b|r a c --keep '' b|r a c --keep a ''|r a c --keep a z|r a c --keep z a
r a c --keep z A|r a c --keep a z --keep A b|r a c --keep A b --keep a z|r a z --keep A b
q a c --keep A b|r a c --keep --keep b|r a c --keep a --keep|r a c --keep a \u00e9
r abcdefghijklmnop c|r a abcdefghijklmnopq|r a c --keep a abcdefghijklmnopq
"""
# What stands behind the graph of a table, good or bad.
TABLES = """
r|a|d|ad|q|rw|''|r --workers 0|r --workers 0000|r --workers 1|r --workers 0001|r --workers 16
r --workers 0016|r --workers 17|r --workers 9999|q --workers 17
"""


def lines_in(text):
    """The words of lines that bars or line feeds part."""
    for line in text.strip().replace("\n", "|").split("|"):
        yield line, [word.encode() for word in shlex.split(line)]


def bad_line_cases(files):
    """Words that have none of the forms."""
    graph = files.path("graph")
    for line, words in lines_in(BAD_LINES):
        words = [graph if word == b"G" else word for word in words]
        yield Case(f"words: {line}", words, [BadLine(words)])
    for count in 65, 1000:
        words = [b"cut", graph, *QUESTION, *[b"--keep", b"a", b"b"] * count]
        yield Case(f"words: cut, and {count} edges kept", words, [BadLine(words)])


def untold_word_cases(files):
    """Words that are no text: not one of them is looked at."""
    graph = files.path("graph")
    for command, spoil in product(COMMANDS[1:], (b"\xff", b"\xc3", b"\xe2\x82")):
        words = words_for(command, graph, graph)
        for place, word in enumerate(words):
            spoiled = words[:place] + [word + spoil] + words[place + 1 :]
            title = f"words: {title_of(command)}, and {spoil.hex()} behind word {place + 1}"
            yield Case(title, spoiled, [BadLine(spoiled)])


def question_cases(files):
    """Words behind the graph that are good or refused."""
    graph = files.path("graph")
    long_words = [QUESTION[:i] + [LONG_WORD] + QUESTION[i + 1 :] for i in range(len(QUESTION))]
    questions = [*lines_in(QUESTIONS)] + [(f"long {i}", it) for i, it in enumerate(long_words)]
    one_long = ("long", [LONG_WORD])
    keep = [b"--keep", b"a", b"b"]
    kept = [(f"kept {count} times", [*QUESTION, *keep * count]) for count in (63, 64)]
    kept.append(("long kept", [*QUESTION, b"--keep", b"a", LONG_WORD]))
    cases = [
        *product((b"share", b"derive"), questions),
        *product([b"who"], [*lines_in(LOOKUPS), ("long", [b"r", LONG_WORD])]),
        *product([b"reach"], [*lines_in(VERTICES), one_long]),
        *product([b"table"], [*lines_in(TABLES), one_long]),
        *product([b"cut"], [*lines_in(CUTS), *kept]),
    ]
    for command, (line, further) in cases:
        ending = ending_for(command, GRAPH, further=further)
        title = f"words: {title_of(command)} G {line}"
        yield Case(title, [command, graph, *further], [ending])


def own_text_cases(files):
    """What the program says of itself, to outputs that take it or not."""
    endings = {word: (Helps(), None) for word in HELP_WORDS}
    endings |= {word: (Whole(version(), 0), version()) for word in VERSION_WORDS}
    for word, (ending, text) in endings.items():
        name = f"words: {word.decode()}"
        yield Case(name, [word], [ending])
        closed = Hindrance(given="closed", complaint="closed")
        yield Case(f"{name}, and all but the output is closed", [word], [ending], closed)
        for title, output in TAKING_NOTHING.items():
            yield Case(f"{name} to {title}", [word], [Says("write")], Hindrance(output=output))
        sized = os.fsdecode(files.text(f"sized_{word.decode()}"))
        hindrance = Hindrance(output=sized, file_size=3)
        yield Case(f"{name} to a file of 3 bytes", [word], [CutOff(text)], hindrance)


def option_path_cases(files):
    """An option that stands where a file is named is that file's name."""
    for word in HELP_WORDS + VERSION_WORDS:
        words, name = [b"check", word], word.decode()
        yield Case(f"words: check, and no file {name}", words, [Says("graph")], folder="/")
        files.text(name, GRAPH)
        ending = ending_for(b"check", GRAPH)
        yield Case(f"words: check, and a file {name}", words, [ending], folder=files.folder)
    graph = files.path("graph")
    causes = {(graph, b"--why"): "second file", (b"--why", graph): "graph"}
    for paths, cause in causes.items():
        yield Case(f"words: verify, and --why for the {cause}", [b"verify", *paths], [Says(cause)])
    words = [b"cut", b"--keep", *QUESTION]
    yield Case("words: cut, and --keep for the graph", words, [Says("graph")])


def long_path_cases(files):
    """A word for a file that is as long as a word may be."""
    for command in COMMANDS[1:]:
        words = words_for(command, LONG_WORD, files.path("graph"))
        yield Case(f"words: {title_of(command)} with a long path", words, [Says("graph")])


def many_word_cases(_):
    """More words than any command has, and as many long ones as the system hands over."""
    for count in (6, 256, 10_000):
        words = [b"check"] * count
        yield Case(f"words: {count} times check", words, [BadLine(words)])
    # (that is 6 MiB, and less where the stack is limited)
    for count, more in product((1, 5, 15, 46), (6, 8, 16, None)):
        memory = count * MOST_WORD_BYTES + more * MIB if more else None
        title = f"words: {count} of 131,071 bytes" + (f", {more} MiB of memory" if more else "")
        words = [LONG_WORD] * count
        allowed = [BadLine(words), Says("memory")] if more else [BadLine(words)]
        hindrance = Hindrance(stack=WIDE_STACK, memory=memory)
        yield Case(title, words, allowed, hindrance)
