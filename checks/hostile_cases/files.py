"""Files and standard inputs that are no texts, too large, or not to be read."""
import os
import random
from dataclasses import dataclass, replace
from itertools import product

from hostile_cases.commands import (
    CASE,
    COMMANDS,
    GRAPH,
    MIB,
    MOST_INPUT_BYTES,
    SECOND,
    SECOND_TITLES,
    ending_for,
    second_name,
    title_of,
    words_for,
)
from hostile_cases.runs import Case, Hindrance, Says, Whole


@dataclass(frozen=True)
class Bad:
    """A file where a text should be: the text that its report is the report of, or the cause.

    `line` is the one line of its report, where no text of moderate size has the same.
    """

    title: str
    path: object
    text: bytes = None
    cause: str = None
    line: bytes = None
    hindrance: Hindrance = Hindrance()


def noise(size, seed):
    """Bytes by chance."""
    return random.Random(seed).randbytes(size)


def small_files(files, good, name):
    """Files of moderate size where the text `good` should be."""
    texts = {
        "empty": b"",
        "blank": b" \t\r\n\n \n",
        "without a last line feed": good.rstrip(b"\n"),
        "with carriage returns": good.replace(b"\n", b"\r\n"),
        "of noise": noise(4096, 1),
        "of much noise": noise(MIB, 2),
        "of noise without line feeds": noise(200, 3).replace(b"\n", b""),
        "of zero bytes": b"\0" * 200,
        "with a zero byte behind": good + b"\0",
        "with a zero byte in a word": good.replace(b"a", b"a\0", 1),
        "with a byte order mark": b"\xef\xbb\xbf" + good,
        "in UTF-16": good.decode().encode("utf-16"),
        "with a line of 256 bytes": good + b"#" * 256,
        "with a line of 257 bytes": good + b"#" * 257,
        "with a form feed": good.replace(b"\n", b"\x0c\n", 1),
        "of version 1": b"version 1\n" + good,
        "of version 2": b"# (the second)\r\n\tversion 2 \r\n" + good,
        "of version 3": b"version 3\n" + good,
        "of no version": b"version\n" + good,
        "of two versions": b"version 1\nversion 2\n" + good,
        "with its version behind": good + b"version 2\n",
        "with append and delete": good.replace(b" tg\n", b" tgad\n"),
        "of version 2 with append and delete": b"version 2\n" + good.replace(b" tg\n", b" tgad\n"),
    }
    for number, (title, text) in enumerate(texts.items()):
        yield Bad(title, files.text(f"{name}_{number}", text), text=text)


def large_files(files, good, name):
    """Files as large as an input may be, or larger, where the text `good` should be."""
    long_line = b"x" * 257
    yield Bad("of 67,108,864 bytes", files.path(f"{name}_full"), text=good)
    feeds = files.path("line_feeds")
    ends = {"script": b"no-header", "policy": b"no-claim"}
    if name in ends:
        last = b"refused %s line 67108865 %s\n" % (name.encode(), ends[name])
        yield Bad("of 67,108,864 line feeds", feeds, line=last)
    else:
        yield Bad("of 67,108,864 line feeds", feeds, text=b"")
    yield Bad("of one line of 67,108,864 bytes", files.path("long_line"), text=long_line)
    yield Bad("of 67,108,864 zero bytes", files.path("zeros"), text=long_line)
    yield Bad("of 67,108,865 zero bytes", files.path("zeros_over"), cause="too large")
    yield Bad("of 67,108,865 bytes", files.path("over"), cause="too large")
    yield Bad("of eight GiB", files.path("sparse"), cause="too large")
    yield Bad("that never ends", b"/dev/zero", cause="too large")


def unreadable_files(files, cause):
    """Files that can't be read."""
    yield Bad("that is a directory", os.fsencode(files.folder), cause=cause)
    yield Bad("that is missing", files.path("missing"), cause=cause)
    yield Bad("in a missing directory", files.path("missing/file"), cause=cause)
    yield Bad("below a file", files.path("empty") + b"/file", cause=cause)
    yield Bad("that is a link to itself", files.path("loop"), cause=cause)
    yield Bad("that fails when it is read", b"/proc/self/mem", cause=cause)
    yield Bad("with an empty name", b"", cause=cause)
    yield Bad("with a name of 256 bytes", files.path("n" * 256), cause=cause)
    yield Bad("with a path of 5,000 bytes", files.path("n/" * 2500), cause=cause)
    other = Hindrance(is_other_user=True)
    yield Bad("of mode 000", files.path("mode_000"), cause=cause, hindrance=other)


def piped_files(good, cause):
    """Standard input by its name, where the text `good` should be."""
    name = b"/dev/stdin"
    endless, slow = Hindrance(given="endless"), Hindrance(given="slow", pieces=good)
    yield Bad("that is an endless pipe", name, cause="too large", hindrance=endless)
    yield Bad("that is a slow pipe", name, text=good, hindrance=slow)
    yield Bad("that is a closed input", name, cause=cause, hindrance=Hindrance(given="closed"))


def make_shared(files):
    """Makes the files that many cases name."""
    files.text("empty")
    files.text("graph", GRAPH)
    files.text("faulty", b"edge\n")
    for command, text in SECOND.items():
        files.text(second_name(command), text)
        files.filled(f"{SECOND_TITLES[command]}_full", text)
    files.filled("graph_full", GRAPH)
    files.filled("case_full", CASE)
    files.text("line_feeds", b"\n" * MOST_INPUT_BYTES)
    files.text("long_line", b"x" * MOST_INPUT_BYTES)
    files.padded("over", MOST_INPUT_BYTES + 1, GRAPH)
    files.padded("zeros", MOST_INPUT_BYTES)
    files.padded("zeros_over", MOST_INPUT_BYTES + 1)
    files.padded("sparse", 1 << 33)
    os.symlink(files.path("loop"), files.path("loop"))
    os.chmod(files.text("mode_000", GRAPH), 0)


def case_of(title, words, bad, command, *texts):
    """A case with a bad file. The texts are those whose report it has, if it has one."""
    if bad.cause:
        ending = Says(bad.cause)
    elif bad.line:
        ending = Whole(bad.line, 1)
    else:
        ending = ending_for(command, *texts)
    return Case(f"{title_of(command)}: {title} {bad.title}", words, [ending], bad.hindrance)


def graph_cases(files):
    """A bad file in place of the graph."""
    bad_files = [
        *small_files(files, GRAPH, "graph"),
        *large_files(files, GRAPH, "graph"),
        *unreadable_files(files, "graph"),
        *piped_files(GRAPH, "graph"),
    ]
    for command, bad in product(COMMANDS[1:], bad_files):
        words = words_for(command, bad.path, files.path(second_name(command)))
        yield case_of("a graph", words, bad, command, bad.text, SECOND.get(command, b""))


def second_cases(files):
    """A bad file in place of the rules or the script."""
    for command, good in SECOND.items():
        title = SECOND_TITLES[command]
        bad_files = [
            *small_files(files, good, title),
            *large_files(files, good, title),
            *unreadable_files(files, "second file"),
            *piped_files(good, "second file"),
        ]
        for bad in bad_files:
            words = words_for(command, files.path("graph"), bad.path)
            yield case_of(title, words, bad, command, GRAPH, bad.text)


def order_cases(files):
    """Two bad files: the graph is read first, and both before the texts in them."""
    faulty, missing, over = files.path("faulty"), files.path("missing"), files.path("over")
    refused = Whole(b"refused graph line 1 word-count\n", 1)
    pairs = {
        "both missing": (missing, missing, Says("graph")),
        "a directory and a large file": (files.path(""), over, Says("graph")),
        "a large file and a missing one": (over, missing, Says("too large")),
        "a faulty graph and a missing file": (faulty, missing, Says("second file")),
        "a faulty graph and a large file": (faulty, over, Says("too large")),
        "a faulty graph and a faulty text": (faulty, faulty, refused),
    }
    for command, (title, (graph, second, ending)) in product(SECOND, pairs.items()):
        yield Case(f"{title_of(command)}: {title}", [command, graph, second], [ending])


def input_cases(files):
    """Bad standard inputs of the program without words."""
    bad_files = [
        *small_files(files, CASE, "case"),
        *large_files(files, CASE, "case"),
        Bad("that is a directory", os.fsencode(files.folder), cause="graph"),
        Bad("that fails when it is read", b"/proc/self/mem", cause="graph"),
    ]
    as_input = [replace(it, hindrance=Hindrance(given=os.fsdecode(it.path))) for it in bad_files]
    for bad in as_input + list(piped_files(CASE, "graph")):
        yield case_of("standard input", [], bad, b"", bad.text)


def unread_input_cases(files):
    """Bad standard inputs of commands that read files."""
    inputs = {"closed": "closed", "a directory": files.folder, "an endless pipe": "endless"}
    for command, (title, given) in product(COMMANDS[1:], inputs.items()):
        words = words_for(command, files.path("graph"), files.path(second_name(command)))
        ending = ending_for(command, GRAPH, SECOND.get(command, b""))
        name = f"{title_of(command)}: files, and standard input is {title}"
        yield Case(name, words, [ending], Hindrance(given=given))
