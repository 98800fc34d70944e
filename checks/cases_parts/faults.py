"""Small files of cases with a fault, and spelled lines: what this check has to find in them.

The program that they are about is cat.
"""
import shutil
import tempfile
from pathlib import Path

from cases_parts.finding import Found
from cases_parts.running import differences_with
from cases_parts.spelling import bytes_of, numbered_bytes, spelled

GOOD = """\
# A comment.
text one.text
| a

case good
ask one.text
status 0
report
| a
ask - < one.text
status 0
report
# (nothing is said between the lines)

| a
"""
OTHER_TEXT = "text two.text\n| b\n"
SAME = "ask one.text\nstatus 0\nreport\n| a\n"
NO_SUCH_FILE = "ask two.text\nstatus 1\nreport\n"
BAD_WORDS = "ask one.text\nstatus 2\nreport\n| a\nerror\n"
# What is put in the place of what in a good file, and what has to be told of it.
SPOILED = [
    ("ask one.text\nstatus 0\n", "ask one.text\n", "line 6: the ask has no status"),
    ("status 0\nreport\n# ", "status 0\n# ", "line 14: no text, report or error stands above"),
    ("report\n| a\nask", "ask", "line 6: the ask has no report"),
    ("ask -", "ask missing.text\nask -", "line 10: the ask has no status"),
    ("# A comment.\n", OTHER_TEXT, "line 1: no ask uses the text two.text"),
    ("# A comment.\n", "text one.text\n| b\n", "line 1: no ask uses the text one.text"),
    ("case good\n", "case empty\ncase good\n", "line 5: the case empty has no ask"),
    ("case good\n", f"case good\n{SAME}case good\n", "line 10: an earlier case is named good"),
    ("report\n| a\nask", "report\n| b\nask", "report line 1\n    wanted | b\n    found  | a"),
    ("report\n| a\nask", "report\n| a\\\nask", "report line 1\n    wanted | a\\\n    found  | a"),
    ("report\n| a\nask", "report\n| a\n|\nask", "report line 2\n    wanted | \n    found  no line"),
    ("report\n| a\nask", "report\nask", "report line 1\n    wanted no line\n    found  | a"),
    ("report\n| a\nask", "report\n* 2 a\nask", "report line 2\n    wanted | a\n    found  no line"),
    ("text one.text\n| a\n", "text one.text\n* 9 a\n", "report: 4 lines more differ"),
    ("status 0\nreport\n# ", "status 1\nreport\n# ", "status: wanted 1, found 0"),
    ("ask -", f"{NO_SUCH_FILE}ask -", "error line 1\n    wanted no line\n    found  | "),
    ("ask -", f"{NO_SUCH_FILE}error\nask -", "line 10: the ask has an error and status 1"),
    ("status 0\nreport\n# ", "status 2\nreport\n# ", "line 10: the ask has status 2 and no error"),
    ("ask -", f"{BAD_WORDS}| b\nask -", "error line 1\n    wanted | b\n    found  no line"),
    ("status 0\nreport\n# ", "status ok\nreport\n# ", "a status is a number"),
    ("status 0\nreport\n# ", "status 0\nstatus 1\nreport\n# ", "line 12: the ask has a status already"),
    ("status 0\nreport\n# ", "status 0\nreport a\nreport\n# ", "line 12: the lines of the report stand below the word"),
    ("case good\n", "status 0\ncase good\n", "line 5: no ask stands above the status"),
    ("case good\n", "ask one.text\ncase good\n", "line 5: no case stands above the ask"),
    ("case good\n", "case good one\ncase good\n", "line 5: the name of a case is"),
    ("case good\n", "text two\ncase good\n", "line 5: the name of a text has a dot"),
    ("ask -", "answer\nask -", "line 10: 'answer' begins no line"),
    ("ask -", "|a\nask -", "line 10: '|a' begins no line"),
    ("ask -", " ask -", "line 10: '' begins no line"),
    ("ask -", "| \\a\nask -", "line 10: \\a is no escape"),
    ("ask -", "| \\x0g\nask -", "line 10: \\x is no escape"),
    ("ask -", "* 2 \\{n}\nask -", "line 10: \\ is no escape"),
    ("ask -", "* 0x1 a\nask -", "line 10: a line that stands several times begins with * and a number"),
    ("ask -", "ask - < three.text\nask -", "line 10: no text three.text stands above the ask"),
    ("ask -", "ask 'a\nask -", "line 10: No closing quotation"),
]
# Files, names that are asked for, and what has to be told of them.
FOLDERS = [
    ({}, [], "no case was found"),
    ({"README.md": ""}, [], "no case was found"),
    ({"a.cases": "# A comment.\n"}, [], "a.cases line 2: the file has no case"),
    ({"a.cases": GOOD, "b.case": GOOD}, [], "b.case: it is neither a file of cases nor README.md"),
    ({"a.cases": GOOD, "b.cases/README.md": ""}, [], "b.cases: it is neither a file of cases nor README.md"),
    ({"a.cases": GOOD}, ["a", "b"], "no file and no case is named b"),
    ({"a.cases": GOOD, "b.cases": GOOD + OTHER_TEXT}, ["a"], "b.cases line 16: no ask uses the text two.text"),
    ({"a.cases": "case \udcff\n"}, [], "a.cases line 1: the file is no UTF-8 text"),
]
SPELLED = {
    "": b"\n",
    "a b ": b"a b \n",
    "\u00e9": b"\xc3\xa9\n",
    "\\": b"",
    "a\\": b"a",
    "\\\\": b"\\\n",
    "a\\\\\\": b"a\\",
    "\\r\\t\\0\\xff\\x5c\\xAb": b"\r\t\0\xff\\\xab\n",
}
# Lines that stand twice.
NUMBERED = {
    "": b"\n\n",
    "a\\": b"aa",
    "{n} {n}\\x7b": b"0 0{\n1 1{\n",
    "{nnn}{nn+9}": b"00009\n00110\n",
    "{n+10}\\x0a{2n+1}": b"10\n1\n11\n3\n",
    "{m}{}": b"{m}{}\n{m}{}\n",
}


def failures_in(files, names):
    """What is told of files of these texts when cat is asked."""
    with tempfile.TemporaryDirectory(prefix="cases-") as folder:
        for name, text in files.items():
            path = Path(folder, name)
            path.parent.mkdir(exist_ok=True)
            path.write_bytes(text.encode(errors="surrogateescape"))
        found = Found(Path(folder), names)
        return found.failures(differences_with(shutil.which("cat"), found.asks))


def missed_faults():
    """What this check does not find, or finds where nothing is wrong, each as text."""
    told = failures_in({"a.cases": GOOD, "README.md": "a page"}, ["a", "good"])
    if told:
        yield f"of good cases it tells {told}"
    spoiled = [({"a.cases": GOOD.replace(old, new, 1)}, [], wanted) for old, new, wanted in SPOILED]
    for files, names, wanted in spoiled + FOLDERS:
        told = failures_in(files, names)
        if not any(wanted in failure for failure in told):
            yield f"of {files} it tells {told}, not {wanted!r}"


def misread_lines():
    """Spelled lines that are not read or shown as they have to be, each as text."""
    for line, wanted in SPELLED.items():
        if bytes_of(line) != wanted:
            yield f"{line!r} is read as {bytes_of(line)}"
        if bytes_of(spelled(wanted)) != wanted:
            yield f"{wanted} is shown as {spelled(wanted)!r}"
    for line, wanted in NUMBERED.items():
        if numbered_bytes(line, 2) != wanted:
            yield f"{line!r} is read as {numbered_bytes(line, 2)} where it stands twice"


def own_faults():
    """What is wrong with this check, each as text."""
    return [f"the check itself: {fault}" for fault in [*missed_faults(), *misread_lines()]]
