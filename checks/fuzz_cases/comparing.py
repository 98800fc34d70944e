"""The kinds of cases: what the program is run on, and what its answer is compared with."""
import os
import re
import subprocess
from itertools import zip_longest

from model.manual import HELP_WORDS, VERSION_WORDS, complaint_for, help_fault, version
from model.races import fault_of
from model.reports import WITH_SECOND_FILE, is_call, race_refusal, report_of
from model.texts import read_graph, read_script

LONGEST_RUN = 20
# In a report of `verify`: the right, the x and the y of a line that fails, and its derivation.
DERIVED = re.compile(rb"[0-9]+ fails (\w) (\w+) (\w+)\n(#.*\n(?:[tgc][a-z]+ .*\n)*)")


class Failure(Exception):
    """Two answers that are not the same: what was compared, the program's and the one wanted.

    The one wanted is None where the program's answer breaks a law.
    """

    def __init__(self, what, told, wanted):
        super().__init__(what)
        self.told = lines_of(told)
        self.wanted = lines_of(wanted)

    def difference(self):
        """What was compared, and the first lines that differ."""
        pairs = enumerate(zip_longest(self.told, self.wanted, fillvalue="nothing"), 1)
        for number, (told, wanted) in pairs:
            if self.wanted and told != wanted:
                return f"{self}, line {number}\n  answered {told}\n  wanted   {wanted}"
        return str(self)


def lines_of(answer):
    """An answer, that is, output, standard error and status, or a single value, as lines."""
    if answer is None:
        return []
    if not isinstance(answer, tuple):
        return [repr(answer)]
    output, complaint, status = answer
    lines = output.decode(errors="backslashreplace").split("\n")
    return [f"status {status}, standard error {complaint!r}, and the report:", *lines]


class Program:
    """The program, run in a folder of its own on texts that stand there as files.

    No run may take longer than `longest` seconds.
    """

    def __init__(self, path, folder, longest=LONGEST_RUN):
        self.path = path
        self.folder = folder
        self.longest = longest
        self.texts = {}
        self.runs = []

    def write(self, name, text):
        """Writes a text, and answers its path as a word."""
        self.texts[name] = text
        path = os.path.join(self.folder, name)
        with open(path, "wb") as file:
            file.write(text)
        return os.fsencode(path)

    def answer(self, words, given=None):
        """Output, standard error and status for words and the name of standard input's text."""
        self.runs.append(words)
        given = os.path.join(self.folder, given) if given else os.devnull
        with open(given, "rb") as standard_input:
            ran = subprocess.run(
                [self.path, *words],
                cwd=self.folder,
                stdin=standard_input,
                capture_output=True,
                timeout=self.longest,
                check=False,
            )
        return ran.stdout, ran.stderr, ran.returncode

    def report(self, command, first, second=None, further=()):
        """The answer to a command for its texts, with the words that follow them."""
        words = [command, self.write("graph", first)]
        if second is not None:
            words.append(self.write("second", second))
        return self.answer([*words, *further])

    def keep(self, folder, told, wanted):
        """Keeps the texts, the words of the runs and two answers as lines in a new folder."""
        os.makedirs(folder, exist_ok=True)
        runs = [repr([self.path, *words]) for words in self.runs]
        kept = dict(self.texts)
        for name, lines in (("runs", runs), ("answered", told), ("wanted", wanted)):
            kept[name] = "\n".join(lines).encode(errors="surrogateescape")
        for name, text in kept.items():
            with open(os.path.join(folder, name), "wb") as file:
                file.write(text)


def require_same(what, told, wanted):
    """Requires two answers to be the same."""
    if told != wanted:
        raise Failure(what, told, wanted)


def require_answer(program, command, texts, further=()):
    """Requires the report of a command to be the model's, and answers its text and status."""
    told = program.report(command, *texts, further=further)
    words = [command, *(b"file" for _ in texts), *further]
    text, status = report_of(words, *texts)
    require_same(command.decode(), told, (text, b"", status))
    return text, status


def require_report(program, command, texts, further=()):
    """Requires the report of a command to be the model's: its text, or None for a refusal."""
    text, status = require_answer(program, command, texts, further)
    return text if status == 0 else None


def require_rights_after(program, graph, rules, question):
    """Requires `apply` to accept rules that were derived, and x to have the rights over y then."""
    text = require_report(program, b"apply", [graph, rules])
    require_same("apply of derive", text is not None, True)
    rights, x, y = (word.decode() for word in question)
    after = read_graph(text.partition(b"graph\n")[2])
    require_same("the rights after derive", set(rights) - {"-"} <= after.rights(x, y), True)


# the kinds of cases


def check_case(program, make):
    """`check`, and `check` of what it printed."""
    text = require_report(program, b"check", [make.spoil.text(make.graph_text())])
    if text is not None:
        require_same("check of check", program.report(b"check", text), (text, b"", 0))


def case_case(program, make):
    """No words."""
    given = make.spoil.text(make.case_text())
    program.write("standard_input", given)
    text, status = report_of([], given)
    require_same("no words", program.answer([], "standard_input"), (text, b"", status))


def apply_case(program, make):
    """`apply`, and `check` of the graph that it printed."""
    text = require_report(program, b"apply", make.spoil.one_of(make.graph_and_rules()))
    if text is not None:
        after = text.partition(b"graph\n")[2]
        require_same("check of apply", program.report(b"check", after), (after, b"", 0))


def islands_case(program, make):
    """`islands`."""
    require_report(program, b"islands", [make.spoil.text(make.graph_text(), 0.2)])


def share_case(program, make):
    """`share`, and `verify` of a policy that asks for the same."""
    question = [make.spoil.word(word) for word in make.question(make.rights())]
    graph = make.spoil.text(make.graph_text(), 0.1)
    text = require_report(program, b"share", [graph], question)
    if text is not None and question[0] != b"-":
        told = program.report(b"verify", graph, b"may " + b" ".join(question))
        require_same("the status of verify", told[1:], (b"", 0 if text == b"yes\n" else 1))


def derive_case(program, make):
    """`derive`, and `apply` of what it printed."""
    question = [make.spoil.word(word, 0.05) for word in make.question(make.rights())]
    graph = make.spoil.text(make.graph_text(), 0.1)
    rules = require_report(program, b"derive", [graph], question)
    if rules is not None and rules != b"# no\n":
        require_rights_after(program, graph, rules, question)


def table_case(program, make):
    """`table`, and `share` of one of its cells."""
    right, x, y = make.question(make.right())
    right, workers = make.spoil.word(right, 0.05), make.workers()
    if workers and not is_call([b"table", b"file", b"r", *workers]):
        told = program.report(b"table", b"", further=[right, *workers])
        require_same("workers", told, bad_line([b"table", right, *workers]))
        return
    graph = make.spoil.text(make.graph_text(), 0.1)
    text = require_report(program, b"table", [graph], [right, *workers])
    rows = dict(line.split() for line in text.splitlines()) if text else {}
    if x in rows and y in rows:
        cell = rows[x][sorted(rows).index(y)]
        told = program.report(b"share", graph, further=[right, x, y])
        require_same("share of a cell", told, (b"yes\n" if cell == ord("1") else b"no\n", b"", 0))


def require_share(program, graph, question, is_yes):
    """Requires `share` to say yes or no to a question."""
    told = program.report(b"share", graph, further=question)
    require_same("share of it", told, (b"yes\n" if is_yes else b"no\n", b"", 0))


def who_case(program, make):
    """`who`, and `share` of one of the vertices."""
    question = make.question(make.chance.choice([make.rights(), make.right()]))
    rights, y = (make.spoil.word(word, 0.05) for word in question[::2])
    graph = make.spoil.text(make.graph_text(), 0.1)
    text = require_report(program, b"who", [graph], [rights, y])
    if text is not None:
        x = make.chance.choice(sorted(read_graph(graph).names)).encode()
        require_share(program, graph, [rights, x, y], x in text.split())


def reach_case(program, make):
    """`reach`, and `share` of one of its lines and of one right more."""
    x = make.spoil.word(make.name().encode(), 0.05)
    graph = make.spoil.text(make.graph_text(), 0.1)
    text = require_report(program, b"reach", [graph], [x])
    if text:
        y, letters = make.chance.choice(text.splitlines()).split()
        require_share(program, graph, [letters, x, y], True)
        right = make.right().encode()
        require_share(program, graph, [right, x, y], right in letters)


def require_answer_after(program, graph, rules, question, is_yes):
    """Requires `apply` to accept rules that take rights away, and `share` to say yes or no then."""
    text = require_report(program, b"apply", [graph, rules])
    require_same("apply of cut", text is not None, True)
    require_share(program, text.partition(b"graph\n")[2], question, is_yes)


def cut_case(program, make):
    """`cut`, and `share` after its rules, and after them with one of their rights left."""
    question = [make.spoil.word(word, 0.05) for word in make.question(make.right())]
    keeping = make.keeping()
    graph = make.spoil.text(make.graph_text(), 0.1)
    rules = require_report(program, b"cut", [graph], [*question, *keeping])
    if rules is not None and rules != b"# no\n":
        require_answer_after(program, graph, rules, question, False)
        require_answer_after(program, graph, make.with_one_less(rules), question, True)


def verify_case(program, make):
    """`verify`, and of one of the derivations in its report `derive` and `apply`."""
    texts = make.spoil.one_of(make.graph_and_policy(), 0.3)
    why = make.chance.choice([[], [b"--why"]])
    text, _ = require_answer(program, b"verify", texts, why)
    derived = DERIVED.findall(text)
    if derived:
        *question, rules = make.chance.choice(derived)
        told = program.report(b"derive", texts[0], further=question)
        require_same("derive of it", told, (rules, b"", 0))
        require_rights_after(program, texts[0], rules, question)


def run_case(program, make):
    """`run`."""
    graph, script = make.graph_and_script()
    require_report(program, b"run", make.spoil.one_of([graph, script]))


def require_race(program, texts):
    """Requires a race to be refused as the model says, or its report to obey the laws."""
    told = program.report(b"race", *texts)
    refusal = race_refusal(*texts)
    if refusal is not None:
        require_same("race", told, (refusal, b"", 1))
        return
    script = read_script(texts[1])
    if script.seats == 1:
        require_same("race of one seat", told, program.report(b"run", *texts))
    require_same("end of a race", told, (told[0], b"", 0))
    law = fault_of(read_graph(texts[0]), script, told[0].decode(errors="replace"))
    if law:
        raise Failure(f"law of a race: {law}", told, None)


def race_case(program, make):
    """`race`, of one seat or several."""
    if make.chance.random() < 0.02:
        require_race(program, make.crowded_race())
        return
    seats = make.chance.choice([1, 2, 2, 3, 3, 4])
    require_race(program, make.spoil.one_of(make.graph_and_script(seats), 0.1))


def bad_line(words):
    """The answer to words that have none of the forms."""
    return b"", complaint_for(words), 2


def answer_for(words, path, graph):
    """The answer to words where a file with a graph is there, and no other."""
    if len(words) == 1 and words[0] in VERSION_WORDS:
        return version(), b"", 0
    if not is_call(words):
        return bad_line(words)
    if words and words[1] != path:
        return b"", b"officer: cannot read the graph\n", 3
    if words and words[0] in WITH_SECOND_FILE and words[2] != path:
        return b"", b"officer: cannot read the second file\n", 3
    if words and words[0] == b"race":
        # (a graph is no script)
        return race_refusal(graph, graph), b"", 1
    text, status = report_of(words, graph if words else b"", graph)
    return text, b"", status


def words_case(program, make):
    """Any words."""
    graph = make.graph_text()
    path = program.write("graph", graph)
    words = make.words([path, os.fsencode(program.folder) + b"/missing"])
    what = b" ".join(words).decode(errors="replace")
    told = program.answer(words)
    if len(words) == 1 and words[0] in HELP_WORDS:
        require_same(what, (help_fault(told[0]), *told[1:]), (None, b"", 0))
        return
    require_same(what, told, answer_for(words, path, graph))


def limits_case(program, make):
    """Texts at their limits."""
    require_report(program, *make.at_limits())


# Each kind with its share of the cases.
KINDS = {
    "check": (check_case, 12),
    "case": (case_case, 8),
    "apply": (apply_case, 14),
    "islands": (islands_case, 6),
    "share": (share_case, 10),
    "derive": (derive_case, 14),
    "table": (table_case, 8),
    "who": (who_case, 6),
    "reach": (reach_case, 6),
    "verify": (verify_case, 20),
    "cut": (cut_case, 16),
    "run": (run_case, 16),
    "race": (race_case, 12),
    "words": (words_case, 8),
    "limits": (limits_case, 0.4),
}
