"""Gives asks to the trial build of the program, by one `rt try --cases`."""
import re
import subprocess
import tempfile
from pathlib import Path

from cases_parts.running import differing_numbers

MOST_BYTES = 1 << 20
RUN = re.compile(r"case=(?P<name>\S+) run=(?P<run>\S+)(?: status=(?P<status>\d+))?(?:.* output=(?P<output>\S+))?")
TOO_LONG = "did not end within the time limit"
# How many lines of what `rt try` says are shown where it leaves out asks.
MOST_SHOWN = 30


def differences_in_trial(crate, asks):
    """What differs in each ask when the trial build is given it, as lines; None where the ask was skipped."""
    names = {f"ask{number}": ask for number, ask in enumerate(asks) if is_small(ask)}
    said = lines_of_trial(crate, names) if names else []
    found = dict(runs_in(said))
    if len(found) < len(names):
        print("rt try does not speak of all asks. The end of what it says:", *said[-MOST_SHOWN:], sep="\n")
    return [difference_of(ask, found.get(f"ask{number}")) if is_small(ask) else None for number, ask in enumerate(asks)]


def is_small(ask):
    """Whether each text of an ask, and its report, is as small as a trial's may be."""
    blocks = [*ask.texts.values(), ask.standard_input, ask.report]
    return all(len(it.bytes) <= MOST_BYTES for it in blocks if it is not None)


def lines_of_trial(crate, names):
    """What `rt try` says when it is given asks under these names."""
    with tempfile.TemporaryDirectory(prefix="cases-") as folder:
        cases, data = Path(folder, "cases"), Path(folder, "data")
        cases.mkdir()
        data.mkdir()
        files = {}  # (the same bytes stand in one file, whatever asks call them)
        for name, ask in names.items():
            write_ask(cases / name, files, ask)
        for text, file in files.items():
            (data / file).write_bytes(text)
        words = [word for file in files.values() for word in ("--data", f"{file}={data / file}")]
        how = {"stdin": subprocess.DEVNULL, "stdout": subprocess.PIPE, "stderr": subprocess.STDOUT}
        said = subprocess.run(["rt", "try", *words, "--cases", cases], cwd=crate, **how).stdout
        return said.decode(errors="backslashreplace").splitlines()


def write_ask(path, files, ask):
    """Writes an ask as `rt try` reads it. In files each text is given the name of a file."""
    named = {word: files.setdefault(text.bytes, f"text{len(files)}") for word, text in ask.texts.items()}
    path.write_bytes(ask.standard_input.bytes if ask.standard_input else b"")
    path.with_suffix(".args").write_text("".join(f"{named.get(word, word)}\n" for word in ask.words))
    path.with_suffix(".stdout").write_bytes(ask.report.bytes)


def runs_in(said):
    """Each name with its run, and what is said of it above."""
    above = []
    for line in said:
        run = RUN.match(line)
        above.append(line)
        if run:
            yield run["name"], (run, above[:-1])
            above = []


def difference_of(ask, found):
    """What differs in an ask of which this is said, as lines; None where it took too long."""
    if found is None:
        return ["rt try says nothing of it"]
    run, above = found
    if run["run"] != "ended":
        return None if any(TOO_LONG in line for line in above) else [f"run={run['run']}", *above]
    differs = [] if run["output"] == "expected" else [f"the report {run['output']}", *above]
    return [*differing_numbers("status", ask.status, int(run["status"])), *differs]
