"""What the manual page says of command lines, and what the program has to say of itself by it."""
import re
import shlex
from functools import lru_cache
from os.path import commonprefix
from pathlib import Path

from model.reports import is_utf8

PAGE = Path(__file__).resolve().parents[2] / "docs/officer.1"
BAD_LINE = "officer: bad command line"
ALL_FORMS = "officer: officer --help lists all forms"
HELP_WORDS = (b"--help", b"-h")
VERSION_WORDS = (b"--version", b"-V")
WIDEST_LINE = 80


@lru_cache
def section(title):
    """The text of a section of the manual page."""
    rest = PAGE.read_text(encoding="ascii").partition(f".SH {title}\n")[2]
    return rest.partition(".SH ")[0].replace("\\-", "-")


def shown(line):
    """The text of a line of the page: behind a request for two fonts the words are joined."""
    request, *words = shlex.split(line)
    return (" " if len(request) == 2 else "").join(words)


@lru_cache
def forms():
    """The forms of command lines, in the order of the page."""
    forms = section("SYNOPSIS").strip().split(".br\n")
    return [" ".join(map(shown, form.strip().splitlines())) for form in forms]


def version():
    """The name and the version of the program."""
    title = shlex.split(PAGE.read_text(encoding="ascii").splitlines()[0])
    return f"officer {title[4].split()[1]}\n".encode()


def nearest_form(words):
    """The form that is nearest to words which have none, or None."""
    if not all(map(is_utf8, words)):
        return None
    named = {form.split()[1].encode(): form for form in forms() if form != "officer"}
    commands = [word for word in named if not word.startswith(b"-")]
    if words[0] in commands:
        return named[words[0]]
    # (the first of those that have the most)
    nearest = max(commands, key=lambda command: len(commonprefix([command, words[0]])))
    return named[nearest] if commonprefix([nearest, words[0]]) else None


def complaint_for(words):
    """What stands on standard error for words that have none of the forms."""
    form = nearest_form(words)
    return f"{BAD_LINE}\n{f'officer: usage: {form}' if form else ALL_FORMS}\n".encode()


def help_fault(text):
    """What is wrong with a text that is to list the forms, limits and statuses of the page, or None."""
    if not text.isascii() or not text.endswith(b"\n"):
        return "no lines of ASCII"
    lines = text.decode().splitlines()
    wide = [line for line in lines if len(line) > WIDEST_LINE]
    if wide:
        return f"a wide line: {wide[0]}"
    begun = {part for line in lines for part in re.split(" {2,}|, ", line.strip())}
    untold = [form for form in forms() if form not in begun]
    if untold:
        return f"no line for {untold[0]}"
    limits = re.findall(r"[0-9][0-9,]*[0-9]", section("LIMITS"))
    statuses = re.findall(r"^\.B ([0-9])$", section("EXIT STATUS"), re.MULTILINE)
    missing = [it for it in limits + statuses if not re.search(rf"(?<![0-9,]){it}(?!,?[0-9])", text.decode())]
    return f"nothing of {missing[0]}" if missing else None
