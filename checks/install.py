#!/usr/bin/env python3
"""Tries the Makefile: puts the program in place below a scratch folder, and takes it away again.

install.py [PROGRAM]. `make install` has to put four files in place, of which the program answers as
the built one does, the manual page is the one of docs/, and the completions offer what fits; `make
uninstall` has to take just these four away. Without PROGRAM a script that prints its words stands
for it. What is tried of zsh alone is left out where zsh is not there.

Each target that wants the program is called where there is none: it has to name `make build`, and
may not begin a proof. `make help` has to have each target. The last line is `N cases, M failures`;
the status is 1 where a case failed.
"""
import argparse
import os
import re
import shutil
import subprocess
import sys
import tempfile
from pathlib import Path

TOP = Path(__file__).resolve().parent.parent
GRAPH = TOP / "examples/file_service.graph"
# A text whose vertices are no names: a shell that expanded them would run a command.
NASTY_GRAPH = "vertex $(>ran)\nvertex `>ran`\nvertex a\nvertex B\nvertex $HOME\nvertex b\r\n"
WANT_THE_PROGRAM = "install examples pictures bench memory races hostile fuzz limits rbac pipeline".split()
STANDS_FOR_TOOLCHAIN = '#!/bin/sh\ntouch "$0.was_called"\n'
STANDS_FOR_PROGRAM = '#!/bin/sh\nprintf "%s\\n" "$@"\n'
MANUAL = "share/man/man1/officer.1"
BASH_COMPLETIONS = "share/bash-completion/completions/officer"
ZSH_COMPLETIONS = "share/zsh/site-functions/_officer"
# Each file with its permissions.
FILES = {
    "bin/officer": 0o755,
    MANUAL: 0o644,
    BASH_COMPLETIONS: 0o644,
    ZSH_COMPLETIONS: 0o644,
}
# The words of a command line, the last one as far as it was typed, and what bash offers for it.
OFFERS = [
    (["sh"], ["share"]),
    (["r"], ["reach", "run", "race"]),
    (["c"], ["check", "cut"]),
    (["nothing"], []),
    (["-"], ["--help", "--version"]),
    (["--v"], ["--version"]),
    (["--help", ""], []),
    (["share", str(GRAPH)[:-3]], [str(GRAPH)]),
    (["share", str(GRAPH), ""], list("tgrwead")),
    (["share", str(GRAPH), "r", "p"], ["payroll"]),
    (["derive", str(GRAPH), "r", "client", "c"], ["clerk", "client"]),
    (["derive", str(GRAPH), "r", "client", "payroll", ""], []),
    (["who", str(GRAPH), ""], list("tgrwead")),
    (["who", str(GRAPH), "r", "p"], ["payroll"]),
    (["reach", str(GRAPH), "c"], ["clerk", "client"]),
    (["reach", str(GRAPH), "client", ""], []),
    (["verify", str(GRAPH), str(GRAPH)[:-5] + "poli"], [str(GRAPH)[:-5] + "policy"]),
    (["verify", str(GRAPH), "a policy", "-"], ["--why"]),
    (["cut", str(GRAPH), ""], list("tgrwead")),
    (["cut", str(GRAPH), "r", "c"], ["clerk", "client"]),
    (["cut", str(GRAPH), "r", "client", "p"], ["payroll"]),
    (["cut", str(GRAPH), "r", "client", "payroll", ""], ["--keep"]),
    (["cut", str(GRAPH), "r", "client", "payroll", "--keep", "c"], ["clerk", "client"]),
    (["cut", str(GRAPH), "r", "client", "payroll", "--keep", "client", "a"], ["auditor"]),
    (["cut", str(GRAPH), "r", "client", "payroll", "--keep", "client", "clerk", "-"], ["--keep"]),
    (["share", "/no/such/graph", "r", ""], []),
    (["check", str(GRAPH), ""], []),
    (["table", str(GRAPH), "r", "-"], ["--workers"]),
    (["table", str(GRAPH), "r", "--workers", "1"], ["1", "10", "11", "12", "13", "14", "15", "16"]),
]


def make(target, *settings, path=os.environ["PATH"]):
    """Calls make for a target. Commands are looked for on the path."""
    command = ["make", "--no-print-directory", "-C", TOP, target, *settings]
    return subprocess.run(command, capture_output=True, text=True, env={**os.environ, "PATH": path})


def tree(folder):
    """The files below a folder, with their permissions."""
    files = (path for path in folder.rglob("*") if not path.is_dir())
    return {str(path.relative_to(folder)): path.stat().st_mode & 0o777 for path in files}


def offered(completions, words, home=os.environ.get("HOME", ""), setting=":"):
    """What bash offers for the last of the words, with a setting. What it reads of its input counts too."""
    script = 'source "$1"; shift; COMP_WORDS=(officer "$@"); COMP_CWORD=$#;' + setting
    command = ["bash", "-c", script + '; _officer; printf "%s\\n" "${COMPREPLY[@]}"', "bash", completions, *words]
    surroundings = {"env": {**os.environ, "HOME": home}, "cwd": completions.parent, "input": "vertex read\n"}
    return subprocess.run(command, capture_output=True, text=True, **surroundings).stdout.split()


def settings_cases(folder, scratch):
    """What bash offers with odd texts, names and settings."""
    completions = folder / BASH_COMPLETIONS
    for name in "nasty.graph", "k=v nasty.graph":
        nasty = completions.parent / name
        nasty.write_text(NASTY_GRAPH)
        words = ["share", name.replace(" ", "\\ "), "r", ""]
        yield f"nothing but names is offered for {name}", offered(completions, words) == ["a", "b"]
        nasty.unlink()
    yield "nothing of a text is run", not list(scratch.rglob("ran"))
    for name in "-", "/dev/stdin":
        yield f"nothing is read for {name}", offered(completions, ["share", name, "r", ""]) == []
    words = ["share", f"~/{GRAPH.name}", "r", "p"]
    yield "a graph below the home folder", offered(completions, words, home=str(GRAPH.parent)) == ["payroll"]
    for setting in "set -u", "IFS=:", "IFS=":
        yield f"bash offers words after {setting}", offered(completions, ["sh"], setting=setting) == ["share"]


def answers(program, words):
    """The report of a program for its words, and its status."""
    done = subprocess.run([program, *words], capture_output=True, text=True)
    return done.stdout, done.returncode


def placed_cases(folder, built):
    """What was put below a folder."""
    words = ["share", str(GRAPH), "r", "client", "payroll"]
    yield "the four files, with their permissions", tree(folder) == FILES
    yield "the program answers as the built one", answers(folder / "bin/officer", words) == answers(built, words)
    yield "the manual page", (folder / MANUAL).read_bytes() == (TOP / "docs/officer.1").read_bytes()
    for words, offers in OFFERS:
        yield f"bash offers {offers} for {words}", offered(folder / BASH_COMPLETIONS, words) == offers
    if shutil.which("zsh"):
        yield "zsh reads its completions", not subprocess.run(["zsh", "-n", folder / ZSH_COMPLETIONS]).returncode


def install_cases(scratch, built):
    """Each case with whether it holds."""
    place, stage = scratch / "a place", scratch / "a stage"
    at_place = f"PREFIX={place}", f"OFFICER={built}", "DESTDIR="
    missing = make("install", f"PREFIX={place}", f"OFFICER={scratch}/missing")
    hint = "make build" in missing.stdout
    yield "no program, nothing is put in place", missing.returncode and hint and not place.exists()
    yield "make install", not make("install", *at_place).returncode
    yield from placed_cases(place, built)
    yield from settings_cases(place, scratch)
    yield "make install once more", not make("install", *at_place).returncode and tree(place) == FILES
    (place / "bin/another").touch()
    yield "make uninstall", not make("uninstall", *at_place).returncode
    yield "what is not its own stays, and nothing else", list(tree(place)) == ["bin/another"]
    yield "make uninstall once more", not make("uninstall", *at_place).returncode
    at_home = make("install", "PREFIX=~/.local", f"OFFICER={built}", "DESTDIR=")
    yield "a PREFIX with a ~ is refused", at_home.returncode and "$HOME" in at_home.stdout and not (TOP / "~").exists()
    staged = *at_place, f"DESTDIR={stage}"
    yield "make install for a packager", not make("install", *staged).returncode
    yield "all is below the stage", tree(stage / place.relative_to("/")) == FILES and list(tree(place)) == ["bin/another"]


def target_cases(scratch, built):
    """What targets do where there is no program, and that none is proved for them where there is one."""
    toolchain = scratch / "toolchain/rt"
    toolchain.parent.mkdir()
    toolchain.write_text(STANDS_FOR_TOOLCHAIN)
    toolchain.chmod(0o755)
    path, called = f"{toolchain.parent}:{os.environ['PATH']}", toolchain.parent / "rt.was_called"
    for target in WANT_THE_PROGRAM:
        done = make(target, f"OFFICER={scratch}/missing", f"PREFIX={scratch}/nowhere", path=path)
        yield f"make {target} without a program", done.returncode and "make build" in done.stdout
        yield f"make {target} begins no proof", not called.exists()
        commands = make("-n", target, f"OFFICER={built}").stdout
        yield f"make {target} calls no toolchain", commands and not re.search(r"\brt [a-z]", commands)
    make("build", path=path)
    yield "make build calls the toolchain", called.exists()


def help_cases():
    """What `make help` says, beside the targets that the Makefile has."""
    said = make("help")
    named = re.findall(r"(?m)^make ([\w-]+) ", said.stdout)
    lines = re.findall(r"(?m)^\.PHONY: (.*)$", (TOP / "Makefile").read_text())
    targets = set(" ".join(lines).split())
    yield "make help", not said.returncode and said.stdout.startswith("make demo ")
    yield "make help has each target once", sorted(named) == sorted(targets - {"there"})


def main():
    parser = argparse.ArgumentParser(description="Tries the Makefile, with a scratch folder to install in.")
    parser.add_argument("program", nargs="?", help="the program that is put in place")
    program = parser.parse_args().program
    with tempfile.TemporaryDirectory() as folder:
        scratch = Path(folder)
        stand_in = scratch / "a stand in"
        stand_in.write_text(STANDS_FOR_PROGRAM)
        stand_in.chmod(0o755)
        built = os.path.abspath(program) if program else stand_in
        cases = [*install_cases(scratch, built), *target_cases(scratch, built), *help_cases()]
    failures = [title for title, holds in cases if not holds]
    for title in failures:
        print(f"FAILED {title}")
    print(f"{len(cases)} cases, {len(failures)} failures")
    return bool(failures)


if __name__ == "__main__":
    sys.exit(main())
