#!/usr/bin/env python3
"""Refuses the memory tests each request for memory in turn, and says whether they still pass.

A test whose module ends in `memory_tests` is run with its first request refused, then with its
second, and so on until a run asks for less. It has to pass each time. A test whose module ends in
`famine_tests` is run with its first and every later request refused, then with its second and every
later one, and so on: what it asks once it is set up has to be answered without memory.

The tests are the programs crates/NAME/out/NAME_tests, which `rt ci` and `rt test` leave; where one
is missing or older than the sources, `rt test` makes it. A crate that has no tests is passed over:
those of the library tg_text, say, are in the crate tg_text_tests. The requests are refused by
refuse.c, which the compiler of the toolchain builds.
"""
import argparse
import concurrent.futures
import os
import subprocess
import sys
import tempfile
import time

TOP = os.path.dirname(os.path.dirname(os.path.abspath(__file__)))
# the time limit of a run
SECONDS = 60
# more requests than a test makes
MOST = 100_000
# the last of all requests
NO_END = 2**62
# the status of a test that ends with an error
ERROR = 101


def crates_below():
    """The names of the crates, each with those that it stands on, in the order of crates.txt."""
    with open(f"{TOP}/crates.txt", encoding="utf-8") as lines:
        halves = [it.partition("#")[0].partition(":") for it in lines]
    return {left.split()[0]: right.split() for left, _, right in halves if left.split()}


def sources_of(crate):
    """The files of the crate's code: none where the crate is the toolchain's."""
    for folder, _, files in os.walk(f"{TOP}/crates/{crate}/src"):
        yield from (f"{folder}/{it}" for it in files)


def has_tests(crate):
    """Whether the crate's code has a test."""
    for path in sources_of(crate):
        with open(path, encoding="utf-8") as text:
            if "#[test]" in text.read():
                return True
    return False


def with_all_below(crate):
    """The crate and all that it stands on, at whatever depth."""
    below, found = crates_below(), [crate]
    for name in found:
        found += [it for it in below.get(name, []) if it not in found]
    return found


def is_built(crate):
    """Whether the crate has a test program that is younger than the code that it is made of."""
    program = f"{TOP}/crates/{crate}/out/{crate}_tests"
    if not os.path.isfile(program):
        return False
    built = os.path.getmtime(program)
    sources = (path for name in with_all_below(crate) for path in sources_of(name))
    return all(os.path.getmtime(path) <= built for path in sources)


def test_program(crate):
    """The path of the crate's test program, which is made if need be."""
    if not is_built(crate):
        print(f"{crate}: rt test builds its tests", flush=True)
        how = {"stdout": subprocess.PIPE, "stderr": subprocess.STDOUT, "text": True}
        made = subprocess.run(["rt", "test"], cwd=f"{TOP}/crates/{crate}", **how)
        if made.returncode:
            sys.exit(f"{made.stdout}\nrefusals: rt test fails in crates/{crate}")
    return f"{TOP}/crates/{crate}/out/{crate}_tests"


def preloaded_library(source, folder):
    """Builds a library that stands before the C library by the toolchain's own compiler: its path."""
    page = subprocess.run(["rt", "doc"], capture_output=True, text=True, check=True).stdout
    tools = f"{os.path.dirname(page.strip())}/toolchain/bin"
    made, library = f"{folder}/made.o", f"{folder}/made.so"
    source = f"{TOP}/checks/{source}"
    subprocess.run([f"{tools}/clang", "-O1", "-fPIC", "-c", source, "-o", made], check=True)
    subprocess.run([f"{tools}/ld.lld", "-shared", made, "-o", library], check=True)
    return library


def tests_of(program):
    """The tests to be refused memory."""
    listed = subprocess.run([program, "--list"], capture_output=True, text=True, check=True).stdout
    names = [line.rpartition(":")[0] for line in listed.splitlines()]
    modules = ("memory_tests", "famine_tests")
    return [it for it in names if it.rpartition("::")[0].endswith(modules)]


def run_refused(library, program, test, first, last):
    """Runs a test with these requests refused: whether one was, its status, and what it wrote."""
    with tempfile.TemporaryFile() as told:
        given = {"LD_PRELOAD": library, "REFUSE_TOLD": str(told.fileno())}
        given |= {"REFUSE_FROM": str(first), "REFUSE_TO": str(last)}
        how = {"stdin": subprocess.DEVNULL, "stdout": subprocess.PIPE, "stderr": subprocess.STDOUT}
        how |= {"cwd": os.path.dirname(library), "env": given, "pass_fds": [told.fileno()]}
        try:
            ran = subprocess.run([program, test], timeout=SECONDS, **how)
            status, said = ran.returncode, ran.stdout.decode(errors="replace")
        except subprocess.TimeoutExpired:
            status, said = -1, f"it had not ended after {SECONDS} seconds"
        return os.fstat(told.fileno()).st_size > 0, status, said


def refuse_in_turn(library, program, test):
    """How many requests the test makes, and the failures met when each was refused."""
    is_famine = test.rpartition("::")[0].endswith("famine_tests")
    failures = []
    for request in range(1, MOST):
        last = NO_END if is_famine else request
        refused, status, said = run_refused(library, program, test, request, last)
        # a famine test whose own set-up was refused ends with an error
        if status and not (is_famine and refused and status == ERROR):
            what = f"request {request}{' and each later one' if is_famine else ''} refused"
            failures.append(f"{what}: status {status}\n{said.strip()}")
        if not refused:
            return request - 1, failures
    return MOST, [*failures, "it asks for memory without an end"]


def words():
    """What the command line asks for."""
    parser = argparse.ArgumentParser(
        description=__doc__, formatter_class=argparse.RawDescriptionHelpFormatter
    )
    parser.add_argument("crates", nargs="*", metavar="CRATE", help="of these crates alone")
    parser.add_argument("--only", default="", metavar="WORD", help="tests whose names have it")
    return parser.parse_args()


def main():
    asked = words()
    crates = asked.crates or [it for it in crates_below() if has_tests(it)]
    for crate in crates:
        if not has_tests(crate):
            sys.exit(f"refusals: {crate} has no tests")
    programs = [(crate, test_program(crate)) for crate in crates]
    began, failed, requests = time.monotonic(), 0, 0
    with tempfile.TemporaryDirectory(prefix="refusals-") as folder:
        library = preloaded_library("refuse.c", folder)
        tasks = [(c, p, t) for c, p in programs for t in tests_of(p) if asked.only in t]
        with concurrent.futures.ThreadPoolExecutor(os.cpu_count()) as pool:
            made = pool.map(lambda it: refuse_in_turn(library, it[1], it[2]), tasks)
            for (crate, _, test), (count, failures) in zip(tasks, made):
                print(f"{crate} {test}: {count} requests refused in turn", flush=True)
                for failure in failures:
                    print(f"  FAILED with {failure}")
                failed, requests = failed + len(failures), requests + count
    seconds = time.monotonic() - began
    print(f"{len(tasks)} tests, {requests} requests, {failed} failures, {seconds:.0f} seconds")
    sys.exit(1 if failed or not tasks else 0)


if __name__ == "__main__":
    main()
