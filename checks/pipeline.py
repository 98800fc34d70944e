#!/usr/bin/env python3
"""Runs the lines of examples/pipeline.yml in a scratch folder, and checks when the job passes.

pipeline.py PROGRAM [--only TEXT]. The lines are read out of the workflow and given to bash as its
runner does, and to bash without any option. `officer` is PROGRAM, `kubectl` a script that prints a
small cluster's listing, tools/from_rbac the one of this checkout; of other commands only those are
there that the workflow and the tool need. In each case the cluster, the policy or a command is
another one, and the case says whether the job has to pass and what it has to show.

--only runs the cases whose titles have the text. What a failed case printed is shown. The last line
is `N passed, M failed`; the status is 1 where a case failed, and where none was run.
"""
import argparse
import json
import os
import re
import shlex
import shutil
import subprocess
import sys
import tempfile
from concurrent.futures import ThreadPoolExecutor
from dataclasses import dataclass, field
from functools import partial
from itertools import product
from pathlib import Path

TOP = Path(__file__).resolve().parent.parent
WORKFLOW = TOP / "examples/pipeline.yml"
FROM_RBAC = TOP / "tools/from_rbac"
# What a runner calls for `shell: bash`; and bash as it is, for lines that are copied elsewhere.
SHELLS = {
    "as the runner": ["bash", "--noprofile", "--norc", "-eo", "pipefail"],
    "as they are": ["bash"],
}
LONGEST_RUN = 60
FOLDER = "a folder"


# the cluster


def item(kind, namespace, name, **fields):
    """An object of a listing. Without a namespace it is one of the whole cluster."""
    place = {"namespace": namespace} if namespace else {}
    return {"kind": kind, "metadata": {"name": name, **place}, **fields}


def account(namespace, name):
    """A service account."""
    return item("ServiceAccount", namespace, name)


def role(namespace, name, verbs, resources, names=()):
    """A role of one rule."""
    rule = {"apiGroups": ["*"], "verbs": verbs, "resources": resources, "resourceNames": [*names]}
    return item("Role" if namespace else "ClusterRole", namespace, name, rules=[rule])


def binding(namespace, name, subjects):
    """A binding of such subjects to the role of its own name and place."""
    kind = "Role" if namespace else "ClusterRole"
    reference = {"kind": kind, "name": name}
    return item(kind + "Binding", namespace, name, roleRef=reference, subjects=subjects)


def subject(namespace, name):
    """A service account in a binding."""
    return {"kind": "ServiceAccount", "namespace": namespace, "name": name}


def user(name):
    """A user in a binding."""
    return {"kind": "User", "name": name}


MASTERS = [{"kind": "Group", "name": "system:masters"}, subject("kube-system", "controller")]
# The till reads the key, as each pod of the shop may. Nobody else does, who is not left out.
CLUSTER = [
    account("kube-system", "controller"),
    account("ops", "runner"),
    account("shop", "runner"),
    account("shop", "till"),
    item("Secret", "shop", "payment-key"),
    role("", "admin", ["*"], ["*"]),
    binding("", "admin", MASTERS),
    role("shop", "reader", ["get"], ["secrets"], ["payment-key"]),
    binding("shop", "reader", [subject("shop", "till")]),
]
# With these the runner of ops may act as the till, and so comes to the key.
BREACH = [
    role("shop", "helper", ["impersonate"], ["serviceaccounts"], ["till"]),
    binding("shop", "helper", [subject("ops", "runner")]),
]
# Two users whose names have spaces, one of which takes two lines of a comment, read the key too.
JANE, LONG = "jane doe (by night)", "oidc:" + "of the shop, " * 20 + "by night"
USERS = [
    role("shop", "guest", ["get"], ["secrets"], ["payment-key"]),
    binding("shop", "guest", [user(JANE), user(LONG)]),
]


def listing(items):
    """What kubectl prints."""
    return json.dumps({"kind": "List", "apiVersion": "v1", "items": items}, indent=1)


# the policy

COMMENTS = """\
# Who comes to the key of the payments.
# payment_key      secrets shop/payment-key
# pods_shop        pods shop/*
# runner           serviceaccounts ops/runner
# till             serviceaccounts shop/till
"""
LINES = """\
group readers till pods_shop
only r payment_key @readers
never rwd runner payment_key
"""
POLICY = COMMENTS + LINES
KEPT = "7 holds\n8 holds\nkept\n"
# (by impersonation the runner takes what the till holds: one rule)
BROKEN_LINE = "fails r runner payment_key\n# yes 1\ntake runner till payment_key r\n"
BROKEN = f"7 {BROKEN_LINE}8 {BROKEN_LINE}broken 2\n"
STALE = POLICY.replace("serviceaccounts ops/runner", "serviceaccounts dev/runner")


def without_comment(name, policy=POLICY):
    """A policy without the comment of a name."""
    return re.sub(f"(?m)^# {name} .*\n", "", policy)


def first_policy(items):
    """The policy that the tool writes of a cluster, with the --without of the workflow."""
    leave_out = ["--without", "groups system:masters", "--without", "serviceaccounts kube-system/*"]
    words = [sys.executable, FROM_RBAC, *leave_out, "--policy"]
    done = subprocess.run(words, input=listing(items), capture_output=True, text=True, check=True)
    return done.stdout


# the cases


@dataclass(frozen=True)
class Case:
    """A cluster, a policy and files, whether the job has to pass on them, and what it has to show.

    A file is a text, a script where it begins with #!, FOLDER, or None for none.
    """

    title: str
    is_to_pass: bool = False
    items: list = field(default_factory=lambda: CLUSTER)
    policy: str = POLICY
    files: dict = field(default_factory=dict)
    shown: tuple = ()


def script(*lines):
    """A script of a shell."""
    return "\n".join(["#!/bin/sh", *lines, ""])


def cluster_cases():
    """Clusters that keep the policy, and others."""
    broken = partial(Case, items=CLUSTER + BREACH)
    yield Case("all is well", True, shown=(KEPT,))
    yield broken("an account may act as another", shown=(BROKEN,))
    more = subject("ops", "runner"), subject("shop", "till")
    readers = [*CLUSTER[:-1], binding("shop", "reader", more)]
    yield Case("one more may read the key", items=readers, shown=("broken 2\n",))
    yield Case("an account more", True, [*CLUSTER, account("shop", "visitor")], shown=(KEPT,))
    # (it is the first of three runners then, in order of their namespaces)
    before = account("dev", "runner")
    yield Case("one more of the name, and a breach", items=[before, *CLUSTER, *BREACH])
    yield Case("one more of the name, of which the policy speaks then", items=[before, *CLUSTER])
    yield Case("what the policy names is gone", items=[it for it in CLUSTER if it != CLUSTER[1]])
    yield Case("no object at all", items=[])


def written_cases():
    """Policies that are written otherwise, with as many or other claims."""
    yield Case("a carriage return behind each claim", True, policy=COMMENTS + LINES.replace("\n", "\r\n"))
    yield Case("blanks before each claim", True, policy=COMMENTS + "\t " + LINES.replace("\n", "\n \t"))
    yield Case("blanks within a claim", True, policy=POLICY.replace("never ", "never\t "))
    yield Case("no line feed at the end", True, policy=POLICY[:-1], shown=(KEPT,))
    for word, gone in ("never", "only"), ("only", "never"):
        left = "".join(line for line in POLICY.splitlines(True) if not line.startswith(gone))
        yield Case(f"one line, with {word}", True, policy=left, shown=("holds\nkept\n",))
        yield Case(f"one line, with {word}, and a breach", items=CLUSTER + BREACH, policy=left, shown=("broken 1\n",))
    yield Case("a line with may beside the others", True, policy=POLICY + "may r till payment_key\n")
    yield Case("a line with may that fails", policy=POLICY + "may w till payment_key\n", shown=("broken 1\n",))


def empty_policy_cases():
    """Policies that forbid nothing."""
    for title, lines in {
        "groups alone": "group readers till pods_shop\n",
        "lines with may alone": "may r till payment_key\n",
        "comments alone": "",
        "claims in comments": "# never w till payment_key\n#only r payment_key till\n",
        "a claim of another word": "nevermore r till payment_key\n",
        "a word behind its line": "group g till # never r\n",
    }.items():
        yield Case(f"policy: {title}", policy=COMMENTS + lines)
    for title, text in {"missing": None, "empty": ""}.items():
        shown = ("cluster.policy is missing or empty",)
        yield Case(f"policy: {title}", files={"cluster.policy": text}, shown=shown)
    for title, text in {"blank": "\n \n", "a folder": FOLDER}.items():
        yield Case(f"policy: {title}", files={"cluster.policy": text})
    for title, line in {
        "an unknown word": "allways r till payment_key\n",
        "an unknown right": "never q till payment_key\n",
        "an unknown group": "never r @nobody payment_key\n",
        "an unknown vertex": "never r nobody payment_key\n",
        "a line that is too long": "# " + "x" * 256 + "\n",
    }.items():
        yield Case(f"policy: {title}", policy=POLICY + line)


def comment_cases():
    """Policies whose names stand for something else, or for nothing that is said."""
    yield Case("a stale comment", policy=STALE, shown=("runner",))
    yield Case("a stale comment, and a breach", items=CLUSTER + BREACH, policy=STALE)
    for name in "payment_key", "pods_shop", "runner", "till":
        yield Case(f"no comment for {name}", policy=without_comment(name), shown=(name,))
    yield Case("no comments", policy=LINES)
    other = "# visitor          serviceaccounts shop/visitor\n"
    yield Case("a stale comment of a name that no line has", True, policy=other + POLICY, shown=("kept\n",))
    swapped = POLICY.replace("ops/runner", "OPS").replace("shop/till", "ops/runner").replace("OPS", "shop/till")
    yield Case("comments of two names that changed places", policy=swapped, shown=("runner", "till"))
    first = first_policy(CLUSTER + USERS)
    of_users = partial(Case, items=CLUSTER + USERS)
    yield of_users("the first policy, of names with spaces and a long one", True, policy=first, shown=("kept\n",))
    yield of_users("the last word of a name with spaces differs", policy=first.replace("(by night)", "(by day)"))
    yield of_users("the last word of a long name differs", policy=first.replace("shop, by night", "shop, by day"))
    left = [line for line in first.splitlines(True) if not line.endswith(", by night\n")]
    yield of_users("the last line of a long name is gone", policy="".join(left))


def command_cases():
    """Commands that fail, whatever they print."""
    real = {
        "bin/kubectl": "cat listing.json",
        "bin/officer": 'real/officer "$@"',
        "bin/grep": 'real/grep "$@"',
        "tools/from_rbac": 'real/from_rbac "$@"',
    }
    endings = {f"status {status}": f"exit {status}" for status in (1, 2, 3, 127)}
    endings["a signal"] = "kill -9 $$"
    for (path, command), (how, ending) in product(real.items(), endings.items()):
        name = path.partition("/")[2]
        yield Case(f"{name}: {how} after all", files={path: script(command, ending)})
        yield Case(f"{name}: {how} at once", files={path: script(ending)})
    for path in real:
        yield Case(f"{path} is missing", files={path: None})
        yield Case(f"{path} is no program", files={path: "kept\n"})
    half = script("head -c 900 listing.json")
    yield Case("kubectl: half of the listing, status 0", files={"bin/kubectl": half})
    yield Case("kubectl: half of the listing, status 1", files={"bin/kubectl": half + "exit 1\n"})
    yield Case("kubectl: nothing, status 0", files={"bin/kubectl": script()})
    silent = {"tools/from_rbac": script("cat > taken")}
    yield Case("from_rbac: nothing, status 0", files=silent, shown=("cluster.graph is missing or empty",))
    yield Case("kubectl: no listing", files={"bin/kubectl": script("echo nothing of it")})
    yield Case("kubectl: a text behind the listing", files={"bin/kubectl": script("cat listing.json", "echo more")})


def graph_cases():
    """Graphs of another day, and none that can be written."""
    old = "# runner           serviceaccounts ops/runner\nvertex runner\nvertex payment_key\n"
    refused = {"cluster.graph": old, "bin/kubectl": script("exit 1")}
    yield Case("graph: that of a day before, and no listing", files=refused)
    silent = {"cluster.graph": old, "tools/from_rbac": script("cat > taken", "exit 1")}
    yield Case("graph: that of a day before, and no new one", files=silent)
    yield Case("graph: that of a day before, and all is well", True, files={"cluster.graph": old})
    yield Case("graph: a folder of its name", files={"cluster.graph": FOLDER})


KINDS = [cluster_cases, written_cases, empty_policy_cases, comment_cases, command_cases, graph_cases]


# how a case is run


def workflow_lines():
    """The lines that the one step of the workflow runs, and whether they are bash's."""
    text = WORKFLOW.read_text()
    steps = re.findall(r"(?m)^( *)- run:(.*)\n((?:\1  .*\n|\n)*)", text)
    if len(steps) != 1 or steps[0][1].strip() != "|" or "shell: bash}" not in text:
        sys.exit(f"pipeline.py: {WORKFLOW} has not one step of bash, with its lines below `run: |`")
    indented = steps[0][2].splitlines()
    margin = len(indented[0]) - len(indented[0].lstrip())
    return "".join(line[margin:] + "\n" for line in indented)


def put(path, content):
    """Puts a file there: a text, a script, a folder, a link to a path, or none."""
    path.parent.mkdir(exist_ok=True)
    if content is FOLDER:
        path.mkdir()
    elif isinstance(content, Path):
        path.symlink_to(content)
    elif content is not None:
        path.write_bytes(content.encode())
        path.chmod(0o755 if content.startswith("#!") else 0o644)


def files_of(case, program, lines):
    """All files of a case's folder."""
    commands = {name: Path(shutil.which(name)) for name in ("bash", "cat", "grep", "head")}
    commands["python3"] = Path(sys.executable)
    links = {f"bin/{name}": path for name, path in commands.items()}
    real = {"officer": program, "grep": commands["grep"], "from_rbac": FROM_RBAC}
    links |= {f"real/{name}": path for name, path in real.items()}
    links |= {"bin/officer": program, "tools/from_rbac": FROM_RBAC}
    texts = {
        "listing.json": listing(case.items),
        "cluster.policy": case.policy,
        "bin/kubectl": script("exec cat listing.json"),
        "lines": lines,
    }
    return {**links, **texts, **case.files}


def run(case, program, lines, shell):
    """Whether the job passes on a case, and what it prints."""
    with tempfile.TemporaryDirectory(prefix="pipeline-") as name:
        folder = Path(name)
        for path, content in files_of(case, program, lines).items():
            put(folder / path, content)
        done = subprocess.run(
            [shutil.which(shell[0]), *shell[1:], "lines"],
            cwd=folder,
            env={"PATH": str(folder / "bin"), "LC_ALL": "C.UTF-8"},
            stdin=subprocess.DEVNULL,
            stdout=subprocess.PIPE,
            stderr=subprocess.STDOUT,
            text=True,
            timeout=LONGEST_RUN,
        )
    return done.returncode == 0, done.stdout


def failure_of(program, lines, played):
    """What is wrong with a case in a shell, or None."""
    case, shell = played
    passes, printed = run(case, program, lines, SHELLS[shell])
    missing = [text for text in case.shown if text not in printed]
    if passes == case.is_to_pass and not missing:
        return None
    told = f"the job {'passed' if passes else 'failed'}"
    told += f", and has to {'pass' if case.is_to_pass else 'fail'}" if passes != case.is_to_pass else ""
    told += "".join(f", and did not show {text!r}" for text in missing)
    printed = "".join(f"  | {line}\n" for line in printed.splitlines())
    return f"FAILED {case.title}, lines {shell}\n  {told}\n{printed}  again   --only {shlex.quote(case.title)}"


def main():
    """Runs the cases that the command line asks for."""
    options = argparse.ArgumentParser(description=__doc__, formatter_class=argparse.RawDescriptionHelpFormatter)
    options.add_argument("program", type=lambda path: Path(path).resolve())
    options.add_argument("--only", default="", metavar="TEXT")
    given = options.parse_args()
    if not os.access(given.program, os.X_OK):
        sys.exit(f"pipeline.py: there is no program {given.program}")
    lines = workflow_lines()
    cases = [case for kind in KINDS for case in kind() if given.only in case.title]
    with ThreadPoolExecutor(os.cpu_count()) as pool:
        told = list(pool.map(partial(failure_of, given.program, lines), product(cases, SHELLS)))
    failures = [failure for failure in told if failure]
    for failure in failures:
        print(failure)
    print(f"{len(told) - len(failures)} passed, {len(failures)} failed")
    sys.exit(1 if failures or not told else 0)


if __name__ == "__main__":
    main()
