"""Texts as long as they may be, and longer, and how long large ones take."""
import os
import subprocess
import tempfile

from rbac_cases.listings import account, binding, cluster_role, may, rule, secret, text_of
from rbac_cases.runs import TOOL, Failure, expect, has_parts, leaving, refusal_of, run_tool

MOST_BYTES, MOST_VERTICES, MOST_SECONDS = 67_108_864, 4_096, 20
# A line of a comment has so many bytes besides its words, of which it has room for so many.
COMMENT_BYTES, COMMENT_WORDS = 20, 200


def text_with(words):
    """A listing of one user whose name is so long that its comment has so many bytes of words."""
    user = "users " + "a" * (words - len("users "))
    return text_of([cluster_role("none"), binding("none", user)])


def bytes_of(words):
    """The length of the graph text of that listing."""
    lines = -(-words // COMMENT_WORDS)
    others = (
        "# Made by tools/from_rbac; docs/RBAC.md says which right stands for what.\n"
        "version 2\nvertex aaaaaaaaaaaaaa_1\n"
    )
    return len(others) + words + lines * COMMENT_BYTES


def as_long_as_may_be(_):
    """A text of 67,108,864 bytes is written, one with a byte more is not."""
    words = MOST_BYTES * COMMENT_WORDS // (COMMENT_WORDS + COMMENT_BYTES)
    while bytes_of(words) > MOST_BYTES:
        words -= 1
    ran = run_tool(text_with(words))
    expect((0, MOST_BYTES), (ran.status, len(ran.output)), "status and bytes")
    told = refusal_of(text_with(words + 1))
    has_parts(told, "from_rbac: 0 edges, and more than 67108864 bytes")


def too_long(_):
    """Where leaving out brings too many edges, what brings most is told, and what it holds."""
    hub, takers = "serviceaccounts kube-system/hub-of-the-cluster", 700
    users = [f"user-with-a-name-{number:04}" for number in range(takers)]
    runs = cluster_role("runs", rule("impersonate", "users serviceaccounts"))
    items = [account("kube-system/hub-of-the-cluster"), runs, *may(hub, "get", "nodes")]
    items += [binding("runs", *(f"users {user}" for user in users))]
    items += may(hub, "get", "secrets", place="n")
    items += [secret(f"n/secret-with-a-name-{number:04}") for number in range(1000)]
    # Each user may run as each and as the hub, which holds the secrets and the nodes.
    lines = [
        f"from_rbac: left out: 1; edges that came of it: {takers * 1001}",
        f"from_rbac: {takers * takers + takers * 1001} edges, and more than 67108864 bytes; leave "
        f"out of what '{hub}' holds, which is left out and brings most, {takers * 1001} edges:",
        "  --without 'secrets n/*'    (1000)",
        "  --without 'nodes *'    (1)",
    ]
    told = refusal_of(text_of(items), *leaving([hub]))
    expect(lines, told.splitlines(), "told")
    ran = run_tool(text_of(items), *leaving([hub, "secrets n/*"]))
    expect(0, ran.status, "status where that is left out")


def too_many(_):
    """Where there are too many vertices, kinds that hold nothing are named first."""
    items = [secret(f"n/s{number}") for number in range(1000)]
    items += [account(f"n/a{number}") for number in range(MOST_VERTICES - 1000 - 2)]
    items += may("users ann", "create", "pods/exec", place="n")
    items += may("users ann", "get", "nodes")
    told = refusal_of(text_of(items))
    lines = [
        "from_rbac: 4097 vertices, 4096 at most; leave out:",
        "  --without 'serviceaccounts n/*'    (3094)",
        "  --without 'secrets n/*'    (1000)",
        "  --without 'nodes *'    (1)",
        "  --without 'pods n/*'    (1)",
        "  --without 'users *'    (1)",
    ]
    expect(lines, told.splitlines(), "told")
    for words in (leaving(["nodes *"]), leaving(["secrets n/s7"])):
        expect(0, run_tool(text_of(items), *words).status, "status where one less is there")
    has_parts(refusal_of(text_of(items + [secret("n/t")]), *leaving(["nodes *"])), "4097 vertices")


def timed(listing, *words):
    """The status and the output of a run of the tool, and its seconds of a processor."""
    with tempfile.TemporaryFile() as given, tempfile.TemporaryFile() as written:
        given.write(listing)
        given.seek(0)
        streams = {"stdin": given, "stdout": written, "stderr": subprocess.DEVNULL}
        with subprocess.Popen([TOOL, *words], **streams) as process:
            _, status, usage = os.wait4(process.pid, 0)
            process.returncode = os.waitstatus_to_exitcode(status)
        written.seek(0)
        return process.returncode, written.read(), usage.ru_utime + usage.ru_stime


def in_time(_):
    """4,096 vertices, and a million new edges through a thousand left-out accounts."""
    side = 1000
    left_out = [f"x{number}" for number in range(side)]
    items = [cluster_role("runs", rule("impersonate", "users", *left_out))]
    items += [binding("runs", *(f"users a{number}" for number in range(side)))]
    for number in range(side):
        items += [secret(f"n/s{number}"), *may(f"users x{number}", "get", "secrets", f"s{number}")]
    items += [account(f"n/i{number}") for number in range(MOST_VERTICES - 2 * side)]
    status, output, seconds = timed(text_of(items), *leaving(["users x*"]))
    found = [output.count(words) for words in (b"\nvertex ", b"\nedge ", b" through x")]
    expect((0, [MOST_VERTICES, side * side, side * side]), (status, found), "status and lines")
    if seconds > MOST_SECONDS:
        raise Failure(f"it took {seconds:.1f} seconds of a processor, {MOST_SECONDS} at most")


def cases():
    """Titles, and what plays them."""
    for check in (in_time, as_long_as_may_be, too_long, too_many):
        yield f"sizes: {check.__name__.replace('_', ' ')}", check
