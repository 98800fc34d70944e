"""Names that stay the same, and --same, which compares them with the comments of a policy."""
import tempfile
from functools import lru_cache
from pathlib import Path

from rbac_cases.listings import account, may, secret, text_of, token
from rbac_cases.runs import TOOL, GraphText, Officer, expect, has_parts, leaving, refusal_of
from rbac_cases.runs import run_tool, text_for

ANN = "users ann"
# Accounts and the secrets of their tokens have one name in the cluster.
TWINS = [secret("shop/key"), *may(ANN, "get", "secrets", place="shop")]
for place in ("ci", "pay", "shop"):
    TWINS += [account(f"{place}/robot"), token(f"{place}/robot", "robot"), secret(f"{place}/seal")]
# Its comment has two lines, the first of which ends with a blank, and blanks stand in a row.
LONG = "users " + "a b  c " * 40
DRIFTING = [
    account("kube-system/csi-snapshotter"),
    secret("pay/key"),
    *may("serviceaccounts kube-system/csi-snapshotter", "get", "secrets", place="pay"),
]
ONE_MORE = [*DRIFTING, account("backup/csi-snapshotter")]


def names_stay(_):
    """No --without changes the name of what stays, or gives it the name of what is left out."""
    whole = GraphText(text_for(text_of(TWINS)))
    expect(len(whole.names), len(set(whole.names.values())), "different names")
    for pattern in ("serviceaccounts *", "secrets *", "* ci/*", "* pay/robot", "users ann"):
        graph = GraphText(text_for(text_of(TWINS), *leaving([pattern])))
        wanted = {thing: whole.names[thing] for thing in graph.names}
        expect(wanted, graph.names, f"names without {pattern!r}")


def names_of_the_left_out_are_not_given(_):
    """The secret of a token keeps its number where the account of its name is left out."""
    items = [account("n/robot"), token("n/robot", "robot"), *may(ANN, "get", "secrets", "robot")]
    graph = GraphText(text_for(text_of(items), *leaving(["serviceaccounts n/robot"])))
    expect({ANN: "ann", "secrets n/robot": "robot_1"}, graph.names, "names")


@lru_cache
def plain_text(listing, *words):
    """The text that the tool writes where nothing is compared."""
    return text_for(listing, *words)


class Policy:
    """A policy in a file, and what --same says of it."""

    def __init__(self, text):
        self.text = text if isinstance(text, bytes) else text.encode()

    def with_file(self, play):
        """What is answered of the words with which the tool compares."""
        with tempfile.TemporaryDirectory() as folder:
            path = Path(folder, "kept.policy")
            path.write_bytes(self.text)
            return play("--same", str(path))

    def is_same(self, listing, *words):
        """Fails unless the tool writes the graph as it does without --same."""
        wanted = plain_text(listing, *words)
        expect(wanted, self.with_file(lambda *same: text_for(listing, *words, *same)), "the graph")

    def differs(self, listing, names, *words):
        """Fails unless the tool writes nothing and tells these names. It answers what it tells."""
        told = self.with_file(lambda *same: refusal_of(listing, *words, *same))
        lines = [line for line in told.splitlines() if line.startswith("  '")]
        expect(names, [line.split("'")[1] for line in lines], "names that differ")
        return told


def comment(name, words):
    """The comment on a name, as a graph has it, of words that one line has room for."""
    return f"# {name:<16} {words}\n"


KEY_COMMENT = comment("key", "secrets shop/key")
ANN_COMMENT = comment("ann", ANN)
KEPT = KEY_COMMENT + ANN_COMMENT + "only r key ann\n"


def policies_that_are_same(_):
    """Policies whose comments are those of the graph."""
    listing = text_of(TWINS)
    for text in (
        KEPT,
        KEPT.replace("\n", "\r\n"),
        "only\tr\t key   ann \r\n" + ANN_COMMENT + KEY_COMMENT,
        KEPT + KEPT,
        KEPT + "# a word on ann\n#ann             users bob\n## ann            users bob\n",
        KEPT + comment("robot", "an account that no line names"),
        ANN_COMMENT + "group us ann\ngroup all @us\nnever r @us @all\n",
        KEPT + "only r @nothing\n",
        KEPT[:-1],
        "",
        "# nothing\n",
    ):
        Policy(text).is_same(listing)


def policies_that_differ(_):
    """Policies that name what has no comment, another one, or two."""
    listing = text_of(TWINS)
    for text, names in (
        ("only r key ann\n", ["ann", "key"]),
        (KEY_COMMENT + "only r key ann\n", ["ann"]),
        (KEPT.replace("users ann", "users bob"), ["ann"]),
        (KEPT.replace("users ann", "users ann "), ["ann"]),
        (KEPT.replace("# ann  ", "# ann "), ["ann"]),
        (KEPT.replace("# ann", "#ann "), ["ann"]),
        (KEPT.replace("# ann", " # ann"), ["ann"]),
        (KEPT + comment("ann", "users bob"), ["ann"]),
        (KEPT + "may w robot key\n", ["robot"]),
        (KEPT + "never w ann robot_1\n", ["robot_1"]),
        (KEPT + "group us ann robot\n", ["robot"]),
        (KEPT + "group us @us robot\n", ["robot"]),
        (KEPT + "only r key ann @us robot seal\n", ["robot", "seal"]),
        (KEPT + "never w nobody ann\n", ["nobody"]),
        (comment("@us", "x") + KEPT + "never w @us Ann\n", ["Ann"]),
        (KEPT.encode() + b"never w \xff ann\n", ["\\xff"]),
    ):
        Policy(text).differs(listing, names)


def what_differs_is_told(_):
    """What the comments say is told, and what a name stands for in the graph."""
    text = KEPT.replace("users ann", "users bob") + "never w robot seal\n"
    told = Policy(text).differs(text_of(TWINS), ["ann", "robot", "seal"])
    has_parts(
        told,
        "'ann': the comments say users bob; it stands for users ann\n",
        "'robot': it has no comment; it stands for serviceaccounts ci/robot\n",
    )


def names_of_the_left_out_differ(_):
    """A policy that names what is left out is told, even where its comment is true."""
    listing, words = text_of(TWINS), leaving(["serviceaccounts ci/*"])
    text = KEPT + comment("robot", "serviceaccounts ci/robot") + "never w robot key\n"
    Policy(text).is_same(listing)
    told = Policy(text).differs(listing, ["robot"], *words)
    has_parts(told, "it stands for serviceaccounts ci/robot, which is left out\n")


def long_comments_are_compared_whole(_):
    """A comment of several lines, with blanks at their ends, is compared to its last byte."""
    items = [secret("shop/key"), *may(LONG, "get", "secrets"), *may(LONG + "x", "get", "secrets")]
    listing = text_of(items)
    names = GraphText(text_for(listing)).names
    lines = text_for(listing).decode().splitlines(True)
    lines = [line for line in lines if line.startswith("# a_b")]
    expect(4, len(lines), "lines of comments")
    own = [line for line in lines if line.startswith(f"# {names[LONG]} ")]
    text = KEY_COMMENT + "".join(own) + f"only r key {names[LONG]}\n"
    Policy(text).is_same(listing)
    Policy(text.replace("\n", "\r\n")).is_same(listing)
    for spoiled in (
        text.replace(own[1], own[1][:-1] + "x\n"),
        text.replace(own[1], own[1][:-2] + "\n"),
        text.replace(own[1], ""),
        text.replace(own[0], own[0].rstrip() + "\n"),
        text.replace(own[0] + own[1], own[1] + own[0]),
        text.replace(own[0], own[0] + own[0]),
        text.replace("a b  c", "a b c", 1),
    ):
        Policy(spoiled).differs(listing, [names[LONG]])


def written_policies_have_their_comments(program):
    """What --policy writes names nothing without a comment, and holds."""
    items = [*TWINS, *may(LONG, "impersonate", "users", "ann"), *may("users zoe", "*", "*")]
    for words in ([], leaving(["users zoe"]), leaving(["serviceaccounts *"])):
        graph = text_for(text_of(items), *words)
        policy = text_for(text_of(items), *words, "--policy")
        Policy(policy).is_same(text_of(items), *words)
        status, report = Officer(program, graph).ask("verify", second=policy)
        expect((0, "kept"), (status, report.splitlines()[-1]), "what verify says of the policy")


def a_name_that_drifts_is_told(program):
    """One account more, and a name is another's: the policy would be kept, --same tells it."""
    name, other = "csi_snapshotter", "csi_snapshotte_1"
    listing = text_of(DRIFTING)
    text = comment(name, "serviceaccounts kube-system/csi-snapshotter")
    text += comment("key", "secrets pay/key") + f"never r {name} key\n"
    Policy(text).is_same(listing)
    report = Officer(program, text_for(listing)).ask("verify", second=text.encode())
    expect((1, f"3 fails r {name} key\nbroken 1\n"), report, "what verify says before")
    after = GraphText(text_for(text_of(ONE_MORE)))
    expect(other, after.names["serviceaccounts kube-system/csi-snapshotter"], "the account's name")
    report = Officer(program, text_for(text_of(ONE_MORE))).ask("verify", second=text.encode())
    expect((0, "3 holds\nkept\n"), report, "what verify says after")
    Policy(text).differs(text_of(ONE_MORE), [name])


def wrong_command_lines(_):
    """--same with --policy, without its file, and with a file that is not there."""
    listing = text_of(TWINS)
    graph, missing = str(TOOL), str(TOOL) + ".missing"
    for words in (
        ("--same", graph, "--policy"),
        ("--policy", "--same", graph),
        ("--same",),
        ("--same", missing),
        ("--same", "-"),
        ("--without",),
        (missing,),
        ("--nothing",),
    ):
        refusal_of(listing, *words, status=2)


def policies_from_standard_input(_):
    """The policy may come from standard input where the listing is a file."""
    with tempfile.TemporaryDirectory() as folder:
        path = Path(folder, "listing")
        path.write_bytes(text_of(TWINS))
        wanted = text_for(text_of(TWINS))
        ran = run_tool(KEPT.encode(), str(path), "--same", "-")
        expect((0, wanted, ""), (ran.status, ran.output, ran.told), "the graph")


def links_to_the_tool(_):
    """The tool runs where a link to it stands elsewhere, and where Python adds no folder."""
    with tempfile.TemporaryDirectory() as folder:
        first, second = Path(folder, "first"), Path(folder, "second")
        first.symlink_to(TOOL)
        second.symlink_to("first")
        wanted = 0, plain_text(text_of(TWINS))
        for command in (["./second"], ["python3", "./second"], ["python3", "-I", "./first"]):
            ran = run_tool(text_of(TWINS), command=command, folder=folder)
            expect(wanted, (ran.status, ran.output), f"status and output of {command}")


def cases():
    """Titles, and what plays them."""
    for check in (
        names_stay,
        names_of_the_left_out_are_not_given,
        policies_that_are_same,
        policies_that_differ,
        what_differs_is_told,
        names_of_the_left_out_differ,
        long_comments_are_compared_whole,
        written_policies_have_their_comments,
        a_name_that_drifts_is_told,
        wrong_command_lines,
        policies_from_standard_input,
        links_to_the_tool,
    ):
        yield f"names: {check.__name__.replace('_', ' ')}", check
