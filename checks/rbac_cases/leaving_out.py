"""What is left out with --without, and the ways through it."""
from rbac_cases.listings import account, binding, cluster_role, may, secret, text_of, token
from rbac_cases.questions import Question
from rbac_cases.runs import GraphText, expect, leaving, run_tool, text_for

ANN, BOB, CID = "users ann", "users bob", "users cid"
DOT, EVE, FAY = "users dot", "users eve", "users fay"
KEY, SEAL = "secrets n/key", "secrets n/seal"
MAKES_ROLES = ("create", "rolebindings")


def runs_as(full_name, *others):
    """What lets somebody run as some users."""
    return may(full_name, "impersonate", "users", *(other.split()[1] for other in others))


def named(*full_names):
    """What names users and lets them do nothing."""
    return [cluster_role("nothing"), binding("nothing", *full_names)]


def reads(full_name, *names):
    """What lets somebody read some secrets of one namespace."""
    return may(full_name, "get", "secrets", *names, place="n")


ONE = [secret("n/key"), *runs_as(ANN, DOT), *reads(DOT, "key")]
CHAIN = [
    secret("n/key"),
    *runs_as(ANN, DOT),
    *runs_as(DOT, EVE),
    *runs_as(EVE, FAY),
    *reads(FAY, "key"),
]
RING = [
    secret("n/key"),
    *runs_as(ANN, EVE),
    *runs_as(DOT, EVE),
    *runs_as(EVE, FAY),
    *runs_as(FAY, DOT),
    *reads(DOT, "key"),
]
PARTED = [
    secret("n/key"),
    *runs_as(ANN, DOT),
    *runs_as(DOT, BOB),
    *runs_as(BOB, EVE),
    *reads(EVE, "key"),
]
TWICE = [
    secret("n/key"),
    *runs_as(ANN, DOT, EVE, FAY),
    *reads(ANN, "key"),
    *reads(DOT, "key"),
    *may(FAY, "update", "secrets", "key", place="n"),
    *may(EVE, "update delete", "secrets", "key", place="n"),
]
IDLE = [
    secret("n/key"),
    *reads(ANN, "key"),
    *reads(CID, "key"),
    *runs_as(DOT, ANN, BOB),
    *named(BOB),
]

QUESTIONS = [
    Question(
        "one left out is run as",
        ONE,
        {("r", ANN, KEY): "yes"},
        (DOT,),
        edges={(ANN, KEY): "r"},
        through={(ANN, KEY): DOT},
    ),
    Question(
        "a chain of left-out accounts",
        CHAIN,
        {("r", ANN, KEY): "yes"},
        (DOT, EVE, FAY),
        edges={(ANN, KEY): "r"},
        through={(ANN, KEY): FAY},
    ),
    Question(
        "a chain of which one stays in the middle",
        CHAIN,
        {("r", ANN, KEY): "yes", ("t", ANN, EVE): "yes"},
        (DOT, FAY),
        edges={(ANN, EVE): "t", (EVE, KEY): "r"},
        through={(ANN, EVE): DOT, (EVE, KEY): FAY},
    ),
    Question(
        "a ring of left-out accounts",
        RING,
        {("r", ANN, KEY): "yes"},
        (DOT, EVE, FAY),
        edges={(ANN, KEY): "r"},
        through={(ANN, KEY): DOT},
    ),
    Question(
        "left-out accounts on both sides of one that stays",
        PARTED,
        {("r", ANN, KEY): "yes", ("t", ANN, BOB): "yes"},
        (DOT, EVE),
        edges={(ANN, BOB): "t", (BOB, KEY): "r"},
        through={(ANN, BOB): DOT, (BOB, KEY): EVE},
    ),
    Question(
        "an edge of the cluster to which leaving out adds rights, through the first by name",
        TWICE,
        {("d", ANN, KEY): "yes", ("w", ANN, KEY): "yes"},
        (DOT, EVE, FAY),
        edges={(ANN, KEY): "rwd"},
        through={(ANN, KEY): EVE},
    ),
    Question(
        "a left-out account helps nobody by itself",
        IDLE,
        {("r", BOB, KEY): "no", ("r", ANN, KEY): "yes", ("t", ANN, BOB): "no"},
        (DOT,),
        edges={(ANN, KEY): "r", (CID, KEY): "r"},
        through={},
    ),
]


def token_questions():
    """Accounts that are left out, and whose tokens others have."""
    owner = "serviceaccounts n/owner"
    items = [account("n/owner"), token("n/pass", "owner"), secret("n/key")]
    items += [*reads(ANN, "pass"), *reads(owner, "key")]
    ways = {(ANN, KEY): owner}
    yield Question(
        "the token of a left-out account is read",
        items,
        {("r", ANN, KEY): "yes"},
        (owner,),
        edges={(ANN, "secrets n/pass"): "r", (ANN, KEY): "r"},
        through=ways,
    )
    makers = [account("n/owner"), secret("n/key"), *reads(owner, "key")]
    makers += may(ANN, "create", "serviceaccounts/token", place="n")
    yield Question(
        "a token of a left-out account is made",
        makers,
        {("r", ANN, KEY): "yes"},
        (owner,),
        edges={(ANN, KEY): "r"},
        through=ways,
    )
    entered = [account("n/owner"), secret("n/key"), *reads(owner, "key")]
    entered += may(ANN, "create", "deployments", place="n")
    yield Question(
        "a pod is started as a left-out account",
        entered,
        {("r", ANN, KEY): "yes"},
        (owner,),
        held={(ANN, KEY): "r", (ANN, "pods n/*"): "t", ("pods n/*", KEY): "r"},
        through=ways,
    )


def grant_questions():
    """Left-out accounts that have g, or over whom somebody has it."""
    # Two who may run as one; it may grant to another, of whom nobody may take: no way goes there.
    items = [secret("n/key"), *runs_as(ANN, DOT), *runs_as(BOB, DOT), *reads(ANN, "key")]
    items += may(DOT, *MAKES_ROLES)
    both = {(x, y): "g" for x in (ANN, BOB) for y in (ANN, BOB)}
    yield Question(
        "one left out that has g over itself and all others",
        items,
        {("r", BOB, KEY): "yes"},
        (DOT,),
        held={**both, (ANN, KEY): "r", (BOB, KEY): ""},
        through={pair: DOT for pair in both} | {(x, "rolebindings *"): DOT for x in (ANN, BOB)},
    )
    items = [secret("n/key"), *may(ANN, *MAKES_ROLES), *runs_as(BOB, DOT), *reads(ANN, "key")]
    items += named(DOT)
    yield Question(
        "who may grant to a left-out account reaches who runs as it",
        items,
        {("r", BOB, KEY): "yes"},
        (DOT,),
        held={(ANN, BOB): "g", (BOB, ANN): "", (BOB, BOB): ""},
        through={},
    )


def self_grant_questions():
    """Left-out accounts whose g over themselves or over one another makes a way."""
    # Rights to roles are g over accounts alone: so g over pods comes of g over itself.
    robot, pods = "serviceaccounts n/robot", "pods n/*"
    items = [account("n/robot"), token("n/pass", "robot"), *may(robot, *MAKES_ROLES)]
    items += may(ANN, "impersonate", "serviceaccounts", "robot", place="n")
    items += may(BOB, "create", "pods/exec", place="n")
    yield Question(
        "one left out that has g over itself alone joins those who come to it",
        items,
        {("g", ANN, pods): "yes"},
        (robot,),
        held={(ANN, pods): "g", (pods, ANN): "g", (pods, pods): "", (ANN, ANN): "g"},
    )
    items = [account("n/robot"), token("n/pass", "robot"), *may(ANN, *MAKES_ROLES)]
    yield Question(
        "who may grant to a left-out account that pods run as reaches them",
        [*items, *may(BOB, "create", "pods/exec", place="n")],
        {("g", ANN, pods): "yes"},
        (robot,),
        held={(ANN, pods): "g", (pods, ANN): "", (pods, pods): ""},
        through={(ANN, pods): robot},
    )
    abe, over = "users abe", (ANN, BOB, "rolebindings *")
    entered = [account("n/robot"), token("n/pass", "robot")]
    entered += may(BOB, "create", "pods/exec", place="n")
    yield Question(
        "a grant from one left out to another that pods may run as",
        [*entered, *may(ANN, "impersonate", "users", "abe"), *may(abe, *MAKES_ROLES)],
        {("g", ANN, pods): "yes"},
        (abe, robot),
        held={(ANN, pods): "g", (pods, ANN): ""},
        through={(ANN, pods): abe} | {(ANN, it): abe for it in over},
    )
    zed = "users zed"
    items = [secret("n/key"), *runs_as(ANN, zed), *runs_as(BOB, DOT), *may(zed, *MAKES_ROLES)]
    yield Question(
        "a grant from one left out to another goes through the first of both by name",
        [*items, *named(DOT, CID), *reads(ANN, "key")],
        {("r", BOB, KEY): "yes"},
        (DOT, zed),
        held={(ANN, BOB): "g", (ANN, CID): "g", (BOB, ANN): ""},
        through={(ANN, BOB): DOT, (ANN, ANN): zed, (ANN, CID): zed, (ANN, "rolebindings *"): zed},
    )
    # The smallest of all graphs that leaving out one after another gets wrong.
    items = [secret("n/key"), *runs_as(ANN, EVE), *runs_as(BOB, EVE), *runs_as(EVE, DOT)]
    items += [*may(EVE, *MAKES_ROLES), *reads(ANN, "key"), *named(DOT)]
    yield Question(
        "a left-out account that takes from another one and grants to it",
        items,
        {("r", BOB, KEY): "yes"},
        (DOT, EVE),
        held={(ANN, BOB): "g", (BOB, ANN): "g"},
    )


def kind_questions():
    """Kinds that hold rights, left out."""
    items = [account("n/default"), secret("n/key"), *may(ANN, "create", "pods/exec", place="n")]
    yield Question(
        "all pods are left out",
        items,
        {("r", ANN, KEY): "yes"},
        ("pods *",),
        edges={(ANN, KEY): "r", (ANN, "serviceaccounts n/default"): "t"},
        through={(ANN, KEY): "pods n/*"},
    )
    yield Question(
        "all accounts but the users and all pods are left out",
        [*items, *reads("serviceaccounts n/default", "seal"), secret("n/seal")],
        {("r", ANN, KEY): "yes", ("r", ANN, SEAL): "yes"},
        ("pods *", "serviceaccounts *"),
        edges={(ANN, KEY): "r", (ANN, SEAL): "r"},
        through={(ANN, KEY): "pods n/*", (ANN, SEAL): "serviceaccounts n/default"},
    )
    yield Question(
        "secrets are left out, which hold nothing",
        items,
        {("r", ANN, "pods n/*"): "no"},
        ("secrets *",),
        edges={(ANN, "pods n/*"): "t", (ANN, "serviceaccounts n/default"): "t"},
        through={},
    )


def remainder_is_told(_):
    """How many were left out, and how many edges came of it, is told on standard error."""
    listing = text_of(TWICE)
    ran = run_tool(listing, *leaving([DOT, EVE, FAY]))
    told = "from_rbac: left out: 3; edges that came of it: 1\n"
    expect((0, told), (ran.status, ran.told), "told")
    ran = run_tool(listing)
    expect((0, ""), (ran.status, ran.told), "told where nothing is left out")


def comment_is_as_documented(_):
    """The comment on an edge that came of leaving out has the words of docs/RBAC.md."""
    lines = text_for(text_of(ONE), *leaving([DOT])).decode().splitlines()
    expect(["# dot              users dot", "# ann key through dot"], lines[6:8], "comments")
    expect("vertex key", lines[5], "the line before them")
    expect(["edge ann key r"], lines[8:], "the lines behind them")


def patterns_are_of_comments(_):
    """A pattern may be written as a name is, or as a comment has it."""
    odd = "users j\u00f6rg [a]"
    items = [secret("n/key"), *reads(odd, "key"), *reads(ANN, "key")]
    for pattern in ("users j\u00f6rg*", r"users j\u00f6rg*", "users j?rg [[]a]"):
        graph = GraphText(text_for(text_of(items), *leaving([pattern])))
        expect({(ANN, KEY): "r"}, graph.edges, f"edges without {pattern!r}")


def cases():
    """Titles, and what plays them."""
    made = [*QUESTIONS, *token_questions(), *grant_questions(), *self_grant_questions()]
    made += kind_questions()
    yield from ((f"left out: {question.title}", question.play) for question in made)
    for check in (remainder_is_told, comment_is_as_documented, patterns_are_of_comments):
        yield f"left out: {check.__name__.replace('_', ' ')}", check
