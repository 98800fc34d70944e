"""Aggregated roles, and what pods mount."""
from rbac_cases.listings import account, binding, cluster_role, item, may, rule, secret, text_of
from rbac_cases.questions import Question
from rbac_cases.runs import expect, has_parts, refusal_of, run_tool

ANN, BOB, CID = "users ann", "users bob", "users cid"
KEY, SEAL = "secrets n/key", "secrets n/seal"
PODS, SHARED, OWN = "pods n/*", "configmaps *", "configmaps n/*"
READS_KEY, READS_SEAL = rule("get", "secrets", "key"), rule("get", "secrets", "seal")
AGGREGATE = "rbac.authorization.k8s.io/aggregate-to-"
VIEWED = "configmaps pods pods/log services deployments"
DEPLOYED = "pods deployments statefulsets jobs configmaps"


def asking(key, operator, *values):
    """A selector with one expression."""
    return {"matchExpressions": [{"key": key, "operator": operator, "values": list(values)}]}


def with_labels(**labels):
    """A selector that asks for labels."""
    return {"matchLabels": labels}


# Selectors, and whether they choose a role with the labels `for: shop` and `old: ""`.
SELECTORS = {
    "an empty one": ({}, True),
    "a label": (with_labels(**{"for": "shop"}), True),
    "an empty label": (with_labels(old=""), True),
    "two labels": (with_labels(**{"for": "shop", "old": ""}), True),
    "two labels of which one is another": (with_labels(**{"for": "shop", "old": "x"}), False),
    "a label that is not there": (with_labels(new=""), False),
    "In": (asking("for", "In", "pay", "shop"), True),
    "In with an empty value": (asking("old", "In", ""), True),
    "In with other values": (asking("for", "In", "pay", "ci"), False),
    "In of a label that is not there": (asking("new", "In", "", "shop"), False),
    "NotIn": (asking("for", "NotIn", "pay", "ci"), True),
    "NotIn with its value": (asking("for", "NotIn", "pay", "shop"), False),
    "NotIn of a label that is not there": (asking("new", "NotIn", "shop"), True),
    "Exists": (asking("old", "Exists"), True),
    "Exists of a label that is not there": (asking("new", "Exists"), False),
    "DoesNotExist": (asking("new", "DoesNotExist"), True),
    "DoesNotExist of a label that is there": (asking("for", "DoesNotExist"), False),
    "a label and an expression": (with_labels(old="") | asking("for", "Exists"), True),
    "a label and an expression that fails": (with_labels(old="") | asking("new", "Exists"), False),
    "a label that fails and an expression": (with_labels(old="x") | asking("for", "Exists"), False),
}
# Selectors that are refused, and the words of the fault.
BAD_SELECTORS = {
    "an unknown operator": (asking("for", "Gt", "1"), "operator 'Gt' is none of In, NotIn, "),
    "an operator in small letters": (asking("for", "in", "shop"), "operator 'in' is none of "),
    "an unknown operator behind a label that fails": (
        with_labels(new="x") | asking("for", "Like", "s"),
        "operator 'Like' is none of ",
    ),
    "In without values": (asking("for", "In"), "operator In has no values"),
    "Exists with values": (asking("for", "Exists", "shop"), "operator Exists has values"),
    "an expression without an operator": (
        {"matchExpressions": [{"key": "for"}]},
        "operator is missing",
    ),
    "a label that is a number": (with_labels(old=1), "matchLabels.old is 1, and has to be"),
}


def selector_questions():
    """A role that is bound and empty, and chooses another by a selector, or does not."""
    for title, (selector, is_chosen) in SELECTORS.items():
        chosen = cluster_role("reads", READS_KEY, labels={"for": "shop", "old": ""})
        whole = cluster_role("whole", selectors=[selector])
        items = [secret("n/key"), chosen, whole, binding("whole", ANN)]
        answer = "yes" if is_chosen else "no"
        edges = {(ANN, KEY): "r"} if is_chosen else {}
        yield Question(f"a selector: {title}", items, {("r", ANN, KEY): answer}, edges=edges)


def aggregation_questions():
    """Roles that have the rules of others."""
    both = [secret("n/key"), secret("n/seal")]
    reads = cluster_role("reads", READS_KEY, labels={"to": "edit"})
    chooses = {"selectors": [with_labels(to="edit")]}
    edit = cluster_role("edit", READS_SEAL, labels={"to": "all"}, **chooses)
    admin = cluster_role("admin", selectors=[with_labels(to="all")])
    answers = {("r", ANN, KEY): "yes", ("r", ANN, SEAL): "yes", ("r", BOB, SEAL): "no"}
    yield Question(
        "a role that chooses one that chooses one",
        [*both, admin, edit, reads, binding("admin", ANN), binding("reads", BOB)],
        answers,
        edges={(ANN, KEY): "r", (ANN, SEAL): "r", (BOB, KEY): "r"},
    )
    yield Question(
        "an aggregated role bound in one namespace",
        [*both, secret("m/key"), admin, edit, reads, binding("admin", ANN, place="n")],
        {("r", ANN, KEY): "yes", ("r", ANN, "secrets m/key"): "no"},
        edges={(ANN, KEY): "r", (ANN, SEAL): "r"},
    )
    either = [with_labels(to="none"), with_labels(to="edit")]
    yield Question(
        "several selectors, of which one chooses",
        [*both, cluster_role("whole", selectors=either), reads, binding("whole", ANN)],
        edges={(ANN, KEY): "r"},
    )
    for title, fields in {
        "no selectors": {"selectors": []},
        "null for selectors": {"selectors": None},
        "null for the aggregation": {"aggregationRule": None},
    }.items():
        yield Question(
            f"a role with {title} has its own rules alone",
            [*both, cluster_role("whole", READS_SEAL, **fields), reads, binding("whole", ANN)],
            edges={(ANN, SEAL): "r"},
        )


def circle_questions():
    """Roles that choose one another."""
    to_first, to_second = [with_labels(to="first")], [with_labels(to="second")]
    items = [
        secret("n/key"),
        secret("n/seal"),
        cluster_role("first", READS_KEY, selectors=to_second, labels={"to": "first"}),
        cluster_role("second", READS_SEAL, selectors=to_first, labels={"to": "second"}),
        cluster_role("third", selectors=[{}], labels={"to": "second"}),
    ]
    items += [binding("first", ANN), binding("second", BOB), binding("third", CID)]
    yield Question(
        "roles that choose one another in a circle, and themselves",
        items,
        edges={(x, y): "r" for x in (ANN, BOB, CID) for y in (KEY, SEAL)},
    )


def kubernetes_roles():
    """The roles that are for users, as they are before a cluster fills in their rules."""
    return [
        cluster_role("cluster-admin", rule("*", "*")),
        cluster_role("admin", selectors=[with_labels(**{AGGREGATE + "admin": "true"})]),
        cluster_role(
            "edit",
            selectors=[with_labels(**{AGGREGATE + "edit": "true"})],
            labels={AGGREGATE + "admin": "true"},
        ),
        cluster_role(
            "view",
            selectors=[with_labels(**{AGGREGATE + "view": "true"})],
            labels={AGGREGATE + "edit": "true"},
        ),
        cluster_role(
            "system:aggregate-to-admin",
            rule("create", "localsubjectaccessreviews"),
            rule("create delete get list patch update watch", "roles rolebindings"),
            labels={AGGREGATE + "admin": "true"},
        ),
        cluster_role(
            "system:aggregate-to-edit",
            rule("get list watch", "pods/attach pods/exec secrets services/proxy"),
            rule("impersonate", "serviceaccounts"),
            rule("create delete patch update", "secrets serviceaccounts " + DEPLOYED),
            rule("create", "serviceaccounts/token"),
            labels={AGGREGATE + "edit": "true"},
        ),
        cluster_role(
            "system:aggregate-to-view",
            rule("get list watch", VIEWED),
            labels={AGGREGATE + "view": "true"},
        ),
    ]


def kubernetes_questions():
    """A cluster whose people have the roles that are there for them."""
    items = [*kubernetes_roles(), account("n/default"), account("m/default"), secret("n/key")]
    items += [secret("m/key"), binding("cluster-admin", "groups system:masters")]
    default = "serviceaccounts n/default"
    for role, letters in {"view": "", "edit": "rwd", "admin": "rwd"}.items():
        held = {
            (ANN, "pods/log n/*"): "r",
            (ANN, KEY): letters,
            (ANN, "secrets m/key"): "",
            (ANN, default): {"view": "", "edit": "twd", "admin": "tgwd"}[role],
            (ANN, "rolebindings n/*"): "rwd" if role == "admin" else "",
        }
        yield Question(
            f"who is bound to {role} in a namespace",
            [*items, binding(role, ANN, place="n")],
            {("r", ANN, KEY): "no" if role == "view" else "yes"},
            ("groups system:masters",),
            held=held,
        )


def controller_questions():
    """A cluster whose controllers and administrators are left out, as docs/RBAC.md has it."""
    controller = "serviceaccounts kube-system/namespace-controller"
    items = [*kubernetes_roles(), account("kube-system/namespace-controller"), account("n/default")]
    items += [secret("n/key"), binding("cluster-admin", "groups system:masters")]
    items += may(controller, "delete deletecollection get list", "*")
    trusted = ("groups system:masters", "serviceaccounts kube-system/*")
    for role, letters in {"edit": "rd", "view": ""}.items():
        yield Question(
            f"who is bound to {role} where the controllers run, which are left out",
            [*items, binding(role, ANN, place="kube-system"), binding("view", BOB)],
            {("r", ANN, KEY): "yes" if letters else "no", ("r", BOB, KEY): "no"},
            trusted,
            held={(ANN, KEY): letters, (BOB, KEY): "", (BOB, "configmaps *"): "r"},
        )


def mount_questions():
    """Pods, and the configmaps of their namespace or of all."""
    pods = [account("n/default"), account("m/default"), *may(ANN, "create", "pods")]
    everywhere = may(BOB, "update", "configmaps")
    yield Question(
        "a namespace without configmaps of its own",
        [*pods, *everywhere],
        {("r", ANN, SHARED): "yes"},
        held={(PODS, SHARED): "r", ("pods m/*", SHARED): "r", (ANN, SHARED): ""},
    )
    yield Question(
        "one namespace with configmaps of its own, and one without",
        [*pods, *everywhere, *may(CID, "get", "configmaps", place="n")],
        {("r", ANN, SHARED): "yes", ("r", ANN, OWN): "yes"},
        held={
            (PODS, OWN): "r",
            (PODS, SHARED): "",
            ("pods m/*", SHARED): "r",
            (BOB, OWN): "w",
            (CID, SHARED): "",
        },
    )


def enter_questions():
    """Who may enter which pods, and what these mount."""
    everywhere = may(BOB, "update", "configmaps")
    yield Question(
        "pods of a namespace of which no account is known, and its configmaps",
        [*may(ANN, "create", "deployments"), *may(BOB, "update", "configmaps", place="n")],
        {("r", ANN, OWN): "yes"},
        held={(PODS, OWN): "r"},
    )
    yield Question(
        "pods of one namespace, and rules for the configmaps of all",
        [account("n/default"), *may(ANN, "create", "pods/exec", place="n"), *everywhere],
        {("r", ANN, SHARED): "yes"},
        ("serviceaccounts *",),
        held={(PODS, SHARED): "r"},
    )
    yield Question(
        "pods that nobody may enter",
        [account("n/default"), *may(ANN, "get", "pods"), *everywhere],
        {("r", ANN, SHARED): "no"},
        held={(ANN, PODS): "r", (PODS, SHARED): ""},
    )


def bad_selectors_are_refused(_):
    """What can't be understood of a selector is told, with the number of the item."""
    for selector, words in BAD_SELECTORS.values():
        whole = cluster_role("whole", selectors=[selector])
        told = refusal_of(text_of([secret("n/key"), whole, binding("whole", ANN)]))
        has_parts(told, "from_rbac: item 2 (ClusterRole 'whole'): ", words)


def roles_of_a_namespace_choose_nothing(_):
    """A Role has no aggregation: what stands there of one plays no part."""
    chooses_all = {"clusterRoleSelectors": [asking("x", "Gt")]}
    role = item("Role", "whole", "n", rules=[READS_KEY], aggregationRule=chooses_all)
    items = [secret("n/key"), role, binding("n/whole", ANN, place="n")]
    expect(0, run_tool(text_of(items)).status, "status")


ROLE_QUESTIONS = (
    selector_questions,
    aggregation_questions,
    circle_questions,
    kubernetes_questions,
    controller_questions,
)


def cases():
    """Titles, and what plays them."""
    for questions in ROLE_QUESTIONS:
        yield from ((f"roles: {question.title}", question.play) for question in questions())
    for questions in (mount_questions, enter_questions):
        yield from ((f"pods: {question.title}", question.play) for question in questions())
    for check in (bad_selectors_are_refused, roles_of_a_namespace_choose_nothing):
        yield f"roles: {check.__name__.replace('_', ' ')}", check
