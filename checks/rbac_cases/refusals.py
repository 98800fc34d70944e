"""What is refused, and what is told besides."""
from rbac_cases.listings import account, binding, cluster_role, may, secret, text_of
from rbac_cases.runs import expect, has_parts, leaving, refusal_of, run_tool

ANN, BOB = "users ann", "users bob"
READERS = [secret("n/key"), *may(ANN, "get", "secrets")]
HOMELESS = {"kind": "ServiceAccount", "metadata": {"name": "x"}}
# Listings that are refused, and the words of the fault.
BAD_LISTINGS = {
    b"": "Expecting value",
    b"{": "Expecting property name",
    b"\xff": "",
    b"[" * 100_000: "",
    b"[]": "listing is [], and has to be an object",
    b"{}": "items is missing",
    b'{"items": {}}': "items is {}, and has to be a list",
    b'{"items": []}': "the listing has no object",
    b'{"items": [null]}': "items[0] is missing",
    b'{"items": [{"kind": "Pod", "metadata": {"name": "x"}}]}': "item 1 (Pod 'x'): kind has to be",
    text_of([*READERS, HOMELESS]): "item 4 (ServiceAccount 'x'): namespace is missing",
}


def bad_listings(_):
    """What is no listing, or one of something else, is refused."""
    for listing, words in BAD_LISTINGS.items():
        has_parts(refusal_of(listing), "from_rbac: ", words)


def patterns_that_match_nothing(_):
    """Each pattern that names no vertex is told, once all were looked at."""
    for patterns, idle in (
        (["users bob"], ["users bob"]),
        (["users ann", "users Ann", "users a?", "secrets n/*"], ["users Ann", "users a?"]),
        (["pods *", "users ann", ""], ["pods *", ""]),
        (["users *", "users bob"], ["users bob"]),
    ):
        told = refusal_of(text_of(READERS), *leaving(patterns))
        wanted = "from_rbac: nothing is named as --without says:\n"
        expect(wanted + "".join(f"  {it!r}\n" for it in idle), told, "told")


def patterns_of_what_only_others_match(_):
    """A pattern whose vertices other patterns leave out as well does match."""
    ran = run_tool(text_of(READERS), *leaving(["users ann", "users *", "* *"]))
    told = "from_rbac: left out: 2; edges that came of it: 0\n"
    expect((0, told), (ran.status, ran.told), "told")


def policies_without_secrets(_):
    """A policy that would state nothing is not written."""
    no_secrets = text_of([account("n/a"), *may(ANN, "get", "pods")])
    for listing, words in (
        (no_secrets, []),
        (text_of(READERS), leaving(["secrets *"])),
        (text_of(READERS), leaving(["secrets n/key", "users *"])),
    ):
        has_parts(refusal_of(listing, *words, "--policy"), "no secret")
        expect(0, run_tool(listing, *words).status, "status of the graph")


def bindings_to_missing_roles(_):
    """Bindings to roles that are missing are told with their number; the graph is written."""
    items = [*READERS, binding("gone", BOB)]
    for missing in (1, 3, 4, 12):
        bound = [binding(f"n/gone-{number}", BOB, place="n") for number in range(1, missing)]
        ran = run_tool(text_of(items + bound))
        expect((0, True), (ran.status, b"\nedge ann key r\n" in ran.output), "status and graph")
        lines = ran.told.splitlines()
        told = f"from_rbac: bindings to roles that the listing lacks: {missing}, which give nothing"
        expect(told + " here", lines[0], "told")
        wanted = [binding_line(item) for item in [items[-1], *bound][:3]]
        expect(wanted + ["  .."] * (missing > 3), lines[1:], "the first three")


def binding_line(item):
    """How a binding to a missing role is told."""
    metadata, role = item["metadata"], item["roleRef"]["name"]
    if "namespace" in metadata:
        return f"  'rolebindings n/{metadata['name']}' to 'roles n/{role}'"
    return f"  'clusterrolebindings {metadata['name']}' to 'clusterroles {role}'"


def roles_that_are_elsewhere(_):
    """A role of another namespace, or of another kind, is a missing one."""
    reads = may(ANN, "get", "secrets", place="n")
    elsewhere = reads[1] | {"metadata": {"name": "x", "namespace": "m"}}
    of_cluster = reads[1] | {"kind": "ClusterRoleBinding", "metadata": {"name": "x"}}
    for bound in (elsewhere, of_cluster, binding(reads[0]["metadata"]["name"], ANN)):
        ran = run_tool(text_of([secret("n/key"), reads[0], bound]))
        expect((0, False), (ran.status, b"edge" in ran.output), "status, and edges")
        has_parts(ran.told, "bindings to roles that the listing lacks: 1, ")


def nothing_is_told_of_a_whole_listing(_):
    """Where nothing is missing or left out, nothing is told."""
    for items in (READERS, [cluster_role("none"), binding("none", ANN), secret("n/key")]):
        for words in ([], ["--policy"]):
            ran = run_tool(text_of(items), *words)
            expect((0, ""), (ran.status, ran.told), "status, and what is told")


def cases():
    """Titles, and what plays them."""
    for check in (
        bad_listings,
        patterns_that_match_nothing,
        patterns_of_what_only_others_match,
        policies_without_secrets,
        bindings_to_missing_roles,
        roles_that_are_elsewhere,
        nothing_is_told_of_a_whole_listing,
    ):
        yield f"refused: {check.__name__.replace('_', ' ')}", check
