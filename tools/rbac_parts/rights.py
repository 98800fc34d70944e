"""Which rights the rules of a cluster give, and over what."""
from collections import defaultdict
from itertools import product

from rbac_parts.graphs import Graph
from rbac_parts.listing import ACCOUNT_KINDS, Rule, Thing

READING, CHANGING = {"get", "list", "watch"}, {"create", "update", "patch"}
DELETING, HANDING_OVER = {"delete", "deletecollection"}, {"bind", "escalate"}
ROLE_KINDS = ("roles", "clusterroles", "rolebindings", "clusterrolebindings")
POD_MAKERS = ("pods", "podtemplates", "replicationcontrollers", "replicasets", "deployments",
              "daemonsets", "statefulsets", "jobs", "cronjobs")
WAYS_INTO_PODS = ("pods/exec", "pods/attach", "pods/ephemeralcontainers", "nodes/proxy")
NO_NEW_THINGS = {"secrets", "serviceaccounts/token", *ACCOUNT_KINDS, *WAYS_INTO_PODS}
EVERYTHING = Rule(frozenset("*"), frozenset("*"), frozenset())


class Rights:
    """What the rules of a cluster come to. Kinds that rules name become things of the cluster."""

    def __init__(self, cluster):
        self.cluster, self.things, self.tokens = cluster, cluster.things, cluster.tokens

    def permissions(self):
        """Who has which rule in which namespace. Who may bind or escalate roles may come to all."""
        for account, role, scope in self.cluster.bindings:
            rules = self.cluster.roles.get(role, [])
            if any(allows(rule, HANDING_OVER, *ROLE_KINDS) for rule in rules):
                rules = rules + [EVERYTHING]
            members = self.cluster.members(account)
            yield from ((who, rule, scope) for who in members for rule in rules)

    def graph(self):
        """The things of the cluster, and the rights that each has over others."""
        holders = defaultdict(set)
        for account, rule, scope in self.permissions():
            holders[rule, scope].add(account)
            for kind in rule.resources - NO_NEW_THINGS:
                if "*" not in kind:
                    self.things[kind].add(Thing(kind, scope, ""))
        graph = Graph(set().union(*self.things.values()))
        for (rule, scope), accounts in holders.items():
            given = [(right, graph.mask_of(over)) for right, over in self.rights_of(rule, scope)]
            for account, (right, mask) in product(accounts, given):
                graph.give(account, right, mask)
        self.add_mounts(graph)
        self.add_tokens(graph)
        return graph

    def rights_of(self, rule, scope):
        """What a rule allows in its namespace: pairs of a right and the things that it is over."""
        other = rule.verbs - READING - CHANGING - DELETING - HANDING_OVER - {"impersonate"}
        plain = {"r": READING, "w": CHANGING, "d": DELETING, "e": other}
        for kind in self.things.keys() - {"users", "groups"}:
            rights = [right for right in plain if allows(rule, plain[right], kind)]
            matching = self.matching(rule, scope, kind) if rights else ()
            yield from ((right, matching) for right in rights)
        yield "t", self.run_as(rule, scope)
        if allows(rule, CHANGING | HANDING_OVER, *ROLE_KINDS):
            yield "g", self.cluster.accounts

    def run_as(self, rule, scope):
        """The accounts that a rule lets one run as, and the pods that one may start or enter."""
        every, secrets = rule._replace(names=()), self.matching(rule, scope, "secrets")
        tokens = secrets & self.tokens.keys()
        enters = allows(rule, CHANGING, *POD_MAKERS) or allows(rule, rule.verbs, *WAYS_INTO_PODS)
        fills = allows(rule, {"create"}, "secrets") or tokens and allows(rule, CHANGING, "secrets")
        ways = [(allows(rule, {"impersonate"}, kind), rule, kind) for kind in ACCOUNT_KINDS] + [
            (allows(rule, {"create"}, "serviceaccounts/token"), rule, "serviceaccounts"),
            (enters or fills, every, "serviceaccounts"), (enters, every, "pods")]
        return {thing for open_way, rule, kind in ways if open_way
                for thing in self.matching(rule, scope, kind)}

    def matching(self, rule, scope, kind):
        """The things of a kind, in the namespaces in scope, that a rule is for."""
        return {thing for thing in self.things[kind] if scope in ("", thing.namespace)
                and (not rule.names or not thing.name or thing.name in rule.names)}

    def add_mounts(self, graph):
        """Gives pods that somebody may enter r over the secrets and configmaps they may mount."""
        pairs = [(self.of_kind("pods", thing.namespace), thing) for thing in self.things["secrets"]]
        mounted = self.things["pods"] | self.things["configmaps"]
        pairs += [(self.of_kind("pods", place), self.of_kind("configmaps", place))
                  for place in {thing.namespace for thing in mounted}]
        entered = set()
        for row in graph.rows.values():
            entered.update(graph.things_in(row["t"] & graph.mask_of(self.things["pods"])))
        for pods, thing in pairs:
            if pods in entered and thing:
                graph.give(pods, "r", graph.mask_of([thing]))

    def add_tokens(self, graph):
        """Gives who may read the secret of a token t over the account that it is for."""
        secrets = graph.mask_of(self.tokens)
        for holder, row in graph.rows.items():
            for secret in graph.things_in(row["r"] & secrets):
                graph.give(holder, "t", graph.mask_of([self.tokens[secret]]))

    def of_kind(self, kind, place):
        """What stands for a kind in a namespace: its own vertex or that of all, None if neither."""
        ways = (Thing(kind, place, ""), Thing(kind, "", ""))
        return next((thing for thing in ways if thing in self.things[kind]), None)


def allows(rule, verbs, *kinds):
    """Whether a rule has one of these verbs for one of these kinds."""
    return bool("*" in rule.verbs or rule.verbs & verbs) and any(
        pattern in ("*", kind) or pattern.startswith("*/") and kind.endswith(pattern[1:])
        for pattern in rule.resources for kind in kinds)
