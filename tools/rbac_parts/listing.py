"""What a listing of a cluster says: its things, its roles, and whom they are bound to."""
import json
import re
from collections import defaultdict, namedtuple

from rbac_parts.aggregation import aggregated, labels_of, selectors_of
from rbac_parts.parts import Fault, field, fields

TOKEN, TOKEN_OF = "kubernetes.io/service-account-token", "kubernetes.io/service-account.name"
KINDS = ("ClusterRole", "ClusterRoleBinding", "Role", "RoleBinding", "Secret", "ServiceAccount")
ACCOUNT_KINDS = ("serviceaccounts", "users", "groups")

# No name: all of the kind in the namespace. No namespace: of each, or a kind that has none.
Thing = namedtuple("Thing", "kind namespace name")
Rule = namedtuple("Rule", "verbs resources names")


def full_name(thing):
    """What a thing is called in comments and patterns."""
    return f"{thing.kind} {thing.namespace}{'/' * bool(thing.namespace)}{thing.name or '*'}"


class Cluster:
    """What a listing says.

    `things` are by kind, `roles` has the rules of each role, `bindings` has an account, a role and
    a namespace each, `tokens` the account of each secret that is its token. `missing` has the
    bindings, in the order of the listing, to roles that it does not have.
    """

    def __init__(self, listing):
        self.things, self.roles, self.bindings, self.tokens = defaultdict(set), {}, set(), {}
        self.labels, self.selectors, self.bound = {}, defaultdict(list), []
        items = fields(field({"listing": listing}, "listing", dict), "items", dict)
        if not items:
            raise Fault("the listing has no object")
        for number, item in enumerate(items, 1):
            self.add_item(f"item {number}", item)
        self.roles = aggregated(self.roles, self.labels, self.selectors)
        self.missing = [bound for bound in self.bound if bound[1] not in self.roles]
        self.accounts = {thing for kind in ACCOUNT_KINDS for thing in self.things[kind]}
        places = {thing.namespace for thing in self.accounts | self.things["secrets"]}
        places |= {place for _, _, place in self.bindings}
        self.things["pods"] |= {Thing("pods", place, "") for place in places}

    def add_item(self, where, item):
        """Takes in an item; `where` names it in faults."""
        try:
            kind, metadata = field(item, "kind", str), field(item, "metadata", dict)
            where += f" ({kind} {field(metadata, 'name', str)!a})"
            if kind not in KINDS:
                raise Fault(f"kind has to be one of {', '.join(KINDS)}")
            place = "" if kind.startswith("Cluster") else field(metadata, "namespace", str)
            self.add(item, metadata, Thing(kind.lower() + "s", place, metadata["name"]))
        except Fault as fault:
            raise Fault(f"{where}: {fault}") from fault

    def add(self, item, metadata, thing):
        """Takes in an item that is a thing."""
        if thing.kind in ("roles", "clusterroles"):
            self.add_role(item, metadata, thing)
        elif thing.kind in ("rolebindings", "clusterrolebindings"):
            self.add_binding(item, thing)
        else:
            self.things[thing.kind].add(thing)
            owner = field(field(metadata, "annotations", dict, {}), TOKEN_OF, str, "")
            if owner and thing.kind == "secrets" and field(item, "type", str, "") == TOKEN:
                self.tokens[thing] = Thing("serviceaccounts", thing.namespace, owner)
                self.things["serviceaccounts"].add(self.tokens[thing])

    def add_role(self, item, metadata, role):
        """Takes in a role's own rules, and what says whose rules it has besides."""
        self.roles.setdefault(role, []).extend(
            Rule(*(frozenset(fields(rule, name, str, *otherwise)) for name, *otherwise in (
                ("verbs",), ("resources", []), ("resourceNames", []))))
            for rule in fields(item, "rules", dict, []))
        if role.kind == "clusterroles":
            self.labels[role] = labels_of(metadata, "labels")
            self.selectors[role] += selectors_of(item)

    def add_binding(self, item, binding):
        """Takes in to whom a binding gives its role, and where."""
        role, place = field(item, "roleRef", dict), binding.namespace
        home = place if field(role, "kind", str) == "Role" else ""
        role = Thing(role["kind"].lower() + "s", home, field(role, "name", str))
        self.bound.append((binding, role))
        for subject in fields(item, "subjects", dict, []):
            account = account_of(subject, place)
            self.things[account.kind].add(account)
            self.bindings.add((account, role, place))

    def members(self, account):
        """An account and, if it is a group that each cluster has, who is in it."""
        if account.kind != "groups" or not account.name.startswith("system:"):
            return {account}
        return {account} | {
            other for other in self.accounts if account.name in (
                "system:authenticated", "system:unauthenticated",
                f"system:{other.kind}", f"system:{other.kind}:{other.namespace}")}


def account_of(subject, place):
    """Who the subject of a binding is; the namespace of the binding is its own if none is said."""
    kind, name = field(subject, "kind", str), field(subject, "name", str)
    written = re.fullmatch("system:serviceaccount:([^:]+):([^:]+)", name)
    if kind == "ServiceAccount":
        return Thing("serviceaccounts", field(subject, "namespace", str, place), name)
    if kind == "User" and written:
        return Thing("serviceaccounts", *written.groups())
    if kind in ("User", "Group"):
        return Thing(kind.lower() + "s", "", name)
    raise Fault(f"kind of a subject is {json.dumps(kind)}")
