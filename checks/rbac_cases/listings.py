"""Parts of listings. Whom and what they name is written as the comments of a graph have it."""
import json
from itertools import count

RBAC = "rbac.authorization.k8s.io"
TOKEN, TOKEN_OF = "kubernetes.io/service-account-token", "kubernetes.io/service-account.name"
SUBJECT_KINDS = {"serviceaccounts": "ServiceAccount", "users": "User", "groups": "Group"}
NUMBERS = count()


def item(kind, name, place=None, **fields):
    """An object of a kind; what has no namespace has no place."""
    metadata = {"name": name, "namespace": place} if place else {"name": name}
    metadata.update(fields.pop("metadata", {}))
    return {"kind": kind, "metadata": metadata, **fields}


def account(full_name):
    """A service account, as `account("shop/cart")`."""
    place, name = full_name.split("/")
    return item("ServiceAccount", name, place)


def secret(full_name):
    """A secret, as `secret("shop/key")`."""
    place, name = full_name.split("/")
    return item("Secret", name, place, type="Opaque")


def token(full_name, owner):
    """The secret of a token of an account of its namespace."""
    place, name = full_name.split("/")
    return item("Secret", name, place, type=TOKEN, metadata={"annotations": {TOKEN_OF: owner}})


def rule(verbs, resources, *names):
    """A rule, its verbs and its resources each as words."""
    named = {"resourceNames": list(names)} if names else {}
    return {"verbs": verbs.split(), "resources": resources.split(), **named}


def cluster_role(name, *rules, **fields):
    """A ClusterRole. `labels` are its own; `selectors` make it an aggregated one."""
    metadata = {"labels": fields.pop("labels")} if "labels" in fields else {}
    if "selectors" in fields:
        fields["aggregationRule"] = {"clusterRoleSelectors": fields.pop("selectors")}
    return item("ClusterRole", name, rules=list(rules) or None, metadata=metadata, **fields)


def subject(full_name):
    """The subject of a binding, as `subject("serviceaccounts shop/cart")`."""
    kind, name = full_name.split(" ", 1)
    place, _, last = name.rpartition("/") if kind == "serviceaccounts" else ("", "", name)
    return {"kind": SUBJECT_KINDS[kind], "name": last, **({"namespace": place} if place else {})}


def binding(role, *full_names, place=None):
    """What gives a ClusterRole to some, in a place or in all; a Role is `PLACE/NAME`."""
    home, _, name = role.rpartition("/")
    reference = {"apiGroup": RBAC, "kind": "Role" if home else "ClusterRole", "name": name}
    kind = "RoleBinding" if place else "ClusterRoleBinding"
    subjects = [subject(full_name) for full_name in full_names]
    return item(kind, f"binding-{next(NUMBERS)}", place, roleRef=reference, subjects=subjects)


def may(full_name, verbs, resources, *names, place=None):
    """A role with one rule, and what binds somebody to it, in a place or in all."""
    name = f"role-{next(NUMBERS)}"
    if place is None:
        role, bound = cluster_role(name, rule(verbs, resources, *names)), name
    else:
        role = item("Role", name, place, rules=[rule(verbs, resources, *names)])
        bound = f"{place}/{name}"
    return [role, binding(bound, full_name, place=place)]


def text_of(items):
    """A listing as kubectl prints it."""
    return json.dumps({"apiVersion": "v1", "kind": "List", "items": items}).encode()
