#!/usr/bin/env python3
"""Prints the listing of a made-up Kubernetes cluster, as tools/from_rbac reads it.

cluster.py OBJECTS. A quarter each are service accounts, secrets, roles and bindings, in 25
namespaces. A few groups may do everything, and every account may look at what runs.
"""
import json
import random
import sys

RBAC = "rbac.authorization.k8s.io"
SOME_VERBS = (["get", "list"], ["create", "delete"], ["*"])
SOME_RESOURCES = ("pods", "configmaps", "secrets", "services")


def item(kind, name, namespace=None, **fields):
    metadata = {"name": name, "namespace": namespace} if namespace else {"name": name}
    api = "v1" if kind in ("Secret", "ServiceAccount") else f"{RBAC}/v1"
    return {"apiVersion": api, "kind": kind, "metadata": metadata, **fields}


def binding(name, role, subject, namespace=None):
    kind = "RoleBinding" if namespace else "ClusterRoleBinding"
    reference = {"apiGroup": RBAC, "kind": "Role" if namespace else "ClusterRole", "name": role}
    return item(kind, name, namespace, roleRef=reference, subjects=[subject])


def items(objects, chance):
    yield item("ClusterRole", "cluster-admin",
               rules=[{"apiGroups": ["*"], "resources": ["*"], "verbs": ["*"]}])
    yield item("ClusterRole", "looks", rules=[
        {"apiGroups": [""], "resources": ["pods", "services", "events"], "verbs": ["get", "list"]}])
    yield binding("all-look", "looks", {"kind": "Group", "name": "system:authenticated"})
    for i in range(objects // 100):
        yield binding(f"admins-{i}", "cluster-admin", {"kind": "Group", "name": f"admins-{i}"})
    for i in range(objects // 4):
        team, account = f"team-{chance.randrange(25)}", f"account-{i}"
        subject = {"kind": "ServiceAccount", "name": account, "namespace": team}
        yield item("ServiceAccount", account, team)
        yield item("Secret", f"secret-{i}", team, type="Opaque")
        yield item("Role", f"role-{i}", team, rules=[{
            "apiGroups": [""], "resources": [chance.choice(SOME_RESOURCES)],
            "verbs": chance.choice(SOME_VERBS)}])
        yield binding(f"binding-{i}", f"role-{i}", subject, team)


if __name__ == "__main__":
    listing = list(items(int(sys.argv[1]), random.Random(19)))
    print(json.dumps({"apiVersion": "v1", "kind": "List", "items": listing[:int(sys.argv[1])]}))
