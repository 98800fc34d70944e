"""A first policy: of each secret, who can come to which right over it."""
import textwrap
from collections import defaultdict

from rbac_parts.names import legend
from rbac_parts.parts import Fault

MOST_LINES, LONGEST_LINE = 65536, 256


def islands_of(names, links):
    """The island of each name, in order: all to which links lead, either way round."""
    islands = {name: [name] for name in names}
    for x, y in links:
        if islands[x] is not islands[y]:
            smaller, larger = sorted((islands[x], islands[y]), key=len)
            larger += smaller
            islands.update(dict.fromkeys(smaller, larger))
    for island in islands.values():
        island.sort()
    return islands


class Policy:
    """The lines of a policy, each no longer than a line may be, and whom they list."""

    def __init__(self):
        self.groups, self.group_lines, self.lines, self.listed = defaultdict(dict), [], [], set()

    def group(self, kind, operands):
        """The word for a group of operands. Its lines are written when it is first asked for."""
        groups, key = self.groups[kind], tuple(operands)
        if key not in groups:
            groups[key] = f"{kind}_{len(groups) + 1}"
            head = f"group {groups[key]} "
            self.group_lines += textwrap.wrap(" ".join(operands), LONGEST_LINE,
                                              initial_indent=head, subsequent_indent=head)
        return "@" + groups[key]

    def add_only(self, rights, name, islands):
        """Writes that nobody but these islands can come to one of the rights over a name."""
        self.listed.update(*islands)
        operands = [self.group("island", them) if them[1:] else them[0] for them in islands]
        line = " ".join(["only", rights, name, *operands])
        if len(line) > LONGEST_LINE:
            line = f"only {rights} {name} {self.group('list', operands)}"
        self.lines.append(line)


def policy_of(remainder):
    """The lines of a policy that holds: of each secret who can come to which right over it."""
    names = {remainder.graph.things[place]: remainder.names[place] for place in remainder.kept}
    secrets = {name for thing, name in names.items() if thing.kind == "secrets"}
    if not secrets:
        raise Fault("there is no secret, or all are left out: a policy would state nothing")
    edges = [(x, y, label) for x, pairs in remainder.edges() for y, label in pairs]
    links = ((x, y) for x, y, label in edges if "t" in label or "g" in label)
    islands, holders = islands_of(names.values(), links), defaultdict(set)
    for x, y, label in edges:
        for right in label * (y in secrets):
            holders[y, right].add(islands[x][0])
    policy = Policy()
    for thing, name in names.items():
        if name in secrets:
            policy.lines += legend(thing, name)
            together = defaultdict(str)
            for right in "rwed":
                together[tuple(sorted(holders[name, right]))] += right
            for found, rights in together.items():
                policy.add_only(rights, name, [islands[first] for first in found])
    head = ["# Made by tools/from_rbac --policy; docs/RBAC.md says how to tighten it."]
    for thing, name in names.items():
        if name in policy.listed:
            head += legend(thing, name)
    lines = head + policy.group_lines + policy.lines
    count = sum(not line.startswith("#") for line in lines)
    if count > MOST_LINES:
        raise Fault(f"{count} lines of a policy, {MOST_LINES} at most; leave out secrets")
    return lines
