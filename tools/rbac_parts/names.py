"""Names of vertices, and the comments that say what each stands for."""
import json
import re

from rbac_parts.listing import ACCOUNT_KINDS, full_name

LONGEST_NAME, LONGEST_COMMENT = 16, 200


def short_names(things):
    """A name for each thing: its own, cut and numbered where it is too long or another's."""
    names, used, numbers = {}, set(), {}
    for thing in sorted(things, key=lambda thing: (thing.kind not in ACCOUNT_KINDS, thing)):
        words = thing.name or f"{thing.kind}_{thing.namespace}".strip("_")
        # (what is too long is cut anyway; so things that begin alike are numbered together)
        whole = re.sub("^(?=[0-9])|[^a-z0-9_]", "_", words[:LONGEST_NAME + 1].lower())
        number, name = numbers.get(whole, 0), whole
        while len(name) > LONGEST_NAME or name in used:
            number += 1
            name = f"{whole[:LONGEST_NAME - 1 - len(str(number))]}_{number}"
        names[thing], numbers[whole] = name, number
        used.add(name)
    return names


def escaped(thing):
    """What a thing is called, in ASCII alone, as a comment has it."""
    return json.dumps(full_name(thing))[1:-1]


def legend(thing, name):
    """What a name stands for, in comments."""
    words = escaped(thing)
    return [f"# {name:<{LONGEST_NAME}} {words[at:at + LONGEST_COMMENT]}"
            for at in range(0, len(words), LONGEST_COMMENT)]
