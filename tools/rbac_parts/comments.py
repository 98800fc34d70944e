"""Whether the names in a policy stand for what its comments say."""
import re
from collections import defaultdict

from rbac_parts.names import LONGEST_NAME, legend
from rbac_parts.parts import Fault

BLANKS, NAME = re.compile(r"[ \t\r]+"), re.compile("[a-z_][a-z0-9_]*")
# Where the words of a comment on a name begin: behind a sign, a blank, the name, and a blank.
WORDS_AT = 2 + LONGEST_NAME + 1


def named_in(lines):
    """The vertices that a policy names, in order of their names."""
    named = set()
    for line in lines:
        words = [word for word in BLANKS.split(line) if word]
        if words and not words[0].startswith("#"):
            named.update(word for word in words[2:] if not word.startswith("@"))
    return sorted(named)


def comments_in(lines):
    """The comments on each name, in their order."""
    comments = defaultdict(list)
    for line in lines:
        name, blank = line[2:WORDS_AT - 1].rstrip(" "), line[WORDS_AT - 1:WORDS_AT]
        if line.startswith("# ") and blank == " " and NAME.fullmatch(name):
            comments[name].append(line)
    return comments


def difference(name, comments, thing, is_left_out):
    """What is wrong with the comments on a name, or None. It may stand for no thing."""
    if thing is None:
        return "it is no vertex of the graph"
    wanted = legend(thing, name)
    if not is_left_out and comments and comments == wanted * (len(comments) // len(wanted)):
        return None
    said = "".join(line[WORDS_AT:] for line in comments)
    meant = "".join(line[WORDS_AT:] for line in wanted)
    told = f"the comments say {said}" if said else "it has no comment"
    return f"{told}; it stands for {meant}{', which is left out' * is_left_out}"


def check_same(policy, path, remainder):
    """Raises a fault unless a policy has, on all that it names, the comments of the graph."""
    lines = [line.rstrip("\r") for line in policy.decode("latin-1").split("\n")]
    comments, left_out = comments_in(lines), {remainder.names[it] for it in remainder.left_out}
    things = dict(zip(remainder.names, remainder.graph.things))
    told = {name: difference(name, comments[name], things.get(name), name in left_out)
            for name in named_in(lines)}
    wrong = [f"\n  {name!a:.40}: {told[name]}" for name in told if told[name]]
    if wrong:
        raise Fault(f"{path}: names that do not stand for what its comments say: {len(wrong)}"
                    f"{''.join(wrong)}")
