#!/usr/bin/env python3
"""Tries the wrong bodies of crates/*/must-fail/: the prover must refuse each.

wrong_bodies.py [--lanes N] [--kept FOLDER] [--only WORD] [CRATE ..]

`rt ci` tries each by itself, with the whole crate. Here ten stand at once, each in the body of another function, and
the prover looks at their modules: what the proof of a function reads is its own body and the contracts of others, so
none is refused for another's sake. A wrong body whose function is not refused so is tried alone, with the module that
it changes, and where that one is proved with the whole crate.
First each crate is checked whole, in a copy of the repository; then each lane tries wrong bodies in a copy of its own.
Where --kept names a copy in which that was done, it is taken as it is. --only WORD tries those whose names have it.
The last line is 'N refused, M not'.
"""
import argparse, glob, os, re, shutil, subprocess, sys, tempfile, threading, time, traceback

ROOT = os.path.dirname(os.path.dirname(os.path.abspath(__file__)))
# How many wrong bodies stand at once, and how many such lists a lane tries before it asks for the next ones.
TOGETHER = 10
SHARE = 2
# A line with one of these words says more than what a function does.
MORE_THAN_A_BODY = re.compile(r"\b(const|static|type|struct|enum|trait|impl|derive|ghost|requires|ensures|fn)\b|#\[")


def crates_of(root):
    """The repository's crates, lowest first, each with those that it stands on."""
    found = {}
    for line in open(f"{root}/crates.txt"):
        names, _, libraries = line.split("#")[0].partition(":")
        if names.strip():
            found[names.split()[0]] = libraries.split()
    below = {}
    for name in found:
        below[name] = [it for it in found[name] if it in found]
    ordered = []
    while len(ordered) < len(below):
        ordered += [it for it in below if it not in ordered and all(dep in ordered for dep in below[it])]
    return {it: below[it] for it in ordered}


def all_below(crates, name):
    return sorted({it for dep in crates[name] for it in [dep, *all_below(crates, dep)]})


def copy_of(base, room, names, last=None):
    """Copies of these crates in a folder of their own, with what checks have kept; of the last without its library."""
    os.makedirs(f"{room}/crates")
    shutil.copy2(f"{base}/HANDLES", room)
    with open(f"{room}/crates.txt", "w") as file:
        for line in open(f"{base}/crates.txt"):
            if line.split("#")[0].split(":")[0].split()[:1] in [[it] for it in names]:
                file.write(line)
    for it in names:
        unread = lambda at, inside, it=it: [name for name in inside if it == last and name == "rlib" and at.endswith("/out")]
        shutil.copytree(f"{base}/crates/{it}", f"{room}/crates/{it}", symlinks=True, ignore=unread)
    return room


def checked(folder, *words, before=()):
    """What a check of the crate in the folder says."""
    return subprocess.run([*before, "rt", "check", *words], cwd=folder, stdin=subprocess.DEVNULL, stdout=subprocess.PIPE, stderr=subprocess.STDOUT, text=True, errors="replace").stdout


def looked_at(folder, *modules):
    """What a check of these modules says, or of the whole crate. It leaves the processors to what others do."""
    return checked(folder, "--jobs", "1", *modules, before=["nice"])


def is_proved(said):
    return re.findall(r"^logic=\S+", said, re.M)[-1:] == ["logic=proved"]


def edited(folder, path):
    """The files that a wrong body changes, each with its text now and its text then."""
    texts, file, old = {}, "", ""
    for line in open(path).read().splitlines():
        word, _, rest = line.partition(": ")
        if word == "file":
            file = rest
            texts.setdefault(file, [open(f"{folder}/{file}").read()] * 2)
        elif word == "old":
            old = rest
        elif word == "new":
            now, then = texts[file]
            if then.count(old) != 1:
                return None
            texts[file] = [now, then.replace(old, rest)]
    return texts


def verdict(said):
    """Whether the prover refused a check's crate or module, or None where no prover saw it."""
    if re.search(r"^\S*src/\S+: error: .*(is not in scope|has no field|is no name)", said, re.M):
        return None
    parts = re.findall(r"^only=(\d+) proved=(\d+)", said, re.M)
    if parts:
        return parts[-1][0] != parts[-1][1]
    whole = re.findall(r"^logic=(proved|not-proved)", said, re.M)
    return whole[-1] == "not-proved" if whole else None


def put(folder, texts):
    for file, text in texts.items():
        with open(f"{folder}/{file}", "w") as it:
            it.write(text)


def only(files):
    """The words that have a check look at the modules of these files alone."""
    return [word for file in files for word in ("--only", os.path.basename(file).removesuffix(".rt"))]


def tried(folder, path):
    """What the prover says of a wrong body in the crate in the folder, which is then as it was."""
    texts = edited(folder, path)
    if texts is None:
        return False, "BAD EDIT: an old text does not stand once"
    modules = only(texts)
    times = {file: os.stat(f"{folder}/{file}") for file in texts}
    put(folder, {file: then for file, (_, then) in texts.items()})
    refused = verdict(looked_at(folder, *modules)) or verdict(looked_at(folder))
    put(folder, {file: now for file, (now, _) in texts.items()})
    for file, it in times.items():
        os.utime(f"{folder}/{file}", ns=(it.st_atime_ns, it.st_mtime_ns))
    return refused is True, {True: "refused", False: "NOT REFUSED", None: "BAD EDIT: the prover did not see it"}[refused]


def body_at(text, at):
    """The name of the function in whose body a place of a file in rt fmt's layout is, if it is in one."""
    begins = [it for it in re.finditer(r"^( *)(?:pub(?:\(crate\))? )?fn (\w+)", text, re.M) if it.start() < at]
    if not begins:
        return None
    lines = text[begins[-1].start() : at].split("\n")
    is_begun = any(it.endswith("{") for it in lines[:-1])
    return begins[-1][2] if is_begun and begins[-1][1] + "}" not in lines else None


def place_of(folder, path):
    """The module and the function whose body alone a wrong body changes, or None where it may change more."""
    places, file = set(), ""
    for line in open(path).read().splitlines():
        word, _, rest = line.partition(": ")
        if word == "file":
            file = rest
        elif word in ("old", "new") and MORE_THAN_A_BODY.search(rest):
            return None
        elif word == "old":
            text = open(f"{folder}/{file}").read()
            at = text.find(rest)
            whole = text[text.rfind("\n", 0, at) + 1 : text.find("\n", at + len(rest))]
            if at < 0 or not file.startswith("src/") or MORE_THAN_A_BODY.search(whole):
                return None
            places.add((os.path.basename(file).removesuffix(".rt"), body_at(text, at)))
    return places.pop() if len(places) == 1 and all(name for _, name in places) else None


def lists_of(folder, paths):
    """The wrong bodies in lists of those that can stand at once. One that can't stand with others is a list of its own."""
    waiting, lists = [(path, place_of(folder, path)) for path in paths], []
    while waiting:
        here, places, left = [], set(), []
        for path, place in waiting:
            is_here = not here or place is not None and None not in places and place not in places and len(here) < TOGETHER
            (here if is_here else left).append((path, place))
            places |= {place} if is_here else set()
        lists.append([path for path, _ in here])
        waiting = left
    return lists


def refused_functions(said):
    """The functions that a check does not prove, by module and name, but for those of which it says only that they call such a one."""
    found = set()
    for module, path, why in re.findall(r"^fn \w+::(\w+)::(\S+): (not proved|no proof: .*)$", said, re.M):
        if not re.fullmatch(r"no proof: it calls [^;]*, which (is|are) not proved", why):
            found.add((module, path.split("::")[-1]))
    return found


def refused_at_once(folder, paths):
    """Those of some wrong bodies, each in the body of another function, that the prover refuses where all of them stand at once."""
    places = {path: place_of(folder, path) for path in paths}
    files = sorted({file for path in paths for file in edited(folder, path) or {}})
    kept = {file: (open(f"{folder}/{file}").read(), os.stat(f"{folder}/{file}")) for file in files}
    for path in paths:
        put(folder, {file: then for file, (_, then) in (edited(folder, path) or {}).items()})
    found = refused_functions(looked_at(folder, *only(files)))
    for file, (text, times) in kept.items():
        put(folder, {file: text})
        os.utime(f"{folder}/{file}", ns=(times.st_atime_ns, times.st_mtime_ns))
    return [path for path in paths if places[path] in found]


def all_at_once(folder, name, paths):
    """Tries wrong bodies at once, and those that are left as long as some are refused so. Returns those that are to be tried alone."""
    left = paths
    while len(left) > 1:
        began = time.time()
        refused = refused_at_once(folder, left)
        left = [path for path in left if path not in refused]
        for path in refused:
            print(f"{name}/{os.path.basename(path)}: refused with {len(refused) - 1} others ({time.time() - began:.0f} s)", flush=True)
        if not refused:
            break
    return left


def lane(base, crates, name, lists, is_first):
    """Tries lists of wrong bodies of a crate, and says of each whether it was refused. The first share looks at the crate as it is before."""
    with tempfile.TemporaryDirectory(prefix="wrong-bodies-") as room:
        folder = f"{copy_of(base, f'{room}/copy', [*all_below(crates, name), name], name)}/crates/{name}"
        modules = only(sorted({file for path in lists[0] for file in edited(folder, path) or {}}))
        if is_first and verdict(looked_at(folder, *modules)) is not False:
            raise RuntimeError(f"{name} is not proved in a copy, so no wrong body of it is tried")
        ends = []
        for paths in lists:
            left = all_at_once(folder, name, paths)
            ends += [True] * (len(paths) - len(left))
            for path in left:
                began = time.time()
                well, says = tried(folder, path)
                print(f"{name}/{os.path.basename(path)}: {says} ({time.time() - began:.0f} s)", flush=True)
                ends.append(well)
        return ends


class Shares:
    """Shares of wrong bodies that are still to be tried. The one that came last is given first: of the highest crate, whose take longest."""

    def __init__(self):
        self.waiting, self.is_whole, self.changed = [], False, threading.Condition()

    def put(self, *share):
        with self.changed:
            self.waiting.append(share)
            self.changed.notify()

    def end(self):
        with self.changed:
            self.is_whole = True
            self.changed.notify_all()

    def take(self):
        with self.changed:
            self.changed.wait_for(lambda: self.waiting or self.is_whole)
            return self.waiting.pop() if self.waiting else None


def try_all(shares, wells):
    """Tries shares until there is none. A share that could not be tried counts as one wrong body that was not refused."""
    while (share := shares.take()) is not None:
        try:
            wells += lane(*share)
        except Exception:
            traceback.print_exc()
            wells.append(False)


def give_all(shares, base, crates, given):
    """Checks each crate whole where that was not done, and then gives its wrong bodies out."""
    for name in crates:
        if not given.kept and not is_proved(checked(f"{base}/crates/{name}", "--jobs", "2")):
            return f"{name} is not proved, so no wrong body of it is tried"
        paths = sorted(glob.glob(f"{ROOT}/crates/{name}/must-fail/*{given.only}*.edit"))
        lists = lists_of(f"{base}/crates/{name}", paths) if name in (given.crates or crates) else []
        for at in range(0, len(lists), SHARE):
            shares.put(base, crates, name, lists[at : at + SHARE], at == 0)
    return None


def main():
    parser = argparse.ArgumentParser()
    parser.add_argument("crates", nargs="*")
    parser.add_argument("--lanes", type=int, default=4)
    parser.add_argument("--kept")
    parser.add_argument("--only", default="")
    given = parser.parse_args()
    crates = crates_of(ROOT)
    with tempfile.TemporaryDirectory(prefix="wrong-bodies-") as room:
        base = given.kept or copy_of(ROOT, f"{room}/base", crates)
        shares, wells = Shares(), []
        lanes = [threading.Thread(target=try_all, args=(shares, wells)) for _ in range(given.lanes)]
        for it in lanes:
            it.start()
        try:
            fault = give_all(shares, base, crates, given)
        finally:
            shares.end()
            for it in lanes:
                it.join()
        if fault:
            sys.exit(fault)
    print(f"{sum(wells)} refused, {len(wells) - sum(wells)} not")
    sys.exit(0 if all(wells) else 1)


if __name__ == "__main__":
    main()
