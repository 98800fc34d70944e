"""What a repository's crates.txt and the folders of its crates tell."""
from pathlib import Path

TOP = Path(__file__).resolve().parent.parent.parent


def libraries_in(text):
    """Of each crate that a crates.txt names, the libraries that it stands on, the toolchain's too."""
    halves = (line.partition("#")[0].partition(":") for line in text.splitlines())
    return {left.split()[0]: right.split() for left, _, right in halves if left.split()}


class Repository:
    """The crates of a repository. Where one crate stands on another, the second is below it."""

    def __init__(self, top):
        self.top = Path(top).resolve()
        self.libraries = libraries_in((self.top / "crates.txt").read_text(encoding="utf-8"))
        self.below = {
            crate: [it for it in libraries if it in self.libraries]
            for crate, libraries in self.libraries.items()
        }

    def folder(self, crate):
        """The folder of a crate."""
        return self.top / "crates" / crate

    def with_all_below(self, crate):
        """The crate and all that it stands on, at whatever depth."""
        found = [crate]
        for name in found:
            found += [it for it in self.below[name] if it not in found]
        return found

    def with_all_above(self, crates):
        """These crates and all that stand on one of them, in the order of crates.txt."""
        return [it for it in self.below if not set(crates).isdisjoint(self.with_all_below(it))]

    def code(self, crate):
        """The files of the crate's code."""
        return sorted((self.folder(crate) / "src").rglob("*.rt"))

    def files(self, crate):
        """The files that the crate is made of."""
        folders = (self.folder(crate) / it for it in ("src", "specs", "proofs"))
        return [path for folder in folders for path in folder.rglob("*") if path.is_file()]

    def lines(self, crate):
        """How many lines of code the crate has."""
        return sum(len(path.read_text(encoding="utf-8").splitlines()) for path in self.code(crate))

    def has_tests(self, crate):
        """Whether the crate's code has a test."""
        return any("#[test]" in path.read_text(encoding="utf-8") for path in self.code(crate))

    def is_program(self, crate):
        """Whether the crate is a program, and no library."""
        return (self.folder(crate) / "src/main.rt").is_file()
