"""Finds the cases of a folder that are asked for, and what is wrong with its files."""
from cases_parts.reading import read_file

SUFFIX = ".cases"
PAGE = "README.md"


class Found:
    """The asks of a folder's cases that have one of the names, or all where no name is given; and the faults.

    Faults of all files are told, whatever is named, and names that nothing has. Of each ask its title
    stands in titles, at the same place.
    """

    def __init__(self, folder, names):
        paths = sorted(folder.iterdir()) if folder.is_dir() else []
        files = [read_file(path) for path in paths if is_case_file(path)]
        self.titles, self.asks = [], []
        for file in files:
            self.take(file, names)
        self.faults = [
            f"{path.name}: it is neither a file of cases nor {PAGE}"
            for path in paths
            if not is_case_file(path) and path.name != PAGE
        ]
        self.faults += [f"{it.name}{SUFFIX} line {line}: {fault}" for it in files for line, fault in it.faults]
        self.faults += idle_names(files, names)
        if not self.asks:
            self.faults.append("no case was found")

    def take(self, file, names):
        """Takes the asks of a file that are named, those that lack something left out."""
        for case in file.cases:
            if not names or file.name in names or case.name in names:
                asks = case.whole_asks()
                self.asks += asks
                self.titles += (f"{file.name}{SUFFIX} line {ask.place}, {case.name}: {ask.line()}" for ask in asks)

    def failures(self, differences):
        """What is wrong with the files, and what differs in asks, each as text."""
        differing = zip(self.titles, differences)
        return self.faults + ["\n  ".join([title, *lines]) for title, lines in differing if lines]


def is_case_file(path):
    """Whether it is a file of cases."""
    return path.suffix == SUFFIX and path.is_file()


def idle_names(files, names):
    """A fault for each name that no file and no case has."""
    known = {name for file in files for name in (file.name, *(case.name for case in file.cases))}
    return [f"no file and no case is named {name}" for name in names if name not in known]
