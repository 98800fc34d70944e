"""The laws of a race's report: its sessions are those of one history, one after another."""
import re
from dataclasses import dataclass, field

from model.graphs import MOST_VERTICES
from model.sessions import creates, spoiled_name

PLACE = r"(0|[1-9][0-9]*)"
# What a commit may come to, want of memory aside.
COMMITTED = re.compile(
    rf"done {PLACE}|refused changed {PLACE} [a-z0-9_]+|refused crowded {PLACE}"
    r"|refused journal-full"
)
NO_MEMORY = "refused memory"


class Broken(Exception):
    """A law that a report breaks."""


def require(holds, law):
    """Raises the law unless it holds."""
    if not holds:
        raise Broken(law)


@dataclass
class Session:
    """A session that rests on at least `least` records.

    It has its steps with their replies, and the outcome of the commit or abort that ended it.
    """

    seat: int
    least: int
    steps: list = field(default_factory=list)
    ending: str = "left open"

    def is_put(self):
        """Whether its record stands in the history."""
        return self.ending.startswith("done ")

    def is_given_up(self):
        """Whether it was aborted, or left open."""
        return self.ending in ("done", "left open")

    def place(self):
        """The place that its ending names, or None."""
        words = self.ending.split()
        if self.is_given_up() or words[-1] == "journal-full":
            return None
        return int(words[1] if self.is_put() else words[2])

    def least_after(self):
        """How many records its seat has at least taken in once it has ended."""
        if self.place() is None:
            return self.least
        return self.place() + self.is_put()


def events_of(script, report):
    """The events by seat with their outcomes, and the text of the graph."""
    head, mark, graph = report.partition("graph\n")
    require(mark, "there is no graph")
    lines = [line.split(" ", 2) for line in head.splitlines()]
    events = sorted(script.events, key=lambda event: event[1])
    prefixes = [[str(line), str(seat)] for line, seat, _ in events]
    require([line[:2] for line in lines] == prefixes, "the lines are not those of the events")
    require(all(len(line) == 3 for line in lines), "a line has no outcome")
    return [(seat, words, line[2]) for (_, seat, words), line in zip(events, lines)], graph


def is_opened(words, outcome):
    """Whether an event opens a session where none is open."""
    if words[0] != "begin":
        require(outcome == "refused not-open", f"{words[0]}: {outcome} where no session is open")
        return False
    require(outcome in ("done", NO_MEMORY), f"begin: {outcome} where no session is open")
    return outcome == "done"


def is_ended(session, words, outcome):
    """Whether an event ends the open session. Its step or outcome joins the session."""
    kind = words[0]
    if kind in ("abort", "commit") and outcome != NO_MEMORY:
        is_known = outcome == "done" if kind == "abort" else COMMITTED.fullmatch(outcome)
        require(is_known, f"{kind}: {outcome}")
        session.ending = outcome
        return True
    if kind == "begin":
        require(outcome == "refused already-open", f"begin: {outcome} where a session is open")
    elif kind not in ("abort", "commit") and outcome != NO_MEMORY:
        session.steps.append((words, outcome))
    return False


def sessions_of(events, seat):
    """The sessions of a seat, in order."""
    found, is_open, least = [], False, 0
    for _, words, outcome in (event for event in events if event[0] == seat):
        if not is_open:
            is_open = is_opened(words, outcome)
            found += [Session(seat, least)] if is_open else []
        elif is_ended(found[-1], words, outcome):
            is_open, least = False, found[-1].least_after()
    return found


def history_of(sessions, cells):
    """The sessions that were put, by place."""
    history = sorted((s for s in sessions if s.is_put()), key=Session.place)
    places = [session.place() for session in history]
    require(places == list(range(len(places))), "the places are not 0, 1, .. each once")
    require(len(places) <= cells, "there are more records than cells")
    for session in history:
        require(session.place() >= session.least, f"places of seat {session.seat} do not rise")
    return history


def require_true(graph, session, place):
    """Requires the replies of a session to be those that a graph gives, and plays it there."""
    for words, told in session.steps:
        reply = graph.reply(words, MOST_VERTICES)
        step = " ".join(words)
        require(reply == told, f"at place {place} {step} was answered {told}, not {reply}")


def is_true(graph, session):
    """Whether the replies of a session are those that a graph gives."""
    try:
        require_true(graph.copy(), session, 0)
    except Broken:
        return False
    return True


def require_refused(graph, session, history):
    """Requires the record that a refused commit names to refuse it, after the graph before it."""
    place = session.place()
    if place is None:
        return
    record = history[place]
    require(record.seat != session.seat and place >= session.least, "a seat met its own record")
    name = spoiled_name(record.steps, session.steps)
    if session.ending.startswith("refused changed "):
        named = session.ending.split()[3]
        require(named == name, f"place {place} changes {name}, not {named}")
        return
    require(name is None, f"place {place} changes {name}")
    size = len(graph.names) + creates(record.steps) + creates(session.steps)
    require(size > MOST_VERTICES, f"place {place} leaves room")


def refused_by_place(sessions, history, cells):
    """The sessions whose commits were refused, by the place where their replies are true."""
    found = {}
    for session in sessions:
        if not session.is_put() and not session.is_given_up():
            place = session.place()
            if place is None:
                require(len(history) == cells, "the journal is not full")
                place = cells
            else:
                require(place < len(history), f"there is no record at place {place}")
            found.setdefault(place, []).append(session)
    return found


def last_graph(start, sessions, cells):
    """The graph after the history of sessions, each of which has to be true at a place."""
    history = history_of(sessions, cells)
    refused = refused_by_place(sessions, history, cells)
    given_up = [session for session in sessions if session.is_given_up() and session.steps]
    graph = start.copy()
    for place in range(len(history) + 1):
        for session in refused.get(place, ()):
            require_true(graph.copy(), session, place)
            require_refused(graph, session, history)
        given_up = [s for s in given_up if place < s.least or not is_true(graph, s)]
        if place < len(history):
            require_true(graph, history[place], place)
    require(not given_up, "a session that was given up has replies that are true at no place")
    return graph


def fault_of(start, script, report, may_want_memory=False):
    """The law that the report of a race breaks, or None."""
    try:
        events, text = events_of(script, report)
        wanted = any(outcome == NO_MEMORY for _, _, outcome in events)
        require(may_want_memory or not wanted, "memory was wanted")
        sessions = [s for seat in range(1, script.seats + 1) for s in sessions_of(events, seat)]
        graph = last_graph(start, sessions, script.cells)
        require(graph.text() == text, "the graph is not that of the history")
    except Broken as law:
        return str(law)
    return None
