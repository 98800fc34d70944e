"""Sessions of seats that meet in one history, played one event after another."""
from model.graphs import MOST_VERTICES


def names_written(steps):
    """The names that steps with their replies write, in order."""
    written = []
    for (kind, *rest), reply in steps:
        if reply == "done":
            parts = {"take": rest[:1], "remove": rest[:1], "grant": rest[1:2], "create": rest[:2]}
            written += parts[kind]
    return written


def names_touched(steps):
    """The names that steps with their replies touch, or None for every name."""
    touched = set()
    for (kind, *rest), reply in steps:
        if kind == "share":
            return None
        touched.update(rest[1:2] if kind == "holds" else rest[: 1 if kind == "remove" else 2])
        if reply.startswith("refused unknown "):
            touched.add(reply.split()[-1])
    return touched


def spoiled_name(record, steps):
    """The first name that a record writes and steps touch, or None."""
    touched = names_touched(steps)
    written = names_written(record)
    return next((name for name in written if touched is None or name in touched), None)


def creates(steps):
    """How many vertices steps with their replies create."""
    return sum(words[0] == "create" and reply == "done" for words, reply in steps)


def take_in(graph, record):
    """Carries out the accepted rules of a record."""
    for words, reply in record:
        if reply == "done":
            graph.apply(words)


class Seat:
    """A graph that is the replay of the first records, as many as are taken in, and a session."""

    def __init__(self, opening):
        self.graph = opening.copy()
        self.taken = 0
        self.steps = None
        self.draft = None

    def take_in(self, record):
        """Takes in the next record."""
        take_in(self.graph, record)
        self.taken += 1


class Hall:
    """An opening graph, a history of records, and seats numbered from 1."""

    def __init__(self, opening, cells, seats):
        self.cells = cells
        self.history = []
        self.seats = [Seat(opening) for _ in range(seats)]

    def act(self, number, words):
        """What an event of a seat comes to."""
        seat, kind = self.seats[number - 1], words[0]
        if kind == "begin":
            return "refused already-open" if seat.steps is not None else self.begin(seat)
        if seat.steps is None:
            return "refused not-open"
        if kind == "commit":
            return self.commit(seat)
        if kind == "abort":
            seat.steps = None
            return "done"
        reply = seat.draft.reply(words, MOST_VERTICES)
        seat.steps.append((words, reply))
        return reply

    def begin(self, seat):
        """Opens a session on all that was committed."""
        for record in self.history[seat.taken :]:
            seat.take_in(record)
        seat.steps, seat.draft = [], seat.graph.copy()
        return "done"

    def commit(self, seat):
        """Ends the session of a seat, and puts its record if nothing came in between."""
        steps, seat.steps = seat.steps, None
        for place in range(seat.taken, len(self.history)):
            record = self.history[place]
            name = spoiled_name(record, steps)
            if name is not None:
                return f"refused changed {place} {name}"
            if len(seat.graph.names) + creates(record) + creates(steps) > MOST_VERTICES:
                return f"refused crowded {place}"
            seat.take_in(record)
        if len(self.history) >= self.cells:
            return "refused journal-full"
        self.history.append(steps)
        seat.take_in(steps)
        return f"done {len(self.history) - 1}"

    def last(self):
        """The graph after all records."""
        seat = self.seats[0]
        seat.steps = None
        self.begin(seat)
        return seat.graph
