"""Cases of a listing, questions about it, and the answers."""
from dataclasses import dataclass, field

from rbac_cases.listings import text_of
from rbac_cases.runs import Failure, GraphText, Officer, expect, leaving, text_for


@dataclass
class Question:
    """A listing, what is left out of it, and what its graph has to say.

    `answers` are of `share`, by right, x and y. `held` has letters for some pairs, none where there
    has to be no edge. Where they are given, `edges` are all edges with their letters, and `through`
    all those that came of leaving out, with the left-out one.
    """

    title: str
    items: list
    answers: dict = field(default_factory=dict)
    without: tuple = ()
    held: dict = field(default_factory=dict)
    edges: dict = None
    through: dict = None

    def play(self, program):
        """Fails where the graph says something else."""
        text = text_for(text_of(self.items), *leaving(self.without))
        graph = GraphText(text)
        if self.edges is not None:
            expect(self.edges, graph.edges, "edges")
        if self.through is not None:
            expect(self.through, graph.through, "ways through what is left out")
        expect(self.held, {pair: graph.edges.get(pair, "") for pair in self.held}, "some edges")
        officer = Officer(program, text)
        for (right, x, y), answer in self.answers.items():
            if not {x, y} <= graph.names.keys():
                raise Failure(f"{x} or {y} is no vertex of {graph.vertices}")
            found = officer.ask("share", right, graph.names[x], graph.names[y])
            expect((0, answer + "\n"), found, f"share {right} of {x} over {y}")
