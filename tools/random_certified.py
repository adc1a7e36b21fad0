"""Random small specifications that `check` certifies, for `prove_lines.py` and `same_lines.py`: a seed makes always the same one.

They are those of `random_specifications.py` but for their members: the guards of all members of one group are the leaves of a tree of
phrases, so that exactly one of them is true. What has loops, clashes or too many worlds is passed over."""

from random_specifications import Maker
from report_lines import report
from trace_lines import Reading, worlds

MOST_WORLDS = 2_000


class Certified(Maker):
    """A specification whose groups are sound."""

    def tree(self, index, depth=2):
        """Rows of tables with one column each, of which exactly one is true in each world."""
        if depth == 0 or self.chance(0.4):
            return [[]]
        phrase = self.phrase(index)
        return [[f"{phrase} | {cell};", *rows] for cell in "TF" for rows in self.tree(index, depth - 1)]

    def guards(self, index):
        return ["{ " + " ".join(rows) + " }" if rows else "always" for rows in self.tree(index)]

    def members(self):
        """Cases of a function and of a send, where they come."""
        if self.chance(0.4):
            cases = [f"{self.sum([])} when {guard};" for guard in self.guards([])]
            yield f"function V {{ {' '.join(cases)} }}"
            self.functions.append("V")
        if self.chance(0.4):
            cases = [f"on {self.events[-1]} when {guard} {self.answer()};" for guard in self.guards([])]
            yield f"send D (X) {{ {' '.join(cases)} }}"

    def declarations(self):
        yield from (it for it in super().declarations() if not it.startswith(("function", "send")))
        self.functions.clear()
        yield from self.members()

    def component(self, name, plan, head="state"):
        """Each event is reacted to by children of one component of a line, for which the depth in their names is drawn."""
        inside = " ".join(f"state {child};" if inner is None else self.component(child, inner) for child, inner in plan)
        children = [child for child, _ in plan]
        moves = [move for event in self.events if self.levels[event] == int(children[0][-1]) for child in children for move in self.moves_of(children, child, event)]
        return f"{head} {name} one {{ default {self.one(children)}; {inside} {' '.join(moves)} }}"

    def moves_of(self, children, child, event):
        later = self.events[self.events.index(event) + 1 :]
        for guard in self.guards([]) if self.chance(0.8) else []:
            move = f"stay {child}" if self.chance(0.3) else f"move {child} -> {self.one(children)}"
            raised = f" raise {self.one(later)}" if later and self.chance(0.4) else ""
            yield f"{move} on {event} when {guard}{raised};"

    def text(self):
        self.levels = {event: self.random.choice([0, 0, 0, 1]) for event in self.events}
        return super().text()


def random_certified(seed):
    """A specification that is certified."""
    for attempt in range(1_000):
        text = Certified(seed * 1_000 + attempt).text()
        if worlds(Reading(text)) <= MOST_WORLDS and report(text).endswith("certified\n"):
            return text
    raise SystemExit(f"no certified specification of seed {seed}")
