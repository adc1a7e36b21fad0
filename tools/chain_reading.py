"""The chains of the events of a specification, which are tried one by one, as lists of events.

Two events meet where sources of transitions on them lie on one line, or one send has cases on both."""

import itertools

from machine_reading import Machine
from state_reading import is_prefix


class Chains(Machine):
    """A specification with the chains of its events."""

    def raised_by(self, event):
        return {raised for it in self.transitions if it[4] == event for raised in it[6]}

    def chains(self, event, most):
        """All chains of at most so many events that begin with an event."""
        found, last = [[event]], [[event]]
        for _ in range(most - 1):
            last = [[*chain, raised] for chain in last for raised in self.raised_by(chain[-1])]
            found += last
        return found

    def starts(self):
        return [it for it in self.events if it in self.external]

    def length(self, event):
        """A chain of more events than there are has one of them twice."""
        chains = self.chains(event, len(self.events) + 1)
        return None if any(len(set(it)) < len(it) for it in chains) else max(map(len, chains))

    def looping(self):
        """What some chain has twice, some chain has twice that goes there and round to it again by the shortest ways."""
        chains = [it for event in self.starts() for it in self.chains(event, 2 * len(self.events))]
        return [event for event in self.events if any(chain.count(event) > 1 for chain in chains)]

    def rounds(self, event):
        """The events that end chains of one event, of two and so on, up to a round of none or one that was there before."""
        found, last = [], {event}
        while last and last not in found:
            found.append(last)
            last = {raised for it in last for raised in self.raised_by(it)}
        return found

    def meet(self, one, other):
        on = [[it[2] for it in self.transitions if it[4] == event] for event in (one, other)]
        sends = [{it[0] for it in self.cases if it[2] == event} for event in (one, other)]
        on_a_line = any(is_prefix(a, b) or is_prefix(b, a) for a, b in itertools.product(*on))
        return on_a_line or bool(sends[0] & sends[1])

    def clashes(self, event):
        """Each as its round and the places of its events, the first one first. Rounds that come again have no others."""
        return [
            (count, at, to)
            for count, ends in enumerate(self.rounds(event), 1)
            for (at, one), (to, other) in itertools.product(enumerate(self.events), repeat=2)
            if one != other and one in ends and other in ends and self.meet(one, other)
        ]

    def first_clash(self, event):
        return next(iter(self.clashes(event)), None) if self.length(event) else None
