#!/usr/bin/env python3
"""What `prove` answers, found by a solver.

    bench/prove.py SPEC CLAIMS OUTPUT [SOLVER..]    compares it with what `prove SPEC CLAIMS` has written to OUTPUT, and writes the milliseconds

The specification is certified. The solver (`z3 -in`) is asked one question for each set of events that a round may have and each claim: whether
some of them can be present in a world in which all claims are true, and the claim be false afterwards. Which are present are truths; the
world afterwards is written by what each transition gives the components, the last one first. The members are those of `smt.py`. The time
is that of the solver's answers, without the reading of the texts. Compared is whether all claims are proved, and which round is the first
that breaks one. The status is 1 where the answers differ."""

import sys
import time
from pathlib import Path

import smt
from gaps import Solver
from chain_reading import Chains
from prove_lines import claims_of, first_false
from state_reading import is_prefix, path_text
from text_reading import instance_text


class Script(smt.Script, Chains):
    """A specification as a script, with its claims before and after a round."""

    def __init__(self, text, claims_text):
        super().__init__(text)
        self.prelude = self.lines[: self.lines.index("(check-sat)")]
        self.claims = claims_of(self, claims_text)

    def given(self, component, number):
        """The place of the child that a move gives a component, or none."""
        moving, _, _, target, *_ = self.transitions[number]
        if target is None or not is_prefix(moving, component):
            return None
        is_on_way = is_prefix(component, target) and component != target
        return self.components[component].index(target[len(component)] if is_on_way else self.default[component])

    def child_after(self, component, events):
        child = smt.symbol("child of", path_text(component))
        for at, transition in enumerate(self.transitions):
            if transition[4] in events and (place := self.given(component, at)) is not None:
                taken = f"(and {smt.symbol('present', instance_text(transition[4]))} {self.member('t', at)})"
                child = f"(ite {taken} {place} {child})"
        return child

    def round_of(self, events):
        """What is declared and defined of a round: the present events, and the states afterwards."""
        yield from (f"(declare-const {smt.symbol('present', instance_text(it))} Bool)" for it in events)
        for path in self.components:
            yield f"(define-fun {smt.symbol('next child of', path_text(path))} () Int {self.child_after(path, events)})"
        for path in self.states:
            outer = path[:-1]
            around = [smt.symbol("after", path_text(outer))] if outer else []
            chosen = []
            if outer in self.components:
                chosen = [f"(= {smt.symbol('next child of', path_text(outer))} {self.components[outer].index(path[-1])})"]
            yield f"(define-fun {smt.symbol('after', path_text(path))} () Bool {smt.call('and', around + chosen)})"

    def claim(self, table, when):
        truth = self.guard_of(table, 0)
        return truth if when == "in" else truth.replace("|in ", "|after ")


def first_broken(it, solver):
    """The first round, as its external event and number, in which a claim breaks; sets of events that were asked for are passed over."""
    known, before = [], [it.claim(table, "in") for _, table in it.claims]
    for start in it.starts():
        ends, number = {start}, 1
        while ends:
            events = [event for event in it.events if event in ends]
            if not any(set(events) <= other for other in known):
                known.append(set(events))
                solver.tell("(push 1)", *it.round_of(events), *[f"(assert {truth})" for truth in before])
                broken = any(solver.is_sat(smt.negated(it.claim(table, "after"))) for _, table in it.claims)
                solver.tell("(pop 1)")
                if broken:
                    return f"  round {number} of {instance_text(start)}"
            ends, number = {raised for event in ends for raised in it.raised_by(event)}, number + 1
    return None


def main():
    *files, output, solver = [*sys.argv[1:4], sys.argv[4:] or ["z3", "-in"]]
    it = Script(*[Path(file).read_text(encoding="utf-8") for file in files])
    start = time.monotonic()
    if first_false(it, it.claims, it.first_world()):
        found = "initial"
    else:
        solver = Solver(solver)
        solver.tell(*it.prelude)
        found = first_broken(it, solver) or "proved"
    print(f"{1000 * (time.monotonic() - start):.1f}")
    told = Path(output).read_text(encoding="utf-8").split("\n")
    lines = {line.split(" ")[0] if line.startswith("initial") else line for line in told}
    return int(found not in lines)


if __name__ == "__main__":
    sys.exit(main())
