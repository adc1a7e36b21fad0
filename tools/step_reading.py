"""What an event line does and what a micro-step does, by the sentences of docs/language.md alone.

Where several taken moves reach one component, each result that the definitions allow is right."""

import itertools


def latched(it, world, receive, values):
    """The world after a message: its cells have the values, and their previous cells what they had."""
    choices, cells = world
    after = [*cells]
    for reference, value in zip(it.content[receive[0]][0], values, strict=True):
        cell = it.instance(reference, receive[1])
        if (cell, True) in it.cells:
            after[it.cells.index((cell, True))] = cells[it.cells.index((cell, False))]
        after[it.cells.index((cell, False))] = value
    return choices, after


def raised_by(it, receive):
    """The event that a receive instance raises."""
    return it.instance(it.content[receive[0]][1], receive[1])


def moved(it, choices, number):
    """The children after a transition: those of entering its target, or the same where it stays."""
    path, _, _, target, *_ = it.transitions[number]
    return it.entered(choices, path, target) if target else choices


def outcomes(it, choices, taken):
    """All children after transitions: a component that moves reach has the child that one of them gives it."""
    parts = [*it.components]
    moves = [(it.transitions[at][0], moved(it, choices, at)) for at in taken if it.transitions[at][3]]
    given = []
    for place, part in enumerate(parts):
        reached = {after[place] for moving, after in moves if part[: len(moving)] == moving}
        given.append(sorted(reached) or [choices[place]])
    return [[*it] for it in itertools.product(*given)]


def sent_number(it, world, value, this):
    kind, what = value
    if kind == "sum":
        return it.number(world, what, this)
    name, index = it.instance(what, this)
    return next(it.number(world, result, index) for result, guard in it.content[name] if it.holds(world, guard, index))


def micro_steps(it, world, present):
    """The numbers of the transitions and of the cases that are sent, the worlds that are allowed, and what is raised."""
    taken = [at for at, x in enumerate(it.transitions) if x[4] in present and it.is_taken(world, at)]
    sent = [at for at, x in enumerate(it.cases) if x[2] in present and it.is_enabled(world, ("c", at))]
    raised = {event for at in taken for event in it.transitions[at][6]}
    worlds = [(choices, world[1]) for choices in outcomes(it, world[0], taken)]
    return taken, sent, worlds, raised
