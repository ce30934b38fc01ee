"""Makes a machine and the signals of its run as small as something stays true of them."""
import copy

from machines import State


def drop(items, place):
    return items[:place] + items[place + 1:]


def inside(vertex):
    """The vertex and all that lies in it."""
    found = [vertex]
    if isinstance(vertex, State):
        for region in vertex.regions:
            for inner in region.vertices():
                found += inside(inner)
    return found


def without(machine, gone):
    machine.transitions = [t for t in machine.transitions if t.source not in gone and t.target not in gone]


def edits(machine, signals):
    """Each way to make it a little smaller: functions that change a copy, with signals that stay."""
    for number, region in enumerate(machine.regions):
        for place in range(len(region.states)):
            yield lambda m, number=number, place=place: drop_state(m, number, place), signals
        if region.final:
            yield lambda m, number=number: drop_final(m, number), signals
        if region.history:
            yield lambda m, number=number: drop_history(m, number), signals
        if number:
            yield lambda m, number=number: drop_region(m, number), signals
            yield lambda m, number=number: lift(m, number), signals
    for place, transition in enumerate(machine.transitions):
        yield lambda m, place=place: drop_transition(m, place), signals
        if transition.guard is not None:
            yield lambda m, place=place: setattr(m.transitions[place], 'guard', None) or True, signals
        if transition.toggles:
            yield lambda m, place=place: setattr(m.transitions[place], 'toggles', False) or True, signals
    for place in range(len(signals)):
        yield lambda m: True, drop(signals, place)


def drop_state(machine, number, place):
    region = machine.regions[number]
    if len(region.states) == 1:
        return False
    without(machine, inside(region.states[place]))
    del region.states[place]
    return True


def drop_final(machine, number):
    region = machine.regions[number]
    without(machine, [region.final])
    region.final = None
    return not any(t.signal is None and region in t.source.regions for t in machine.transitions)


def drop_history(machine, number):
    region = machine.regions[number]
    without(machine, [region.history])
    region.history = None
    return True


def drop_region(machine, number):
    region = machine.regions[number]
    without(machine, [inner for vertex in region.vertices() for inner in inside(vertex)])
    owner = machine.owner[region]
    owner.regions.remove(region)
    kept = all(t.kind != 'local' or t.source is not owner for t in machine.transitions)
    return kept and not any(t.signal is None and not t.source.regions for t in machine.transitions)


def lift(machine, number):
    """The region's States in the place of the State around it, where it is that one's only region and its transitions go."""
    region = machine.regions[number]
    owner = machine.owner[region]
    home = machine.home[owner]
    if len(owner.regions) > 1 or region.final:
        return False
    without(machine, [owner, region.history])
    place = home.states.index(owner)
    home.states[place:place + 1] = region.states
    return True


def drop_transition(machine, place):
    del machine.transitions[place]
    return True


def smallest(machine, signals, holds):
    """Smaller and smaller cases of which it holds, until no edit gives one."""
    again = True
    while again:
        again, place = False, 0
        while place < len(every := list(edits(machine, signals))):
            edit, fewer = every[place]
            smaller = copy.deepcopy(machine)
            good = edit(smaller)
            if good:
                smaller.number()
            if good and holds(smaller, fewer):
                machine, signals, again = smaller, fewer, True
            else:
                place += 1
    return machine, signals
