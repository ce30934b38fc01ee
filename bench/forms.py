#!/usr/bin/env python3
"""How long steps of several legs take: over the longest route, over forks and joins of many regions, and by deep history over many levels.

Run it at the top of the repository after the program is built: python3 bench/forms.py
First (`route`) come machines with one State and a chain of 4, 64 and 512 junctions on the way from it back to it, and one with 4,094: it has as many vertices as a
machine may have, and its take names a route of 4,095 transitions, each with an effect of its own. It goes round once, and each of the two calls takes minutes. Then (`fork`) machines in which a fork leads into 2, 8 and 32
regions, whose States are joined: a signal leads to the fork, and the completion that is served first leads from the join back. Then (`points`) machines with 2, 8
and 31 nested States, out of which a chain of exit points leads, and into which one of entry points leads: routes with a leg more for each level. Last
(`history`) machines with 2, 8 and 32 levels of States: one signal leaves them all, and one brings them back by deep history. For each machine `run` writes a
journal, which is judged. It prints a line for each call: entries, seconds, entries per second, peak memory.
"""
import os
import tempfile

from measure import measure, need_program, report

JUNCTIONS = (4, 64, 512)
MOST_JUNCTIONS = 4_094
REGIONS = (2, 8, 32)
NESTED = (2, 8, 31)
LEVELS = (2, 8, 32)
SIZE = 20_000
LIMIT = 1_000_000


class Machine:
    """A machine of one class, its stimuli one after the other, and how many entries its start has and a round of the stimuli."""

    def __init__(self, signals):
        self.head = ['pssm-flat 1'] + ['signal %s 0' % signal for signal in signals] + ['class M', 'object a M', 'machine M']
        self.regions, self.vertices, self.transitions = [], [], []
        self.first, self.round, self.start, self.step = [], list(signals), 0, 0

    def region(self, owner):
        """A new region, by its number."""
        self.regions.append(owner)
        return len(self.regions) - 1

    def vertex(self, owner, kind):
        """A new vertex, by its number."""
        self.vertices.append('%s %s' % (owner, kind))
        return len(self.vertices) - 1

    def go(self, source, target, *behind):
        """A new transition, with the lines behind it."""
        self.transitions.append((source, target, behind))

    def text(self):
        """Its flat text."""
        lines = self.head + ['region r%d %s' % item for item in enumerate(self.regions)]
        lines += ['vertex v%d %s' % item for item in enumerate(self.vertices)]
        for number, (source, target, behind) in enumerate(self.transitions):
            lines.append('transition t%d v%d v%d external' % (number, source, target))
            lines += behind
        return '\n'.join(lines + ['end']) + '\n'


def route(junctions):
    """A State and a chain of so many junctions back to it; a step has an exit, an entry and an effect for each transition."""
    machine = Machine(['G'])
    machine.region('top')
    initial, state = machine.vertex('r0', 'initial'), machine.vertex('r0', 'state')
    chain = [machine.vertex('r0', 'junction') for _ in range(junctions)]
    machine.go(initial, state)
    machine.go(state, chain[0], 'on G')
    for here, there in zip(chain, chain[1:] + [state]):
        machine.go(here, there)
    machine.start, machine.step = 4, junctions + 5
    return machine


def fork(regions):
    """From A a fork into so many regions of S, and a join of their States back to A."""
    machine = Machine(['G'])
    machine.region('top')
    initial, idle, state = (machine.vertex('r0', kind) for kind in ('initial', 'state', 'state'))
    out, into = machine.vertex('r0', 'fork'), machine.vertex('r0', 'join')
    machine.go(initial, idle)
    machine.go(idle, out, 'on G')
    machine.go(into, idle)
    for _ in range(regions):
        inner = machine.vertex('r%d' % machine.region('v%d' % state), 'state')
        machine.go(out, inner)
        machine.go(inner, into)
    machine.start, machine.step = 4, (5 + 2 * regions) + (4 + 2 * regions)
    return machine


def points(levels):
    """So many States, one in the other, each with an exit and an entry point that lead to those of the next."""
    machine = Machine(['Out', 'In'])
    machine.region('top')
    initial, outside = machine.vertex('r0', 'initial'), machine.vertex('r0', 'state')
    leave, come, region = outside, [], 0
    exits = []
    for _ in range(levels):
        state = machine.vertex('r%d' % region, 'state')
        exits.append(machine.vertex('v%d' % state, 'exitPoint'))
        come.append(machine.vertex('v%d' % state, 'entryPoint'))
        region = machine.region('v%d' % state)
    bottom = machine.vertex('r%d' % region, 'state')
    machine.go(initial, come[0])
    for here, there in zip(come, come[1:] + [bottom]):
        machine.go(here, there)
    for here, there in zip(exits, [leave] + exits):
        machine.go(here, there)
    machine.go(bottom, exits[-1], 'on Out')
    machine.go(outside, come[0], 'on In')
    machine.start = 2 + (levels + 1) + (levels + 1)
    machine.step = (2 + (levels + 1) + (levels + 1) + 1) + (3 + (levels + 1) + (levels + 1))
    return machine


def history(levels):
    """So many States, one in the other, each but the first beside one that is entered by default; Deep brings them back."""
    machine = Machine(['Out', 'Deep', 'In'])
    machine.first, machine.round = ['In'], ['Out', 'Deep']
    machine.region('top')
    initial, outside = machine.vertex('r0', 'initial'), machine.vertex('r0', 'state')
    top = state = machine.vertex('r0', 'state')
    deep, beside = None, []
    for level in range(1, levels):
        region = machine.region('v%d' % state)
        begin, other = machine.vertex('r%d' % region, 'initial'), machine.vertex('r%d' % region, 'state')
        if level == 1:
            deep = machine.vertex('r%d' % region, 'deepHistory')
        state = machine.vertex('r%d' % region, 'state')
        beside.append((begin, other))
    machine.go(initial, outside)
    machine.go(top, outside, 'on Out')
    machine.go(outside, deep, 'on Deep')
    machine.go(outside, state, 'on In')
    for begin, other in beside:
        machine.go(begin, other)
    machine.start = 4 + 4 + levels
    machine.step = (4 + levels) + (5 + 2 * (levels - 1))
    return machine


def measure_on(name, machine, folder, rounds=None):
    """A run of at most so many entries, or of so many rounds, and the judgement of its journal."""
    model, journal = os.path.join(folder, 'bench.flat'), os.path.join(folder, 'bench.journal')
    rounds = rounds or (SIZE - machine.start) // machine.step
    entries = machine.start + rounds * machine.step
    with open(model, 'w') as file:
        file.write(machine.text())
    stimuli = ['a.%s()' % signal for signal in machine.first + machine.round * rounds]
    with open(journal, 'wb') as file:
        spent = measure(['run', '--limit', str(LIMIT), model] + stimuli, file)
    report('run ' + name, entries, *spent)
    with open(journal) as file:
        lines = sum(1 for _ in file) - 1
    assert lines == entries, (lines, entries)
    report('judge ' + name, entries, *measure(['judge', model, journal]))


def main():
    need_program()
    with tempfile.TemporaryDirectory() as folder:
        for name, sizes, make in (('route', JUNCTIONS, route), ('fork', REGIONS, fork), ('points', NESTED, points), ('history', LEVELS, history)):
            for size in sizes:
                measure_on('%s %d' % (name, size), make(size), folder)
        measure_on('route %d' % MOST_JUNCTIONS, route(MOST_JUNCTIONS), folder, 1)


if __name__ == '__main__':
    main()
