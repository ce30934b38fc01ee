#!/usr/bin/env python3
"""How long `run` and `judge` take, and how much memory, on machines with regions in States.

Run it at the top of the repository after the program is built: python3 bench/nested.py
Each machine goes round on one signal, from a State of the top region back to it, so a step leaves all that is active and enters it again. First (`nested`)
comes a machine with two nested levels and two regions, of which a step has 17 entries, on a growing number of signals; then (`wide`) machines whose State has
2, 20 and 200 regions, with a State in each: there a step has some 4 entries for each region, and the journals have nearly the same length, so that
the time of an entry can be compared. For each machine and length `run` writes a journal, which is judged, and then one is judged (`ordered`) that keeps each
region's entries together, from the last region to the first. It prints a line for each call: entries, seconds, entries per second, peak memory.
"""
import os
import tempfile

from measure import measure, need_program, report

SIZES = (100_000, 1_000_000)
REGIONS = (2, 20, 200)
WIDE_SIZE = 20_000
LIMIT = 1_000_000
HEAD = ['pssm-flat 1', 'signal G 0', 'class M', 'object a M', 'machine M']


class Machine:
    """A machine that goes round: its flat text, and the entries of its start and of a step in one order."""

    def __init__(self, regions, vertices, transitions, entries, exits):
        """A transition is its ends; the last one goes round, from v1 to v1, by these exits and entries."""
        lines = HEAD + ['region r%d %s' % item for item in enumerate(regions)]
        lines += ['vertex v%d %s' % item for item in enumerate(vertices)]
        lines += ['transition t%d v%d v%d external' % (number, *ends) for number, ends in enumerate(transitions)]
        self.text = '\n'.join(lines + ['on G', 'end']) + '\n'
        self.start = ['start a', 'open a r0 default by t0', 'effect a t0'] + entries
        round_trip = len(transitions) - 1
        self.round = ['post a.G()', 'take a %d ' + 't%d' % round_trip] + exits + ['effect a t%d' % round_trip] + entries

    def signals(self, size):
        """How many signals lead to a journal of at most so many entries."""
        return (size - len(self.start)) // len(self.round)

    def entries(self, signals):
        """How many entries a journal with so many signals has."""
        return len(self.start) + signals * len(self.round)

    def journal(self, signals):
        """The text of a journal with so many signals."""
        lines = ['pssm-journal 1'] + self.start
        for number in range(signals):
            lines += [line % (number + 1) if '%d' in line else line for line in self.round]
        return '\n'.join(lines) + '\n'


def opening(region, transition, state):
    """What happens where a region opens by default."""
    return ['open a r%d default by t%d' % (region, transition), 'effect a t%d' % transition, 'enter a v%d' % state]


def nested():
    """State v1 has the regions r1 and r2; State v3, in r1, has the region r3."""
    regions = ['top', 'v1', 'v1', 'v3']
    vertices = ['r0 initial', 'r0 state', 'r1 initial', 'r1 state', 'r2 initial', 'r2 state', 'r3 initial', 'r3 state']
    transitions = [(0, 1), (2, 3), (4, 5), (6, 7), (1, 1)]
    entries = ['enter a v1'] + opening(2, 2, 5) + opening(1, 1, 3) + opening(3, 3, 7)
    return Machine(regions, vertices, transitions, entries, ['exit a v%d' % state for state in (5, 7, 3, 1)])


def wide(count):
    """State v1 has so many regions, with a State in each."""
    regions, vertices, transitions = ['top'] + ['v1'] * count, ['r0 initial', 'r0 state'], [(0, 1)]
    entries, exits = [], []
    for region in range(1, count + 1):
        state = 2 * region + 1
        vertices += ['r%d initial' % region, 'r%d state' % region]
        transitions.append((state - 1, state))
        entries = opening(region, region, state) + entries
        exits = ['exit a v%d' % state] + exits
    return Machine(regions, vertices, transitions + [(1, 1)], ['enter a v1'] + entries, exits + ['exit a v1'])


def measure_on(name, machine, size, folder):
    """A run of at most so many entries, the judgement of its journal, and that of one in another order."""
    model, journal = os.path.join(folder, 'bench.flat'), os.path.join(folder, 'bench.journal')
    signals = machine.signals(size)
    entries = machine.entries(signals)
    with open(model, 'w') as file:
        file.write(machine.text)
    with open(journal, 'wb') as file:
        spent = measure(['run', '--limit', str(LIMIT), model] + ['a.G()'] * signals, file)
    report('run ' + name, entries, *spent)
    with open(journal) as file:
        lines = sum(1 for _ in file) - 1
    assert lines == entries, (lines, entries)
    report('judge ' + name, entries, *measure(['judge', model, journal]))
    with open(journal, 'w') as file:
        file.write(machine.journal(signals))
    report('judge ordered', entries, *measure(['judge', model, journal]))


def main():
    need_program()
    with tempfile.TemporaryDirectory() as folder:
        for size in SIZES:
            measure_on('nested', nested(), size, folder)
        for count in REGIONS:
            measure_on('wide %d' % count, wide(count), WIDE_SIZE, folder)


if __name__ == '__main__':
    main()
