#!/usr/bin/env python3
"""How long takes are, where many routes fire at once, or where many ways lead over junctions.

Run it at the top of the repository after the program is built: python3 bench/firing.py
First (`regions`) come machines with 1, 10, 100 and 500 regions side by side, each with a State that goes back to itself on one signal: a take fires as many
routes as there are regions. Then (`diamonds`) machines with one State and 2 to 12 diamonds of junctions in a row, so with 4 to 4,096 ways from the State back
to itself, all of which are open: a take fires one of them. Last (`closed`) the same machines with a guard behind the last diamond that is false: each of the
ways is closed there, and a take fires nothing. For each machine `run` writes a journal, which is judged. It prints a line for each call: entries,
seconds, entries per second, peak memory.
"""
import os
import tempfile

from measure import measure, need_program, report

REGIONS = (1, 10, 100, 500)
DIAMONDS = (2, 4, 6, 8, 10, 12)
SIZE = 20_000
LIMIT = 1_000_000


class Machine:
    """The flat text of a machine, and how many entries its start has and each signal with its take."""

    def __init__(self, regions, vertices, transitions, start, step):
        """A transition is its ends and the lines behind it."""
        lines = ['pssm-flat 1', 'signal G 0', 'class M', 'object a M', 'machine M', 'var n 0']
        lines += ['region r%d top' % number for number in range(regions)]
        lines += ['vertex v%d %s' % item for item in enumerate(vertices)]
        for number, (source, target, behind) in enumerate(transitions):
            lines += ['transition t%d v%d v%d external' % (number, source, target)] + behind
        self.text = '\n'.join(lines + ['end']) + '\n'
        self.start, self.step = start, step


def side_by_side(count):
    """So many top regions; a take has an exit, an effect and an entry in each."""
    vertices, transitions = [], []
    for region in range(count):
        vertices += ['r%d initial' % region, 'r%d state' % region]
        transitions += [(2 * region, 2 * region + 1, []), (2 * region + 1, 2 * region + 1, ['on G'])]
    return Machine(count, vertices, transitions, 1 + 3 * count, 2 + 3 * count)


def in_a_row(count, closed):
    """State v1 and so many diamonds on the way back to it: junctions, each with two transitions to the next."""
    vertices = ['r0 initial', 'r0 state'] + ['r0 junction'] * (count + 1)
    transitions = [(0, 1, []), (1, 2, ['on G'])]
    for junction in range(2, count + 2):
        transitions += [(junction, junction + 1, [])] * 2
    transitions.append((count + 2, 1, ['if n == 1'] if closed else []))
    return Machine(1, vertices, transitions, 4, 2 if closed else count + 6)


def measure_on(name, machine, folder):
    """A run of at most so many entries, and the judgement of its journal."""
    model, journal = os.path.join(folder, 'bench.flat'), os.path.join(folder, 'bench.journal')
    signals = (SIZE - machine.start) // machine.step
    entries = machine.start + signals * machine.step
    with open(model, 'w') as file:
        file.write(machine.text)
    with open(journal, 'wb') as file:
        spent = measure(['run', '--limit', str(LIMIT), model] + ['a.G()'] * signals, file)
    report('run ' + name, entries, *spent)
    with open(journal) as file:
        lines = sum(1 for _ in file) - 1
    assert lines == entries, (lines, entries)
    report('judge ' + name, entries, *measure(['judge', model, journal]))


def main():
    need_program()
    with tempfile.TemporaryDirectory() as folder:
        for count in REGIONS:
            measure_on('regions %d' % count, side_by_side(count), folder)
        for name, closed in (('diamonds', False), ('closed', True)):
            for count in DIAMONDS:
                measure_on('%s %d' % (name, count), in_a_row(count, closed), folder)


if __name__ == '__main__':
    main()
