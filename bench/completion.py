#!/usr/bin/env python3
"""How long `run` and `judge` take on completions, choices and do steps.

Run it at the top of the repository after the program is built: python3 bench/completion.py
First (`chain`) comes a machine that goes round by itself, from its one State back to it: each `done` has an exit, an effect and an entry, and the run ends at its
limit, once after 100,000 entries and once after 1,000,000. Then (`queue`) machines with 1, 10, 100 and 500 regions side by side, each of which goes round by itself,
with journals of one length: there as many completions wait as there are regions, so that serving the first of many can be compared with serving the first of
few. Then (`finals`) machines whose State has 1, 10 and 100 regions that each open into a final state: it is complete once all of them are finished, and goes round by
itself. Then (`choices`) machines with one State and 1, 8 and 64 choices in a row on the way from it back to itself, each with a branch by a variable and an `else`.
Last (`steps`) machines whose State has 1, 8 and 64 do steps and goes round by itself. For each machine `run` writes a journal, which is judged. It prints a line for
each call: entries, seconds, entries per second, peak memory.
"""
import os
import tempfile

from measure import measure, need_program, report

SIZES = (100_000, 1_000_000)
REGIONS = (1, 10, 100, 500)
FINALS = (1, 10, 100)
CHOICES = (1, 8, 64)
STEPS = (1, 8, 64)
SIZE = 20_000
AT_THE_LIMIT = 8
HEAD = ['pssm-flat 1', 'class M', 'object a M', 'machine M', 'var n 0']


def text(regions, vertices, transitions):
    """A flat text. A vertex is its words and the lines behind it, a transition its ends and the lines behind it."""
    lines = HEAD + ['region r%d %s' % item for item in enumerate(regions)]
    for number, (words, behind) in enumerate(vertices):
        lines += ['vertex v%d %s' % (number, words)] + behind
    for number, (source, target, behind) in enumerate(transitions):
        lines += ['transition t%d v%d v%d external' % (number, source, target)] + behind
    return '\n'.join(lines + ['end']) + '\n'


def side_by_side(count):
    """So many top regions, with a State each that goes round by itself."""
    vertices, transitions = [], []
    for region in range(count):
        vertices += [('r%d initial' % region, []), ('r%d state' % region, [])]
        transitions += [(2 * region, 2 * region + 1, []), (2 * region + 1, 2 * region + 1, [])]
    return text(['top'] * count, vertices, transitions)


def with_finals(count):
    """State v1 has so many regions, whose initial vertices lead to final states, and goes round by itself."""
    vertices, transitions = [('r0 initial', []), ('r0 state', [])], [(0, 1, []), (1, 1, [])]
    for region in range(1, count + 1):
        vertices += [('r%d initial' % region, []), ('r%d final' % region, [])]
        transitions.append((2 * region, 2 * region + 1, []))
    return text(['top'] + ['v1'] * count, vertices, transitions)


def in_a_row(count):
    """State v1 and so many choices on the way back to it, each with two transitions to the next."""
    vertices = [('r0 initial', []), ('r0 state', [])] + [('r0 choice', [])] * count
    transitions = [(0, 1, []), (1, 2, ['effect n := n + 1;'])]
    for choice in range(2, count + 2):
        target = choice + 1 if choice < count + 1 else 1
        transitions += [(choice, target, ['if n < 1000']), (choice, target, ['else'])]
    return text(['top'], vertices, transitions)


def with_steps(count):
    """State v1 has so many do steps, and goes round by itself."""
    vertices = [('r0 initial', []), ('r0 state', ['step n := n + 1;'] * count)]
    return text(['top'], vertices, [(0, 1, []), (1, 1, [])])


def measure_on(name, model, size, folder):
    """A run that ends at this limit, and the judgement of its journal."""
    path, journal = os.path.join(folder, 'bench.flat'), os.path.join(folder, 'bench.journal')
    with open(path, 'w') as file:
        file.write(model)
    with open(journal, 'wb') as file:
        spent = measure(['run', '--limit', str(size), path], file, AT_THE_LIMIT)
    report('run ' + name, size, *spent)
    with open(journal) as file:
        lines = sum(1 for _ in file) - 1
    assert lines == size, (lines, size)
    report('judge ' + name, size, *measure(['judge', path, journal]))


def main():
    need_program()
    with tempfile.TemporaryDirectory() as folder:
        for size in SIZES:
            measure_on('chain', side_by_side(1), size, folder)
        for name, counts, model in (('queue', REGIONS, side_by_side), ('finals', FINALS, with_finals),
                                    ('choices', CHOICES, in_a_row), ('steps', STEPS, with_steps)):
            for count in counts:
                measure_on('%s %d' % (name, count), model(count), SIZE, folder)


if __name__ == '__main__':
    main()
