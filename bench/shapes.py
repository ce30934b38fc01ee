#!/usr/bin/env python3
"""How many instructions `judge` and `run` take for an entry on machines of all shapes that the other scripts time.

Run it at the top of the repository after the program is built, where valgrind is installed: python3 bench/shapes.py
With words behind it, it counts the shapes alone whose names begin with one of them: python3 bench/shapes.py fork history
Each machine runs for two numbers of rounds, or to two limits, and the difference of the counts is divided by the entries
between them, as in bench/instructions.py. It prints a line for each: instructions an entry of `judge`, and of `run`. The
dearest shapes take a minute each.
"""
import os
import sys
import tempfile

import completion
import firing
import forms
import nested
import talk
from instructions import instructions, lines_in, need_valgrind
from measure import need_program
from run import CYCLE

FEW, MANY = 1_500, 4_500
LIMIT = 1_000_000
DEFERRED = (1_000, 2_000, 4_000)


def rounds_in(size, start, step):
    """How many rounds of so many entries there are in a journal of at most so many; one at the least."""
    return max(1, (size - start) // step)


def of_rounds(text, stimuli_of, start, step):
    """The text of a machine, and the words of two runs of it: of few rounds, and of more."""
    few = rounds_in(FEW, start, step)
    more = max(rounds_in(MANY, start, step), few + 1)
    return text, [['--limit', str(LIMIT)], stimuli_of(few)], [['--limit', str(LIMIT)], stimuli_of(more)], 0


def to_limits(text):
    """The text of a machine that goes on by itself, and the words of two runs of it, to two limits."""
    return text, [['--limit', str(FEW)], []], [['--limit', str(MANY)], []], completion.AT_THE_LIMIT


def of_forms(machine):
    """A machine of bench/forms.py."""
    return of_rounds(machine.text(), lambda rounds: ['a.%s()' % name for name in machine.first + machine.round * rounds],
                     machine.start, machine.step)


def of_firing(machine):
    """A machine of bench/firing.py."""
    return of_rounds(machine.text, lambda rounds: ['a.G()'] * rounds, machine.start, machine.step)


def of_nested(machine):
    """A machine of bench/nested.py."""
    return of_rounds(machine.text, lambda rounds: ['a.G()'] * rounds, len(machine.start), len(machine.round))


def of_ring(count):
    """Objects in a ring that send to each other."""
    return of_rounds(talk.ring(count), lambda rounds: ['a.B(%d)' % rounds], 5 * count, 4)


def deferring(count):
    """A State that defers `D`, of which so many wait, and goes round on `G`."""
    lines = ['pssm-flat 1', 'signal G 0', 'signal D 0', 'class M', 'object a M', 'machine M', 'region r0 top',
             'vertex v0 r0 initial', 'vertex v1 r0 state', 'defer D', 'transition t0 v0 v1 external',
             'transition t1 v1 v1 external', 'on G', 'end']
    return of_rounds('\n'.join(lines) + '\n', lambda rounds: ['a.D()'] * count + ['a.G()'] * rounds, 4, 5 if count < 10 else 50)


def recalling():
    """A State that defers `A` and is left by `B` for one that is left by `A`: what was deferred is taken from the front of the pool."""
    lines = ['pssm-flat 1', 'signal A 0', 'signal B 0', 'class M', 'object a M', 'machine M', 'region r0 top',
             'vertex v0 r0 initial', 'vertex v1 r0 state', 'defer A', 'vertex v2 r0 state', 'transition t0 v0 v1 external',
             'transition t1 v1 v2 external', 'on B', 'transition t2 v2 v1 external', 'on A', 'end']
    return of_rounds('\n'.join(lines) + '\n', lambda rounds: ['a.A()', 'a.B()'] * rounds, 4, 10)


def shapes():
    """The shapes by name, each made when its turn comes."""
    yield 'round', lambda: of_rounds(CYCLE, lambda rounds: ['a.G()'] * rounds, 4, 5)
    for count in talk.RINGS:
        yield 'ring %d' % count, lambda count=count: of_ring(count)
    yield 'nested', lambda: of_nested(nested.nested())
    for count in nested.REGIONS:
        yield 'wide %d' % count, lambda count=count: of_nested(nested.wide(count))
    for count in firing.REGIONS:
        yield 'regions %d' % count, lambda count=count: of_firing(firing.side_by_side(count))
    for count in (4, 12):
        for closed in (False, True):
            name = 'diamonds %d%s' % (count, ' closed' if closed else '')
            yield name, lambda count=count, closed=closed: of_firing(firing.in_a_row(count, closed))
    for name, sizes, make in (('route', forms.JUNCTIONS, forms.route), ('fork', forms.REGIONS, forms.fork),
                              ('points', forms.NESTED, forms.points), ('history', forms.LEVELS, forms.history)):
        for size in sizes:
            yield '%s %d' % (name, size), lambda make=make, size=size: of_forms(make(size))
    for name, counts, make in (('queue', completion.REGIONS, completion.side_by_side),
                               ('finals', completion.FINALS, completion.with_finals),
                               ('choices', completion.CHOICES, completion.in_a_row),
                               ('steps', completion.STEPS, completion.with_steps)):
        for count in counts:
            yield '%s %d' % (name, count), lambda make=make, count=count: to_limits(make(count))
    yield 'recalled', recalling
    for count in DEFERRED:
        yield 'deferred %d' % count, lambda count=count: deferring(count)


def count_shape(name, shape, folder):
    """A line on a shape: what an entry takes, judged and run."""
    text, *runs, status = shape
    model, journal = os.path.join(folder, 'shape.flat'), os.path.join(folder, 'shape.journal')
    with open(model, 'w') as file:
        file.write(text)
    counts = []
    for options, stimuli in runs:
        with open(journal, 'wb') as file:
            spent = instructions(['run'] + options + [model] + stimuli, file, status)
        counts.append((lines_in(journal), instructions(['judge', model, journal]), spent))
    (few, *least), (many, *most) = counts
    judged, ran = ((more - less) / (many - few) for less, more in zip(least, most))
    print('%-20s %6d and %6d entries  judge %9.0f  run %9.0f instructions an entry' % (name, few, many, judged, ran), flush=True)


def main():
    need_program()
    need_valgrind()
    with tempfile.TemporaryDirectory() as folder:
        for name, make in shapes():
            if len(sys.argv) == 1 or name.startswith(tuple(sys.argv[1:])):
                count_shape(name, make(), folder)


if __name__ == '__main__':
    main()
