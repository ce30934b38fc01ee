#!/usr/bin/env python3
"""How long `run` and `judge` take, and how much memory, on objects that send to each other and on long effects.

Run it at the top of the repository after the program is built: python3 bench/talk.py
First (`two`) come two objects that play: each sends the ball back with one hit less, on a growing number of hits. Then
(`ring 2`, `ring 16`, `ring 64`) so many objects pass balls round in a ring, one for each object: the journals have nearly
the same length, so that an entry of one object of few can be compared with one of many. Then (`statements`) one object
goes round on a signal that it sends to itself, by an effect of 64 statements with a sum and a product each. For each of
them `run` writes a journal, and `judge` reads it. It prints a line for each call: entries, seconds, entries per second,
peak memory.
"""
import os
import string
import tempfile

from measure import measure, need_program, report

SIZES = (100_000, 1_000_000)
RINGS = (2, 16, 64)
RING_SIZE = 100_000
STATEMENTS = 64
LIMIT = 1_000_000
START, FIRING = 4, 4  # the entries of a start, and of a firing with one exit, one effect and one entry


def block(name, listed, guard, effect, variables=''):
    """The block of a machine that goes round its one State, on a signal, by a transition with a guard and an effect."""
    return """machine %s
%sregion r0 top
vertex v0 r0 initial
vertex v1 r0 state
transition t0 v0 v1 external
transition t1 v1 v1 external
on %s
if %s
effect %s
""" % (name, variables, listed, guard, effect)


def object_name(number):
    """One letter as long as there are some: with longer names a million entries are too large for a journal."""
    return string.ascii_letters[number] if number < len(string.ascii_letters) else 'o%d' % number


def ring(count):
    """So many objects of a class each: whoever gets a ball sends it on with one hit less, until none is left."""
    lines = ['pssm-flat 1', 'signal B 1'] + ['class C%d' % i for i in range(count)]
    lines += ['object %s C%d' % (object_name(i), i) for i in range(count)]
    sends = ['send %s.B($1 - 1);' % object_name((i + 1) % count) for i in range(count)]
    blocks = [block('C%d' % i, 'B', '$1 != 0', sends[i]) for i in range(count)]
    return '\n'.join(lines) + '\n' + ''.join(blocks) + 'end\n'


def statements():
    """One object with so many statements in its effect, the last of which sends the signal again until none is left."""
    count = ' '.join(['x := (x + $1) * 3;'] * (STATEMENTS - 1))
    text = block('M', 'B', '$1 != 0', count + ' send a.B($1 - 1);', 'var x 1\n')
    return 'pssm-flat 1\nsignal B 1\nclass M\nobject a M\n' + text + 'end\n'


def entries_of(objects, balls, hits):
    """The starts; for each ball its post, its firings, and the take of what is left of it."""
    return START * objects + balls * (1 + FIRING * hits + 1)


def measure_on(name, model, objects, stimuli, hits, folder):
    """A run of a model with a stimulus for each ball, and the judgement of its journal."""
    path, journal = os.path.join(folder, 'bench.flat'), os.path.join(folder, 'bench.journal')
    entries = entries_of(objects, len(stimuli), hits)
    with open(path, 'w') as file:
        file.write(model)
    with open(journal, 'wb') as file:
        spent = measure(['run', '--limit', str(LIMIT), path] + stimuli, file)
    report('run ' + name, entries, *spent)
    with open(journal) as file:
        lines = sum(1 for _ in file) - 1
    assert lines == entries, (lines, entries)
    report('judge ' + name, entries, *measure(['judge', path, journal]))


def hits_in(size, objects, balls):
    """How many hits of each ball lead to a journal of at most so many entries."""
    return (size - entries_of(objects, balls, 0)) // (FIRING * balls)


def main():
    need_program()
    with tempfile.TemporaryDirectory() as folder:
        for size in SIZES:
            hits = hits_in(size, 2, 1)
            measure_on('two', ring(2), 2, ['a.B(%d)' % hits], hits, folder)
        for count in RINGS:
            hits = hits_in(RING_SIZE, count, count)
            balls = ['%s.B(%d)' % (object_name(i), hits) for i in range(count)]
            measure_on('ring %d' % count, ring(count), count, balls, hits, folder)
        for size in SIZES:
            hits = hits_in(size, 1, 1)
            measure_on('statements', statements(), 1, ['a.B(%d)' % hits], hits, folder)


if __name__ == '__main__':
    main()
