#!/usr/bin/env python3
"""How many instructions `judge` and `run` take for an entry, as `valgrind --tool=callgrind` counts them.

Run it at the top of the repository after the program is built, where valgrind is installed: python3 bench/instructions.py
The count is the same on every run, however busy the machine is. Each journal has two lengths, and the difference of the
two counts is divided by the entries between them, so that what the program does once has no part in it. It prints a line
for each command and kind of journal: posts that nobody takes; a machine of two States that goes round (post, take, exit,
effect, entry); two objects that send to each other (take, exit, effect with a send and its argument, entry); and nested
States in two regions.
"""
import os
import re
import shutil
import subprocess
import sys
import tempfile

from judge import posts
from measure import PROGRAM, need_program
from nested import nested
from run import CYCLE
from talk import hits_in, ring

SIZES = (4_000, 12_000)
LIMIT = 1_000_000
COUNTED = re.compile(r'Collected : (\d+)')


def need_valgrind():
    """Ends the script where there is no valgrind."""
    if shutil.which('valgrind') is None:
        sys.exit('install valgrind first')


def instructions(words, output=subprocess.DEVNULL, wanted=0):
    """How many instructions one call takes that ends with the wanted status."""
    command = ['valgrind', '--tool=callgrind', '--callgrind-out-file=/dev/null', PROGRAM] + words
    call = subprocess.run(command, stdout=output, stderr=subprocess.PIPE, universal_newlines=True)
    counted = COUNTED.search(call.stderr)
    if call.returncode != wanted or counted is None:
        sys.exit('%s ended with status %d' % (' '.join(words[:3]), call.returncode))
    return int(counted.group(1))


def report(name, counts):
    """One line on a command and a kind of journal, from the entries and instructions of two calls."""
    (few, least), (many, most) = counts
    print('%-18s %6d and %6d entries  %8.1f instructions an entry' % (name, few, many, (most - least) / (many - few)))


def lines_in(path):
    """How many entries the journal has."""
    with open(path) as file:
        return sum(1 for _ in file) - 1


def count_posts(folder):
    """The judgement of posts that nobody takes."""
    model, journal = os.path.join(folder, 'posts.flat'), os.path.join(folder, 'posts.journal')
    with open(model, 'w') as file:
        file.write(CYCLE)
    counts = []
    for size in SIZES:
        with open(journal, 'w') as file:
            file.write('pssm-journal 1\n' + '\n'.join(posts(size)).replace('Go', 'G') + '\n')
        counts.append((size, instructions(['judge', model, journal])))
    report('judge posts', counts)


def count_on(name, text, stimuli_of, folder):
    """A run of a model, with the stimuli that lead to so many entries, and the judgement of its journal."""
    model, journal = os.path.join(folder, 'bench.flat'), os.path.join(folder, 'bench.journal')
    with open(model, 'w') as file:
        file.write(text)
    runs, judged = [], []
    for size in SIZES:
        with open(journal, 'wb') as file:
            spent = instructions(['run', '--limit', str(LIMIT), model] + stimuli_of(size), file)
        entries = lines_in(journal)
        runs.append((entries, spent))
        judged.append((entries, instructions(['judge', model, journal])))
    report('run ' + name, runs)
    report('judge ' + name, judged)


def main():
    need_program()
    need_valgrind()
    with tempfile.TemporaryDirectory() as folder:
        count_posts(folder)
        count_on('round', CYCLE, lambda size: ['a.G()'] * ((size - 4) // 5), folder)
        count_on('two objects', ring(2), lambda size: ['a.B(%d)' % hits_in(size, 2, 1)], folder)
        machine = nested()
        count_on('nested', machine.text, lambda size: ['a.G()'] * machine.signals(size), folder)


if __name__ == '__main__':
    main()
