#!/usr/bin/env python3
"""How fast behaviours are read and run, and how much memory that takes.

Run it at the top of the repository: python3 bench/acts.py
No command reads or runs a behaviour by itself, so this builds a program of its own over pssm_acts and the crates below it (bench/acts has its text
and its proof; they end in .txt since no crate of this repository holds them): in a temporary folder, with what an earlier proof of these crates left in
their out/ folders (where there is nothing, they are proved first, which takes some ten minutes). Each text has 4,096 bytes: a behaviour of 64
assignments, each a sum of 29 ones and a variable; a behaviour of 64 marks with different names; and the guard `true` behind 4,092 `!`. It prints a
line for reading each of them 2,000 times (bytes per second) and one for running the first 20,000 times (statements per second).
"""
import os
import shutil
import subprocess
import sys
import tempfile

import measure
from measure import report

BYTES, STATEMENTS = 4096, 64
ROWS = (
    ('read behaviour', 'read', 2000, BYTES, 'bytes'),
    ('read marks', 'marks', 2000, BYTES, 'bytes'),
    ('read guard', 'guard', 2000, BYTES, 'bytes'),
    ('run behaviour', 'run', 20000, STATEMENTS, 'statements'),
)


def crates_to(name):
    """The crate and those that it stands on, each with its line of crates.txt."""
    with open(os.path.join(measure.TOP, 'crates.txt')) as file:
        lines = dict(line.split(':') for line in file if not line.startswith('#'))
    found = {name: lines[name]}
    for below in lines[name].split():
        if below in lines:
            found.update(crates_to(below))
    return found


def build(folder):
    """The program, proved and built in the folder."""
    crates = crates_to('pssm_acts')
    for crate in crates:
        shutil.copytree(os.path.join(measure.TOP, 'crates', crate), os.path.join(folder, 'crates', crate))
    for text, place in (('main.rt.txt', 'src/main.rt'), ('Answers.antt.txt', 'proofs/run_often/Answers.antt')):
        place = os.path.join(folder, 'crates', 'bench_acts', place)
        os.makedirs(os.path.dirname(place))
        shutil.copy(os.path.join(measure.TOP, 'bench', 'acts', text), place)
    with open(os.path.join(folder, 'crates.txt'), 'w') as file:
        file.writelines('%s: %s\n' % (crate, uses.strip()) for crate, uses in crates.items())
        file.write('bench_acts: %s\n' % ' '.join(crates))
    with open(os.path.join(folder, 'HANDLES'), 'w') as file:
        file.write('Handles allowed: none.\n')
    crate = os.path.join(folder, 'crates', 'bench_acts')
    made = subprocess.run(['rt', 'run'], cwd=crate, capture_output=True, text=True)
    program = os.path.join(crate, 'out', 'bench_acts')
    if not os.path.exists(program):
        sys.exit('it could not be built:\n' + made.stdout + made.stderr)
    return program


def main():
    with tempfile.TemporaryDirectory() as folder:
        measure.PROGRAM = build(folder)
        for name, word, times, size, unit in ROWS:
            report(name, times * size, *measure.measure([word, str(times)]), unit)


if __name__ == '__main__':
    main()
