#!/usr/bin/env python3
"""How long `run` takes, and how much memory, for journals of growing length.

Run it at the top of the repository after the program is built: python3 bench/run.py
A machine that goes round on one signal runs on a growing number of signals: a step has five entries. For each run it prints
a line: entries, seconds, entries per second, peak memory. Each journal is judged afterwards; that time is not counted.
"""
import os
import subprocess
import tempfile

from measure import PROGRAM, measure, need_program, report

SIZES = (1_000, 100_000, 1_000_000)
START_ENTRIES, STEP_ENTRIES = 4, 5
CYCLE = """pssm-flat 1
signal G 0
class M
object a M
machine M
region r0 top
vertex v0 r0 initial
vertex v1 r0 state
vertex v2 r0 state
transition t0 v0 v1 external
transition t1 v1 v2 external
on G
transition t2 v2 v1 external
on G
end
"""


def main():
    need_program()
    with tempfile.TemporaryDirectory() as folder:
        model, journal = os.path.join(folder, 'cycle.flat'), os.path.join(folder, 'cycle.journal')
        with open(model, 'w') as file:
            file.write(CYCLE)
        for size in SIZES:
            signals = (size - START_ENTRIES) // STEP_ENTRIES
            entries = START_ENTRIES + STEP_ENTRIES * signals
            with open(journal, 'wb') as file:
                spent = measure(['run', '--limit', '1000000', model] + ['a.G()'] * signals, file)
            report('run', entries, *spent)
            verdict = subprocess.run([PROGRAM, 'judge', model, journal], stdout=subprocess.PIPE, check=True).stdout
            assert verdict == b'accept %d\n' % entries, verdict


if __name__ == '__main__':
    main()
