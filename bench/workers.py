#!/usr/bin/env python3
"""How fast `run` goes with one to four workers, and what an entry costs while the lock of their book is held.

Run it at the top of the repository after the program is built: python3 bench/workers.py
So many objects each go round on a signal that they send to themselves, until it has been sent often enough. What they run
on a round is an exit, an effect and an entry, and the effect sends the signal again. Each of the three has 64 statements
(`long`), or the effect alone has (`effects`), or there is the send alone (`short`). Each statement but the send has eight
sums and products, so that 64 of them have some 3,500 of the 4,096 bytes of text that a behaviour may have. For each number
of objects and workers it prints a line: entries, then the median of several runs: seconds by the clock, entries per second,
seconds of processors (user and system, of all workers), and how the speed by the clock compares with that of one worker.
The runs of all numbers of workers take turns, so that what else the machine does meets all of them alike. More workers
than the processors that it may use gain nothing: `taskset -c 0,1 python3 bench/workers.py` shows two.

With `--lock` behind it, where valgrind is installed, it counts instructions in place of time, in runs by one worker: all
that an entry takes, and those of them that are spent while the lock is held, in the calls of `claim` and `commit`. Each
run has two lengths, and the difference is divided by the entries between them.
"""
import os
import resource
import statistics
import subprocess
import sys
import tempfile

from instructions import COUNTED, need_valgrind
from measure import PROGRAM, measure, need_program
from talk import LIMIT, block, entries_of, hits_in, object_name

OBJECTS = (2, 4, 8, 16, 32, 64)
WORKERS = (1, 2, 3, 4)
STATEMENT = 'x := (((x + $1) * 3) - ((y - x) * ($1 + 7))) + (y * x);'
STATEMENTS = {'long': (64, 64), 'effects': (64, 0), 'short': (1, 0)}  # of the effect, and of the exit and the entry
SIZE = {'long': 100_000, 'effects': 100_000, 'short': 100_000}
RUNS = 5
HELD = ('pssm_book::book::Book::claim*', 'pssm_book::book::Book::commit*')  # what a worker does while it has the lock
COUNTED_SIZES = (2_000, 6_000)


def alike(count, statements, around):
    """So many objects of one class, with so many statements in its effect, the last of which sends the signal again, and
    with so many in the exit and in the entry of its State."""
    lines = ['pssm-flat 1', 'signal B 1', 'class M'] + ['object %s M' % object_name(i) for i in range(count)]
    sums = [STATEMENT] * (statements - 1)
    text = block('M', 'B', '$1 != 0', ' '.join(sums + ['send self.B($1 - 1);']), 'var x 1\nvar y 2\n')
    if around > 0:
        sums = ' '.join([STATEMENT] * around)
        text = text.replace('vertex v1 r0 state\n', 'vertex v1 r0 state\nentry %s\nexit %s\n' % (sums, sums))
    return '\n'.join(lines) + '\n' + text + 'end\n'


def words_for(kind, count, size, folder):
    """The words of a run of so many objects behind its options, and the entries of its journal."""
    path = os.path.join(folder, '%s-%d.flat' % (kind, count))
    with open(path, 'w') as file:
        file.write(alike(count, *STATEMENTS[kind]))
    hits = hits_in(size, count, count)
    return [path] + ['%s.B(%d)' % (object_name(i), hits) for i in range(count)], entries_of(count, count, hits)


def options(workers):
    """The words in front of those of a run."""
    return ['run', '--limit', str(LIMIT), '--workers', str(workers)]


def processors():
    """The seconds of processors that calls have spent until now."""
    spent = resource.getrusage(resource.RUSAGE_CHILDREN)
    return spent.ru_utime + spent.ru_stime


def one_run(words, entries, journal):
    """Seconds by the clock and of processors of one run, whose journal has so many entries."""
    before = processors()
    with open(journal, 'wb') as file:
        seconds = measure(words, file)[0]
    spent = processors() - before
    with open(journal, 'rb') as file:
        lines = sum(1 for _ in file) - 1
    assert lines == entries, (lines, entries)
    return seconds, spent


def time_workers(kind, count, folder):
    """A line for each number of workers, on runs of so many objects."""
    words, entries = words_for(kind, count, SIZE[kind], folder)
    journal = os.path.join(folder, 'bench.journal')
    spent = {workers: [] for workers in WORKERS}
    for _ in range(RUNS):
        for workers in WORKERS:
            spent[workers].append(one_run(options(workers) + words, entries, journal))
    alone = statistics.median(seconds for seconds, _ in spent[1])
    for workers in WORKERS:
        clock, work = (statistics.median(part) for part in zip(*spent[workers]))
        print('%-7s %2d objects %d workers  %6d entries  %7.3f s  %8.0f entries/s  %7.3f s of processors  %5.2f of one'
              % (kind, count, workers, entries, clock, entries / clock, work, alone / clock), flush=True)


def instructions(words, of=()):
    """How many instructions one call takes, in these functions and below them, or in all."""
    command = ['valgrind', '--tool=callgrind', '--callgrind-out-file=/dev/null']
    command += ['--toggle-collect=' + name for name in of] + [PROGRAM] + words
    call = subprocess.run(command, stdout=subprocess.DEVNULL, stderr=subprocess.PIPE, universal_newlines=True)
    counted = COUNTED.search(call.stderr)
    if call.returncode != 0 or counted is None:
        sys.exit('%s ended with status %d' % (' '.join(words[:3]), call.returncode))
    return int(counted.group(1))


def count_locked(kind, count, folder):
    """A line on the instructions of an entry in a run of so many objects by one worker, from runs of two lengths."""
    (few, entries), (many, most) = (words_for(kind, count, size, folder) for size in COUNTED_SIZES)
    whole, held = ((instructions(options(1) + many, of) - instructions(options(1) + few, of)) / (most - entries)
                   for of in ((), HELD))
    print('%-7s %2d objects  %8.0f instructions an entry, %8.0f of them under the lock' % (kind, count, whole, held),
          flush=True)


def main():
    need_program()
    each = time_workers
    if sys.argv[1:] == ['--lock']:
        need_valgrind()
        each = count_locked
    with tempfile.TemporaryDirectory() as folder:
        for kind in STATEMENTS:
            for count in OBJECTS:
                each(kind, count, folder)


if __name__ == '__main__':
    main()
