#!/usr/bin/env python3
"""How long `judge` takes, and how much memory, on journals of growing length.

Run it at the top of the repository after the program is built, on Linux: python3 bench/judge.py
It writes its journals into a temporary folder, and prints a line for each: entries, seconds, entries per second, peak memory. The
peak is that of the judging process alone, as the system tells it (`VmHWM`) while the process waits to write its answer into a
pipe that is full. Where no signal waits for long, it must not grow with the journal: the script ends with status 1 where the
peaks of a kind of journal lie further apart than 1 MiB. Of posts that nobody takes the peak grows with those that wait.
"""
import fcntl
import os
import subprocess
import tempfile
import time

from measure import PROGRAM, TOP, measure, need_program, report

MODEL = os.path.join(TOP, 'examples', 'go.flat')
ROUND = 'pssm-flat 1\nsignal Go 0\nclass M\nobject a M\nmachine M\nregion r0 top\nvertex v0 r0 initial\nvertex v1 r0 state\n' \
        'transition t0 v0 v1 external\ntransition t1 v1 v1 external\non Go\nend\n'
SIZES = (1_000, 100_000, 1_000_000)
APART = 1024
START = ['start a', 'open a r0 default by t0', 'effect a t0', 'enter a v1']
STEP = ['post a.Go()', 'take a 1 t1', 'exit a v1', 'effect a t1', 'enter a v2']


def posts(size):
    """Signals that nobody takes."""
    return ['post a.Go()'] * size


def complete_run(size):
    """The object starts and goes on; then each signal is posted and taken without effect."""
    lines = START + STEP
    number = 2
    while len(lines) + 2 <= size:
        lines += ['post a.Go()', 'take a %d -' % number]
        number += 1
    return lines + ['post a.Go()'] * (size - len(lines))


def going_round(size):
    """The object starts; then each signal is posted, and leads from the State to itself."""
    lines = list(START)
    number = 1
    while len(lines) + 5 <= size:
        lines += ['post a.Go()', 'take a %d t1' % number, 'exit a v1', 'effect a t1', 'enter a v1']
        number += 1
    return lines + ['post a.Go()'] * (size - len(lines))


def full_pipe():
    """A pipe that takes no further byte: its two ends, and how many bytes are in it."""
    reading, writing = os.pipe()
    size = fcntl.fcntl(writing, fcntl.F_GETPIPE_SZ)
    os.write(writing, b' ' * size)
    return reading, writing, size


def told(process, file, key):
    """The words behind a key in a file on a process."""
    with open('/proc/%d/%s' % (process, file)) as lines:
        return next((line[len(key):].split() for line in lines if line.startswith(key)), ['none'])


def peak(words):
    """Peak memory in KiB of one call that writes one answer, and the answer."""
    reading, writing, size = full_pipe()
    child = subprocess.Popen([PROGRAM] + words, stdout=writing)
    os.close(writing)
    while told(child.pid, 'status', 'State:')[0] not in 'SZ':
        time.sleep(0.002)
    highest = told(child.pid, 'status', 'VmHWM:')[0]
    with open(reading, 'rb') as output:
        answer = output.read()[size:]
    child.wait()
    if highest == 'none':
        raise SystemExit('%s ended before it was looked at' % ' '.join(words[:3]))
    return int(highest), answer


def peaks_of(name, model, lines_of, journal):
    """One line for each size, and the peaks in KiB."""
    peaks = []
    for size in SIZES:
        with open(journal, 'w') as file:
            file.write('\n'.join(['pssm-journal 1'] + lines_of(size)) + '\n')
        seconds, _ = measure(['judge', model, journal])
        highest, answer = peak(['judge', model, journal])
        if answer != b'accept %d\n' % size:
            raise SystemExit('%s, %d entries: the answer is %r' % (name, size, answer))
        report(name, size, seconds, highest)
        peaks.append(highest)
    return peaks


def main():
    need_program()
    well = True
    with tempfile.TemporaryDirectory() as folder:
        journal, model = os.path.join(folder, 'bench.journal'), os.path.join(folder, 'round.flat')
        with open(model, 'w') as file:
            file.write(ROUND)
        peaks_of('posts', MODEL, posts, journal)
        for name, of, lines_of in (('complete run', MODEL, complete_run), ('going round', model, going_round)):
            peaks = peaks_of(name, of, lines_of, journal)
            if max(peaks) - min(peaks) > APART:
                print('  TOO FAR APART: %s, peaks of %s KiB' % (name, ', '.join(str(highest) for highest in peaks)), flush=True)
                well = False
    return 0 if well else 1


if __name__ == '__main__':
    raise SystemExit(main())
