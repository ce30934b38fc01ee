"""What the scripts of this folder share: one call of the built program, measured, and the line that is printed of it.

Peaks below some 25 MiB are those of the calling script, from which the program is started.
"""
import os
import resource
import subprocess
import sys
import time

TOP = os.path.dirname(os.path.dirname(os.path.abspath(__file__)))
PROGRAM = os.path.join(TOP, 'crates', 'zawhiroke', 'out', 'zawhiroke')
ROOM_FOR_WORDS = 64 << 20


def need_program():
    """Ends the script where the program is not built."""
    if not os.path.exists(PROGRAM):
        sys.exit('build the program first: bin/zawhiroke judge examples/go.flat examples/go.journal')


def make_room():
    """A command line may take a fourth of the stack's limit."""
    hard = resource.getrlimit(resource.RLIMIT_STACK)[1]
    resource.setrlimit(resource.RLIMIT_STACK, (ROOM_FOR_WORDS, hard))


def measure(words, output=subprocess.DEVNULL, wanted=0):
    """Seconds and peak memory in KiB of one call that ends with the wanted status."""
    began = time.perf_counter()
    child = subprocess.Popen([PROGRAM] + words, stdout=output, preexec_fn=make_room)
    _, status, usage = os.wait4(child.pid, 0)
    seconds = time.perf_counter() - began
    child.returncode = os.waitstatus_to_exitcode(status)
    if child.returncode != wanted:
        sys.exit('%s ended with status %d' % (' '.join(words[:3]), child.returncode))
    return seconds, usage.ru_maxrss


def report(name, count, seconds, memory, unit='entries'):
    """One line on a call."""
    print('%-14s %9d %s  %7.3f s  %10.0f %s/s  %7.1f MiB'
          % (name, count, unit, seconds, count / seconds, unit, memory / 1024))
