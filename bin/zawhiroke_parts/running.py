"""Calls of the program.

Its answer goes through a pipe and this script to standard output: a refusal can't be explained by its status alone.
The program writes all at once, at its end, so that the way over the pipe costs one copy of the answer (some 20 ms for
the longest journals), and an answer is never asked for twice. Where the copy can't be written, the script ends as the
program does when it can't write: with status 6, and a front of the answer written.
"""
import _signal
import os

from saying import NO_PROGRAM, Ended, hold_signals, let_signals, write_answer

FRONT = 1 << 16  # so much of an answer is kept to be explained


def start(program, words, sink, source=None):
    """Starts the program with standard output to the file sink; its number."""
    over = [(os.POSIX_SPAWN_DUP2, sink, 1)]
    if source is not None:
        over.append((os.POSIX_SPAWN_DUP2, source, 0))
    try:
        return os.posix_spawn(program, [program, *words], os.environ, file_actions=over,
                              setsigmask=[], setsigdef=[_signal.SIGPIPE])
    except OSError as fault:
        raise Ended(NO_PROGRAM, 'the program cannot be started: %s' % fault.strerror) from None


def status_of(waited):
    """The status that a shell would show."""
    return os.WEXITSTATUS(waited) if os.WIFEXITED(waited) else 128 + os.WTERMSIG(waited)


def pass_through(program, words):
    """Runs the program, writes its answer to standard output; its status, and the front of the answer."""
    source, sink = os.pipe()
    child = None
    try:
        hold_signals()
        child = start(program, words, sink)
        let_signals()
        os.close(sink)
        front = b''
        for part in iter(lambda: os.read(source, 1 << 20), b''):
            write_answer(part)
            front += part[:FRONT - len(front)]
        status = status_of(os.waitpid(child, 0)[1])
        child = None
        return status, front
    finally:
        if child is not None:
            os.kill(child, _signal.SIGKILL)


def ask(program, words, text=b''):
    """The status and the whole answer of the program, for the script itself."""
    with open(os.memfd_create('text'), 'w+b') as given, open(os.memfd_create('answer'), 'w+b') as answer:
        given.write(text)
        given.seek(0)
        status = status_of(os.waitpid(start(program, words, answer.fileno(), given.fileno()), 0)[1])
        answer.seek(0)
        return status, answer.read()
