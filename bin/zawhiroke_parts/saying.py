"""What the script says itself goes to standard error, and what ends it ends what it started."""
import _signal  # (the module signal costs some 5 ms more, for its enums)
import os

NO_RT = 69
NO_PROGRAM = 70
ENDING = (_signal.SIGHUP, _signal.SIGINT, _signal.SIGQUIT, _signal.SIGPIPE, _signal.SIGTERM)


class Signalled(BaseException):
    """A signal that ends the script, once everything that it started has ended."""

    def __init__(self, number):
        super().__init__(number)
        self.number = number


class Ended(Exception):
    """The script ends with this status, and says why."""

    def __init__(self, status, why=None):
        super().__init__(why)
        self.status = status
        self.why = why


def say(text):
    """Writes a line to standard error."""
    write_error('zawhiroke: %s\n' % text)


def write_error(text):
    """Writes a text to standard error. Where that cannot be, there is nobody to tell."""
    try:
        write_all(2, text.encode('utf-8', 'surrogateescape'))
    except OSError:
        pass


def write_all(file, data):
    """Writes all bytes to the file of this number."""
    rest = memoryview(data)
    while rest:
        rest = rest[os.write(file, rest):]


def write_answer(data):
    """Writes to standard output; where that cannot be, the script ends with the program's status for it."""
    try:
        write_all(1, data)
    except OSError as fault:
        raise Ended(6, 'the answer cannot be written: %s' % fault.strerror) from None


def heed_signals(*numbers):
    """From here on these signals raise Signalled, the first that comes; those after it change nothing."""

    def end(number, _):
        for each in ENDING:
            _signal.signal(each, _signal.SIG_IGN)
        raise Signalled(number)

    for each in numbers:
        _signal.signal(each, end)


def heed_usual_signals():
    """Heeds what may end the script at any time. A write to a closed pipe is told by the write itself."""
    _signal.signal(_signal.SIGCHLD, _signal.SIG_DFL)  # (who calls may ignore it, and then nothing could be waited for)
    heed_signals(*(each for each in ENDING
                   if each != _signal.SIGPIPE and _signal.getsignal(each) != _signal.SIG_IGN))


def heed_pipe():
    """Heeds SIGPIPE too, while rt works."""
    heed_signals(_signal.SIGPIPE)


def let_pipe():
    """No longer so: an answer that cannot be written has a status of its own."""
    _signal.signal(_signal.SIGPIPE, _signal.SIG_IGN)


def hold_signals():
    """Keeps signals waiting, so that what is started now is known before one of them ends the script."""
    _signal.pthread_sigmask(_signal.SIG_BLOCK, ENDING)


def let_signals():
    """Lets them come again."""
    _signal.pthread_sigmask(_signal.SIG_UNBLOCK, ENDING)


def die_of(number):
    """Ends the script by the signal, as the shell that called it expects."""
    _signal.signal(number, _signal.SIG_DFL)
    let_signals()
    os.kill(os.getpid(), number)
    os._exit(128 + number)
