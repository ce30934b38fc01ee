"""Proving and building the program, by `rt run` in its folder, one call at a time.

Who builds holds a lock on build.log, which the kernel takes back when its owner ends, however it ends. rt has a
session of its own, and all of it ends with the script.
"""
import _signal
import fcntl
import os
import select
import subprocess
import time

from places import CRATE, LOG, OUT, PROGRAM, SEAL
from progress import Progress
from saying import (NO_PROGRAM, NO_RT, Ended, Signalled, heed_pipe, hold_signals, let_pipe, let_signals, say,
                    write_error)
from sources import digest_now, is_fresh, sum_of_file

PATIENCE = 5  # seconds for rt to end its own children
SET_DEATH_SIGNAL = 1  # PR_SET_PDEATHSIG
try:
    import ctypes
    LIBC = ctypes.CDLL(None)
except (ImportError, OSError):
    LIBC = None


def need_rt():
    """Ends the script where there is no rt."""
    for folder in os.environ.get('PATH', os.defpath).split(os.pathsep):
        file = os.path.join(folder, 'rt')
        if os.access(file, os.X_OK) and os.path.isfile(file):
            return
    raise Ended(NO_RT, 'there is no rt on the path, the command of the Rattle kit that proves and builds the program')


class Rt:
    """A command of rt that works beside the script, and ends with it. Signals wait until it is waited for."""

    def __init__(self, words, out, errors):
        hold_signals()
        self.process = subprocess.Popen(['rt', *words], cwd=CRATE, stdin=subprocess.DEVNULL, stdout=out, stderr=errors,
                                        start_new_session=True, preexec_fn=self.begin)

    def begin(self):
        """What its process does first: should the script be killed outright, it is told to end too."""
        let_signals()
        if LIBC is not None:
            LIBC.prctl(SET_DEATH_SIGNAL, _signal.SIGTERM)

    def __enter__(self):
        return self

    def wait(self, meanwhile):
        """Waits until it ends, and does something meanwhile, each second; its status."""
        let_signals()
        while self.process.poll() is None:
            heed_readers()
            meanwhile()
            try:
                self.process.wait(1)
            except subprocess.TimeoutExpired:
                pass
        return self.process.returncode

    def __exit__(self, *_):
        for number in (_signal.SIGTERM, _signal.SIGKILL):
            if self.process.poll() is None:
                os.killpg(self.process.pid, number)
                try:
                    self.process.wait(PATIENCE)
                except subprocess.TimeoutExpired:
                    pass
        self.end_all()

    def end_all(self):
        """Ends what is left of the session, in whichever process group."""
        until = time.monotonic() + PATIENCE
        left = processes_of(self.process.pid)
        while left and time.monotonic() < until:
            for each in left:
                try:
                    os.kill(each, _signal.SIGKILL)
                except ProcessLookupError:
                    pass
            time.sleep(0.02)
            left = processes_of(self.process.pid)


def processes_of(session):
    """The processes of a session."""
    found = []
    for name in os.listdir('/proc'):
        if name.isdigit():
            try:
                with open('/proc/%s/stat' % name, 'rb') as file:
                    state, _, _, of = file.read().rpartition(b') ')[2].split()[:4]
            except OSError:
                continue
            if int(of) == session and state != b'Z':
                found.append(int(name))
    return found


def heed_readers():
    """Ends the script as by SIGPIPE where nobody reads on what it writes."""
    readers = select.poll()
    for file in (1, 2):
        readers.register(file, 0)
    if any(event & select.POLLERR for _, event in readers.poll(0)):
        raise Signalled(_signal.SIGPIPE)


class Shown:
    """How far the build is: on a terminal in one line that is written anew, elsewhere in one for each crate and
    each minute.
    """

    def __init__(self):
        self.began = time.monotonic()
        self.progress = Progress()
        self.last = None
        self.is_terminal = os.isatty(2)

    def show(self):
        """Shows it, where it changed."""
        head, rest = self.progress.text((time.monotonic() - self.began) // 60)
        if self.is_terminal:
            write_error('\r\033[Kzawhiroke: ' + head + rest)
        elif head != self.last:
            say(head + rest)
        self.last = head

    def end(self):
        """Ends the line of a terminal."""
        if self.is_terminal and self.last is not None:
            write_error('\n')
        self.last = None


def take_lock(log, shown):
    """Waits until this call is the one that builds."""
    told = None
    while True:
        try:
            fcntl.flock(log, fcntl.LOCK_EX | fcntl.LOCK_NB)
            break
        except BlockingIOError:
            with open(LOG, encoding='utf-8', errors='replace') as file:
                owner = file.readline().strip()
            if owner and owner != told:
                say('%s the program; waiting for it' % owner)
                told = owner
            heed_readers()
            shown.show()
            time.sleep(1)
    os.ftruncate(log.fileno(), 0)
    log.write('process %d builds\n' % os.getpid())
    log.flush()
    shown.end()


def prove(shown):
    """Proves and builds. rt runs the program once, without words: its answer, usage, says that all went well."""
    digest = digest_now()
    say('the program is not built of these sources yet; it is proved and built first, which takes a while')
    with open(os.memfd_create('answer'), 'w+b') as answer, open(LOG, 'ab') as errors:
        with Rt(['run'], answer, errors) as rt:
            rt.wait(shown.show)
        shown.end()
        answer.seek(0)
        if answer.read() != b'usage\n':
            raise Ended(NO_PROGRAM, 'it could not be built; %s says why' % LOG)
    write_seal(digest)


def write_seal(digest):
    """Notes what the program was built of."""
    from installing import commit_now, kit_now
    note = 'sources %s\nprogram %s\nkit %s\ncommit %s\n' % (digest, sum_of_file(PROGRAM), kit_now(), commit_now())
    new = '%s.%d' % (SEAL, os.getpid())
    with open(new, 'w', encoding='utf-8') as file:
        file.write(note)
    os.replace(new, SEAL)


def build():
    """Builds the program, where another call has not done so meanwhile."""
    need_rt()
    shown = Shown()
    heed_pipe()
    try:
        os.makedirs(OUT, exist_ok=True)
        with open(LOG, 'a', encoding='utf-8') as log:
            take_lock(log, shown)
            if not is_fresh():
                prove(shown)
    except OSError as fault:
        raise Ended(NO_PROGRAM, 'it could not be built: %s' % fault) from None
    finally:
        let_pipe()


def need_program():
    """The path of the program that was built of the sources that stand here, built now where it was not."""
    while not is_fresh():
        build()
    return PROGRAM
