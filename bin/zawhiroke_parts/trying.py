"""The unproved program, run by `rt try` with checks at each step: a first answer, in about two minutes."""
import os
import re
import shutil
import stat
import tempfile

from building import Rt, need_rt
from saying import NO_PROGRAM, Ended, heed_pipe, let_pipe, say, write_all, write_answer

MOST = 16777217  # one byte more than a file may have
USEFUL = 65536  # so many bytes of XMI are read in time
ENDED = re.compile(rb'run=ended status=(\d+) .*proved=no$')


def path_for(path, scratch):
    """The same file, as a path for another folder: absolute, and a pipe or a device as a file."""
    path = os.path.abspath(path) if path else path
    mode = os.stat(path).st_mode
    if stat.S_ISFIFO(mode) or stat.S_ISCHR(mode) or path.startswith('/dev/'):
        copy = os.path.join(scratch, str(len(os.listdir(scratch))))
        with open(path, 'rb') as source, open(copy, 'wb') as target:
            left = MOST
            while left:
                part = source.read(min(left, 1 << 20))
                if not part:
                    break
                target.write(part)
                left -= len(part)
        return copy
    return path


def warn_of_size(path):
    """Says at once where a model file is larger than what is read in time."""
    with open(path, 'rb') as file:
        is_flat = file.read(9) == b'pssm-flat'
    size = os.path.getsize(path)
    if not is_flat and size > USEFUL:
        say('%s has %d bytes: --try is of use up to %d bytes of a model file in XMI, and is stopped after a minute'
            % (path, size, USEFUL))


def answer(call):
    """Writes the answer of the unproved program; its status, and its answer."""
    words = list(call.words)
    need_rt()
    say('unproved: this answer, in about two minutes, is that of the program without its proofs')
    scratch = tempfile.mkdtemp(prefix='zawhiroke-try-')
    try:
        for place in call.places:
            words[place] = path_for(words[place], scratch)
        if call.places:
            warn_of_size(words[call.places[0]])
        status, said = run(words, scratch)
    finally:
        shutil.rmtree(scratch, ignore_errors=True)
    write_answer(said)
    return status, said


def run(words, scratch):
    """The status and the answer of the program on these words."""
    out, errors = os.path.join(scratch, 'out'), os.path.join(scratch, 'said')
    heed_pipe()
    with open(out, 'wb') as into, open(errors, 'wb') as notes, Rt(['try', '--', *words], into, notes) as rt:
        status = rt.wait(lambda: None)
    let_pipe()
    with open(errors, 'rb') as file:
        said = file.read()
    ended = ENDED.match((said.splitlines() or [b''])[-1])
    if not ended or int(ended[1]) != status:
        write_all(2, said)
        raise Ended(NO_PROGRAM, 'the unproved program gave no answer; the lines above say why')
    with open(out, 'rb') as file:
        return status, file.read()
