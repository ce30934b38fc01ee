#!/usr/bin/env python3
"""What the program answers where memory, a read or a write fails: each of them in turn, one call at a time.

Run it at the top of the repository after the program is built, where there is a C compiler `cc`: python3 bench/failures.py
It builds failures.c, a small library that stands before the C library and lets the call with one number fail, and runs each
command of the list below again and again, with the first call failing, with the second, and so on, until the program ends
before that call. Owed is, where memory is refused, status 7 and nothing written, or the answer as it is with ample memory
(once for each file status 5, where there is no memory for its name, so that it cannot be opened); where a read fails, status
5 and nothing written; where a write fails, status 6 and a front of the answer. Then it lets a file become longer, or shorter, in
front of each read in turn: the answer has to be the one on a file of exactly the bytes that the reads handed out. Then it tries a
full device, a pipe that is closed, a folder and a missing file, and a journal that comes through standard input or a named pipe in
pieces: the answer has to be the one on a file. It prints a line for each command and kind of failure, and ends with status 1
where something else came.
"""
import os
import subprocess
import sys
import tempfile
import threading

from measure import PROGRAM, need_program

HERE = os.path.dirname(os.path.abspath(__file__))
EXAMPLES = os.path.join(os.path.dirname(HERE), 'examples')
OWED = {'memory': 7, 'reads': 5, 'writes': 6}


def example(name):
    return os.path.join(EXAMPLES, name)


# A region with a shallow and a deep history, and the longest of the worked journals that leave it and come back by one of them.
TWO_MODES = """pssm-flat 1 / signal Go 0 / signal Out 0 / signal Sh 0 / signal De 0 / signal Fin 0 / class M / object a M / machine M / \
region r0 top / region r1 v1 / region r2 v4 / vertex v0 r0 initial / vertex v1 r0 state S / vertex v2 r0 state T / \
vertex v3 r1 initial / vertex v4 r1 state P / vertex v5 r1 shallowHistory / vertex v6 r1 deepHistory / vertex v7 r1 final / \
vertex v8 r2 initial / vertex v9 r2 state Q1 / vertex v10 r2 state Q2 / transition t0 v0 v1 external / \
transition t1 v3 v4 external / transition t2 v8 v9 external / transition t3 v9 v10 external / on Go / \
transition t4 v1 v2 external / on Out / transition t5 v2 v5 external / on Sh / transition t6 v2 v6 external / on De / \
transition t7 v4 v7 external / on Fin / end"""
SHALLOW = """pssm-journal 1 / post a.Go() / post a.Out() / post a.Sh() / start a / open a r0 default by t0 / effect a t0 / enter a v1 / \
open a r1 default by t1 / effect a t1 / enter a v4 / open a r2 default by t2 / effect a t2 / enter a v9 / take a 1 t3 / exit a v9 / \
effect a t3 / enter a v10 / take a 2 t4 / exit a v10 / exit a v4 / exit a v1 / effect a t4 / enter a v2 / take a 3 t5 / exit a v2 / \
effect a t5 / enter a v1 / open a r1 shallow state v4 / enter a v4 / open a r2 default by t2 / effect a t2 / enter a v9"""
WRITTEN = tempfile.TemporaryDirectory()


def written(name, text):
    """A file with the lines of this text, which stand between slashes."""
    path = os.path.join(WRITTEN.name, name)
    with open(path, 'w') as file:
        file.write(text.replace(' / ', '\n') + '\n')
    return path


COMMANDS = [
    ['judge', example('go.flat'), example('go.journal')],
    ['judge', example('go.flat'), example('go-swapped.journal')],
    ['judge', example('washer.flat'), example('washer.journal')],
    ['judge', example('lamps.xmi'), example('lamps.journal')],
    ['judge', written('two-modes.flat', TWO_MODES), written('shallow.journal', SHALLOW)],
    ['check', example('player-broken.flat')],
    ['flat', example('door.flat')],
    ['flat', example('lamps.xmi')],
    ['flat', example('lamps-extended.xmi')],
    ['run', example('lamps.xmi'), 'hall.Press()', 'hall.Press()'],
    ['run', example('door.flat'), 'door.Open()', 'door.Close()', 'door.Lock(1234)'],
    ['run', '--workers', '4', example('plant.flat'), 'control.Order(2)'],
    ['run', '--limit', '9', example('lamp.flat'), 'hall.Press()'],
    ['gen', '1'],
]


def called(words, environment, output=subprocess.PIPE):
    """The status, what was written, and whether the call that was to fail was made."""
    call = subprocess.run([PROGRAM] + words, env=environment, stdout=output, stderr=subprocess.PIPE)
    return call.returncode, call.stdout, b'failed\n' in call.stderr


def is_answer(words, answer, ended, written):
    """Whether this is the answer with nothing failing: to the byte, or, of several workers, a journal that is accepted."""
    if '--workers' not in words:
        return (ended, written) == answer
    with tempfile.NamedTemporaryFile() as journal:
        journal.write(written)
        journal.flush()
        return ended == answer[0] and called(['judge', example('plant.flat'), journal.name], os.environ)[0] == 0


def try_each(library, words, kind):
    """Lets each call of a kind fail in turn. How many there were, and of them how many changed the answer; and what was wrong."""
    answer = called(words, os.environ)[:2]
    unnamed = sum(os.path.exists(word) for word in words) if kind == 'memory' else 0
    changed, wrong, number = 0, [], 0
    while True:
        number += 1
        environment = dict(os.environ, LD_PRELOAD=library, FAILS=kind, AT=str(number))
        ended, written, made = called(words, environment)
        if not made:
            if not is_answer(words, answer, ended, written):
                wrong.append('%s with nothing failing: status %d' % (kind, ended))
            return number - 1, changed, wrong
        changed += ended == OWED[kind]
        owed = ended == OWED[kind] and (answer[1].startswith(written) if kind == 'writes' else not written)
        if ended == OWED['reads'] and not written and unnamed:
            unnamed -= 1
        elif not owed and not (kind == 'memory' and is_answer(words, answer, ended, written)):
            wrong.append('%s, call %d: status %d, %d bytes' % (kind, number, ended, len(written)))


def shown(words):
    return ' '.join(os.path.basename(word) for word in words)


def try_failures(library):
    """One line for each command and kind; whether all answers are owed."""
    well = True
    for words in COMMANDS:
        for kind in OWED:
            count, changed, wrong = try_each(library, words, kind)
            print('%-52s %-7s %5d calls failed in turn, %5d with status %d' % (shown(words), kind, count, changed, OWED[kind]),
                  flush=True)
            for line in wrong[:5]:
                print('  NOT OWED: ' + line)
            well = well and not wrong and (count > 0 or (words[0], kind) == ('gen', 'reads'))
    return well


# Commands, which of their words is the file that changes, what it holds, and what comes to it.
POSTS = 'pssm-journal 1\n' + 'post a.Go()\n' * 30_000
CHANGED = [
    (['judge', example('go.flat'), 'posts.journal'], POSTS, 'post a.Go()\n' * 1_000),
    (['judge', example('go.flat'), 'posts.journal'], POSTS, 'post b.Go()\n'),
    (['check', 'go.flat'], open(example('go.flat')).read(), 'end\n'),
    (['flat', 'lamps.xmi'], open(example('lamps.xmi')).read(), '<a/>'),
]


def try_change(library, folder, words, text, more, kind):
    """Lets a file become longer or shorter in front of each read in turn; as `try_each`."""
    path, log = os.path.join(folder, words[-1]), os.path.join(folder, 'handed-out')
    words = words[:-1] + [path]
    as_it_is, changed, wrong, number = None, 0, [], 0
    while True:
        number += 1
        for name, bytes_of in ((path, text), (log, '')):
            with open(name, 'w') as file:
                file.write(bytes_of)
        if as_it_is is None:
            as_it_is = called(words, os.environ)[:2]
        ended, written, made = called(words, dict(
            os.environ, LD_PRELOAD=library, FAILS=kind, AT=str(number), FILE=path, MORE=more, LOG=log))
        if called(words[:-1] + [log], os.environ)[:2] != (ended, written):
            wrong.append('%s at read %d: status %d, %r' % (kind, number, ended, written[:60]))
        if not made:
            return number - 1, changed, wrong
        changed += (ended, written) != as_it_is


def try_changes(library, folder):
    """One line for each command and kind of change; whether all answers are owed."""
    well = True
    for words, text, more in CHANGED:
        for kind in ('grows', 'shrinks'):
            count, changed, wrong = try_change(library, folder, words, text, more, kind)
            print('%-52s %-7s %5d times, each in front of one read, %5d with another answer' % (shown(words), kind, count, changed),
                  flush=True)
            for line in wrong[:5]:
                print('  NOT OWED: ' + line)
            well = well and not wrong and count > 0 and changed > 0
    return well


def fed(output, text, size):
    """Writes a text in pieces of this size, as long as it is read."""
    try:
        for first in range(0, len(text), size):
            os.write(output, text[first:first + size])
    except BrokenPipeError:
        pass
    os.close(output)


def through_input(model, text, size):
    """The answer on a journal that comes through standard input, as the script hands on a path `-`."""
    call = subprocess.Popen([PROGRAM, 'judge', model, '/dev/stdin'], stdin=subprocess.PIPE, stdout=subprocess.PIPE)
    fed(os.dup(call.stdin.fileno()), text, size)
    call.stdin.close()
    call.stdin = None
    return call.communicate()[0], call.returncode


def through_named_pipe(model, text, size):
    """The answer on a journal that comes through a named pipe."""
    path = os.path.join(WRITTEN.name, 'pipe')
    os.mkfifo(path)
    call = subprocess.Popen([PROGRAM, 'judge', model, path], stdout=subprocess.PIPE)
    feeding = threading.Thread(target=lambda: fed(os.open(path, os.O_WRONLY), text, size), daemon=True)
    feeding.start()
    answer = call.communicate()[0]
    feeding.join(60)
    os.remove(path)
    return answer, call.returncode


def try_pipes():
    """One line for each way, journal and size of the pieces; whether the answer is that on a file."""
    well = True
    journals = [('go.journal', (1, 7, 65_536)), ('go-swapped.journal', (1, 65_536)), ('30,000 posts', (1_000, 65_536, 1 << 20))]
    for name, sizes in journals:
        path = example(name)
        if not os.path.exists(path):
            path = os.path.join(WRITTEN.name, name)
            with open(path, 'w') as file:
                file.write(POSTS)
        with open(path, 'rb') as file:
            text = file.read()
        owed = called(['judge', example('go.flat'), path], os.environ)[:2]
        for way, through in (('standard input', through_input), ('a named pipe', through_named_pipe)):
            for size in sizes:
                answer, status = through(example('go.flat'), text, size)
                print('%-52s status %d, %s' % ('%s through %s, %d at a time' % (name, way, size), status, answer.decode().strip()), flush=True)
                if (status, answer) != owed:
                    print('  NOT OWED: status %d, %r' % owed)
                    well = False
    return well


def closed_pipe():
    """The writing end of a pipe that nobody reads."""
    reading, writing = os.pipe()
    os.close(reading)
    return writing


def try_devices():
    """A full device, a pipe that is closed, a folder and a missing file."""
    judged = COMMANDS[0]
    well = True
    with open('/dev/full', 'wb') as full:
        outputs = (('a full device', full, 6), ('a closed pipe', closed_pipe(), 6))
        for name, output, owed in outputs:
            status = called(judged, os.environ, output)[0]
            print('%-52s status %d' % (name, status))
            well = well and status == owed
    for name, path in (('a folder as journal', EXAMPLES), ('a journal that is not there', example('none.journal'))):
        status, written, _ = called(judged[:2] + [path], os.environ)
        print('%-52s status %d' % (name, status))
        well = well and status == 5 and not written
    return well


def main():
    need_program()
    with tempfile.TemporaryDirectory() as folder:
        library = os.path.join(folder, 'failures.so')
        subprocess.run(['cc', '-O2', '-shared', '-fPIC', '-o', library, os.path.join(HERE, 'failures.c'), '-ldl'], check=True)
        well = [try_failures(library), try_changes(library, folder), try_devices(), try_pipes()]
    sys.exit(0 if all(well) else 1)


if __name__ == '__main__':
    main()
