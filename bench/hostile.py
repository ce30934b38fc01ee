#!/usr/bin/env python3
"""How long `check` and `judge` take, and how much memory, on files that are made to do harm, most of them at the limit of 16 MiB.

Run it at the top of the repository after the program is built: python3 bench/hostile.py
It writes its files into a temporary folder, and prints a line for each: bytes, seconds, bytes per second, peak memory, and the
answer. Each answer is looked at: it is the one that docs/FORMATS.md owes.

Where there is a C compiler `cc` it builds alike.c, which finds names whose hashes begin alike, and tries files of them too. Marks are
found by their hashes, which have no key; the ids of a model file are compared in an ordered map, so that no choice of ids slows it.
"""
import os
import shutil
import subprocess
import tempfile

from measure import PROGRAM, measure, need_program, report

HERE = os.path.dirname(os.path.abspath(__file__))
MOST = 16 << 20
XMI = b'<uml:Model xmlns:xmi="http://www.omg.org/spec/XMI/20131001" xmi:id="m">'
END = b'</uml:Model>'
GO = b'pssm-flat 1\nsignal Go 0\nclass M\nobject a M\nmachine M\nregion r0 top\nvertex v0 r0 initial\nvertex v1 r0 state\n' \
     b'transition t0 v0 v1 external\ntransition t1 v1 v1 external\non Go\nend\n'
JOURNAL = b'pssm-journal 1\n'
FIT = 'well formed'


def filled(front, piece, back, size=MOST):
    """The front, as many pieces as there is room for, and the back."""
    return front + piece * ((size - len(front) - len(back)) // len(piece)) + back


def numbered(front, piece, back, count):
    """The front, so many pieces, each with its number, and the back."""
    return front + b''.join(piece % number for number in range(count)) + back


def models():
    """For each model file: its name, its bytes, the status and the first line that are owed."""
    yield 'one tag after another, none closed', filled(b'', b'<a>', b''), 3, 'xmi byte %d TooDeep' % (128 * 3)
    yield 'only <', b'<' * MOST, 3, 'xmi byte 0 Malformed'
    yield 'one attribute', filled(XMI[:-1] + b' name="', b'a', b'"/>'), 0, 'well formed'
    yield 'one comment', filled(XMI + b'<!--', b'a', b'-->' + END), 0, 'well formed'
    yield 'one text', filled(XMI, b'a', END), 0, 'well formed'
    yield 'one reference after another', filled(XMI, b'&lt;', END), 0, 'well formed'
    yield '2,000,000 small elements', XMI + b'<a></a>' * 2_000_000 + END, 0, 'well formed'
    yield '4,000,000 small elements', XMI + b'<a/>' * 4_000_000 + END, 0, 'well formed'
    yield 'attributes of one element', numbered(XMI[:-1], b' a%d=""', b'/>', 1_300_000), 0, 'well formed'
    yield 'the same attribute again and again', filled(XMI[:-1], b' a=""', b'/>'), 3, 'xmi byte 0 Malformed'
    yield '500,000 different ids', numbered(XMI, b'<a xmi:id="%d"/>', END, 500_000), 0, 'well formed'
    ids = numbered(XMI, b'<a xmi:id="%d"/>', b'', 500_000)
    yield 'the same id at the end', ids + b'<a xmi:id="7"/>' + END, 3, 'xmi byte %d DoubleId' % len(ids)
    signal = b'<packagedElement xmi:type="uml:Signal" xmi:id="s%d" name="S"/>'
    yield 'signals of one name', numbered(XMI, signal, END, 200_000), 3, 'xmi byte %d Unsupported DoubleName' % len(XMI + signal % 0)
    yield 'one line of a flat text', filled(b'pssm-flat 1\nsignal ', b'a', b''), 3, 'flat line 2 bad line'
    yield 'lines of a flat text', filled(b'pssm-flat 1\n', b'signal G 0\n', b''), 3, 'flat line 3 bad line'
    yield 'one byte past 16 MiB', b'p' * (MOST + 1), 9, 'too large'


def flat(signals=(), variables=(), regions=(), vertices=(), transitions=(), name=b'M', others=(), objects=()):
    """A flat text of one class with its machine, whose top region has an initial vertex and a State, and what is put to it."""
    lines = [b'pssm-flat 1', b'signal Go 0', *signals, b'class ' + name, *others, b'object a ' + name, *objects, b'machine ' + name,
             *variables, b'region r0 top', *regions, b'vertex v0 r0 initial', b'vertex v1 r0 state', *vertices, b'transition t0 v0 v1 external', *transitions,
             *(b'machine C%d\nregion r0 top\nvertex v0 r0 initial\nvertex v1 r0 state\ntransition t0 v0 v1 external' % k for k in range(len(others))), b'end']
    return b'\n'.join(lines) + b'\n'


def each(line, first, count):
    """So many lines, with the numbers from the first on."""
    return [line.replace(b'#', b'%d' % number) for number in range(first, first + count)]


def nested(count):
    """So many regions in one another under the top region: the regions, and in each an initial vertex and a State."""
    regions = [b'region r%d v%d' % (k + 1, 2 * k + 1) for k in range(count)]
    vertices = [b'vertex v%d r%d initial' % (2 * k, k) for k in range(1, count + 1)]
    states = [b'vertex v%d r%d state' % (2 * k + 1, k) for k in range(1, count + 1)]
    both = [line for pair in zip(vertices, states) for line in pair]
    return dict(regions=regions, vertices=both, transitions=[b'transition t%d v%d v%d external' % (k, 2 * k, 2 * k + 1) for k in range(1, count + 1)])


def stepped(count):
    """A flat text with so many behaviours of one machine beside the empty one, each a do step; a State has 64 of them."""
    vertices = []
    for first in range(0, count, 64):
        vertices += each(b'vertex v# r0 state', 2 + first // 64, 1) + each(b'step x := #;', first, min(64, count - first))
    return flat(variables=[b'var x 0'], vertices=vertices)


def marked(names):
    """A flat text with marks of these names, 64 in the entry behaviour of a State."""
    vertices = []
    for first in range(0, len(names), 64):
        vertices += each(b'vertex v# r0 state', 2 + first // 64, 1)
        vertices.append(b'entry ' + b' '.join(b'mark ' + name + b'();' for name in names[first:first + 64]))
    return flat(vertices=vertices)


def argued(what, count):
    """A flat text with a signal of eight parameters and an entry behaviour of one statement with so many arguments."""
    return flat(signals=[b'signal S 8'], vertices=[b'entry %s(%s);' % (what, b', '.join([b'1'] * count))])


def at_limits():
    """For each limit of a flat text: its name, the text that has as much, and one that has one more, with the line that is owed for it."""
    loops = each(b'transition t# v1 v1 external\non Go', 1, 8191)
    guarded = [b'transition t1 v1 v1 external', b'on Go']
    yield '4,096 vertices', flat(vertices=each(b'vertex v# r0 state', 2, 4094)), FIT
    yield '4,097 vertices', flat(vertices=each(b'vertex v# r0 state', 2, 4095)), 'flat line 4103 shape TooMany'
    yield '1,024 regions', flat(regions=each(b'region r# v1', 1, 1023)), FIT
    yield '1,025 regions', flat(regions=each(b'region r# v1', 1, 1024)), 'flat line 1030 shape TooMany'
    yield '8,192 transitions', flat(transitions=loops), FIT
    yield '8,193 transitions', flat(transitions=loops + each(b'transition t# v1 v1 external\non Go', 8192, 1)), 'flat line 16392 shape TooMany'
    yield '32 regions in one another', flat(**nested(31)), FIT
    yield '33 regions in one another', flat(**nested(32)), 'flat line 103 shape TooDeep'
    yield '64 classes', flat(others=each(b'class C#', 0, 63)), FIT
    yield '65 classes', flat(others=each(b'class C#', 0, 64)), 'flat line 67 bad line'
    yield '64 objects', flat(objects=each(b'object o# M', 0, 63)), FIT
    yield '65 objects', flat(objects=each(b'object o# M', 0, 64)), 'flat line 68 bad line'
    yield '256 signals', flat(signals=each(b'signal S# 0', 0, 255)), FIT
    yield '257 signals', flat(signals=each(b'signal S# 0', 0, 256)), 'flat line 258 bad line'
    yield '8 parameters', flat(signals=[b'signal S 8']), FIT
    yield '9 parameters', flat(signals=[b'signal S 9']), 'flat line 3 bad line'
    yield '8 arguments of a send', argued(b'send self.S', 8), FIT
    yield '9 arguments of a send', argued(b'send self.S', 9), 'flat line 10 act Arity byte 37'
    yield '8 arguments of a mark', argued(b'mark m', 8), FIT
    yield '9 arguments of a mark', argued(b'mark m', 9), 'flat line 10 act Arity byte 32'
    yield '64 variables', flat(variables=each(b'var x# 0', 0, 64)), FIT
    yield '65 variables', flat(variables=each(b'var x# 0', 0, 65)), 'flat line 70 bad line'
    yield '64 do steps', flat(variables=[b'var x 0'], vertices=each(b'step x := #;', 0, 64)), FIT
    yield '65 do steps', flat(variables=[b'var x 0'], vertices=each(b'step x := #;', 0, 65)), 'flat line 74 bad line'
    yield '32,768 behaviours, the empty one counted', stepped(32_767), FIT
    yield '32,769 behaviours', stepped(32_768), 'flat line 33289 bad line'
    yield '32,768 marks', marked(each(b'm#', 0, 32_768)), FIT
    yield '32,769 marks', marked(each(b'm#', 0, 32_769)), 'flat line 1034 bad line'
    yield '64 statements in each of 8,191 effects', flat(transitions=[line + b'\neffect ' + b' '.join([b'mark m();'] * 64) for line in loops]), FIT
    yield '65 statements', flat(vertices=[b'entry ' + b' '.join([b'mark m();'] * 65)]), 'flat line 9 act TooLong byte 640'
    yield 'a text of 4,096 bytes', flat(transitions=guarded + [b'if ' + b'!' * 4092 + b'true']), FIT
    yield 'a text of 4,097 bytes', flat(transitions=guarded + [b'if ' + b'!' * 4093 + b'true']), 'flat line 12 act TooLong byte 0'
    yield 'a name of 64 letters', flat(name=b'x' * 64), FIT
    yield 'a name of 65 letters', flat(name=b'x' * 65), 'flat line 3 bad line'


def alike(folder):
    """The same of texts of names whose hashes begin alike: 32,768 names of eight letters that a table of 4,096 groups seeks from one group on."""
    if shutil.which('cc') is None:
        print('no C compiler cc: texts of names whose hashes begin alike are left out', flush=True)
        return
    tool = os.path.join(folder, 'alike')
    subprocess.run(['cc', '-O2', '-o', tool, os.path.join(HERE, 'alike.c')], check=True)
    names = subprocess.run([tool, '32768', '12'], check=True, stdout=subprocess.PIPE).stdout.split()
    yield '32,768 marks of eight letters', marked(each(b'mmm#', 10_000, 32_768)), FIT
    yield '32,768 marks whose hashes begin alike', marked(names), FIT
    yield '32,768 such ids', XMI + b''.join(b'<a xmi:id="%s"/>' % name for name in names) + END, FIT


def journals():
    """For each journal: its name, its bytes, the status and the line that are owed."""
    post = b'post a.Go()\n'
    yield 'posts, to the limit of entries', JOURNAL + post * 1_000_000, 0, 'accept 1000000'
    yield 'one post more', JOURNAL + post * 1_000_001, 8, 'limit 1000001'
    yield 'one line', filled(JOURNAL + b'take a 1', b' t0', b''), 9, 'too large'
    yield 'a line at the limit', JOURNAL + b'take a 1' + b' t0' * 21_840 + b' t10' * 2 + b'\n', 1, 'refuse 1 A1'
    yield 'line feeds', filled(JOURNAL, b'\n', b''), 4, 'journal line 2 byte 1'
    yield 'one byte past 16 MiB', filled(JOURNAL, post, post, MOST + len(post)), 9, 'too large'


def try_file(name, size, words, status, owed):
    """One line on a file, and whether the answer is owed."""
    call = subprocess.run([PROGRAM] + words, stdout=subprocess.PIPE, stderr=subprocess.DEVNULL)
    answer = call.stdout.decode().partition('\n')[0]
    seconds, memory = measure(words, wanted=call.returncode)
    report(name, size, seconds, memory, 'bytes')
    well = call.returncode == status and answer == owed
    print('    status %d, %s%s' % (call.returncode, answer, '' if well else '   NOT OWED: status %d, %s' % (status, owed)), flush=True)
    return well


def main():
    need_program()
    well = True
    with tempfile.TemporaryDirectory() as folder:
        path, model = os.path.join(folder, 'hostile'), os.path.join(folder, 'model.flat')
        for name, text, status, owed in models():
            with open(path, 'wb') as file:
                file.write(text)
            well = try_file(name, len(text), ['check', path], status, owed) and well
        for texts in (at_limits(), alike(folder)):
            for name, text, owed in texts:
                with open(path, 'wb') as file:
                    file.write(text)
                well = try_file(name, len(text), ['check', path], 0 if owed == FIT else 3, owed) and well
        with open(model, 'wb') as file:
            file.write(GO)
        for name, text, status, owed in journals():
            with open(path, 'wb') as file:
                file.write(text)
            well = try_file(name, len(text), ['judge', model, path], status, owed) and well
    return 0 if well else 1


if __name__ == '__main__':
    raise SystemExit(main())
