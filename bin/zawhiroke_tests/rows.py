"""The cases of crates/pssm_rows/data: files, words, and the status and text that the program owes.

The head of crates/pssm_rows/src/main.rt has the lines of these files. What is given as made from the answer before, or tried
many times, is left out here.
"""
import functools
import glob
import re

from standins import ROOT

DATA = ROOT + '/crates/pssm_rows/data/*.rows'
ESCAPE = re.compile(rb'\\\{(\d+)\}(\\x[0-9a-f]{2}|.)|\\x([0-9a-f]{2})|\\(\\)|\\(?:\+(\d+))?#', re.S)
LINES = re.compile(r'(?:(\d+) )?(?:from (\d+) )?\| ?(.*)', re.S)


def spelled(text, number):
    """The bytes that a text with escapes spells."""
    def one(found):
        times, what, code, slash, more = found.groups()
        if times is not None:
            return int(times) * spelled(what.decode('latin-1'), number)
        if code is not None:
            return bytes([int(code, 16)])
        return slash or b'%d' % (number + int(more or 0))

    return ESCAPE.sub(one, text.encode('utf-8'))


def text_lines(line):
    """The bytes of a text line."""
    times, first, text = LINES.fullmatch(line).groups()
    is_open = text.endswith('\\') and not text.endswith('\\\\')
    text, end = (text[:-1], b'') if is_open else (text, b'\n')
    return b''.join(spelled(text, int(first or 0) + number) + end for number in range(int(times or 1)))


class Draft:
    """A file that is being given: lines of another, and text lines in the place of some of them."""

    def __init__(self, base):
        self.base, self.passed, self.parts = base.splitlines(True), 0, []

    def replace(self, first, last):
        """What is put next stands in the place of these lines of the other."""
        self.parts += self.base[self.passed:first - 1]
        self.passed = last

    def put(self, text):
        """Puts text lines."""
        self.parts.append(text)

    def whole(self):
        """The file."""
        return b''.join(self.parts + self.base[self.passed:])


class Run:
    """A run: its words, the files that are there, and the status and text that it is owed."""

    def __init__(self, words, files):
        self.words, self.files, self.status, self.answer = words, files, None, b''


class Reader:
    """Reads one file of cases."""

    def __init__(self, path):
        self.shared, self.own, self.runs = {}, None, []
        self.name = self.draft = None
        self.waiting, self.owed = [], []
        self.is_plain = True
        with open(path, encoding='utf-8') as file:
            for line in file.read().split('\n'):
                if line and line[0] != '#':
                    self.read(line)

    def files(self):
        """The files that are there."""
        return {**self.shared, **(self.own or {})}

    def read(self, line):
        """Reads a line."""
        kind, _, rest = line.partition(' ')
        if LINES.fullmatch(line):
            self.put(text_lines(line))
        elif kind == '+':
            self.put(self.files()[rest])
        elif kind in ('line', 'lines'):
            numbers = [int(word) for word in rest.split(' ')]
            self.draft.replace(numbers[0], numbers[-1])
        else:
            self.close()
            self.begin(kind, rest)

    def put(self, text):
        """Puts text lines into the file that is open, or into what is owed."""
        if self.draft:
            self.draft.put(text)
        for run in self.owed:
            run.answer += text

    def close(self):
        """Ends the file or the answer that is open."""
        if self.draft:
            (self.shared if self.own is None else self.own)[self.name] = self.draft.whole()
        self.draft, self.owed = None, []

    def begin(self, kind, rest):
        """Begins a file, a case, a run or an answer. A case that is tried often, or with reads that fail, is left out."""
        if kind == 'file':
            self.name, _, other = rest.partition(' like ')
            self.draft = Draft(self.files()[other] if other else b'')
        elif kind == 'case':
            self.own, self.waiting, self.is_plain = {}, [], True
        elif kind in ('each', 'failing'):
            self.is_plain = False
        elif kind == 'run' and self.is_plain:
            self.waiting.append(Run([spelled(word, 0) for word in rest.split(' ')] if rest else [], self.files()))
        elif kind == 'status':
            if rest.isdigit():
                self.owed = self.waiting
                for run in self.owed:
                    run.status = int(rest)
                self.runs += self.owed
            self.waiting = []


@functools.lru_cache(maxsize=None)
def all_runs():
    """Each run of all files of cases."""
    return [run for path in sorted(glob.glob(DATA)) for run in Reader(path).runs]
