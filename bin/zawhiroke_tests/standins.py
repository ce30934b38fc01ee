"""A small repository with stand-ins for rt and for the program, in which the script is tried."""
import hashlib
import os
import shutil
import subprocess
import sys
import tempfile
import time
import unittest

BIN = os.path.dirname(os.path.dirname(os.path.realpath(__file__)))
ROOT = os.path.dirname(BIN)

# It "builds" in a while: beside it works a prover, in a process group of its own as those of rt do.
RT = '''#!/bin/sh
case $1 in
    version) echo 'rattle-kit-standin logic 0'; exit ;;
    try) shift 2; "$STANDIN/program" "$@"; status=$?
         [ -e "$STANDIN/breaks" ] && exit 3
         sleep "${STANDIN_SECONDS-0}"
         echo "run=ended status=$status steps=1 proved=no" >&2; exit $status ;;
esac
set -m
sleep 300 & prover=$!
echo $$ $prover >> "$STANDIN/processes"
echo build >> "$STANDIN/builds"
echo 'rt: chose --jobs 1 for low' >&2
echo 'so far: 3 of 5 functions' >&2
sleep "${STANDIN_SECONDS-1}"
echo 'rt: chose --jobs 1 for zawhiroke' >&2
kill $prover
[ ! -e "$STANDIN/breaks" ] || { echo 'error: a proof is missing' >&2; exit 1; }
mkdir -p out && cp "$STANDIN/program" out/zawhiroke.new && mv out/zawhiroke.new out/zawhiroke
exec out/zawhiroke
'''

# It answers what the test laid down, of a journal what stands beside it.
PROGRAM = '''#!/bin/sh
[ $# -gt 0 ] || { echo usage; exit 2; }
answer=$STANDIN/answer
[ "$1" != judge ] || [ ! -e "$3.answer" ] || answer=$3.answer
[ "$1" != flat ] || [ ! -e "$STANDIN/flat" ] || answer=$STANDIN/flat
[ ! -e "$STANDIN/words" ] || printf '%s\\n' "$@" > "$STANDIN/words"
read -r status < "$answer"
tail -n +2 "$answer"
[ ! -e "$STANDIN/slow" ] || { echo $$ > "$STANDIN/slow"; exec sleep 300; }
exit "$status"
'''


class Repository:
    """A copy of the script over a small tree of sources."""

    def __init__(self):
        self.root = tempfile.mkdtemp(prefix='zawhiroke-test-')
        self.out = self.path('crates/zawhiroke/out')
        shutil.copytree(BIN, self.path('bin'), symlinks=True, ignore=shutil.ignore_patterns('__pycache__'))
        os.symlink(ROOT + '/examples', self.path('examples'))
        self.write('crates.txt', 'low:\nunused:\nzawhiroke: low\n')
        self.write('crates/low/src/lib.rt', '// low\n')
        self.write('crates/low/proofs/a/A.antt', '-- a\n')
        self.write('crates/zawhiroke/src/main.rt', '// top\n')
        self.write('standin/program', PROGRAM, 0o755)
        self.write('standin/path/rt', RT, 0o755)
        self.write('standin/none/nothing', '')
        self.answer('accept 9', 0)
        if 'TEST_PYTHON' in os.environ:
            script = self.read('bin/zawhiroke').replace('/usr/bin/python3', os.environ['TEST_PYTHON'])
            self.write('bin/zawhiroke', script, 0o755)

    def path(self, name):
        """The path of a file in it."""
        return os.path.join(self.root, name)

    def write(self, name, text, mode=0o644):
        """Writes a file."""
        path = self.path(name)
        os.makedirs(os.path.dirname(path), exist_ok=True)
        with open(path, 'wb') as file:
            file.write(text if isinstance(text, bytes) else text.encode())
        os.chmod(path, mode)
        return path

    def read(self, name):
        """The text of a file, or nothing."""
        try:
            with open(self.path(name)) as file:
                return file.read()
        except FileNotFoundError:
            return ''

    def answer(self, text, status, name='standin/answer'):
        """Lays down what the stand-in program answers."""
        self.write(name, '%d\n%s\n' % (status, text) if text else '%d\n' % status)

    def start(self, *words, has_rt=True, script='bin/zawhiroke', **how):
        """Starts the script."""
        path = self.path('standin/path' if has_rt else 'standin/none') + ':/usr/bin:/bin'
        variables = dict(os.environ, PATH=path, STANDIN=self.path('standin'), **how.pop('variables', {}))
        how = {'stdout': subprocess.PIPE, 'stderr': subprocess.PIPE, 'stdin': subprocess.DEVNULL, 'cwd': self.root,
               **how}
        return subprocess.Popen([self.path(script), *words], env=variables, **how)

    def run(self, *words, **how):
        """What the script says on these words: its status, its answer, and what it says of it."""
        given = how.pop('given', None)
        if given is not None:
            how['stdin'] = subprocess.PIPE
        process = self.start(*words, **how)
        out, errors = process.communicate(given, timeout=180)
        return process.returncode, (out or b'').decode(), (errors or b'').decode()

    def build(self):
        """Lays the program and its seal there, as a build does."""
        status, _, errors = self.run('check', 'examples/go.flat', variables={'STANDIN_SECONDS': '0'})
        if status != 0:
            raise AssertionError(errors)

    def seal(self):
        """Seals what stands there as the program, whatever it is."""
        with open(self.out + '/zawhiroke', 'rb') as file:
            digest = hashlib.sha256(file.read()).hexdigest()
        note = self.read('crates/zawhiroke/out/zawhiroke.sealed').splitlines()
        note[1] = 'program ' + digest
        self.write('crates/zawhiroke/out/zawhiroke.sealed', '\n'.join(note) + '\n')

    def builds(self):
        """How often rt was asked to build."""
        return self.read('standin/builds').count('build')

    def processes(self):
        """The processes of the stand-in for rt, and those it started, that are there still."""
        return [int(number) for number in self.read('standin/processes').split() if is_alive(int(number))]

    def end(self):
        """Removes it."""
        shutil.rmtree(self.root)


def is_alive(number):
    """Whether the process is there and works."""
    try:
        with open('/proc/%d/stat' % number) as file:
            return file.read().rpartition(') ')[2][0] not in 'ZX'
    except OSError:
        return False


def wait_until(holds, seconds=10):
    """Waits until it holds; whether it does."""
    until = time.monotonic() + seconds
    while not holds():
        if time.monotonic() > until:
            return False
        time.sleep(0.02)
    return True


if sys.version_info < (3, 8):
    raise SystemExit('the tests take Python 3.8 or later')


class InRepository(unittest.TestCase):
    """A test with a repository of its own."""

    def setUp(self):
        self.repository = Repository()
        self.addCleanup(self.repository.end)
        self.run_words = self.repository.run

    def check(self, ran, status, answer, *said):
        """Checks status and answer of a call, and that standard error has these texts, on one line or several."""
        self.assertEqual((ran[0], ran[1]), (status, answer), ran[2])
        for text in said:
            if text not in ' '.join(ran[2].split()):
                self.assertIn(text, ran[2])
