"""What is answered at once, without a program and without rt."""
import os
import unittest

from standins import InRepository
from words import COMMANDS, Call, call_of

# Words that the program understands, one call a line, and words to which it answers `usage`.
GOOD = '''judge M J
judge  J
check M
check --M
flat M
run M
run M a.Go()
run --seed 0 M
run --seed 18446744073709551615 --workers 16 --limit 1000000 M a.Go() b.Set(1,-2,0)
run --limit 0 M
run --workers 1 M
run --workers=16 M a.Go()
run --workers 4 -- M a.Go()
run M _a1.B_(-9223372036854775808,9223372036854775807)
run M a.Go(1,2,3,4,5,6,7,8)
run --limit 1 --seed 1 M
run --seed=1 M
run M --limit=9
run M a.Go() --workers 2 a.Go() --seed=0
run -
run --limit 9 - a.Go()
run -- M a.Go()
run M -- a.Go()
run --limit=9 -- --limit a.Go()
run M --
gen 1
gen 4000'''.split('\n')
BAD = '''judge
judge M
judge M J K
jugde M J
check
check M N
flat
flat M N
gen
gen 0
gen 03
gen +3
gen 4001
gen 40000000
gen 3 3
gen M
Judge M J
 judge M J
run
run --seed
run --seed 1
run --seed 01 M
run --seed -1 M
run --seed 18446744073709551616 M
run --seed  M
run --seed +1 M
run --workers 0 M
run --workers 17 M
run --workers x M
run --workers 01 M
run --workers -1 M
run --workers
run --workers= M
run --workers 2 M --workers 2
run --workers=1 --workers=4 M
run --worker 2 M
run --limit 1000001 M
run --seed= M
run --seed=01 M
run --seed=1=1 M
run --seed -- M
run --seed - M
run --seed 1 --seed 1 M
run --seed=1 M --seed=1
run M --limit
run --lim=9 M
run -limit=9 M
run --=9 M
run --help
run -h M
run -V M
run M --version
run -5 M
run --workers 1 -M
run --
run M -- --limit=9
run -- M -- a.Go()
run M a.Go
run M Go()
run M a.b.Go()
run M a.Go(1,)
run M a.Go(-0)
run M a.Go(01)
run M a.Go(1.5)
run M a.Go( 1)
run M a.Go(1,2,3,4,5,6,7,8,9)
run M a.Go(9223372036854775808)
run M 1a.Go()
run M a.Gö()
run M a.Go())'''.split('\n')
BAD += ['run M a.Go() ', 'run M a.%s()' % ('x' * 65), 'run M a.Go(\u0661)']


class Understood(unittest.TestCase):
    """Which words mean something."""

    def test_good_words(self):
        for words in GOOD:
            self.assertIsInstance(call_of(words.split(' ')), Call, words)

    def test_bad_words(self):
        for words in BAD:
            self.assertIsInstance(call_of(words.split(' ')), str, words)
        self.assertIsInstance(call_of([]), str)
        self.assertIsInstance(call_of(['run', 'M', '']), str)

    def test_places_of_paths(self):
        call = call_of('run --seed 3 --limit 5 3 a.Go()'.split(' '))
        self.assertEqual((list(call.places), call.paths, call.stimuli), ([5], ['3'], ['a.Go()']))
        call = call_of('run --seed=3 M a.Go() --limit 5 -- b.Go()'.split(' '))
        self.assertEqual((list(call.places), call.paths, call.stimuli), ([2], ['M'], ['a.Go()', 'b.Go()']))
        call = call_of('run --limit 5 -- --seed a.Go()'.split(' '))
        self.assertEqual((list(call.places), call.paths, call.stimuli), ([4], ['--seed'], ['a.Go()']))
        self.assertEqual(call_of(['judge', 'M', 'J']).paths, ['M', 'J'])


class AtOnce(InRepository):
    """What needs no program is answered before rt is looked for."""

    def at_once(self, words, status, answer, *said):
        """Tries words where neither rt nor a program is there."""
        self.check(self.run_words(*words, has_rt=False), status, answer, *said)
        self.assertFalse(os.path.exists(self.repository.out))

    def test_wrong_words(self):
        self.at_once([], 2, 'usage\n', 'there is no command\n  the words are one of these:\n    judge MODEL JOURNAL')
        self.at_once(['jugde', 'M', 'J'], 2, 'usage\n', 'there is no command jugde; is it judge')
        self.at_once(['judge', 'M'], 2, 'usage\n', 'judge takes two words, MODEL and JOURNAL, and one is given')
        self.at_once(['check', '--strict', 'M'], 2, 'usage\n')
        self.at_once(['--verbose', 'check', 'M'], 2, 'usage\n', 'there is no option --verbose')
        self.at_once(['run', '--limit', 'x', 'M'], 2, 'usage\n', '--limit takes a number from 0 to 1000000')
        self.at_once(['run', '--limit=5', 'M', '--limit=5'], 2, 'usage\n', '--limit stands twice')
        self.at_once(['run', '--workers', '17', 'M'], 2, 'usage\n', '--workers takes a number from 1 to 16')
        self.at_once(['run', '--workers=0', 'M'], 2, 'usage\n', '--workers takes a number from 1 to 16')
        self.at_once(['run', '--workers', '2', 'M', '--workers=2'], 2, 'usage\n', '--workers stands twice')
        self.at_once(['run', '--lim=5', 'M'], 2, 'usage\n', 'run has no option --lim')
        self.at_once(['run', '--seed', '5'], 2, 'usage\n', 'run takes a MODEL')
        self.at_once(['run', 'M', 'door.Open'], 2, 'usage\n', 'door.Open is no stimulus')
        self.at_once(['check', b'\xff'], 2, 'usage\n', 'a word is not UTF-8')
        self.at_once(['--install'], 2, 'usage\n')
        self.at_once(['judge-all'], 2, 'usage\n')
        self.at_once(['--try'], 2, 'usage\n')
        self.at_once(['--try', 'judge', 'M'], 2, 'usage\n')
        self.at_once(['--try', 'judge-all', 'M', 'J'], 2, 'usage\n')

    def test_quiet(self):
        for words in (['jugde'], ['check', 'none'], []):
            status, _, errors = self.run_words('--quiet', *words, has_rt=False)
            self.assertEqual((status in (2, 5), errors), (True, ''))

    def test_files_that_cannot_be_read(self):
        self.at_once(['check', 'none'], 5, '', 'there is no file of this path: none')
        self.at_once(['check', 'bin'], 5, '', 'this path is a folder: bin')
        self.at_once(['flat', ''], 5, '', 'there is no file of this path: ')
        self.at_once(['judge', 'examples/go.flat', 'none'], 5, '', 'there is no file of this path: none')
        self.at_once(['run', '--seed', '3', 'none', 'a.Go()'], 5, '', 'there is no file of this path: none')
        self.at_once(['judge-all', 'none', 'J'], 5, '', 'there is no file of this path: none')
        self.at_once(['--try', 'check', 'none'], 5, '', 'there is no file of this path: none')

    @unittest.skipIf(os.geteuid() == 0, 'root may read everything')
    def test_file_that_may_not_be_read(self):
        self.repository.write('closed', 'pssm-flat 1\n', 0)
        self.at_once(['check', 'closed'], 5, '', 'this file may not be read: closed')

    def test_help(self):
        for word in ('--help', '-h', 'help'):
            status, answer, errors = self.run_words(word, has_rt=False)
            self.assertEqual((status, errors), (0, ''))
            for name, rest, _, example in COMMANDS:
                self.assertIn('%s %s' % (name, rest), answer)
                self.assertIn('$ bin/zawhiroke ' + example, answer)
            self.assertIn('--workers  1 to 16, without it 1: ', answer)
            self.assertIn('--limit    0 to 1000000, without it 10000: ', answer)
            self.assertIn('--seed     0 to 18446744073709551615, without it 0: ', answer)

    def test_version_without_anything(self):
        status, answer, _ = self.run_words('--version', has_rt=False)
        self.assertEqual(status, 0)
        self.assertRegex(answer, r'^commit unknown\nkit unknown\nsources [0-9a-f]{64}\nprogram not built\n$')

    def test_no_rt(self):
        self.check(self.run_words('check', 'examples/go.flat', has_rt=False), 69, '', 'there is no rt on the path')
        self.check(self.run_words('--program', has_rt=False), 69, '', 'there is no rt on the path')
        self.check(self.run_words('--try', 'check', 'examples/go.flat', has_rt=False), 69, '',
                   'there is no rt on the path')
