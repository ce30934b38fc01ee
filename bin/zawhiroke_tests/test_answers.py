"""What goes through the script: words, paths, standard input and output, statuses; and the unproved program."""
import os
import subprocess

from standins import InRepository


class Through(InRepository):
    """A program that is built, and what it is given and answers."""

    def setUp(self):
        super().setUp()
        self.repository.build()

    def test_statuses_and_output(self):
        for status in (0, 1, 2, 3, 4, 5, 6, 7, 8, 9):
            self.repository.answer('some answer', status)
            self.assertEqual(self.run_words('--quiet', 'flat', 'examples/go.flat'), (status, 'some answer\n', ''))

    def test_words(self):
        self.repository.write('standin/words', '')
        words = ['run', '--seed', '7', 'examples/go.flat', 'a.Set(1,-2)', 'a.Go()']
        self.run_words(*words)
        self.assertEqual(self.repository.read('standin/words').splitlines(), words)

    def test_wrong_words_are_the_program_s(self):
        self.repository.answer('usage', 2)
        self.check(self.run_words('jugde'), 2, 'usage\n', 'there is no command jugde')

    def test_long_answer(self):
        self.repository.answer('x' * 3000000, 0)
        self.assertEqual(self.run_words('flat', 'examples/go.flat')[1], 'x' * 3000000 + '\n')

    def test_full_device(self):
        with open('/dev/full', 'w') as full:
            status, _, errors = self.run_words('check', 'examples/go.flat', stdout=full)
        self.assertEqual(status, 6)
        self.assertIn('the answer cannot be written: No space left on device', errors)

    def test_closed_pipe(self):
        self.repository.answer('x' * 3000000, 0)
        call = self.repository.start('flat', 'examples/go.flat')
        self.assertEqual(call.stdout.read(5), b'xxxxx')
        call.stdout.close()
        self.assertIn(b'Broken pipe', call.stderr.read())
        self.assertEqual(call.wait(timeout=10), 6)
        call.stderr.close()

    def test_closed_files(self):
        script = self.repository.path('bin/zawhiroke')
        variables = dict(os.environ, STANDIN=self.repository.path('standin'))
        for closed, status in (('>&-', 6), ('2>&-', 0), ('<&-', 0), ('<&- >&- 2>&-', 6)):
            ran = subprocess.run('%s check examples/go.flat %s' % (script, closed), shell=True,
                                 cwd=self.repository.root,
                                 env=variables, stdout=subprocess.PIPE, stderr=subprocess.PIPE)
            self.assertEqual(ran.returncode, status, closed)

    def test_standard_input(self):
        self.repository.write('standin/program', '#!/bin/sh\n[ $# -gt 0 ] || { echo usage; exit 2; }\ncat "$2"\n',
                              0o755)
        self.repository.write('crates/low/src/lib.rt', '// built anew\n')
        self.repository.build()
        self.assertEqual(self.run_words('check', '/dev/stdin', given=b'pssm-flat 1\n')[1], 'pssm-flat 1\n')
        self.assertEqual(self.run_words('check', '-', given=b'pssm-flat 1\n')[1], 'pssm-flat 1\n')
        self.repository.write('standin/program', '#!/bin/sh\n[ $# -gt 0 ] || { echo usage; exit 2; }\n'
                              '[ "$1" != judge ] || [ "$3" != /dev/stdin ] || cat "$3"\n', 0o755)
        self.repository.write('crates/low/src/lib.rt', '// built once more\n')
        self.repository.build()
        ran = self.run_words('judge', 'examples/go.flat', '-', given=b'accept 3\n')
        self.assertEqual(ran[:2], (0, 'accept 3\n'))
        self.assertEqual(self.run_words('judge', '-', '-', given=b'pssm-flat 1\n')[:2], (2, 'usage\n'))

    def test_links_and_other_folders(self):
        os.symlink('bin/zawhiroke', self.repository.path('one'))
        os.symlink(self.repository.path('one'), self.repository.path('two'))
        self.check(self.run_words('check', 'examples/go.flat', script='two'), 0, 'accept 9\n')
        self.repository.write('standin/words', '')
        self.run_words('check', 'go.flat', cwd=self.repository.path('examples'))
        self.assertEqual(self.repository.read('standin/words'), 'check\ngo.flat\n')
        ran = subprocess.run(['sh', 'zawhiroke', 'check', '../examples/go.flat'], cwd=self.repository.path('bin'),
                             env=dict(os.environ, STANDIN=self.repository.path('standin')), stdout=subprocess.PIPE)
        self.assertEqual((ran.returncode, ran.stdout), (0, b'accept 9\n'))

    def test_children_that_the_caller_ignores(self):
        ran = subprocess.run(['sh', '-c', 'trap "" CHLD; exec bin/zawhiroke check examples/go.flat'], stdout=subprocess.PIPE,
                             cwd=self.repository.root, env=dict(os.environ, STANDIN=self.repository.path('standin')))
        self.assertEqual((ran.returncode, ran.stdout), (0, b'accept 9\n'))

    def test_program_that_cannot_be_started(self):
        self.repository.write('standin/program', '#!/none\n', 0o755)
        self.repository.write('crates/zawhiroke/out/zawhiroke', '#!/none\n', 0o755)
        self.repository.seal()
        self.check(self.run_words('check', 'examples/go.flat'), 70, '', 'the program cannot be started')

    def test_program_that_is_killed(self):
        self.repository.write('standin/program', '#!/bin/sh\n[ $# -gt 0 ] || { echo usage; exit 2; }\nkill -9 $$\n',
                              0o755)
        self.repository.write('crates/low/src/lib.rt', '// built anew\n')
        status, answer, errors = self.run_words('check', 'examples/go.flat', variables={'STANDIN_SECONDS': '0'})
        self.assertEqual((status, answer), (137, ''))
        self.assertIn('it was killed, most likely', errors)


class Unproved(InRepository):
    """--try."""

    def test_answer(self):
        self.repository.answer('refuse 7 A9', 1)
        ran = self.run_words('--try', 'judge', 'examples/go.flat', 'examples/go-swapped.journal')
        self.check(ran, 1, 'refuse 7 A9\n', 'unproved: this answer', 'line 8 of examples/go-swapped.journal')
        self.assertEqual(self.repository.builds(), 0)

    def test_paths(self):
        self.repository.write('standin/words', '')
        with open(self.repository.path('examples/go.flat'), 'rb') as model:
            self.run_words('--try', 'run', '--seed', '3', '/dev/stdin', 'a.Go()', given=model.read())
        words = self.repository.read('standin/words').splitlines()
        self.assertEqual(words[:3] + words[4:], ['run', '--seed', '3', 'a.Go()'])
        self.assertRegex(words[3], '^/.*zawhiroke-try-')
        self.run_words('--try', 'run', '--limit=9', '--', 'examples/go.flat', 'a.Go()')
        words = self.repository.read('standin/words').splitlines()
        self.assertEqual(words, ['run', '--limit=9', '--', self.repository.path('examples/go.flat'), 'a.Go()'])
        self.run_words('--try', 'check', 'go.flat', cwd=self.repository.path('examples'))
        self.assertEqual(self.repository.read('standin/words'), 'check\n%s/go.flat\n' % os.path.realpath(
            self.repository.path('examples')))

    def test_no_paths(self):
        self.repository.answer('gen 1 entries 26 takes 2 sha256 c3', 0)
        self.repository.write('standin/words', '')
        self.check(self.run_words('--try', 'gen', '1'), 0, 'gen 1 entries 26 takes 2 sha256 c3\n',
                   'unproved: this answer')
        self.assertEqual(self.repository.read('standin/words'), 'gen\n1\n')
        self.assertEqual(self.repository.builds(), 0)

    def test_large_model_file(self):
        self.repository.write('large.xmi', b'<' * 70000)
        self.check(self.run_words('--try', 'check', 'large.xmi'), 0, 'accept 9\n',
                   'large.xmi has 70000 bytes: --try is of use up to')
        self.repository.write('large.flat', b'pssm-flat 1\n' + b'x' * 70000)
        self.assertNotIn('bytes', self.run_words('--try', 'check', 'large.flat')[2])

    def test_no_answer(self):
        self.repository.write('standin/breaks', '')
        self.check(self.run_words('--try', 'check', 'examples/go.flat'), 70, '', 'the unproved program gave no answer')
