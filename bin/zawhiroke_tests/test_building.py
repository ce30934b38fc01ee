"""When the program is built, by whom, and how a build ends."""
import fcntl
import os
import signal
import subprocess
import time

from standins import InRepository, is_alive, wait_until

CHECK = ('check', 'examples/go.flat')


class Fresh(InRepository):
    """A program answers where it was built of the sources that stand, and nowhere else."""

    def test_built_once(self):
        self.check(self.run_words(*CHECK), 0, 'accept 9\n', 'it is proved and built first',
                   'crate 1 of 2, low, 0 min: 3 of 5')
        self.check(self.run_words(*CHECK), 0, 'accept 9\n')
        self.assertEqual(self.run_words(*CHECK)[2], '')
        self.assertEqual(self.repository.builds(), 1)

    def built_anew(self, change):
        """Whether a change has the program built anew."""
        self.repository.build()
        before = self.repository.builds()
        change()
        self.repository.build()
        return self.repository.builds() - before

    def age(self):
        """Makes all there is some seconds old, so that the next call lists it."""
        time.sleep(3.2)
        self.repository.build()
        self.assertTrue(os.path.exists(self.repository.out + '/zawhiroke.seen'))

    def test_changes(self):
        write = self.repository.write
        self.repository.build()
        self.age()
        again = os.stat(self.repository.path('crates/low/src/lib.rt'))

        def same_size_and_time():
            write('crates/low/src/lib.rt', '// LOW\n')
            os.utime(self.repository.path('crates/low/src/lib.rt'), ns=(again.st_atime_ns, again.st_mtime_ns))

        self.assertEqual(self.built_anew(lambda: None), 0)
        self.assertEqual(self.built_anew(same_size_and_time), 1)
        self.assertEqual(self.built_anew(lambda: write('crates/low/proofs/a/B.antt', '-- b\n')), 1)
        self.assertEqual(self.built_anew(lambda: write('crates/low/specs/S.antt', '-- s\n')), 1)
        self.assertEqual(self.built_anew(lambda: os.remove(self.repository.path('crates/low/specs/S.antt'))), 1)
        self.assertEqual(self.built_anew(lambda: write('crates.txt', 'low:\nzawhiroke: low\n')), 1)
        other = '#!/bin/sh\necho no\n'
        self.assertEqual(self.built_anew(lambda: write('crates/zawhiroke/out/zawhiroke', other, 0o755)), 1)
        self.assertEqual(self.built_anew(lambda: os.remove(self.repository.out + '/zawhiroke.sealed')), 1)
        self.assertEqual(self.built_anew(lambda: write('crates/low/README.md', 'nothing\n')), 0)

    def test_list_of_another_day(self):
        self.repository.build()
        self.age()
        seen = self.repository.path('crates/zawhiroke/out/zawhiroke.seen')
        with open(seen, 'r+') as file:
            text = file.read()
            file.seek(0)
            file.write(text.replace('crates/low/src/lib.rt', 'crates/low/src/lix.rt'))
        self.repository.build()
        self.assertEqual(self.repository.builds(), 1)
        with open(seen, 'w') as file:
            file.write('nothing of use')
        self.repository.build()
        self.assertEqual(self.repository.builds(), 1)

    def test_repository_that_may_not_be_written(self):
        self.repository.build()
        os.chmod(self.repository.out, 0o555)
        self.addCleanup(os.chmod, self.repository.out, 0o755)
        self.check(self.run_words(*CHECK), 0, 'accept 9\n')

    def test_build_that_fails(self):
        self.repository.write('standin/breaks', '')
        self.check(self.run_words(*CHECK, variables={'STANDIN_SECONDS': '0'}), 70, '', 'it could not be built',
                   'build.log')
        self.assertIn('a proof is missing', self.repository.read('crates/zawhiroke/out/build.log'))
        self.assertFalse(os.path.exists(self.repository.out + '/zawhiroke.sealed'))

    def test_seal_and_version(self):
        self.repository.build()
        note = self.repository.read('crates/zawhiroke/out/zawhiroke.sealed')
        digest = '[0-9a-f]{64}'
        self.assertRegex(note, r'^sources %s\nprogram %s\nkit rattle-kit-standin logic 0\ncommit unknown\n$' % (
            digest, digest))
        find = ('find crates.txt crates/*/src crates/*/specs crates/*/proofs -type f -exec sha256sum {} + 2>/dev/null'
                ' | LC_ALL=C sort | sha256sum')
        digest = subprocess.run(find, shell=True, cwd=self.repository.root,
                                stdout=subprocess.PIPE).stdout.decode().split()[0]
        self.assertIn('sources ' + digest, note)
        self.assertIn('program built and proved of these sources', self.run_words('--version')[1])
        self.repository.write('crates/low/src/lib.rt', '// other\n')
        self.assertIn('the one that was built last is of sources ' + digest, self.run_words('--version')[1])

    def test_program_and_install(self):
        status, path, _ = self.run_words('--program')
        self.assertEqual((status, path), (0, self.repository.out + '/zawhiroke\n'))
        self.check(self.run_words('--install', 'a/b'), 0, '', 'installed a/b/zawhiroke')
        self.assertTrue(os.access(self.repository.path('a/b/zawhiroke'), os.X_OK))
        self.assertEqual(self.repository.read('a/b/zawhiroke.sealed'),
                         self.repository.read('crates/zawhiroke/out/zawhiroke.sealed'))
        self.check(self.run_words('--install', 'crates.txt'), 70, '', 'it cannot be installed')
        self.assertEqual(self.repository.builds(), 1)


class Together(InRepository):
    """Several calls at a time."""

    def test_two_first_calls_build_once(self):
        both = [self.repository.start(*CHECK) for _ in range(2)]
        said = [(each.communicate(timeout=30), each.returncode) for each in both]
        self.assertEqual([(out, status) for (out, _), status in said], [(b'accept 9\n', 0)] * 2)
        self.assertEqual(self.repository.builds(), 1)
        self.assertEqual(sum(b'builds the program; waiting for it' in errors for (_, errors), _ in said), 1)

    def test_next_builds_where_the_first_is_killed(self):
        first = self.repository.start(*CHECK, variables={'STANDIN_SECONDS': '60'})
        self.assertTrue(wait_until(self.repository.builds))
        second = self.repository.start(*CHECK)
        time.sleep(0.5)
        first.terminate()
        first.communicate(timeout=10)
        out, errors = second.communicate(timeout=30)
        self.assertEqual((second.returncode, out), (0, b'accept 9\n'), errors)
        self.assertEqual(self.repository.builds(), 2)


class Stopped(InRepository):
    """Whatever ends the script ends the build, and gives the lock back."""

    def start_build(self, **how):
        """Starts a long build, and waits until rt and its prover work."""
        call = self.repository.start(*CHECK, variables={'STANDIN_SECONDS': '60'}, **how)
        self.assertTrue(wait_until(lambda: len(self.repository.processes()) == 2))
        return call

    def nothing_left(self):
        """Checks that rt and its prover are gone, and that the lock is free."""
        self.assertTrue(wait_until(lambda: not self.repository.processes()), self.repository.processes())
        with open(self.repository.out + '/build.log') as log:
            fcntl.flock(log, fcntl.LOCK_EX | fcntl.LOCK_NB)
        self.assertFalse(os.path.exists(self.repository.out + '/zawhiroke.sealed'))

    def by_signal(self, number):
        """Stops a build by a signal."""
        call = self.start_build()
        call.send_signal(number)
        out, _ = call.communicate(timeout=10)
        self.assertEqual((call.returncode, out), (-number, b''))
        self.nothing_left()

    def test_hup(self):
        self.by_signal(signal.SIGHUP)

    def test_int(self):
        self.by_signal(signal.SIGINT)

    def test_quit(self):
        self.by_signal(signal.SIGQUIT)

    def test_pipe(self):
        self.by_signal(signal.SIGPIPE)

    def test_term(self):
        self.by_signal(signal.SIGTERM)

    def reader_goes(self, name):
        """Closes the reader's end of what the script writes."""
        call = self.start_build()
        getattr(call, name).close()
        self.assertEqual(call.wait(timeout=10), -signal.SIGPIPE)
        call.stdout.close()
        call.stderr.close()
        self.nothing_left()

    def test_kill(self):
        call = self.start_build()
        rt, prover = self.repository.processes()
        call.kill()
        call.communicate(timeout=10)
        self.assertTrue(wait_until(lambda: not is_alive(rt)))
        os.kill(prover, signal.SIGKILL)  # (those of the real rt end with it)
        self.nothing_left()

    def test_reader_of_standard_error_goes(self):
        self.reader_goes('stderr')

    def test_reader_of_standard_output_goes(self):
        self.reader_goes('stdout')

    def test_program_ends_with_the_script(self):
        self.repository.build()
        self.repository.write('standin/slow', '')
        call = self.repository.start(*CHECK)
        self.assertTrue(wait_until(lambda: self.repository.read('standin/slow')))
        program = int(self.repository.read('standin/slow'))
        call.terminate()
        call.communicate(timeout=10)
        self.assertEqual(call.returncode, -signal.SIGTERM)
        self.assertTrue(wait_until(lambda: not is_alive(program)))
