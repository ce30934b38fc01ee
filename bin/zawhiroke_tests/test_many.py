"""judge-all."""
import os

from standins import InRepository


class Many(InRepository):
    """Many journals, in the order given."""

    def setUp(self):
        super().setUp()
        self.repository.build()
        for number in range(30):
            name = 'many/%d.journal' % number
            self.repository.write(name, 'pssm-journal 1\n')
            if number % 7 == 3:
                self.repository.answer('refuse %d A9' % number, 1, name + '.answer')
        self.names = ['many/%d.journal' % number for number in range(30)]
        self.table = ''.join('%s\t%s\n' % (name, 'refuse %d A9' % number if number % 7 == 3 else 'accept 9')
                             for number, name in enumerate(self.names))

    def test_names_as_words(self):
        self.check(self.run_words('judge-all', 'examples/go.flat', *self.names), 1, self.table,
                   '26 accepted; 4 refused')

    def test_names_on_standard_input(self):
        given = '\n'.join(self.names).encode()
        self.check(self.run_words('judge-all', 'examples/go.flat', given=given), 1, self.table)
        self.check(self.run_words('--quiet', 'judge-all', 'examples/go.flat', given=given + b'\n\n'), 1, self.table)
        self.check(self.run_words('judge-all', 'examples/go.flat', given=b''), 0, '', 'no journal was given')

    def test_names_with_blanks(self):
        name = 'many/a b\tc.journal'
        self.repository.write(name, 'pssm-journal 1\n')
        self.check(self.run_words('judge-all', 'examples/go.flat', given=name.encode() + b'\n'), 0,
                   name + '\taccept 9\n')

    def test_highest_status(self):
        self.repository.answer('', 5, 'many/0.journal.answer')
        self.repository.answer('journal line 1 byte 1', 4, 'many/1.journal.answer')
        ran = self.run_words('judge-all', 'examples/go.flat', *self.names[:3])
        self.check(ran, 5,
                   'many/0.journal\tstatus 5\nmany/1.journal\tjournal line 1 byte 1\nmany/2.journal\taccept 9\n',
                   '1 accepted; 1 spelled wrong; 1 not read')

    def test_refused_model(self):
        self.repository.answer('E03 Door v0\nE10 Door t0', 3)
        ran = self.run_words('judge-all', 'examples/go.flat', self.names[0], self.names[1])
        each = ('%s\tE03 Door v0\n%s\tE10 Door t0\n' % (name, name) for name in self.names[:2])
        self.check(ran, 3, ''.join(each),
                   '2 not judged, since the model is refused', 'E03: an initial vertex has exactly one transition out')

    def test_order(self):
        slow = '#!/bin/sh\n[ $# -gt 0 ] || { echo usage; exit 2; }\ncase $3 in *0.journal) sleep 0.5 ;; esac\necho "$3"\n'
        self.repository.write('standin/program', slow, 0o755)
        self.repository.write('crates/low/src/lib.rt', '// built anew\n')
        ran = self.run_words('judge-all', 'examples/go.flat', *self.names, variables={'STANDIN_SECONDS': '0'})
        self.check(ran, 0, ''.join('%s\t%s\n' % (name, name) for name in self.names))

    def test_model_that_is_no_plain_file(self):
        self.check(self.run_words('judge-all', '/dev/stdin', self.names[0], given=b'pssm-flat 1'), 5, '',
                   'it takes a plain file')

    def test_full_device(self):
        with open('/dev/full', 'w') as full:
            self.assertEqual(self.run_words('judge-all', 'examples/go.flat', *self.names, stdout=full)[0], 6)
        self.assertTrue(os.path.exists(self.repository.out))
