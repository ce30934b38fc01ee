"""What docs/ANSWERS.md, README.md and docs/USING.md show of standard error is what the script writes, where the program answers so."""
import os
import re
import subprocess

from standins import ROOT, InRepository

STATUSES = (('accept', 0), ('refuse', 1), ('usage', 2), ('flat ', 3), ('xmi ', 3), ('act ', 3), ('E', 3),
            ('journal line', 4))
ONE_SPELLING = 'this line is to be (docs/FORMATS.md, section 1)\n    '


def blocks_of(page):
    """The commands of each block of a page that shows some, each with what it prints."""
    with open(os.path.join(ROOT, page)) as file:
        text = file.read()
    for block in re.findall(r'^```\n(\$ .*?)^```$', text, re.M | re.S):
        yield [part.partition('\n')[::2] for part in block[2:].split('\n$ ')]


class Pages(InRepository):
    """The pages."""

    def shown(self, command, wanted):
        """Tries a command that the page shows."""
        answer = ''.join(line for line in wanted.partition('zawhiroke: ')[0].splitlines(True))
        status = next((status for begin, status in STATUSES if answer.startswith(begin)), 5 if not answer else 0)
        self.repository.answer(answer.rstrip('\n'), status)
        if ONE_SPELLING in wanted:
            self.repository.answer(wanted.partition(ONE_SPELLING)[2].rstrip('\n'), 0, 'standin/flat')
        variables = dict(os.environ, STANDIN=self.repository.path('standin'))
        ran = subprocess.run(command, shell=True, cwd=self.repository.root, env=variables, stdout=subprocess.PIPE,
                             stderr=subprocess.STDOUT)
        self.assertEqual(ran.stdout.decode(), wanted.rstrip('\n') + '\n' if wanted.strip() else '', command)

    def test_answers(self):
        self.repository.build()
        blocks = list(blocks_of('docs/ANSWERS.md'))
        self.assertGreater(len(blocks), 20)
        for block in blocks:
            if 'turnstile.py' not in block[0][0]:  # (it needs a library)
                for command, wanted in block:
                    self.shown(command, wanted)

    def test_readme(self):
        self.repository.build()
        shown = 0
        for block in list(blocks_of('README.md')) + list(blocks_of('docs/USING.md')):
            for command, wanted in block:
                if 'zawhiroke: ' in wanted and 'judge-all' not in command:
                    self.shown(command, wanted)
                    shown += 1
        self.assertGreater(shown, 0)
