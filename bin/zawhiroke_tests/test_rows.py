"""The cases of the program: its words are understood as it does, and each of its answers is explained."""
import os
import unittest

import rows
from standins import InRepository
from explaining import lines_on
from words import Call, call_of

MOST = 1 << 20  # files with more bytes are not tried


class Rows(InRepository):
    """All runs of crates/pssm_rows/data."""

    def test_words(self):
        for run in rows.all_runs():
            words = list(map(os.fsdecode, run.words))
            call = call_of(words)
            if run.status == 2:  # the words are at fault, or the names of a stimulus
                self.assertTrue(isinstance(call, str) or call.command == 'run' and call.stimuli, words)
            else:
                self.assertIsInstance(call, Call, words)

    def explained(self, run, call):
        """Checks what is said of the answer of a run."""
        for place in call.places:
            name = os.fsdecode(run.words[place])
            call.words[place] = self.repository.path('files/' + name)
            if name in run.files:
                self.repository.write('files/' + name, run.files[name])
        lines = lines_on(Call(call.words, call.places, call.stimuli), run.status, run.answer, None)
        if run.status != 0:
            self.assertTrue(lines, (run.words, run.answer))
        if run.status == 1:
            entry = int(run.answer.split()[1])
            line = run.files[os.fsdecode(run.words[2])].split(b'\n')[entry].decode()
            self.assertIn('line %d of %s, entry %d: %s' % (entry + 1, call.words[2], entry, line[:100]), lines[0])

    def test_answers(self):
        count = 0
        for run in rows.all_runs():
            call = call_of(list(map(os.fsdecode, run.words)))
            if isinstance(call, Call) and sum(map(len, run.files.values())) < MOST:
                self.explained(run, call)
                count += 1
        self.assertGreater(count, 2500)
