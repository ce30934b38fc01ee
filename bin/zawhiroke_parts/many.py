"""Many journals: each is judged by the proved program, as many at a time as there are processors."""
import _signal
import os

from running import start, status_of
from saying import Ended, hold_signals, let_signals, say, write_answer
from words import Call, list_unread

WORDS = {0: 'accepted', 1: 'refused', 3: 'not judged, since the model is refused', 4: 'spelled wrong', 5: 'not read',
         8: 'past the limit', 9: 'too large'}


class Judging:
    """Programs that judge journals, and their answers in the order in which the journals were given."""

    def __init__(self, program, model):
        self.program = program
        self.model = model
        self.nothing = os.open(os.devnull, os.O_RDONLY)
        self.running = {}
        self.ended = {}

    def begin(self, number, journal):
        """Starts the judge of a journal."""
        answer = os.memfd_create('answer')
        hold_signals()
        self.running[start(self.program, ['judge', self.model, journal], answer, self.nothing)] = number, answer
        let_signals()

    def wait(self):
        """Waits for the next that ends, and keeps its status and answer."""
        child, waited = os.wait()
        number, file = self.running.pop(child)
        os.lseek(file, 0, os.SEEK_SET)
        with open(file, 'rb') as answer:
            self.ended[number] = status_of(waited), answer.read()

    def end(self):
        """Ends those that run."""
        for child in self.running:
            os.kill(child, _signal.SIGKILL)

    def answers(self, journals):
        """Each journal with its status and answer."""
        most = len(os.sched_getaffinity(0))
        waiting, due = enumerate(journals), []
        while True:
            while len(self.running) < most and len(due) < 64 * most:
                number, journal = next(waiting, (None, None))
                if number is None:
                    break
                due.append((number, journal))
                self.begin(number, journal)
            if not due:
                return
            while due[0][0] not in self.ended:
                self.wait()
            number, journal = due.pop(0)
            yield (journal, *self.ended.pop(number))


def names_given():
    """The names on standard input, one a line."""
    for line in open(0, 'rb', closefd=False):
        name = line[:-1] if line.endswith(b'\n') else line
        if name:
            yield os.fsdecode(name)


def judge_all(model, journals, is_quiet):
    """Writes a line for each journal; the highest status."""
    unread = list_unread([model])
    if not unread and not os.path.isfile(model):
        unread = 'judge-all reads the model once for each journal, so it takes a plain file'
    if unread:
        raise Ended(5, unread)
    from building import need_program
    judging = Judging(need_program(), model)
    counts, of_model = {}, None
    try:
        for journal, status, answer in judging.answers(journals or names_given()):
            lines = answer.splitlines() or [b'status %d' % status]
            write_answer(b''.join(os.fsencode(journal) + b'\t' + line + b'\n' for line in lines))
            counts[status] = counts.get(status, 0) + 1
            if status == 3:
                of_model = of_model or (Call(['judge', model, journal], [1, 2], []), status, answer)
    finally:
        judging.end()
    if not is_quiet:
        said = ['%d %s' % (counts[status], WORDS.get(status, 'of status %d' % status)) for status in sorted(counts)]
        say('; '.join(said) or 'no journal was given')
        if of_model:
            from explaining import explain_answer
            explain_answer(*of_model, judging.program)
    return max(counts, default=0)
