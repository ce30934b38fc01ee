"""What is said of journals: refused ones, ones that are spelled wrong, and accepted ones that look unfinished."""
import flat_text
from shown import line_at, marked, read, read_end, shown
from texts import ENTRY_RULES

END = 32768  # so much of an accepted journal is looked at
BEGINNING = '`accept` says that a journal is the beginning of a complete run, and not that it is one'


def refused(call, answer, program):
    """The entry that breaks a rule, the rule, and what to look for."""
    _, entry, rule = answer.decode().split()
    asks, look_for = ENTRY_RULES[rule]
    line = line_at(read(call.journal) or b'', int(entry) + 1)
    lines = ['entry %s is the first that breaks a rule' % entry]
    if line is not None:
        lines = ['line %d of %s, entry %s: %s' % (int(entry) + 1, call.journal, entry, shown(line))]
        lines += flat_text.names_in(line, flat_text.text_of(call.model, program))
    return lines + ['it breaks %s: %s (docs/RULES.md, section 9)' % (rule, asks),
                    'look for: %s (docs/LOGGING.md, "Where engines go wrong")' % look_for]


def misspelled(call, answer):
    """The line that is spelled wrong, with a mark under the first wrong byte."""
    words = answer.decode().split()
    number = int(words[2])
    data = read(call.journal)
    lines = ['line %d of %s is no line of a journal (docs/FORMATS.md, section 2)' % (number, call.journal)]
    if data is None:
        return lines
    if data[:9] == b'pssm-flat' or data.lstrip(b'\xef\xbb\xbf \t\r\n')[:1] == b'<':
        return ['%s is a model, and no journal: the words are judge MODEL JOURNAL' % call.journal]
    if words[3] == 'no':
        return ['%s is empty' % call.journal if not data else
                '%s ends within line %d: each line ends with a line feed, the last too' % (call.journal, number)]
    line, byte = line_at(data, number) or b'', int(words[4]) - 1
    return lines + marked(line, byte) + misspelled_why(data, line, byte)


def misspelled_why(data, line, byte):
    """What a simple look at the bytes tells."""
    rest = line[byte:]
    if line[:3] == b'\xef\xbb\xbf':
        return ['the file begins with a byte order mark: save it without one']
    if rest == b'\r':
        crlf = data.count(b'\r\n')
        return ['the line ends in CRLF, as %d line%s of the file: lines end with LF alone' % (crlf, 's' * (crlf != 1))]
    if line and not line.strip(b' \t\r'):
        return ['the line has blanks alone']
    if not line:
        return ['the line is empty']
    if byte >= len(line):
        return ['the line ends too early']
    if rest and not rest.strip(b' \t\r'):
        return ['the line has blanks at its end']
    if rest[:1] in (b' ', b'\t'):
        return ['exactly one space stands between two words of a line, and none elsewhere']
    return ['what stands at the mark cannot: often a label in the place of a number, or an output without parentheses']


def hint(call, answer):
    """Where an accepted journal shows that it goes on: that it is a beginning."""
    count = int(answer.split()[1])
    if count == 0:
        return ['a journal without entries is the beginning of every run', BEGINNING]
    lines = (read_end(call.journal, END) or b'').decode('utf-8', 'replace').split('\n')[:-1]
    owed = owed_line(lines)
    if owed is None:
        return []
    at, what = owed
    entry = count - (len(lines) - 1 - at)
    return ['entry %d, %s: %s' % (entry, shown(lines[at].encode()), what), BEGINNING]


def owed_line(lines):
    """The first step that owes a line, among the last ones of each object in these lines: its place, and what it owes.

    Each transition of a firing, of an opening and of a pick owes an effect.
    """
    steps = {}
    for at, line in enumerate(lines):
        kind, *words = line.split(' ')
        thing = words[0] if words else ''
        if kind == 'start':
            steps[thing] = (at, {'an opening': None})
        elif kind in ('take', 'done'):
            steps[thing] = (at, dict.fromkeys(transitions_of(words[2:])))
        elif thing in steps:
            owed = steps[thing][1]
            if kind == 'effect':
                owed.pop(words[1], None)
            elif kind == 'open':
                owed.pop('an opening', None)
                owed.update(dict.fromkeys(transitions_of(words[4:5] if words[3:4] == ['by'] else [])))
            elif kind == 'pick':
                owed.update(dict.fromkeys(transitions_of(words[2:])))
    for thing, (at, owed) in sorted(steps.items(), key=lambda step: step[1][0]):
        if 'an opening' in owed:
            return at, 'no region of %s is opened after it' % thing
        if owed:
            return at, 'the effect of %s is not logged after it; unless %s has ended, its step is open' % (
                ' and '.join(owed), thing)
    return None


def transitions_of(routes):
    """The transitions of these routes."""
    return [name for route in routes if route != '-' for name in route.replace('+', ',').split(',')]
