"""What standard error says of an answer. It speaks of texts that it shows, and never guesses at a verdict."""
import os

import explain_journals
import explain_models
from saying import say, write_error
from shown import clean
from words import list_unread

WIDTH = 110


def explain_answer(call, status, answer, program):
    """Explains the answer, where there is something to say."""
    lines = [clean(line) for line in lines_on(call, status, answer, program)]
    if lines:
        say(lines[0])
        write_error(''.join('  %s\n' % part for line in lines[1:] for part in wrapped(line)))


def wrapped(line):
    """The line, in parts where it is long. One that begins with a blank shows a text, and stays whole."""
    if len(line) <= WIDTH or line[0] == ' ':
        return [line]
    parts, part = [], ''
    for word in line.split(' '):
        if part and len(part) + 1 + len(word) > WIDTH:
            parts.append(part)
            part = '  ' + word
        else:
            part = part + ' ' + word if part else word
    return parts + [part]


def lines_on(call, status, answer, program):
    """The lines that explain the answer."""
    if status == 0:
        return explain_journals.hint(call, answer) if call.command == 'judge' else []
    if status == 1:
        return explain_journals.refused(call, answer, program)
    if status == 2:
        return explain_models.names(call, program)
    if status == 3:
        return explain_models.refused(call, answer, program)
    if status == 4:
        return explain_journals.misspelled(call, answer)
    if status == 5:
        return unread(call)
    if status == 6:
        return ['the answer cannot be written']
    if status == 7:
        return ['there was not enough memory']
    if status == 8:
        return limited(call)
    if status == 9:
        return too_large(call)
    return ['the program ended with status %d, which is none of its own: it was killed, most likely' % status]


def unread(call):
    """Which file can't be read."""
    return [list_unread(call.paths) or 'a read failed on the way']


def limited(call):
    """Which limit was come to."""
    if call.command == 'run':
        return ['the run came to its limit of entries; --limit sets it, up to 1000000 (docs/FORMATS.md, section 3)']
    if call.command == 'gen':
        return ['the run of the generated model came to the limit of a journal, 1,000,000 entries, and its journal is '
                'written']
    return ['by this entry the journal passes 1,000,000 entries, or 2,000,000 posts, sends and marks, and no entry '
            'before it breaks a rule']


def too_large(call):
    """Which file is too large."""
    lines = ['a file has at most 16,777,216 bytes, and a line of a journal 65,536 without its line feed']
    for path in call.paths:
        try:
            lines.append('%s has %d bytes' % (path, os.stat(path).st_size))
        except OSError:
            pass
    return lines
