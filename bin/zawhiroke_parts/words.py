"""What words mean. The program decides that; it stands here too, so that nothing is built for words that mean nothing.

A command that the program learns, and what changes in the words of one, is to be told here as well: in COMMANDS,
OPTIONS and call_of.
"""
import os

from saying import say, write_answer, write_error

MOST = 1 << 64
INPUT = '/dev/stdin'


class Unclear(Exception):
    """Words that mean nothing, and why."""


class Call:
    """Words that the program understands: where among them the paths stand, and, of a run, the stimuli."""

    def __init__(self, words, places, stimuli):
        self.words = words
        self.command = words[0]
        self.places = places
        self.paths = [words[place] for place in places]
        self.model = self.paths[0] if self.paths else None
        self.journal = self.paths[1] if self.command == 'judge' else None
        self.stimuli = stimuli


# Each command of the program, its words, what it does, and an example.
COMMANDS = (
    ('judge', 'MODEL JOURNAL', 'whether the journal is one of a run of the model',
     'judge examples/go.flat examples/go.journal'),
    ('run', "[--seed N] [--workers W] [--limit L] MODEL 'OBJECT.SIGNAL(ARGS)' ..",
     'the journal of a run on these signals', "run examples/door.flat 'door.Open()' 'door.Close()' 'door.Lock(1234)'"),
    ('check', 'MODEL', 'whether the model is well formed, or what is wrong with it', 'check examples/go.flat'),
    ('flat', 'MODEL', 'the flat text of a model, also of one in XMI', 'flat examples/lamps.xmi'),
    ('gen', 'N', 'the counts and the digest of a generated model\'s run, N from 1 to 4000', 'gen 1'),
)
# The same of what the script does itself.
OWN = (
    ('judge-all', 'MODEL JOURNAL ..',
     'judges many, with a line PATH<tab>ANSWER for each; without a JOURNAL their names come from standard input',
     'judge-all examples/go.flat examples/go.journal examples/go-swapped.journal'),
    ('--try', 'and then one of the first five', 'an unproved answer, in about two minutes',
     '--try check examples/go.flat'),
    ('--quiet', 'and then any of these', 'the answer alone, with no word on standard error to explain it',
     '--quiet judge examples/go.flat examples/go-swapped.journal'),
    ('--program', '', 'the path of the proved program', '--program'),
    ('--install', 'FOLDER', 'puts the proved program there, with a note of what it was built of',
     '--install /tmp/zawhiroke'),
    ('--version', '', 'commit, kit, digest of the sources, and whether the program is built of them', '--version'),
    ('--help', '', 'this text', '--help'),
)
# The options of a run: the least and the greatest number of each, the one that counts without it, and what it says.
OPTIONS = {
    '--seed': (0, MOST - 1, 0, 'settles free choices; with one worker it settles all of them'),
    '--workers': (1, 16, 1, 'so many threads run the model; with several the same words give various runs'),
    '--limit': (0, 1000000, 10000, 'the most entries that the journal may have'),
}


def is_text(word):
    """Whether the word is one of UTF-8."""
    try:
        os.fsencode(word).decode('utf-8')
    except UnicodeDecodeError:
        return False
    return True


def is_number(word):
    """Whether the word is spelled as a number."""
    return word.isascii() and word.isdigit() and (word == '0' or word[0] != '0')


def is_integer(word):
    """Whether the word is spelled as an integer of 64 bits."""
    digits = word[1:] if word[:1] == '-' else word
    return is_number(digits) and word != '-0' and len(word) <= 20 and -MOST // 2 <= int(word) < MOST // 2


def is_name(word):
    """Whether the word is a name."""
    return word.isascii() and word.isidentifier() and len(word) <= 64


def is_stimulus(word):
    """Whether the word is spelled as a stimulus, `door.Lock(1234)`."""
    call, _, rest = word.partition('(')
    thing, _, signal = call.partition('.')
    args = rest[:-1].split(',') if len(rest) > 1 else []
    return (is_name(thing) and is_name(signal) and rest[-1:] == ')'
            and len(args) <= 8 and all(map(is_integer, args)))


def call_of(words):
    """The call that the words are, or a text on why they are none."""
    if not all(map(is_text, words)):
        return 'a word is not UTF-8'
    if not words:
        return 'there is no command'
    command, rest = words[0], words[1:]
    counts = {'judge': 2, 'check': 1, 'flat': 1}
    if command == 'run':
        return run_of(words)
    if command == 'gen':
        if len(rest) != 1 or not is_number(rest[0]) or not 1 <= int(rest[0][:5]) <= 4000:
            return 'gen takes one word, a number from 1 to 4000'
        return Call(words, [], [])
    if command not in counts:
        return no_command(command)
    if len(rest) != counts[command]:
        takes = {1: 'one word, MODEL', 2: 'two words, MODEL and JOURNAL'}[counts[command]]
        given = {0: 'none is', 1: 'one is'}.get(len(rest), '%d are' % len(rest))
        return '%s takes %s, and %s given' % (command, takes, given)
    return Call(words, range(1, len(words)), [])


def with_input(words):
    """The words as the program takes them: a path `-` stands for standard input. More than one are words that mean nothing."""
    call = call_of(words)
    if isinstance(call, str) or '-' not in call.paths:
        return words
    if call.paths.count('-') > 1:
        raise Unclear('standard input is one file: - may stand once')
    return [INPUT if place in call.places and word == '-' else word for place, word in enumerate(words)]


def no_command(word):
    """Why the word is no command."""
    if word.startswith('-'):
        return 'there is no option %s here' % word
    near = [each[0] for each in COMMANDS + OWN if sorted(each[0]) == sorted(word) or each[0].startswith(word[:2])]
    return 'there is no command %s%s' % (word, ('; is it %s?' % ' or '.join(near)) if near and word else '')


def run_of(words):
    """The call of a run, or why the words after `run` are none."""
    given, places, at = set(), [], 1
    while at < len(words):
        word, at = words[at], at + 1
        if word == '--':
            places += range(at, len(words))
            break
        if word == '-' or not word.startswith('-'):
            places.append(at - 1)
            continue
        option, sign, value = word.partition('=')
        if option not in OPTIONS:
            return 'run has no option %s' % option
        if not sign:
            value, at = ''.join(words[at:at + 1]), at + 1
        why = 'stands twice' if option in given else no_value(option, value)
        if why:
            return '%s %s' % (option, why)
        given.add(option)
    return run_on(words, places)


def no_value(option, value):
    """Why the value is none of the option, or nothing."""
    least, greatest = OPTIONS[option][:2]
    if is_number(value) and least <= int(value[:21]) <= greatest:
        return None
    return 'takes a number from %d to %d' % (least, greatest)


def run_on(words, places):
    """The call of a run whose model and stimuli stand at these places, or why they are none."""
    if not places:
        return 'run takes a MODEL'
    stimuli = [words[place] for place in places[1:]]
    for word in stimuli:
        if not is_stimulus(word):
            return "%s is no stimulus: one is spelled OBJECT.SIGNAL(ARGS), as 'door.Lock(1234)', without blanks" % word
    return Call(words, places[:1], stimuli)


def list_of_words():
    """The commands and their words, a line for each."""
    return '  the words are one of these:\n' + ''.join(
        '    %s\n' % (name + ' ' + rest).rstrip() for name, rest, _, _ in COMMANDS + OWN)


def options_text():
    """What `--help` prints of the options of a run."""
    return ''.join('      %-9s  %d to %d, without it %d: %s\n' % ((option,) + numbers)
                   for option, numbers in OPTIONS.items())


def help_text():
    """What `--help` prints."""
    lines = ['Runs UML state machines, and judges journals of their runs.\n']
    for title, commands in (('Commands of the proved program', COMMANDS), ('Around it', OWN)):
        lines.append('\n%s:\n\n' % title)
        for name, rest, does, example in commands:
            lines.append('  %s\n      %s\n%s      $ bin/zawhiroke %s\n'
                         % ((name + ' ' + rest).rstrip(), does, options_text() if name == 'run' else '', example))
    lines.append('\nA path `-` is standard input; a file of that name is `./-`.\n')
    lines.append('docs/USING.md has the statuses, docs/FORMATS.md every text that is read and written.\n')
    return ''.join(lines)


def usage(why, is_quiet):
    """Answers as the program does words that mean nothing."""
    write_answer(b'usage\n')
    if not is_quiet:
        say(why)
        write_error(list_of_words())
    return 2


def list_unread(paths):
    """Why the first of these paths can't be read that can't, or nothing."""
    for path in paths:
        if os.path.isdir(path):
            return 'this path is a folder: %s' % path
        if not os.path.exists(path):
            return 'there is no file of this path: %s' % path
        if not os.access(path, os.R_OK):
            return 'this file may not be read: %s' % path
    return None
