"""Why a line of a flat text is bad, where a simple look at its bytes and at the lines before it tells."""
import flat_text
from words import is_integer, is_name

ACTS = ('entry', 'exit', 'effect', 'step', 'if')
CAUSES = ('the line is spelled wrong or stands in a wrong place, names something unknown or twice, passes a limit, or '
          'its behaviour is not in the one spelling')


def why_bad(data, number, line, program):
    """The cause, or the causes that a bad line can have."""
    why = why_bytes(data, number, line)
    if why:
        return [why]
    before, text = data.decode('utf-8', 'replace').split('\n')[:number - 1], line.decode('utf-8')
    why = why_numbers(text, before) or why_names(text, before)
    return [why] if why else why_spelled(text, before, program) or [CAUSES]


def why_bytes(data, number, line):
    """A fault of its bytes."""
    if line[-1:] == b'\r':
        return 'the line ends in CRLF: lines end with LF alone'
    if b'\xef\xbb\xbf' in line:
        return 'a byte order mark stands in the line'
    try:
        line.decode('utf-8')
    except UnicodeDecodeError:
        return 'the line is not UTF-8'
    if not line.strip():
        return 'the line is empty'
    if data.count(b'\n') < number:
        return 'the line has no line feed at its end'
    if line[:1] in b' \t' or line[-1:] in b' \t':
        return 'blanks stand before or behind the line'
    if b'\t' in line:
        return 'a tab stands in the line'
    if line.lstrip()[:1] in (b'#', b'/'):
        return 'there are no comments'
    return None


def why_numbers(line, before):
    """A number that is not the next one."""
    words = line.split(' ')
    letters = {'region': 'r', 'vertex': 'v', 'transition': 't'}
    if words[0] not in letters or len(words) < 2:
        return None
    begin = max((at for at, each in enumerate(before) if each.startswith('machine ')), default=0)
    due = '%s%d' % (letters[words[0]], sum(each.startswith(words[0] + ' ') for each in before[begin:]))
    if words[1] == due:
        return None
    return 'the elements of a kind are numbered in the order of their lines: %s is due' % due


def why_names(line, before):
    """A name that is unknown, or there already."""
    kind, _, rest = line.partition(' ')
    words = rest.split(' ')
    signals = flat_text.declared(before, 'signal')
    if kind in ('on', 'defer'):
        if rest not in signals:
            return 'the model has no signal %s: its signals are %s' % (rest, ', '.join(signals) or 'none')
        last = before[-1].partition(' ')
        order = list(signals)
        if last[0] == kind and last[2] in order and order.index(last[2]) >= order.index(rest):
            return 'such lines name signals in the order in which these stand above, each once: %s stands behind %s' % (
                last[2], rest)
    if kind in ('signal', 'class', 'object', 'var'):
        if not is_name(words[0]):
            return '%s is no name: a letter or _, and then letters, digits and _, at most 64' % words[0]
        if any(each.split(' ')[:2] == [kind, words[0]] for each in before[block_begin(before, kind):]):
            return 'there is a %s %s already' % ('variable' if kind == 'var' else kind, words[0])
    if kind == 'object' and len(words) == 2 and words[1] not in flat_text.declared(before, 'class'):
        return 'the model has no class %s' % words[1]
    if kind == 'var' and len(words) == 2 and not is_integer(words[1]):
        return '%s is no integer of 64 bits, in decimal' % words[1]
    return None


def block_begin(before, kind):
    """Where the lines begin in which a name of this kind stands once."""
    if kind != 'var':
        return 0
    return max((at for at, each in enumerate(before) if each.startswith('machine ')), default=0)


def why_spelled(line, before, program):
    """Another spelling than the one, which the program itself gives."""
    kind, _, text = line.partition(' ')
    if kind not in ACTS or not text or program is None:
        return None
    from spelling import one_spelling
    one = one_spelling(program, before, kind == 'if', text)
    if one is None or one == text:
        return None
    if not one:
        return ['a behaviour without statements has no such line']
    return ['a behaviour or guard has one spelling, and this line is to be', '  %s %s' % (kind, one)]
