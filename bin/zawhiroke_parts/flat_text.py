"""What a flat text has: its names, and what stands behind the numbers of its elements."""
from shown import read
from running import ask

MOST = 1 << 20
MOST_NAMES = 8


def text_of(model, program):
    """The lines of the model's flat text: its own, or those that the program writes of a model file. None where there
    are none, or too many to look at in a moment.
    """
    data = read(model)
    if data is None or len(data) > MOST:
        return None
    if data[:9] != b'pssm-flat':
        if program is None:
            return None
        status, data = ask(program, ['flat', model])
        if status != 0:
            return None
    return data.decode('utf-8', 'replace').split('\n')


def declared(lines, kind):
    """The names of this kind in the head of the text, each with the word behind it."""
    found = {}
    for line in lines:
        words = line.split(' ')
        if words[0] == 'machine':
            break
        if words[0] == kind and len(words) > 1:
            found[words[1]] = words[2] if len(words) > 2 else ''
    return found


def block_of(lines, name):
    """The lines of the block of a class."""
    if 'machine ' + name not in lines:
        return []
    begin = lines.index('machine ' + name) + 1
    ends = (at for at in range(begin, len(lines)) if lines[at].startswith('machine ') or lines[at] == 'end')
    return lines[begin:next(ends, len(lines))]


def names_in(entry, lines):
    """What the numbers in an entry of a journal stand for, by the labels of the model."""
    words = entry.decode('utf-8', 'replace').replace('+', ' ').replace(',', ' ').split(' ')
    if lines is None or len(words) < 3:
        return []
    labels, ends = {}, {}
    for line in block_of(lines, declared(lines, 'object').get(words[1], '')):
        parts = line.split(' ', 4)
        if parts[0] == 'vertex' and len(parts) > 3:
            labels[parts[1]] = parts[4] if len(parts) > 4 else parts[3]
        elif parts[0] == 'transition' and len(parts) > 3:
            ends[parts[1]] = parts[2:4]
    said = []
    for word in dict.fromkeys(words[2:]):
        if word in labels:
            said.append('%s is %s' % (word, labels[word]))
        elif word in ends:
            said.append('%s leads from %s' % (word, ' to '.join(labels.get(end, end) for end in ends[word])))
    return ['in this model ' + ', '.join(said[:MOST_NAMES])] if said else []
