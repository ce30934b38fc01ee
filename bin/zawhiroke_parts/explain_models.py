"""What is said of a model that is refused, and of names that it does not have."""
import flat_text
from shown import line_at, marked, read, shown
from texts import ACT_FAULTS, MODEL_RULES, SHAPES

FORMATS = 'docs/FORMATS.md, section %s'


def names(call, program):
    """Which stimulus names what the model does not have, and what it has."""
    lines = flat_text.text_of(call.model, program)
    if lines is None:
        return ['a stimulus names an object or a signal that the model does not have, or gives it another number of '
                'arguments']
    objects, signals = flat_text.declared(lines, 'object'), flat_text.declared(lines, 'signal')
    said = []
    for stimulus in call.stimuli:
        thing, signal, count = parts_of(stimulus)
        if thing not in objects:
            said = ['%s: the model has no object %s' % (stimulus, thing)]
        elif signal not in signals:
            said = ['%s: the model has no signal %s' % (stimulus, signal)]
        elif str(count) != signals[signal]:
            said = ['%s: the signal %s has %s, and %s given' % (
                stimulus, signal, of_count(signals[signal]), {0: 'none is', 1: '1 is'}.get(count, '%d are' % count))]
        if said:
            break
    counted = ['%s with %s' % (name, of_count(count)) for name, count in signals.items()]
    return said + ['its objects: ' + (', '.join(objects) or 'none'), 'its signals: ' + (', '.join(counted) or 'none')]


def parts_of(stimulus):
    """The object, the signal and the number of arguments of a stimulus."""
    call, _, args = stimulus[:-1].partition('(')
    thing, _, signal = call.partition('.')
    return thing, signal, len(args.split(',')) if args else 0


def of_count(count):
    """So many arguments, in words."""
    return {'0': 'no argument', '1': '1 argument'}.get(count, '%s arguments' % count)


def refused(call, answer, program):
    """Why a model is none, or which rules it breaks."""
    data = read(call.model)
    if data is not None and data[:12] == b'pssm-journal':
        order = ': the words are judge MODEL JOURNAL, in this order' if call.command == 'judge' else ''
        return ['%s is a journal, and no model%s' % (call.model, order)]
    words = answer.decode('utf-8', 'replace').split('\n')[0].split(' ')
    if words[0] == 'flat':
        return refused_line(call.model, data, words[2:], program)
    if words[0] == 'xmi':
        from explain_files import refused_file
        return refused_file(call.model, data, int(words[2]), ' '.join(words[3:]))
    if words[0] == 'act':
        from explain_files import refused_body
        return refused_body(call.model, data, answer)
    if words[0] == 'redefine':
        from explain_files import refused_redefinition
        return refused_redefinition(call.model, data, answer)
    if words[0] == 'shape':
        return ['the machine of class %s' % words[1], '%s: %s (%s)' % (
            words[2], SHAPES.get(words[2], words[2]), FORMATS % '1')]
    return broken_rules(data, answer)


def refused_line(path, data, words, program):
    """Why a line of a flat text can't stand there."""
    number = int(words[0])
    if data is None:
        return ['line %d of the model cannot stand there (%s)' % (number, FORMATS % '1')]
    line = line_at(data, number)
    head = 'line %d of %s' % (number, path)
    if line is None:
        return ['%s ends before its last line, which is `end` (%s)' % (path, FORMATS % '1')]
    if words[1] == 'act':
        begin = line.find(b' ') + 1
        return [head, *marked(line, begin + int(words[4])), '%s: %s (%s)' % (
            words[2], ACT_FAULTS.get(words[2], words[2]), FORMATS % '4')]
    if words[1] == 'shape':
        return ['%s: %s' % (head, shown(line)), '%s: %s (%s)' % (
            words[2], SHAPES.get(words[2], words[2]), FORMATS % '1')]
    from explain_lines import why_bad
    why, *more = why_bad(data, number, line, program)
    return ['%s: %s' % (head, shown(line)), '%s (%s)' % (why, FORMATS % '1'), *more]


def broken_rules(data, answer):
    """Each rule that the model breaks, once, with the first line that breaks it where the model is a flat text."""
    lines = data.decode('utf-8', 'replace').split('\n') if data is not None and data[:9] == b'pssm-flat' else None
    said = ['the model reads, and breaks rules (%s):' % (FORMATS % '1.1')]
    for rule, name, element in (line.split(' ') for line in answer.decode().splitlines() if line.count(' ') == 2):
        text = '%s: %s' % (rule, MODEL_RULES.get(rule, 'docs/FORMATS.md has it'))
        if text in said:
            continue
        said.append(text)
        for line in flat_text.block_of(lines, name) if lines else []:
            if line.split(' ')[1:2] == [element]:
                said.append('  ' + shown(line.encode()))
    return said
