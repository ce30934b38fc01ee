#!/usr/bin/env python3
"""Shows a journal with names beside the numbers: python3 names.py MODEL.flat JOURNAL

A State is shown by its name, another vertex without a name by its kind, and a transition by its two ends. Of a model in XMI
`bin/zawhiroke flat FILE.xmi` writes the flat text.
"""
import re
import sys


def names_of(model):
    """For each object of the model, the names of the vertices and transitions of its class."""
    classes, machines, machine = {}, {}, {}
    for line in model:
        words = line.rstrip('\n').split(' ')
        if words[0] == 'object':
            classes[words[1]] = words[2]
        elif words[0] == 'machine':
            machine = machines[words[1]] = {}
        elif words[0] == 'vertex':
            machine[words[1]] = ' '.join(words[4:]) or words[3]
        elif words[0] == 'transition':
            machine[words[1]] = '%s to %s' % (machine[words[2]], machine[words[3]])
    return {name: machines[class_name] for name, class_name in classes.items()}


def shown(line, objects):
    words = line.split(' ')
    names = objects.get(words[1], {}) if len(words) > 2 else {}
    elements = [each for word in words[2:] if not word.startswith(('!', '>')) for each in re.findall(r'[vt]\d+', word)]
    return ('%-34s %s' % (line, ', '.join(names.get(each, '?') for each in elements))).rstrip()


def main():
    if len(sys.argv) != 3:
        sys.exit(__doc__)
    with open(sys.argv[1], encoding='utf-8') as model, open(sys.argv[2], encoding='ascii', errors='replace') as journal:
        objects = names_of(model)
        for line in journal:
            print(shown(line.rstrip('\n'), objects))


if __name__ == '__main__':
    main()
