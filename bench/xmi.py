#!/usr/bin/env python3
"""How long `flat` takes on model files in XMI, and how much memory.

Run it at the top of the repository after the program is built: python3 bench/xmi.py
It writes its models into a temporary folder, and prints a line for each: elements, seconds, elements per second, peak memory; and a line with
bytes, bytes per second, and how often the file's size the peak is. The files have some 1,000 and some 60,000 elements, every tag with an id, spread over classes with one
machine each, as an editor writes them: States with entries in regions, transitions with triggers, guards, effects, notes that are passed over. `lamps` is one class many
times; `heirs` is a class and others that each extend the machine of the one before and redefine all its States; `notes` has elements
that are passed over alone. Each answer is looked at: its number of classes and of vertices is that of the file.
"""
import os
import subprocess
import tempfile

from measure import PROGRAM, measure, need_program, report

SIZES = (1_000, 60_000)
MOST_CLASSES = 60
HEAD = ('<?xml version="1.0" encoding="UTF-8"?>\n'
        '<uml:Model xmi:version="20131001" xmlns:xmi="http://www.omg.org/spec/XMI/20131001" xmlns:uml="http://www.eclipse.org/uml2/5.0.0/UML" xmi:id="_m" name="Bench">\n'
        '<packagedElement xmi:type="uml:Signal" xmi:id="_s" name="Go"/>\n'
        '<packagedElement xmi:type="uml:SignalEvent" xmi:id="_e" signal="_s"/>\n')
TAIL = '</uml:Model>\n'
STATE = ('<subvertex xmi:type="uml:State" xmi:id="_v{c}_{s}" name="State {s}">'
         '<entry xmi:type="uml:OpaqueBehavior" xmi:id="_x{c}_{s}"><language>PSSM</language><body>n := n + {s}; mark at(n);</body></entry></subvertex>\n'
         '<transition xmi:id="_t{c}_{s}" source="_v{c}_{s}" target="_v{c}_{t}"><trigger xmi:id="_k{c}_{s}" event="_e"/>'
         '<guard xmi:id="_g{c}_{s}"><specification xmi:type="uml:OpaqueExpression" xmi:id="_y{c}_{s}"><body>n &lt; {s}</body></specification></guard></transition>\n'
         '<eAnnotations xmi:id="_n{c}_{s}" source="note"/>\n')
IN_A_STATE = 10
HEIR = ('<subvertex xmi:type="uml:State" xmi:id="_v{c}_{s}" redefinedState="_v{b}_{s}">'
        '<exit xmi:type="uml:OpaqueBehavior" xmi:id="_x{c}_{s}"><body>mark out{c}(n);</body></exit></subvertex>\n')
IN_AN_HEIR = 3


def a_class(number, states, extended=None):
    """A class with a machine of so many States, one after another in a circle; with `extended`, all States are redefined ones."""
    top = ('<packagedElement xmi:type="uml:Class" xmi:id="_c{c}" name="C{c}" classifierBehavior="_b{c}">\n'
           '<ownedBehavior xmi:type="uml:StateMachine" xmi:id="_b{c}"{more}><region xmi:id="_r{c}"{region}>\n')
    if extended is None:
        parts = [top.format(c=number, more='', region='').replace('\n', '\n<ownedAttribute xmi:id="_a%d" name="n"/>\n' % number, 1)]
        parts.append('<subvertex xmi:type="uml:Pseudostate" xmi:id="_i{c}"/>\n<transition xmi:id="_j{c}" source="_i{c}" target="_v{c}_0"/>\n'.format(c=number))
        parts += [STATE.format(c=number, s=s, t=(s + 1) % states) for s in range(states)]
    else:
        more, region = ' extendedStateMachine="_b%d"' % extended, ' extendedRegion="_r%d"' % extended
        parts = [top.format(c=number, more=more, region=region)]
        parts += [HEIR.format(c=number, b=extended, s=s) for s in range(states)]
    return ''.join(parts) + '</region></ownedBehavior></packagedElement>\n'


def lamps(elements):
    """(the text, its classes, the vertices of all of them): machines of like size."""
    classes = min(MOST_CLASSES, max(1, elements // 500))
    states = max(1, elements // classes // IN_A_STATE)
    return HEAD + ''.join(a_class(c, states) for c in range(classes)) + TAIL, classes, classes * (states + 1)


def heirs(elements):
    """A chain of machines that extend one another."""
    classes = min(MOST_CLASSES, max(2, elements // 500))
    states = max(1, elements // (IN_A_STATE + IN_AN_HEIR * (classes - 1)))
    return HEAD + a_class(0, states) + ''.join(a_class(c, states, c - 1) for c in range(1, classes)) + TAIL, classes, classes * (states + 1)


def notes(elements):
    """Elements that are passed over."""
    return HEAD + ''.join('<eAnnotations xmi:id="_n%d" source="note"><details key="k" value="v"/></eAnnotations>\n' % n for n in range(elements // 2)) + TAIL, 0, 0


def count_elements(text):
    return sum(1 for part in text.split('<')[1:] if part[0] not in '/?!')


def main():
    need_program()
    with tempfile.TemporaryDirectory() as folder:
        model = os.path.join(folder, 'bench.xmi')
        for make in (lamps, heirs, notes):
            for size in SIZES:
                text, classes, vertices = make(size)
                data = text.encode('utf-8')
                with open(model, 'wb') as file:
                    file.write(data)
                seconds, memory = measure(['flat', model])
                report('flat %s' % make.__name__, count_elements(text), seconds, memory, 'elements')
                print('%-14s %9d bytes     %12.0f bytes/s, peak memory %.1f times the file' % ('', len(data), len(data) / seconds, memory * 1024 / len(data)))
                lines = subprocess.run([PROGRAM, 'flat', model], stdout=subprocess.PIPE, check=True).stdout.split(b'\n')
                counted = sum(line.startswith(b'class ') for line in lines), sum(line.startswith(b'vertex ') for line in lines)
                assert counted == (classes, vertices), (counted, classes, vertices)


if __name__ == '__main__':
    main()
