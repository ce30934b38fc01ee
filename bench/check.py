#!/usr/bin/env python3
"""How long `check` and `flat` take, and how much memory, on the largest models that there are.

Run it at the top of the repository after the program is built: python3 bench/check.py
It writes its models into a temporary folder, and prints a line for each command and model: transitions, seconds, transitions per
second, peak memory. The models have 8,192 transitions (`diamonds` 8,188) and 4,096 vertices; `nested` has 32 regions on one owner chain and 1,024 in all, `diamonds` 4,093
junctions in diamonds, through which more paths lead than there are atoms. Three further models are checked alone: `circle` has 4,094 junctions on one
cycle (which breaks a rule at each of them), `choices` 2,047 choices of which each begins a path through 2,047 junctions, and
`towers` has transitions between the bottoms of two towers of 32 regions.
"""
import os
import tempfile

from measure import measure, need_program, report

HEAD = ['pssm-flat 1', 'signal G 0', 'class M', 'object a M', 'machine M']
VERTICES, TRANSITIONS, REGIONS, DEPTH = 4096, 8192, 1024, 32


def text(regions, vertices, transitions):
    """The flat text of a machine; a transition is its ends and whether it lists the signal."""
    lines = HEAD + ['region r%d %s' % item for item in enumerate(regions)]
    lines += ['vertex v%d %s' % item for item in enumerate(vertices)]
    for number, (source, target, listed) in enumerate(transitions):
        lines.append('transition t%d v%d v%d external' % (number, source, target))
        if listed:
            lines.append('on G')
    return '\n'.join(lines + ['end']) + '\n'


def single():
    """One region of States, each with two transitions to the next one."""
    states = VERTICES - 1
    vertices = ['r0 initial'] + ['r0 state'] * states
    transitions = [(0, 1, False)] + [(1 + i % states, 1 + (i + 1) % states, True) for i in range(TRANSITIONS - 1)]
    return text(['top'], vertices, transitions)


def nested():
    """Chains of States in one another, 32 regions deep, and States in their regions."""
    regions, vertices, transitions = ['top'], ['r0 initial', 'r0 state'], [(0, 1, False)]
    outer, depth = 1, 1
    while len(regions) < REGIONS:
        if depth == DEPTH:
            outer, depth = 1, 1
        regions.append('v%d' % outer)
        region = len(regions) - 1
        vertices += ['r%d initial' % region, 'r%d state' % region]
        outer, depth = len(vertices) - 1, depth + 1
        transitions.append((outer - 1, outer, False))
    inner = len(vertices) - 1
    vertices += ['r%d state' % (REGIONS - 1)] * (VERTICES - len(vertices))
    states = VERTICES - inner
    transitions += [(inner + i % states, inner + (i + 1) % states, True) for i in range(TRANSITIONS - len(transitions))]
    return text(regions, vertices, transitions)


def diamonds():
    """A chain of junctions, each with two transitions to the next one."""
    vertices = ['r0 initial', 'r0 state', 'r0 state'] + ['r0 junction'] * (VERTICES - 3)
    chain = list(range(3, VERTICES)) + [2]
    transitions = [(0, 1, False), (1, 3, True)]
    for source, target in zip(chain, chain[1:]):
        transitions += [(source, target, False)] * 2
    return text(['top'], vertices, transitions)


def circle():
    """Junctions that all lie on one cycle, each with two transitions to the next one."""
    first, count = 2, VERTICES - 2
    vertices = ['r0 initial', 'r0 state'] + ['r0 junction'] * count
    transitions = [(0, 1, False), (1, first, True)]
    transitions += [(first + i % count, first + (i + 1) % count, False) for i in range(2 * count)]
    return text(['top'], vertices, transitions)


def choices():
    """As many choices before a chain of junctions as the chain has: each choice begins a path through all of it."""
    count = (VERTICES - 2) // 2
    choice, junction = 2, 2 + count
    vertices = ['r0 initial', 'r0 state'] + ['r0 choice'] * count + ['r0 junction'] * count
    transitions = [(0, 1, False)]
    for i in range(count):
        transitions += [(1, choice + i, True), (choice + i, junction, False)]
        transitions.append((junction + i, junction + i + 1 if i + 1 < count else 1, False))
    return text(['top'], vertices, transitions)


def towers():
    """Two chains of States in one another, 32 regions deep, and transitions between junctions at the bottom of one and of the other."""
    regions, vertices, bottoms = ['top'], ['r0 initial', 'r0 state', 'r0 state'], []
    for outer in (1, 2):
        for _ in range(DEPTH - 1):
            regions.append('v%d' % outer)
            vertices.append('r%d state' % (len(regions) - 1))
            outer = len(vertices) - 1
        bottoms.append(len(regions) - 1)
    first, count = len(vertices), VERTICES - len(vertices)
    vertices += ['r%d junction' % bottoms[i % 2] for i in range(count)]
    transitions = [(0, 1, False)]
    transitions += [(first + i % count, first + (i * 7 + 1) % count, False) for i in range(TRANSITIONS - 1)]
    return text(regions, vertices, transitions)


def main():
    need_program()
    with tempfile.TemporaryDirectory() as folder:
        model = os.path.join(folder, 'bench.flat')
        for make in (single, nested, diamonds):
            with open(model, 'w') as file:
                file.write(make())
            count = make().count('transition')
            for command in ('check', 'flat'):
                report('%s %s' % (command, make.__name__), count, *measure([command, model]), 'transitions')
        for make in (circle, choices, towers):
            with open(model, 'w') as file:
                file.write(make())
            report('check %s' % make.__name__, make().count('transition'), *measure(['check', model], wanted=0 if make is choices else 3), 'transitions')


if __name__ == '__main__':
    main()
