"""QStateMachine, of Qt State Machine: a machine as the lines that qt_statemachine.cpp reads, and its run."""
import os
import subprocess

from machines import History, State

HERE = os.path.dirname(os.path.abspath(__file__))
NAME = 'QStateMachine'
FORMS = ['nested', 'orthogonal', 'internal', 'guards', 'completion', 'immediate', 'history']


def build(folder):
    flags = subprocess.run(['pkg-config', '--cflags', '--libs', 'Qt6StateMachine'], capture_output=True, text=True, check=True).stdout.split()
    program = os.path.join(folder, 'qt_statemachine')
    subprocess.run(['g++', '-O1', '-fPIC', os.path.join(HERE, 'qt_statemachine.cpp'), '-o', program] + flags, check=True)
    return program


def description(machine):
    lines = []

    def place(region, parent):
        for vertex in region.vertices():
            name = 'v%d' % machine.v[vertex]
            if isinstance(vertex, History):
                lines.append('history %s %s %s v%d' % (name, parent, vertex.kind, machine.v[region.states[0]]))
                continue
            if not isinstance(vertex, State):
                lines.append('final %s %s' % (name, parent))
                continue
            several = len(vertex.regions) > 1
            first = 'first' if vertex is region.states[0] else 'later'
            lines.append('state %s %s %s %s' % (name, parent, 'parallel' if several else 'exclusive', first))
            for inner in vertex.regions:
                if several:
                    lines.append('state r%d %s exclusive later' % (machine.r[inner], name))
                place(inner, 'r%d' % machine.r[inner] if several else name)

    place(machine.top, 'machine')
    for t in machine.transitions:
        target = '-' if t.kind == 'internal' else 'v%d' % machine.v[t.target]
        lines.append('transition t%d v%d %s %s %s %s %s' % (
            machine.t[t], machine.v[t.source], target, 'internal' if t.kind == 'local' else 'external', t.signal or ('done' if t.source.regions else 'nothing'),
            '-' if t.guard is None else t.guard, 'toggles' if t.toggles else 'stays'))
    return lines


def run(program, machine, signals, folder):
    """The lines of the engine's log."""
    path = os.path.join(folder, 'machine.txt')
    with open(path, 'w') as file:
        file.write('\n'.join(description(machine)) + '\n')
    done = subprocess.run([program, path] + signals, capture_output=True, text=True, timeout=60)
    if done.returncode or done.stderr:
        raise RuntimeError('%d %s' % (done.returncode, done.stderr))
    return done.stdout.splitlines()
