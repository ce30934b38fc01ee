"""Qt SCXML: a machine as an SCXML document, and its run. Each region of a State with several is a <state> in a <parallel>, and the top region is one, too."""
import os
import subprocess

HERE = os.path.dirname(os.path.abspath(__file__))
NAME = 'Qt SCXML'
FORMS = ['nested', 'orthogonal', 'internal', 'guards', 'completion', 'immediate', 'history']


def build(folder):
    flags = subprocess.run(['pkg-config', '--cflags', '--libs', 'Qt6Scxml'], capture_output=True, text=True, check=True).stdout.split()
    program = os.path.join(folder, 'qt_scxml')
    subprocess.run(['g++', '-O1', '-fPIC', os.path.join(HERE, '..', 'qt_scxml.cpp'), '-o', program] + flags, check=True)
    return program


def log(label, text):
    return '<log label="%s" expr="%s"/>' % (label, text)


class Writer:
    def __init__(self, machine):
        self.machine = machine

    def document(self):
        top = self.machine.top
        return '\n'.join(['<scxml xmlns="http://www.w3.org/2005/07/scxml" version="1.0" datamodel="ecmascript" initial="r0">',
                          '<datamodel><data id="x" expr="0"/></datamodel>',
                          '<state id="r0">'] + self.inside(top) + ['</state>', '</scxml>', ''])

    def inside(self, region):
        """What stands in a region's element: how it opens, and its States."""
        m = self.machine
        first = m.v[region.states[0]]
        lines = ['<initial><transition target="v%d">%s</transition></initial>' % (first, log('open', "'r%d t%d'" % (m.r[region], m.r[region])))]
        for state in region.states:
            lines += self.state(state)
        if region.final:
            lines += ['<final id="v%d">' % m.v[region.final]] + self.logs(region.final) + ['</final>']
        if region.history:
            opens = log('open', "'r%d t%d %s'" % (m.r[region], m.r[region], region.history.kind))
            lines.append('<history id="v%d" type="%s"><transition target="v%d">%s</transition></history>' % (m.v[region.history], region.history.kind, first, opens))
        return lines

    def logs(self, vertex):
        return ['<%s>%s</%s>' % (hook, log(label, "'v%d'" % self.machine.v[vertex]), hook) for hook, label in (('onentry', 'enter'), ('onexit', 'exit'))]

    def state(self, state):
        m = self.machine
        element = 'parallel' if len(state.regions) > 1 else 'state'
        lines = ['<%s id="v%d">' % (element, m.v[state])]
        inner = []
        if len(state.regions) == 1:
            inner = self.inside(state.regions[0])
        else:
            for region in state.regions:
                inner += ['<state id="r%d">' % m.r[region]] + self.inside(region) + ['</state>']
        # <initial> stands first.
        lines += inner[:1] if len(state.regions) == 1 else []
        lines += self.logs(state) + [self.transition(t) for t in m.outgoing(state)]
        lines += inner[1:] if len(state.regions) == 1 else inner
        return lines + ['</%s>' % element]

    def transition(self, transition):
        m = self.machine
        words = []
        if transition.signal or transition.source.regions:
            words.append('event="%s"' % (transition.signal or 'done.state.v%d' % m.v[transition.source]))
        if transition.guard is not None:
            words.append('cond="x == %d"' % transition.guard)
        if transition.kind != 'internal':
            words.append('target="v%d"' % m.v[transition.target])
        if transition.kind == 'local':
            words.append('type="internal"')
        text = "'t%d'" % m.t[transition]
        if transition.toggles:
            body = '<assign location="x" expr="1 - x"/>' + log('effect', "'t%d !now(' + x + ')'" % m.t[transition])
        else:
            body = log('effect', text)
        return '<transition %s>%s</transition>' % (' '.join(words), body)


def run(program, machine, signals, folder):
    """The lines of the engine's log."""
    path = os.path.join(folder, 'machine.scxml')
    with open(path, 'w') as file:
        file.write(Writer(machine).document())
    done = subprocess.run([program, path] + signals, capture_output=True, text=True, timeout=60)
    if done.returncode or done.stderr:
        raise RuntimeError(done.stderr)
    return done.stdout.splitlines()
