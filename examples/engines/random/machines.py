"""Small random hierarchical machines, written once, and their models in the flat form.

A machine has States with any number of regions, a final state in some regions, a history vertex in
some, and transitions. One variable `x` is 0 or 1: a transition may toggle it, which it marks as
`now`, and may ask for its value. The first State of a region is the one that it opens with.
"""
import random

SIGNALS = ['A', 'B', 'C']
OBJECT = 'a'

# What a machine of these forms may have beside States in States and external transitions.
FORMS = {
    'nested': (),
    'orthogonal': ('orthogonal',),
    'internal': ('orthogonal', 'internal'),
    'guards': ('orthogonal', 'guards'),
    'completion': ('orthogonal', 'completion'),
    'immediate': ('orthogonal', 'immediate'),
    'history': ('orthogonal', 'history'),
}


class State:
    def __init__(self):
        self.regions = []


class Final:
    """The final state of a region."""


class History:
    """The history vertex of a region: `kind` is shallow or deep. It has no transition out, so that it leads to the first State where nothing is remembered."""

    def __init__(self, kind):
        self.kind = kind


class Region:
    def __init__(self):
        self.states = []
        self.final = self.history = None

    def vertices(self):
        return self.states + [vertex for vertex in (self.final, self.history) if vertex]


class Transition:
    """`signal` is None where the completion of the source fires it; `guard` is None, or the value that `x` is to have."""

    def __init__(self, source, target, kind, signal, guard=None, toggles=False):
        self.source, self.target, self.kind, self.signal = source, target, kind, signal
        self.guard, self.toggles = guard, toggles


class Machine:
    def __init__(self, top, transitions):
        self.top, self.transitions = top, transitions
        self.number()

    def number(self):
        """Numbers everything: regions outside in, of each its initial vertex, States, final state
        and history vertex; first the transitions of initial vertices."""
        self.regions, self.owner = [], {}
        self.v, self.home, self.initial = {}, {}, {}
        count = 0
        todo = [(self.top, None)]
        while todo:
            region, state = todo.pop(0)
            self.owner[region] = state
            self.regions.append(region)
            self.initial[region] = count
            for vertex in region.vertices():
                count += 1
                self.v[vertex], self.home[vertex] = count, region
            count += 1
            todo += [(inner, vertex) for vertex in region.states for inner in vertex.regions]
        self.r = {region: number for number, region in enumerate(self.regions)}
        self.t = {transition: len(self.regions) + number for number, transition in enumerate(self.transitions)}

    def states(self):
        return [state for region in self.regions for state in region.states]

    def around(self, vertex):
        """The States in which a vertex lies, the innermost first."""
        outer = []
        while (vertex := self.owner[self.home[vertex]]) is not None:
            outer.append(vertex)
        return outer

    def outgoing(self, state):
        return [transition for transition in self.transitions if transition.source is state]

    def has(self, what):
        return any(what(transition) for transition in self.transitions)

    def flat(self):
        """The lines of the model."""
        lines = ['pssm-flat 1'] + ['signal %s 0' % signal for signal in SIGNALS]
        lines += ['class M', 'object %s M' % OBJECT, 'machine M']
        if self.has(lambda t: t.toggles or t.guard is not None):
            lines.append('var x 0')
        lines += ['region r%d %s' % (self.r[r], 'top' if self.owner[r] is None else 'v%d' % self.v[self.owner[r]]) for r in self.regions]
        for region in self.regions:
            lines.append('vertex v%d r%d initial' % (self.initial[region], self.r[region]))
            lines += ['vertex v%d r%d %s' % (self.v[x], self.r[region], word_of(x)) for x in region.vertices()]
        for region in self.regions:
            lines.append('transition t%d v%d v%d external' % (self.r[region], self.initial[region], self.v[region.states[0]]))
        for transition in self.transitions:
            lines.append('transition t%d v%d v%d %s' % (self.t[transition], self.v[transition.source], self.v[transition.target], transition.kind))
            if transition.signal:
                lines.append('on ' + transition.signal)
            if transition.guard is not None:
                lines.append('if x == %d' % transition.guard)
            if transition.toggles:
                lines.append('effect x := 1 - x; mark now(x);')
        return lines + ['end']


def word_of(vertex):
    return vertex.kind + 'History' if isinstance(vertex, History) else 'final' if isinstance(vertex, Final) else 'state'


# ---- Machines of the flat form

def read_flat(lines):
    """The machine of a model of this kind; everything in it keeps its number."""
    regions, owners, vertices, transitions = [], [], [], []
    for line in lines:
        word, *rest = line.split(' ')
        if word == 'region':
            regions.append(Region())
            owners.append(rest[1])
        elif word == 'vertex':
            made = {'initial': None, 'state': State(), 'final': Final(), 'shallowHistory': History('shallow'), 'deepHistory': History('deep')}[rest[2]]
            region = regions[int(rest[1][1:])]
            vertices.append(made)
            if rest[2] == 'state':
                region.states.append(made)
            elif rest[2] == 'final':
                region.final = made
            elif made:
                region.history = made
        elif word == 'transition':
            source, target = (vertices[int(name[1:])] for name in rest[1:3])
            transitions.append(Transition(source, target, rest[3], None))
        elif word == 'on':
            transitions[-1].signal = rest[0]
        elif word == 'if':
            transitions[-1].guard = int(rest[2])
        elif word == 'effect':
            transitions[-1].toggles = True
    for region, owner in zip(regions, owners):
        if owner != 'top':
            vertices[int(owner[1:])].regions.append(region)
    machine = Machine(regions[0], [t for t in transitions if t.source])
    if machine.flat() != lines:
        raise ValueError('the model has more than these machines, or other names or another order')
    return machine


# ---- Random machines

def random_region(dice, forms, depth):
    region = Region()
    for _ in range(dice.choice([2, 2, 3])):
        state = State()
        if dice.random() < [0.6, 0.35, 0][depth]:
            regions = dice.choice([1, 1, 2, 2, 2, 3]) if 'orthogonal' in forms else 1
            state.regions = [random_region(dice, forms, depth + 1) for _ in range(regions)]
        region.states.append(state)
    if depth and 'completion' in forms and dice.random() < 0.6:
        region.final = Final()
    if 'history' in forms and dice.random() < 0.5:
        region.history = History(dice.choice(['shallow', 'deep']))
    return region


def random_transition(dice, machine, forms):
    source = dice.choice(machine.states())
    beside = machine.home[source].vertices()
    target = dice.choice(beside if dice.random() < 0.5 else machine.states())
    histories = [region.history for region in machine.regions if region.history]
    if histories and dice.random() < 0.4:
        target = dice.choice(histories)
    kind, signal = 'external', dice.choice(SIGNALS)
    if 'internal' in forms and dice.random() < 0.2:
        kind, target = 'internal', source
    elif 'internal' in forms and source in machine.around(target) and len(source.regions) == 1 and dice.random() < 0.7:
        kind = 'local'
    if 'completion' in forms and source.regions and all(region.final for region in source.regions) and dice.random() < 0.5:
        signal = None
    if 'immediate' in forms and not source.regions and target in beside[beside.index(source) + 1:] and dice.random() < 0.5:
        signal = None
    guard = dice.choice([None, 0, 1]) if 'guards' in forms else None
    return Transition(source, target, kind, signal, guard, 'guards' in forms and dice.random() < 0.5)


def random_case(form, seed):
    """A machine of this form and the signals of a run."""
    dice = random.Random('%s %d' % (form, seed))
    machine = Machine(random_region(dice, FORMS[form], 0), [])
    count = len(machine.states()) * 3 // 2
    machine.transitions = [random_transition(dice, machine, FORMS[form]) for _ in range(count)]
    machine.number()
    return machine, [dice.choice(SIGNALS) for _ in range(12)]
