"""The Python library `transitions`, its HierarchicalMachine: a machine, and its run. An effect runs between the exits and the entries of its transition."""
from transitions.extensions.nesting import HierarchicalMachine, NestedState, NestedTransition

from machines import State

NAME = '`transitions`'
FORMS = ['nested', 'orthogonal', 'internal', 'guards']
EFFECT_IN_BEFORE = False


def build(folder):
    return None


class LoggedState(NestedState):
    separator = '/'

    def enter(self, event_data):
        super().enter(event_data)
        event_data.model.log_state('enter', self.name)

    def exit(self, event_data):
        super().exit(event_data)
        event_data.model.log_state('exit', self.name)


class LoggedTransition(NestedTransition):
    def __init__(self, *words, deed=None, effect_in_before=False, **others):
        super().__init__(*words, **others)
        self.deed = deed
        if effect_in_before or self.dest is None:
            self.add_callback('before', deed)

    def _change_state(self, event_data):
        tree, exits, enters = self._resolve_transition(event_data)
        for call in exits:
            call()
        if self.deed not in self.before:
            self.deed(event_data)
        self._update_model(event_data, tree)
        for call in enters:
            call()


class LoggedMachine(HierarchicalMachine):
    state_cls = LoggedState
    transition_cls = LoggedTransition

    def _check_event_result(self, result, model, trigger):
        # A signal that fires nothing: where regions are nested, this version asks here for a State by a name that it does not have.
        return bool(result)


class Run:
    """The model of the library: what it logs, and the variable."""

    def __init__(self):
        self.lines, self.x = [], 0

    def log_state(self, word, name):
        # The name is a path. Regions of States with several are states of the library, and not logged.
        name = name.split('/')[-1]
        if name.startswith('v'):
            self.lines.append('%s %s' % (word, name))


def states_of(machine, region):
    found = []
    for vertex in region.vertices():
        state = {'name': 'v%d' % machine.v[vertex]}
        if isinstance(vertex, State) and len(vertex.regions) == 1:
            inner = vertex.regions[0]
            state.update(children=states_of(machine, inner), initial='v%d' % machine.v[inner.states[0]])
        elif isinstance(vertex, State) and vertex.regions:
            state['parallel'] = [{'name': 'r%d' % machine.r[inner], 'children': states_of(machine, inner),
                                  'initial': 'v%d' % machine.v[inner.states[0]]} for inner in vertex.regions]
        found.append(state)
    return found


def path(machine, vertex):
    """The name of a State with all around it."""
    names = ['v%d' % machine.v[vertex]]
    while (owner := machine.owner[machine.home[vertex]]) is not None:
        if len(owner.regions) > 1:
            names.append('r%d' % machine.r[machine.home[vertex]])
        names.append('v%d' % machine.v[owner])
        vertex = owner
    return '/'.join(reversed(names))


def deed_of(number, toggles):
    def deed(event_data):
        run = event_data.model
        line = 'effect t%d' % number
        if toggles:
            run.x = 1 - run.x
            line += ' !now(%d)' % run.x
        run.lines.append(line)
    return deed


def guard_of(value):
    return [] if value is None else [lambda event_data: event_data.model.x == value]


def run(program, machine, signals, folder):
    """The lines of the engine's log."""
    model = Run()
    engine = LoggedMachine(model, states=states_of(machine, machine.top), initial='v%d' % machine.v[machine.top.states[0]],
                           send_event=True, auto_transitions=False, ignore_invalid_triggers=True)
    for t in machine.transitions:
        target = None if t.kind == 'internal' else path(machine, t.target)
        engine.add_transition(t.signal, path(machine, t.source), target, conditions=guard_of(t.guard),
                              deed=deed_of(machine.t[t], t.toggles), effect_in_before=EFFECT_IN_BEFORE)
    for signal in signals:
        model.lines.append('post ' + signal)
        if signal in engine.events:
            model.trigger(signal)
    return model.lines
