#!/usr/bin/env python3
"""A turnstile on the Python library `transitions`, logged by its callbacks as a journal.

    python3 examples/engines/turnstile.py FOLDER

It writes FOLDER/turnstile.flat, the model of the machine, and two journals of the same run, which differ in the callback that logs
the effect of a transition. FOLDER/before.journal has it in a `before` callback, which this library calls ahead of the exits;
FOLDER/change.journal has it where the library changes the state, between the exit and the entry, as UML has it. Judge them:

    bin/zawhiroke judge FOLDER/turnstile.flat FOLDER/before.journal     refuse 9 A9
    bin/zawhiroke judge FOLDER/turnstile.flat FOLDER/change.journal     accept 16

The library: Debian's python3-transitions, or `pip install transitions`.
"""
import os
import sys

from transitions import Machine, State
from transitions.core import Transition

STATES = ['Locked', 'Unlocked']
SIGNALS = ['Coin', 'Push']
# signal, source, target; the first State is the one that the machine starts in
TRANSITIONS = [
    ('Coin', 'Locked', 'Unlocked'),
    ('Push', 'Unlocked', 'Locked'),
    ('Coin', 'Unlocked', 'Unlocked'),
]
RUN = ['Push', 'Coin', 'Push']
OBJECT = 'gate'


# ---- The model. Vertex 0 is the initial vertex and transition 0 leaves it, so States and transitions count from 1.

def vertex_of(state):
    return 1 + STATES.index(state)


def model():
    lines = ['pssm-flat 1']
    lines += ['signal %s 0' % signal for signal in SIGNALS]
    lines += ['class Turnstile', 'object %s Turnstile' % OBJECT, 'machine Turnstile', 'region r0 top', 'vertex v0 r0 initial']
    lines += ['vertex v%d r0 state %s' % (vertex_of(state), state) for state in STATES]
    lines += ['transition t0 v0 v1 external']
    for number, (signal, source, target) in enumerate(TRANSITIONS, 1):
        lines += ['transition t%d v%d v%d external' % (number, vertex_of(source), vertex_of(target)), 'on ' + signal]
    return lines + ['end']


# ---- The log

class Journal:
    """The lines of a journal, and how many signals were posted and taken."""

    def __init__(self):
        self.lines = ['pssm-journal 1']
        self.posted = self.taken = 0

    def post(self, signal):
        self.posted += 1
        self.lines.append('post %s.%s()' % (OBJECT, signal))

    def take(self, fires):
        """The next signal is taken, and fires this transition, or `-`."""
        self.taken += 1
        self.lines.append('take %s %d %s' % (OBJECT, self.taken, fires))

    def log(self, what, element):
        self.lines.append('%s %s %s' % (what, OBJECT, element))


class LoggedState(State):
    """A State that logs its exit and its entry."""

    def exit(self, event_data):
        super().exit(event_data)
        event_data.model.journal.log('exit', 'v%d' % vertex_of(self.name))

    def enter(self, event_data):
        super().enter(event_data)
        event_data.model.journal.log('enter', 'v%d' % vertex_of(self.name))


class LoggedTransition(Transition):
    """A transition that logs its effect between the exit of its source and the entry of its target."""

    def _change_state(self, event_data):
        machine = event_data.machine
        machine.get_state(self.source).exit(event_data)
        self.effect(event_data)
        machine.set_state(self.dest, event_data.model)
        event_data.update(getattr(event_data.model, machine.model_attribute))
        machine.get_state(self.dest).enter(event_data)

    def effect(self, event_data):
        if event_data.model.logs_at_change:
            event_data.model.journal.log('effect', 't%d' % event_data.model.fires)


class LoggedMachine(Machine):
    state_cls = LoggedState
    transition_cls = LoggedTransition


class Gate:
    """The object: it takes each signal when it has done with the one before."""

    def __init__(self, logs_at_change):
        self.logs_at_change = logs_at_change
        self.journal = Journal()
        self.fires = 0
        self.machine = LoggedMachine(self, states=STATES, initial='Locked', send_event=True, auto_transitions=False)
        for number, (signal, source, target) in enumerate(TRANSITIONS, 1):
            # `prepare` is called when the library has found the transition that fires, and before all else of it.
            self.machine.add_transition(signal, source, target, prepare=self.taker(number), before=self.before)
        self.start()

    def start(self):
        # The library puts the machine into its first State without a callback.
        for line in ('start %s', 'open %s r0 default by t0', 'effect %s t0', 'enter %s v1'):
            self.journal.lines.append(line % OBJECT)

    def taker(self, number):
        def take(event_data):
            self.fires = number
            self.journal.take('t%d' % number)
        return take

    def before(self, event_data):
        if not self.logs_at_change:
            self.journal.log('effect', 't%d' % self.fires)

    def send(self, signal):
        self.journal.post(signal)
        # A signal that no transition of the State lists is taken all the same, and nothing comes of it.
        if self.machine.get_transitions(signal, self.state):
            self.trigger(signal)
        else:
            self.journal.take('-')


def run(logs_at_change):
    gate = Gate(logs_at_change)
    for signal in RUN:
        gate.send(signal)
    return gate.journal.lines


def write(folder, name, lines):
    with open(os.path.join(folder, name), 'w') as file:
        file.write('\n'.join(lines) + '\n')


def main():
    if len(sys.argv) != 2:
        sys.exit(__doc__)
    folder = sys.argv[1]
    os.makedirs(folder, exist_ok=True)
    write(folder, 'turnstile.flat', model())
    write(folder, 'before.journal', run(logs_at_change=False))
    write(folder, 'change.journal', run(logs_at_change=True))


if __name__ == '__main__':
    main()
