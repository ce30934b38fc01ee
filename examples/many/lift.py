#!/usr/bin/env python3
"""The lift of lift.flat, written by hand and logging what it does, with its test runs.

    python3 examples/many/lift.py FOLDER               writes FOLDER/NAME.journal for each test run
    python3 examples/many/lift.py --mistakes FOLDER    writes ten more, each of them such a run with one mistake
"""
import os
import sys

# The numbers of the States in lift.flat.
IN_SERVICE, STOPPED, RETIRED = 'v1', 'v2', 'v3'
WAITING, UP, DOWN, ARRIVING, OPEN = 'v5', 'v7', 'v8', 'v9', 'v10'
WHERE_NOW = 'v6'


class Lift:
    """What is active is one State inside In service, or Stopped, or Retired."""

    def __init__(self):
        self.lines = ['pssm-journal 1']
        self.pool = []           # the signals that wait, each with its number
        self.posted = 0
        self.floor = self.goal = 0
        self.remembered = None   # the State inside In service that was left last
        self.steps = 0           # how many do steps of Arriving are done
        self.log('start lift')
        self.log('open lift r0 default by t0')
        self.log('effect lift t0')
        self.log('enter lift', IN_SERVICE)
        self.log('open lift r1 default by t1')
        self.log('effect lift t1')
        self.enter(WAITING)

    # ---- The log

    def log(self, *words):
        self.lines.append(' '.join(words))

    def enter(self, state):
        outputs = ['!opened(%d)' % self.floor] if state == OPEN else []
        self.log('enter lift', state, *outputs)
        self.state, self.steps = state, 0

    def exit(self):
        outputs = ['!shut(%d)' % self.floor] if self.state == OPEN else []
        self.log('exit lift', self.state, *outputs)
        self.remembered = self.state

    # ---- What comes from outside

    def post(self, signal):
        self.posted += 1
        self.pool.append((self.posted, signal))
        self.log('post lift.' + signal)

    def run(self):
        """Goes on until it waits for a signal. Between two signals there is time for one do step."""
        while self.state != RETIRED:
            if self.state == ARRIVING and self.steps < 2:
                self.do_step()
            if self.state == ARRIVING and self.steps == 2:
                self.open_doors()
            waiting = [one for one in self.pool if not self.defers(one[1])]
            if waiting:
                self.pool.remove(waiting[0])
                self.take(*waiting[0])
            elif self.state != ARRIVING:
                return

    def defers(self, signal):
        return signal.startswith('Call') and self.state != WAITING

    # ---- What it does

    def do_step(self):
        output = ['!gong(%d)', '!light(%d)'][self.steps] % self.floor
        self.log('do lift', ARRIVING, str(self.steps), output)
        self.steps += 1

    def open_doors(self):
        self.log('done lift', ARRIVING, 't8')
        self.exit()
        self.log('effect lift t8')
        self.enter(OPEN)

    def take(self, number, signal):
        name, argument = signal.rstrip(')').split('(')
        if name == 'Call' and self.state == WAITING:
            self.fire(number, 't2')
            self.exit()
            self.goal = int(argument)
            self.log('effect lift t2')
            self.where_now()
        elif name == 'Passed' and self.state == UP:
            self.fire(number, 't6')
            self.exit()
            self.floor += 1
            self.log('effect lift t6')
            self.where_now()
        elif name == 'Passed' and self.state == DOWN:
            self.fire(number, 't7')
            self.exit()
            self.floor -= 1
            self.log('effect lift t7')
            self.where_now()
        elif name == 'Shut' and self.state == OPEN:
            self.fire(number, 't9')
            self.exit()
            self.log('effect lift t9')
            self.enter(WAITING)
        elif name == 'Stop' and self.state != STOPPED:
            self.fire(number, 't10')
            self.exit()
            self.log('exit lift', IN_SERVICE)
            self.log('effect lift t10 !braked(%d)' % self.floor)
            self.enter(STOPPED)
        elif name == 'Resume' and self.state == STOPPED:
            back = self.remembered
            self.fire(number, 't11')
            self.log('exit lift', STOPPED)
            self.log('effect lift t11')
            self.log('enter lift', IN_SERVICE)
            self.log('open lift r1 shallow state', back)
            self.enter(back)
        elif name == 'Retire' and self.state == STOPPED:
            self.fire(number, 't12')
            self.log('exit lift', STOPPED)
            self.log('effect lift t12')
            self.enter(RETIRED)
        else:
            self.fire(number, '-')

    def fire(self, number, transition):
        self.log('take lift', str(number), transition)

    def where_now(self):
        branch, state = 't5', ARRIVING
        if self.goal > self.floor:
            branch, state = 't3', UP
        elif self.goal < self.floor:
            branch, state = 't4', DOWN
        self.log('pick lift', WHERE_NOW, branch)
        self.log('effect lift', branch)
        self.enter(state)


# ---- The test runs: the signals, one after the other; where `+` stands between two, both are there at once.

RUNS = {
    'start': '',
    'call-here': 'Call(0)',
    'call-here-and-shut': 'Call(0) Shut()',
    'up-one': 'Call(1) Passed()',
    'up-three': 'Call(3) Passed() Passed() Passed()',
    'up-and-shut': 'Call(2) Passed() Passed() Shut()',
    'up-and-down': 'Call(2) Passed() Passed() Shut() Call(0) Passed() Passed() Shut()',
    'down-to-the-cellar': 'Call(-1) Passed()',
    'from-cellar-to-roof': 'Call(-2) Passed() Passed() Shut() Call(1) Passed() Passed() Passed()',
    'half-way': 'Call(4) Passed() Passed()',
    'far-up': 'Call(12)' + ' Passed()' * 12,
    'same-floor-twice': 'Call(1) Passed() Shut() Call(1) Shut()',
    'call-while-going-up': 'Call(2) Passed() Call(0) Passed() Shut() Passed() Passed()',
    'call-while-going-down': 'Call(-2) Call(5) Passed() Passed() Shut()',
    'call-while-open': 'Call(0) Call(1) Shut() Passed()',
    'three-calls-at-once': 'Call(1)+Call(2)+Call(0) Passed() Shut() Passed() Shut() Passed() Passed() Shut()',
    'shut-too-early': 'Call(0)+Call(1)+Shut() Passed()',
    'passed-while-waiting': 'Passed() Call(1) Passed()',
    'passed-while-open': 'Call(0) Passed() Shut()',
    'shut-while-going': 'Call(1) Shut() Passed() Shut()',
    'shut-twice': 'Call(0) Shut() Shut()',
    'stop-while-waiting': 'Stop() Resume() Call(1) Passed()',
    'stop-while-going-up': 'Call(2) Passed() Stop() Resume() Passed() Shut()',
    'stop-while-open': 'Call(1) Passed() Stop() Resume() Shut()',
    'stop-after-the-gong': 'Call(1) Passed()+Stop() Resume() Shut()',
    'stop-twice': 'Call(1) Stop() Stop() Resume() Passed()',
    'resume-without-stop': 'Resume() Call(0) Resume() Shut()',
    'call-while-stopped': 'Stop() Call(1) Resume() Passed()',
    'retire': 'Stop() Retire()',
    'retire-with-a-call': 'Call(2) Call(1) Passed() Stop() Retire() Resume()',
}


def journal(run):
    lift = Lift()
    for together in run.split():
        for signal in together.split('+'):
            lift.post(signal)
        lift.run()
    return lift.lines


# ---- The mistakes: the test run, the number of the first entry that changes, and what stands there instead of what.

MISTAKES = {
    'listens-when-retired': ('retire-with-a-call', 35, [], ['take lift 6 -']),
    'never-waits': ('same-floor-twice', 32, ['enter lift v5'], []),
    'opens-in-the-dark': ('up-one', 23, ['do lift v9 1 !light(1)'], []),
    'drops-a-call': ('call-while-going-up', 24, [], ['take lift 3 -']),
    'misses-a-floor': ('half-way', 23, ['take lift 3 t6'], ['take lift 3 -']),
    'enters-the-choice': ('down-to-the-cellar', 12, [], ['enter lift v6']),
    'outer-state-first': ('stop-while-going-up', 24, ['exit lift v7', 'exit lift v1'], ['exit lift v1', 'exit lift v7']),
    'goes-too-far': ('up-one', 19, ['pick lift v6 t5'], ['pick lift v6 t3']),
    'no-second-gong': ('stop-after-the-gong', 36, ['do lift v9 0 !gong(1)'], []),
    'gong-of-another-floor': ('up-three', 36, ['do lift v9 0 !gong(3)'], ['do lift v9 0 !gong(2)']),
}


def planted(run, entry, was, instead):
    lines = journal(RUNS[run])
    if lines[entry:entry + len(was)] != was:
        sys.exit('in %s entry %d is not %s' % (run, entry, was))
    return lines[:entry] + instead + lines[entry + len(was):]


def main():
    words = sys.argv[1:]
    wrong = words[:1] == ['--mistakes']
    if len(words) != 1 + wrong:
        sys.exit(__doc__)
    folder = words[-1]
    journals = {name: planted(*mistake) for name, mistake in MISTAKES.items()} if wrong else {
        name: journal(run) for name, run in RUNS.items()}
    os.makedirs(folder, exist_ok=True)
    for name, lines in journals.items():
        with open(os.path.join(folder, name + '.journal'), 'w', newline='\n') as file:
            file.write('\n'.join(lines) + '\n')


if __name__ == '__main__':
    main()
