#!/usr/bin/env python3
"""Turns the log of an engine into a journal.

    python3 examples/engines/convert.py MODEL LOG >JOURNAL

MODEL is a model in the flat form with one object. LOG has a line for each thing that the engine told, in the order in which it came:

    post SIGNAL          the signal was given to the engine, which then ran until it came to rest; arguments stand behind it as in a journal
    exit STATE OUT ..    the State's exit ran; STATE is a vertex's label or number, and OUT an output as the journal has it
    effect TN OUT ..     the transition's effect ran
    enter STATE OUT ..   the State's entry ran
    open RN TN MODE      the region opens by the transition out of its initial vertex; some engines tell that. MODE may be left out where it is `default`

What a journal has besides is inferred:

- Signals are taken one by one in the order of their posts. What is logged between a post and the next is one step, but for completions: a new step begins
  with the effect of a transition without a signal, and the exits directly before it. What fires in a step is what has an effect in it.
- A step begins with `take`, or with `done` where its effect is that of a transition without a signal, whose source then is the State that was
  complete. A signal behind which nothing is logged is taken and fires nothing.
- Where the log has no `open`, an entry into a region at which no transition of the step aims is one by default, and the transition out of the region's
  initial vertex stands before it. Where nothing stands before the first post, the object starts as the model says.
- A transition out of an initial vertex has an effect line behind its opening.
- Where a transition fires into a history vertex, its region opens with the State that is entered, if one of the region has been exited before; so does,
  behind a deep history, each region in it.
"""
import sys


class Model:
    """What a conversion has to know of a model: who owns whom, and the ends and triggers of transitions."""

    def __init__(self, lines):
        # Of a region its owner and the transition with which it starts, of a vertex its region, of a label its vertex, of a transition its ends.
        self.owner, self.start, self.home, self.vertex, self.ends = {}, {}, {}, {}, {}
        self.initial, self.internal, self.listed, self.history = set(), set(), set(), {}
        for line in lines:
            words = line.split(' ')
            if words[0] == 'object':
                self.object = words[1]
            elif words[0] == 'region':
                self.owner[words[1]] = words[2]
            elif words[0] == 'vertex':
                name = words[1]
                self.home[name] = words[2]
                self.vertex[name] = self.vertex[' '.join(words[4:])] = name
                if words[3] == 'initial':
                    self.initial.add(name)
                if words[3].endswith('History'):
                    self.history[name] = words[3][:-len('History')]
            elif words[0] == 'transition':
                name = words[1]
                self.ends[name] = words[2], words[3]
                if words[2] in self.initial:
                    self.start[self.home[words[2]]] = name
                if words[4] == 'internal':
                    self.internal.add(name)
            elif words[0] == 'on':
                self.listed.add(name)

    def around(self, vertex):
        """The vertex and the States in which it lies."""
        found = [vertex]
        while (owner := self.owner[self.home[found[-1]]]) != 'top':
            found.append(owner)
        return found

    def aims(self, transition, vertex):
        return transition not in self.internal and vertex in self.around(self.ends[transition][1])

    def completes(self, line):
        """Whether this is the effect of a transition without a signal out of a State."""
        words = line.split()
        return words[0] == 'effect' and words[1] not in self.listed and self.ends[words[1]][0] not in self.initial


class Converter:
    def __init__(self, model):
        self.model = model
        self.lines = ['pssm-journal 1']
        self.taken = 0
        # The regions that have been left.
        self.remembers = set()

    def log(self, *words):
        self.lines.append(' '.join((words[0], self.model.object) + words[1:]))

    def convert(self, log):
        """The lines of the journal."""
        self.tells_openings = any(line.startswith('open') for line in log)
        posts = [place for place, line in enumerate(log) if line.startswith('post')] + [len(log)]
        self.log('start')
        if posts[0]:
            self.behind(log[:posts[0]], lambda fired: None)
        else:
            for region, owner in self.model.owner.items():
                if owner == 'top':
                    self.start(region)
        for at, end in zip(posts, posts[1:]):
            signal = log[at].split()[1]
            self.lines.append('post %s.%s' % (self.model.object, signal if '(' in signal else signal + '()'))
            self.taken += 1
            self.behind(log[at + 1:end], lambda fired: self.log('take', str(self.taken), self.firing(fired)))
        return self.lines

    def start(self, region):
        """A start of which the engine tells nothing."""
        first = self.model.ends[self.model.start[region]][1]
        self.open_by_default(region)
        self.log('enter', first)
        for inner, owner in self.model.owner.items():
            if owner == first:
                self.start(inner)

    def behind(self, log, head):
        """What came of a start or a signal: its own step, with this head, and the completions behind it."""
        first, *completions = self.steps(log)
        head(self.fired(first))
        self.body(first)
        for step in completions:
            fired = self.fired(step)
            self.log('done', self.model.ends[fired[0]][0], self.firing(fired))
            self.body(step)

    def steps(self, log):
        steps = [[]]
        for line in log:
            if self.model.completes(line):
                exits = []
                while steps[-1] and steps[-1][-1].startswith('exit'):
                    exits.insert(0, steps[-1].pop())
                steps.append(exits)
            steps[-1].append(line)
        return steps

    def fired(self, step):
        return [line.split()[1] for line in step if line.startswith('effect')]

    def firing(self, fired):
        return ' '.join(sorted(fired, key=lambda name: int(name[1:]))) or '-'

    def body(self, step):
        fired = self.fired(step)
        # Whether the engine has told of the opening by which the next State is entered, and what a history has brought back.
        self.opened, self.restored = False, set()
        for line in step:
            word, name, *outputs = line.split()
            if word == 'open':
                self.open(name, *outputs)
                self.opened = True
                continue
            if word in ('enter', 'exit'):
                name = self.model.vertex[name]
            if word == 'enter' and not self.opened:
                self.infer(name, fired)
            if word == 'enter':
                self.opened = False
            if word == 'exit':
                self.remembers.add(self.model.home[name])
            self.log(word, name, *outputs)

    def infer(self, vertex, fired):
        """Tells how the region of this vertex opens, where it does and the engine has not told."""
        region = self.model.home[vertex]
        mode = self.mode(vertex, fired)
        if mode and region in self.remembers:
            self.log('open', region, mode, 'state', vertex)
            self.restored.add(vertex)
        elif mode and not self.tells_openings:
            self.open(region, self.model.start[region], mode)
        elif not self.tells_openings and not any(self.model.aims(t, vertex) for t in fired):
            self.open_by_default(region)

    def mode(self, vertex, fired):
        """The history by which the region of this vertex opens, if any."""
        region = self.model.home[vertex]
        for target in (self.model.ends[t][1] for t in fired):
            kind = self.model.history.get(target)
            if kind and self.model.home[target] == region or kind == 'deep' and self.model.owner[region] in self.restored:
                return kind
        return None

    def open_by_default(self, region):
        self.open(region, self.model.start[region])

    def open(self, region, transition, mode='default'):
        self.log('open', region, mode, 'by', transition)
        self.log('effect', transition)


def main():
    if len(sys.argv) != 3:
        sys.exit(__doc__)
    with open(sys.argv[1]) as file:
        model = Model(file.read().splitlines())
    with open(sys.argv[2]) as file:
        print('\n'.join(Converter(model).convert(file.read().splitlines())))


if __name__ == '__main__':
    main()
