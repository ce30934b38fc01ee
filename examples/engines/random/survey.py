#!/usr/bin/env python3
"""Runs random machines on an engine, and counts what the judge says of the journals.

    python3 examples/engines/random/survey.py [--small] ENGINE FOLDER [COUNT [FORM ..]]

ENGINE is qt_scxml, qt_statemachine, py_transitions, py_transitions_before or boost_statechart. For each form it runs the machines of the seeds 1 to
COUNT (100), and writes into FOLDER, for each journal that is refused, the model, the engine's log and the journal, as FORM-SEED.flat and so on. With
--small it then makes each of these machines smaller for as long as it is refused in the same way, as FORM-SEED-small.flat and
FORM-SEED-small.journal, and lists the small ones, equal ones once. It takes many runs for each.

Run it at the top of the repository, once the program is built; the variable JUDGE may name another program that is called in its place.
"""
import collections
import importlib
import os
import subprocess
import sys
import tempfile

sys.path.insert(1, os.path.join(os.path.dirname(os.path.abspath(__file__)), '..'))

from convert import Converter, Model
from kinds import kind_of
from machines import random_case
from shrink import smallest

JUDGE = os.environ.get('JUDGE', 'bin/zawhiroke')


class Trial:
    """One engine, built, with a folder of its own."""

    def __init__(self, engine, folder):
        self.engine, self.folder = engine, folder
        self.program = engine.build(folder)

    def case(self, form, seed):
        """The random case, without what the engine does not have."""
        machine, signals = random_case(form, seed)
        if hasattr(self.engine, 'takes'):
            machine.transitions = [t for t in machine.transitions if self.engine.takes(machine, t)]
            machine.number()
        return machine, signals

    def journal(self, machine, signals):
        log = self.engine.run(self.program, machine, signals, self.folder)
        return log, Converter(Model(machine.flat())).convert(log)

    def verdict(self, machine, journal):
        model, run = (os.path.join(self.folder, name) for name in ('trial.flat', 'trial.journal'))
        write(model, machine.flat())
        write(run, journal)
        done = subprocess.run([JUDGE, 'judge', model, run], capture_output=True, text=True)
        answer = done.stdout.strip()
        if done.returncode not in (0, 1):
            sys.exit('no verdict: %s%s' % (answer, done.stderr))
        return answer

    def kind(self, machine, signals):
        """The kind of refusal, or None."""
        _, journal = self.journal(machine, signals)
        answer = self.verdict(machine, journal)
        return kind_of(machine, journal, answer) if answer.startswith('refuse') else None


def write(path, lines):
    with open(path, 'w') as file:
        file.write('\n'.join(lines) + '\n')


def survey(trial, form, count, folder):
    """Counts by kind, and the seeds of what was refused."""
    counts, refused = collections.Counter(), []
    for seed in range(1, count + 1):
        machine, signals = trial.case(form, seed)
        log, journal = trial.journal(machine, signals)
        answer = trial.verdict(machine, journal)
        kind = kind_of(machine, journal, answer) if answer.startswith('refuse') else 'accepted'
        counts[kind] += 1
        if kind != 'accepted':
            refused.append((seed, kind))
            for name, lines in (('flat', machine.flat()), ('log', log), ('journal', journal)):
                write(os.path.join(folder, '%s-%d.%s' % (form, seed, name)), lines)
    return counts, refused


def make_small(trial, refused, folder):
    """Makes what was refused smaller, and lists it."""
    seen = collections.defaultdict(list)
    for form, seed, kind in refused:
        machine, signals = smallest(*trial.case(form, seed), lambda m, s: trial.kind(m, s) == kind)
        _, journal = trial.journal(machine, signals)
        name = '%s-%d-small' % (form, seed)
        write(os.path.join(folder, name + '.flat'), machine.flat())
        write(os.path.join(folder, name + '.journal'), journal)
        seen[kind, '\n'.join(machine.flat())].append((name, trial.verdict(machine, journal)))
    for (kind, _), names in sorted(seen.items(), key=lambda item: -len(item[1])):
        print('%s: %d like %s, %s' % (kind, len(names), names[0][0], names[0][1]))


def main():
    words = [word for word in sys.argv[1:] if word != '--small']
    if len(words) < 2:
        sys.exit(__doc__)
    engine, folder = importlib.import_module(words[0]), words[1]
    count = int(words[2]) if len(words) > 2 else 100
    os.makedirs(folder, exist_ok=True)
    with tempfile.TemporaryDirectory() as scratch:
        trial = Trial(engine, scratch)
        all_refused = []
        for form in words[3:] or engine.FORMS:
            counts, refused = survey(trial, form, count, folder)
            kinds = ', '.join('%d %s' % (n, kind) for kind, n in sorted(counts.items()) if kind != 'accepted')
            print('%s, %s: %d machines, %d accepted; refused: %s' % (engine.NAME, form, count, counts['accepted'], kinds or 'none'), flush=True)
            all_refused += [(form, seed, kind) for seed, kind in refused]
        if '--small' in sys.argv:
            make_small(trial, all_refused, folder)


if __name__ == '__main__':
    main()
