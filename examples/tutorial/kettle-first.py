#!/usr/bin/env python3
"""A kettle that logs what it does, with one mistake: python3 kettle-first.py SIGNAL .. writes the journal of a run."""
import sys

NUMBERS = {'Off': 'v1', 'Heating': 'v2', 'Warm': 'v3'}  # the States, as kettle.flat counts them
FIRES = {
    ('Off', 'Press'): ('t1', 'Heating'),
    ('Heating', 'Boiled'): ('t2', 'Warm'),
    ('Heating', 'Press'): ('t3', 'Off'),
    ('Warm', 'Press'): ('t4', 'Off'),
}
ENTRY_MARKS = {'Heating': ' !heater(1)'}
EXIT_MARKS = {'Heating': ' !heater(0)'}
state, boilings = 'Off', 0

print('pssm-journal 1')
print('start kettle', 'open kettle r0 default by t0', 'effect kettle t0', 'enter kettle v1', sep='\n')
for number, signal in enumerate(sys.argv[1:], 1):
    print('post kettle.%s()' % signal)
    if (state, signal) not in FIRES:
        continue
    transition, target = FIRES[state, signal]
    print('take kettle %d %s' % (number, transition))
    print('exit kettle ' + NUMBERS[state] + EXIT_MARKS.get(state, ''))
    effect_mark = ''
    if transition == 't2':
        boilings += 1
        effect_mark = ' !boiled(%d)' % boilings
    print('effect kettle ' + transition + effect_mark)
    state = target
    print('enter kettle ' + NUMBERS[state] + ENTRY_MARKS.get(state, ''))
