"""Boost.Statechart: a machine as a C++ program of its templates, which is compiled, and its run. An entry is a constructor, an exit a destructor."""
import os
import subprocess

from machines import SIGNALS

NAME = 'Boost.Statechart'
FORMS = ['nested', 'orthogonal']

HEADERS = '''#include <boost/mpl/list.hpp>
#include <boost/statechart/event.hpp>
#include <boost/statechart/simple_state.hpp>
#include <boost/statechart/state_machine.hpp>
#include <boost/statechart/transition.hpp>
#include <cstdio>
#include <cstdlib>
#include <cstring>
'''
HEAD = '''#include "headers.hpp"
namespace sc = boost::statechart;
namespace mpl = boost::mpl;
'''


def build(folder):
    # The library's headers are compiled once.
    path = os.path.join(folder, 'headers.hpp')
    with open(path, 'w') as file:
        file.write(HEADERS)
    subprocess.run(['g++', '-O0', '-w', path], check=True)


def takes(machine, transition):
    """The library has no transitions between regions of one State."""
    source = [transition.source] + machine.around(transition.source)
    target = [transition.target] + machine.around(transition.target)
    regions = {machine.owner[machine.home[x]]: machine.home[x] for x in source}
    return all(regions.get(machine.owner[machine.home[x]], machine.home[x]) is machine.home[x] for x in target)


def program_of(machine):
    m = machine
    lines = [HEAD]
    lines += ['struct %s : sc::event<%s> {};' % (signal, signal) for signal in SIGNALS]
    lines += ['struct v%d;' % m.v[state] for state in m.states()]
    lines += ['struct M : sc::state_machine<M, v%d> {' % m.v[m.top.states[0]]]
    lines += ['    void t%d(const %s &) { std::puts("effect t%d"); }' % (m.t[t], t.signal, m.t[t]) for t in m.transitions]
    lines += ['};']
    for state in m.states():
        number = m.v[state]
        home = m.home[state]
        owner = m.owner[home]
        context = 'M' if owner is None else 'v%d' % m.v[owner]
        if owner is not None and len(owner.regions) > 1:
            context += '::orthogonal<%d>' % owner.regions.index(home)
        inner = ', mpl::list<%s>' % ', '.join('v%d' % m.v[region.states[0]] for region in state.regions) if state.regions else ''
        reactions = ['sc::transition<%s, v%d, M, &M::t%d>' % (t.signal, m.v[t.target], m.t[t]) for t in m.outgoing(state)]
        lines += ['struct v%d : sc::simple_state<v%d, %s%s> {' % (number, number, context, inner),
                  '    v%d() { std::puts("enter v%d"); }' % (number, number),
                  '    ~v%d() { std::puts("exit v%d"); }' % (number, number),
                  '    typedef mpl::list<%s> reactions;' % ', '.join(reactions), '};']
    lines += ['int main(int count, char **words) {', '    M machine;', '    machine.initiate();', '    for (int i = 1; i < count; i++) {',
              '        std::printf("post %s\\n", words[i]);']
    lines += ['        if (!std::strcmp(words[i], "%s")) machine.process_event(%s());' % (signal, signal) for signal in SIGNALS]
    # The end of the program is no end of the machine: its exits are not of the run.
    lines += ['    }', '    std::fflush(stdout);', '    std::_Exit(0);', '}']
    return lines


def run(program, machine, signals, folder):
    """The lines of the engine's log."""
    source, binary = os.path.join(folder, 'machine.cpp'), os.path.join(folder, 'machine')
    with open(source, 'w') as file:
        file.write('\n'.join(program_of(machine)) + '\n')
    subprocess.run(['g++', '-O0', '-w', source, '-o', binary], check=True)
    done = subprocess.run([binary] + signals, capture_output=True, text=True, timeout=60)
    if done.returncode or done.stderr:
        raise RuntimeError('%d %s' % (done.returncode, done.stderr))
    return done.stdout.splitlines()
