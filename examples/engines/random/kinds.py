"""In which way a journal is refused: the rule, and of A7 what is wrong with the firing."""


def kind_of(machine, journal, answer):
    _, number, rule = answer.split()
    words = journal[int(number)].split()
    if rule != 'A7' or words[0] != 'take':
        return rule
    fired = [t for t in machine.transitions if 't%d' % machine.t[t] in words[3:]]
    enabled = enabled_at(machine, journal[:int(number)], int(words[2]))
    pairs = [(t, u) for t in fired for u in fired if t is not u]
    if any(u.source in machine.around(t.source) for t, u in pairs):
        return 'A7 (with one of a State around)'
    if any(leaves(machine, t, u.source) for t, u in pairs):
        return 'A7 (with one that leaves its State)'
    if any(t not in enabled for t in fired):
        return 'A7 (one with a false guard)'
    if any(t.source in machine.around(u.source) for t in fired for u in enabled):
        return 'A7 (one inside goes first)'
    return 'A7 (one more fires)'


def enabled_at(machine, lines, taken):
    """The transitions that the signal of this number enables behind these lines."""
    signals = [line.split('.')[1].rstrip('()') for line in lines if line.startswith('post')]
    active, x = set(), 0
    for line in lines:
        words = line.split()
        if words[0] == 'enter':
            active.add(words[2])
        elif words[0] == 'exit':
            active.discard(words[2])
        elif words[-1].startswith('!now'):
            x = int(words[-1][5:-1])
    return [t for t in machine.transitions
            if t.signal == signals[taken - 1] and 'v%d' % machine.v[t.source] in active and t.guard in (None, x)]


def leaves(machine, transition, state):
    """Whether the transition exits this State, where both are active."""
    if transition.kind == 'internal':
        return False
    outer = [machine.home[x] for x in [transition.source] + machine.around(transition.source)]
    aimed = [machine.home[x] for x in [transition.target] + machine.around(transition.target)]
    scope = next(region for region in outer if region in aimed)
    return scope in [machine.home[x] for x in [state] + machine.around(state)]
