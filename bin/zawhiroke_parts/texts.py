"""The sentences by which answers are explained, as tables: what the pages say, shorter.

docs/RULES.md and docs/FORMATS.md decide; a sentence here names the section that has the rule in full.
"""

# The rules of a journal: what each asks of an entry, and what to look for where it is broken (docs/LOGGING.md,
# "Look for").
ENTRY_RULES = {
    'A1': (
        "every name is one of the model's, every number in range, every count of arguments the signal's",
        'a State of another class, a mark that no behaviour of the class makes, a wrong number of arguments'),
    'A2': (
        'nothing of an object comes once it has ended, but posts',
        'a line of an object that has ended: by the effect of a transition into a terminate vertex, or in '
        'final states of all its top regions'),
    'A3': (
        'an object starts first, and once',
        'a line of the object before its `start`, or a second `start`'),
    'A4': (
        'a take or a `done` comes when the step before is finished',
        'a line that the step before still owes: often a missing `effect` of a transition without effect, or '
        'a missing `enter`'),
    'A5': (
        'a State that is complete, and has a transition without a signal, is served before any signal, in the '
        'order in which such States became complete',
        'a signal that is taken while such a State is complete; or a `done` of a State that has not become '
        'complete since it was last entered and last served, has no such transition, or became complete '
        'behind another that waits'),
    'A6': (
        "the first signal of the object's pool that is not deferred is taken",
        'a take with the wrong number (posts and sends of all objects are counted together, from 1), or of a '
        'signal behind another that waits; a signal that was dropped and has no take; a send that was logged '
        'as a post as well; a signal that an active State defers'),
    'A7': (
        'a largest set of enabled routes fires, of which no two conflict, each with all that follows it over '
        'junctions, forks, joins, entry and exit points',
        'a transition that could not fire: its source is not active, it does not list the signal, or a guard '
        "on its way is false; `-` where one could; an outer State's transition where an inner State reacts; "
        'one of two that fire together left out, or the two in the wrong order; a route without what follows '
        'its junction, fork, entry or exit point; a branch of a choice, which stands in a `pick` of its own'),
    'A8': (
        'the step owes this line, and it was not written yet',
        'an exit of a State that is not left, an entry or exit twice, an `effect` of a transition that did '
        'not fire or was not picked, an exit or entry of a vertex that is no State, an opening in another '
        "mode than the history vertex's"),
    'A9': (
        'what has to come before the line has run',
        'a line too early: an effect before an exit, an entry before the effect, an inner State before the '
        'outer one, an effect before that of the transition in front of it, a pick before the effect that '
        'leads to the choice'),
    'A10': (
        'a region opens by its initial vertex, or by the State that history remembers, and a choice goes on '
        'by a branch that is open now',
        "a region opened by another transition than its initial vertex's; a branch whose guard is false by "
        'now (often one that was decided before the effect), or `else` beside one whose guard is true; a '
        'history that brings back what was not left last, or a final state'),
    'A11': (
        'the do steps of a State come in their order, while it is active',
        'a do step out of its order, once too often, before its State is entered or once that is exited'),
    'A12': (
        'the outputs are those that the behaviour computes',
        'an output that is missing, too many, in another order, or of another value: work the behaviour out '
        'by hand from the lines before'),
}

# The rules of models (docs/FORMATS.md, section 1.1).
MODEL_RULES = {
    'E01': 'the machine has a top region, and each top region an initial vertex',
    'E02': 'a region has at most one initial, one shallow and one deep history vertex',
    'E03': 'an initial vertex has exactly one transition out, and none in',
    'E04': 'a history vertex has at most one transition out',
    'E05': 'a join has two transitions in or more, and exactly one out',
    'E06': 'a fork has exactly one transition in, and two out or more',
    'E07': (
        'the transitions into a join have no guard and no trigger, and come from States in different regions '
        'of one State'),
    'E08': 'the transitions out of a fork have no guard, and end on States in different regions of one State',
    'E09': 'a junction or choice has a transition in, and one out',
    'E10': (
        'a transition out of a pseudostate has no trigger, and out of an initial, history or entry point no '
        'guard'),
    'E11': 'a final state has no transition out, no region, no behaviour and no deferred signal',
    'E12': 'a terminate vertex has no transition out',
    'E13': 'an internal transition leads from a State to itself',
    'E14': 'a local transition leaves a State or an entry point, and stays inside that State',
    'E15': 'the transitions of an entry point end in different regions of its State',
    'E16': (
        'an exit point has exactly one transition out, which leads out of its State, and is reached from one '
        'region of it'),
    'E17': '`else` stands on one transition out of a junction or choice, and nowhere else',
    'E18': (
        'a choice, and a junction behind an initial, history or choice vertex, has `else` or a branch '
        'without guard'),
    'E19': 'pseudostates form no circle',
    'E20': 'what follows an initial, history or choice vertex or an entry point stays in its region',
    'E21': 'the ends of a transition lie in one region, and what leads to a join leaves a State',
}

# The faults of a text of the action language (docs/FORMATS.md, section 4).
ACT_FAULTS = {
    'Syntax': 'what stands there cannot, as in `x = 1;` for `x := 1;`, or the text ends too early',
    'UnknownName': 'the name is no variable of the class, or no object or signal of the model',
    'WideNumber': 'the number does not fit into 64 bits',
    'Arity': 'a send has as many arguments as its signal has parameters, and a mark at most 8',
    'TooLong': (
        'a text has at most 4,096 bytes, a behaviour 64 statements, a do activity 64 steps, and 16 levels '
        'are open at once'),
}

# The shapes of a machine (docs/FORMATS.md, section 1).
SHAPES = {
    'BadOwner': (
        'a region is owned by the machine or a State, a connection point by a State, every other vertex by a '
        'region'),
    'BadEnd': 'both ends of a transition are vertices of the same machine; between two machines send a signal',
    'TooMany': 'a machine has at most 1,024 regions, 4,096 vertices and 8,192 transitions',
    'TooDeep': 'at most 32 regions stand inside each other',
}

# Redefinition in machines that extend others (docs/FORMATS.md, section 5.4).
REDEFINITIONS = {
    'NotInherited': (
        'what an element redefines belongs to a machine that its own extends, at the same place, and is of '
        'its kind'),
    'Twice': 'an element is redefined once in a machine',
    'Leaf': 'what has isLeaf="true" is not redefined',
    'ChangedSource': 'a transition that redefines another leaves the same vertex',
    'ChangedTriggers': 'a transition that redefines another has the same signals, or no trigger',
    'Cycle': 'no machine extends itself, directly or through others',
}

# The faults of a model file: what the file has there, and what to change (docs/XMI.md).
FILE_FAULTS = {
    'NotUtf8': 'the file is not UTF-8, as one in UTF-16 or Latin-1: save it as UTF-8',
    'Malformed': (
        'the text is no XML there: a broken tag or reference, an end tag that pairs with none, an entity '
        'other than the five of XML, or the end of the file with an element open'),
    'Doctype': 'there is a <!DOCTYPE ..>: leave it out',
    'DoubleId': 'an earlier element has this xmi:id: let the tool give new ids',
    'UnknownRef': (
        'it refers to an id that no element has, or an element that is not read or of another kind; signal '
        'events stand in packages'),
    'TooDeep': 'elements nest at most 128 deep',
    'Unsupported Root': (
        'the root is uml:Model, uml:Package, or xmi:XMI around one of them: export XMI 2.x, one model a file'),
    'Unsupported Href': 'a part of the model stands in another file: save the model in one file',
    'Unsupported Submachine': 'submachines are not read: draw the States inside the State',
    'Unsupported OtherType': (
        'an element of this type is not read here: behaviours are uml:OpaqueBehavior with a body, guards '
        'uml:OpaqueExpression with a body, or uml:LiteralBoolean'),
    'Unsupported Several': (
        'there is one of each: one entry, exit, do activity, effect and guard, one source and one target'),
    'Unsupported Language': (
        'the text is in another language: write it in the action language, as PSSM or with no language'),
    'Unsupported DoubleName': (
        'another one of its kind has this name, once every byte but letters, digits and _ is a _: rename one'),
    'Unsupported LongName': 'a name has at most 64 bytes: shorten it',
    'Unsupported Value': (
        'the value is none of those that UML has here: kinds as `external` or `deepHistory`, `true` and '
        '`false`, integers without plus and leading zeros'),
    'Unsupported TooMany': 'a limit is passed (docs/FORMATS.md, section 5.5)',
    'Unsupported Event': (
        'only signal events are read: a time, change, call or any-receive event becomes a signal that '
        'another object or the world outside sends'),
    'Missing xmi:type': 'the element has no xmi:type, or has it as xsi:type: write xmi:type',
    'Missing xmi:id': 'the element has no xmi:id, or has it as id or xmi:uuid: write xmi:id',
    'Missing source': 'the transition has no source',
    'Missing target': 'the transition has no target',
    'Missing event': 'the trigger has no event: name a signal event of the package',
    'Missing signal': 'the signal event has no signal: name one',
}
