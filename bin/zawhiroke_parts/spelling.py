"""The one spelling of a behaviour or a guard, as the program itself writes it: a small model file has the text, and the
program writes its flat text.
"""
import flat_text
from running import ask

HEAD = '<uml:Model xmlns:xmi="http://www.omg.org/spec/XMI/20131001" xmlns:uml="http://www.omg.org/spec/UML" xmi:id="m">'
SIGNAL = '<packagedElement xmi:type="uml:Signal" xmi:id="s_{0}" name="{0}">{1}</packagedElement>'
PARAMETER = '<ownedAttribute xmi:id="s_{0}_{1}" name="p"/>'
CLASS = '<packagedElement xmi:type="uml:Class" xmi:id="c" name="C" classifierBehavior="b">'
VARIABLE = '<ownedAttribute xmi:id="a_{0}" name="{0}"/>'
MACHINE = '<ownedBehavior xmi:type="uml:StateMachine" xmi:id="b"><region xmi:id="r">'
INITIAL = '<subvertex xmi:type="uml:Pseudostate" xmi:id="v0"/><transition xmi:id="t0" source="v0" target="v1"/>'
STATE = '<subvertex xmi:type="uml:State" xmi:id="v1">{0}</subvertex>'
ENTRY = '<entry xmi:type="uml:OpaqueBehavior" xmi:id="e"><body>{0}</body></entry>'
GUARD = ('<transition xmi:id="t1" source="v1" target="v1"><guard xmi:id="g">'
         '<specification xmi:type="uml:OpaqueExpression"><body>{0}</body></specification></guard></transition>')
CLASS_END = '</region></ownedBehavior></packagedElement>'
OBJECT = '<packagedElement xmi:type="uml:InstanceSpecification" xmi:id="o_{0}" name="{0}" classifier="c"/>'


def one_spelling(program, before, is_guard, text):
    """The one spelling of the text, in the class whose block these lines begin; None where it has none."""
    model = model_file(before, is_guard, text)
    status, answer = ask(program, ['flat', '/dev/stdin'], model.encode('utf-8'))
    if status != 0:
        return None
    lines = answer.decode('utf-8').split('\n')
    kind = 'if ' if is_guard else 'entry '
    return next((line[len(kind):] for line in lines if line.startswith(kind)), '')


def model_file(before, is_guard, text):
    """A model file with the names that the lines declare, and the text in a machine of a State."""
    parts = [HEAD]
    for name, count in flat_text.declared(before, 'signal').items():
        parts.append(SIGNAL.format(name, ''.join(PARAMETER.format(name, at) for at in range(int(count)))))
    begin = max((at for at, line in enumerate(before) if line.startswith('machine ')), default=len(before))
    variables = [line.split(' ')[1] for line in before[begin:] if line.startswith('var ')]
    body = text.replace('&', '&amp;').replace('<', '&lt;')
    parts += [CLASS, *map(VARIABLE.format, variables), MACHINE, INITIAL]
    parts += [STATE.format(''), GUARD.format(body)] if is_guard else [STATE.format(ENTRY.format(body))]
    parts += [CLASS_END, *map(OBJECT.format, flat_text.declared(before, 'object')), '</uml:Model>']
    return '\n'.join(parts) + '\n'
