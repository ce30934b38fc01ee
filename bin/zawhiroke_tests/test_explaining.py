"""What standard error says of answers. The stand-in gives the answer that the program gives to these texts."""
import os

from standins import InRepository

GO = '''pssm-flat 1
signal Go 0
signal Set 2
class M
object a M
machine M
var n 0
region r0 top
vertex v0 r0 initial
vertex v1 r0 state A
vertex v2 r0 state B
transition t0 v0 v1 external
transition t1 v1 v2 external
on Go
end
'''
JOURNAL = '''pssm-journal 1
post a.Go()
start a
open a r0 default by t0
effect a t0
enter a v1
take a 1 t1
exit a v1
effect a t1
enter a v2
'''
FILE = '''<?xml version="1.0" encoding="UTF-8"?>
<uml:Model xmlns:xmi="x" xmlns:uml="u" xmi:id="_m">
  <packagedElement xmi:type="uml:TimeEvent" xmi:id="_e"/>
  <entry xmi:type="uml:OpaqueBehavior" xmi:id="_x"><language>C++</language><language>pssm</language><body>++n;</body><body>n := 1;
m &lt; 2;</body></entry>
</uml:Model>
'''


class Explained(InRepository):
    """An answer, and what is said of it."""

    def setUp(self):
        super().setUp()
        self.repository.build()

    def said(self, words, answer, status, *said, **files):
        """Tries the words where the files stand so and the program answers so; what is said."""
        for name, text in files.items():
            self.repository.write(name, text)
        self.repository.answer(answer, status)
        ran = self.run_words(*words)
        self.check(ran, status, answer + '\n', *said)
        self.assertNotIn('could not be explained', ran[2])
        self.assertEqual(self.run_words('--quiet', *words), (status, answer + '\n', ''))
        return ran[2]

    def judged(self, answer, status, *said, model=GO, journal=JOURNAL):
        """The same of a journal."""
        return self.said(['judge', 'model', 'journal'], answer, status, *said, model=model, journal=journal)

    def checked(self, answer, *said, model=GO):
        """The same of a model."""
        return self.said(['check', 'model'], answer, 3, *said, model=model)


class Journals(Explained):
    """Journals that are refused, spelled wrong, or accepted."""

    def test_refused(self):
        self.judged('refuse 6 A7', 1, 'line 7 of journal, entry 6: take a 1 t1', 't1 leads from A to B',
                    'it breaks A7: a largest set of enabled routes fires', '(docs/RULES.md, section 9)', 'look for: a transition')
        for rule in range(1, 13):
            self.judged('refuse 5 A%d' % rule, 1, 'it breaks A%d: ' % rule, 'v1 is A')

    def test_refused_by_a_model_file(self):
        self.repository.answer(GO.rstrip('\n'), 0, 'standin/flat')
        self.judged('refuse 5 A8', 1, 'line 6 of journal, entry 5: enter a v1', 'in this model v1 is A', model=FILE)

    def test_spelled_wrong(self):
        self.judged('journal line 6 byte 11', 4, '\n  enter a v01\n            ^\n',
                    journal=JOURNAL.replace('v1\ntake', 'v01\ntake'))
        self.judged('journal line 1 byte 15', 4, 'the line ends in CRLF, as 10 lines of the file',
                    journal=JOURNAL.replace('\n', '\r\n'))
        self.judged('journal line 1 byte 1', 4, 'byte order mark', journal='\ufeff' + JOURNAL)
        self.judged('journal line 2 byte 12', 4, 'blanks at its end', journal=JOURNAL.replace('Go()\n', 'Go() \n'))
        self.judged('journal line 2 byte 1', 4, 'the line is empty', journal=JOURNAL.replace('\npost', '\n\npost'))
        self.judged('journal line 4 byte 5', 4, 'the line ends too early',
                    journal=JOURNAL.replace('open a r0 default by t0', 'open'))
        self.judged('journal line 10 no end', 4, 'ends within line 10: each line ends with a line feed',
                    journal=JOURNAL[:-1])
        self.judged('journal line 1 no end', 4, 'journal is empty', journal='')
        self.judged('journal line 2 byte 200', 4, '.. xx', ' ..\n', journal='pssm-journal 1\n' + 'x' * 400 + '\n')

    def test_wrong_order(self):
        order = 'the words are judge MODEL JOURNAL'
        self.judged('xmi byte 0 Malformed', 3, 'model is a journal, and no model: ' + order, model=JOURNAL, journal=GO)
        self.judged('journal line 1 byte 6', 4, 'journal is a model, and no journal: ' + order, journal=GO)
        self.judged('journal line 1 byte 1', 4, 'journal is a model', journal=FILE)

    def test_beginnings(self):
        self.judged('accept 0', 0, 'a journal without entries is the beginning of every run',
                    journal='pssm-journal 1\n')
        self.assertEqual(self.judged('accept 9', 0), '')
        lines = JOURNAL.splitlines(True)
        self.judged('accept 2', 0, 'entry 2, start a: no region of a is opened after it', journal=''.join(lines[:3]))
        self.judged('accept 3', 0, 'entry 2, start a: the effect of t0 is not logged after it',
                    journal=''.join(lines[:4]))
        self.assertEqual(self.judged('accept 5', 0, journal=''.join(lines[:6])), '')
        self.judged('accept 7', 0, 'entry 6, take a 1 t1: the effect of t1 is not logged after it; unless a has ended',
                    journal=''.join(lines[:8]))
        mixed = ''.join(lines[:6]) + 'start b\nopen b r0 default by t0,t1\neffect b t0\ntake a 1 t1\neffect a t1\n'
        self.judged('accept 10', 0, 'entry 6, start b: the effect of t1 is not logged', journal=mixed)
        long = ''.join(lines[:6]) + 'post a.Go()\n' * 5000 + 'take a 1 t1\n'
        self.judged('accept 5006', 0, 'entry 5006, take a 1 t1: the effect of t1', journal=long)

    def test_limits(self):
        self.judged('limit 1000001', 8, 'passes 1,000,000 entries')
        self.judged('too large', 9, 'a file has at most 16,777,216 bytes', 'journal has %d bytes' % len(JOURNAL))
        self.said(['run', 'model'], 'pssm-journal 1', 8, '--limit sets it', model=GO)
        self.said(['gen', '1'], 'pssm-journal 1', 8, 'the run of the generated model came to the limit of a journal')
        self.repository.answer('', 7)
        self.check(self.run_words('check', 'model'), 7, '', 'there was not enough memory')


class Models(Explained):
    """Models that are refused."""

    def bad(self, old, new, line, *said):
        """The model with a bad line."""
        self.checked('flat line %d bad line' % line, 'line %d of model' % line, *said, model=GO.replace(old, new))

    def test_bad_lines(self):
        self.bad('on Go', 'on Stop', 14, 'the model has no signal Stop: its signals are Go, Set')
        self.bad('on Go', 'on Set\non Go', 15, 'Set stands behind Go')
        self.bad('object a M', 'object a N', 5, 'the model has no class N')
        self.bad('object a M', 'object a M\r', 5, 'the line ends in CRLF')
        self.bad('vertex v2', 'vertex v3', 11, 'v2 is due')
        self.bad('signal Set 2', 'signal Go 2', 3, 'there is a signal Go already')
        self.bad('signal Set 2', 'signal 2Set 2', 3, '2Set is no name')
        self.bad('var n 0', 'var n 007', 7, '007 is no integer')
        self.bad('on Go', 'on Go ', 14, 'blanks stand before or behind the line')
        self.bad('on Go', '# on Go', 14, 'there are no comments')
        self.bad('class M', '', 4, 'the line is empty')
        self.bad('class M', 'class M\ufeff', 4, 'a byte order mark')
        self.checked('flat line 15 bad line', 'model ends before its last line, which is `end`',
                     model=GO.replace('end\n', ''))
        self.bad('end\n', 'end', 15, 'the line has no line feed at its end')
        self.bad('region r0 top', 'region r0 up', 8, 'the line is spelled wrong or stands in a wrong place')

    def test_other_spellings(self):
        spelled = GO.replace('state A', 'state A\nentry n := 1;')
        self.repository.answer(spelled.rstrip('\n'), 0, 'standin/flat')
        self.checked('flat line 11 bad line', 'has one spelling, and this line is to be', '\n    entry n := 1;\n',
                     model=GO.replace('state A', 'state A\nentry n:=1;'))
        self.repository.answer('', 3, 'standin/flat')
        self.checked('flat line 11 bad line', 'its behaviour is not in the one spelling',
                     model=GO.replace('state A', 'state A\nentry n:=1;'))

    def test_acts_and_shapes(self):
        self.checked('flat line 11 act UnknownName byte 5', 'the name is no variable of the class',
                     '\n  entry n := m;\n             ^\n',
                     model=GO.replace('state A', 'state A\nentry n := m;'))
        self.checked('flat line 15 act Syntax byte 0', model=GO.replace('on Go', 'on Go\nif '))
        self.checked('flat line 13 shape BadEnd', 'both ends of a transition are vertices',
                     model=GO.replace('v1 v2', 'v1 v9'))

    def test_rules(self):
        self.checked('E03 M v0\nE10 M t0\nE10 M t1', 'E03: an initial vertex has exactly one transition out',
                     '  vertex v0 r0 initial',
                     'E10: a transition out of a pseudostate', '  transition t0 v0 v1 external')
        self.checked('E01 M top', 'E01: the machine has a top region', model=FILE)
        for rule in range(1, 22):
            self.assertNotIn('docs/FORMATS.md has it', self.checked('E%02d M v1' % rule))

    def test_files(self):
        byte = FILE.index('<packagedElement')
        self.checked('xmi byte %d Unsupported Event' % byte, 'byte %d of model is in line 3, column 3' % byte,
                     ': <packagedElement xmi:type="uml:TimeEvent" xmi:id="_e"/>', 'only signal events are read', model=FILE)
        self.checked('xmi byte 9 Malformed', 'in line 2, column 3', '\n  <a&/>\n    ^\n', model='<root>\n<a&/>\n')
        self.checked('xmi byte 7 Malformed', 'where the file ends', model='<root>\n')
        self.checked('xmi byte 0 NotUtf8', 'the file is in UTF-16', 'save it as UTF-8', model=FILE.encode('utf-16'))
        self.checked('xmi byte 3 Malformed', 'leave out the blank or byte order mark', model='\ufeff' + GO)
        self.checked('xmi byte 0 Malformed', 'a model begins with pssm-flat, or is XML', model='hello\n')

    def test_bodies_of_files(self):
        self.checked('act _x UnknownName byte 0', 'the text of _x, line 4 of model\n', '\n  n := 1;\n  ^\n', model=FILE)
        self.checked('act _x Syntax byte 12', '\n  m < 2;\n      ^\n', model=FILE)
        self.checked('act none Syntax byte 3', 'the text of none, in model\n', model=FILE)
        self.checked('redefine Leaf _x', 'the element _x, line 4 of model\n',
                     'Leaf: what has isLeaf="true" is not redefined', model=FILE)
        self.checked('shape Lamp TooDeep', 'the machine of class Lamp\n', 'TooDeep: at most 32 regions', model=FILE)


class Names(Explained):
    """Stimuli that the model does not have."""

    def named(self, stimulus, *said):
        """A run with this stimulus behind a good one."""
        self.said(['run', 'model', 'a.Go()', stimulus], 'usage', 2, *said, 'its objects: a',
                  'its signals: Go with no argument, Set with 2 arguments', model=GO)

    def test_names(self):
        self.named('b.Go()', 'b.Go(): the model has no object b')
        self.named('a.Stop()', 'a.Stop(): the model has no signal Stop')
        self.named('a.Set(1)', 'a.Set(1): the signal Set has 2 arguments, and 1 is given')
        self.named('a.Go(1,2)', 'the signal Go has no argument, and 2 are given')

    def test_model_that_cannot_be_read_twice(self):
        self.repository.answer('usage', 2)
        self.check(self.run_words('run', '/dev/stdin', 'b.Go()', given=GO.encode()), 2, 'usage\n',
                   'a stimulus names an object')

    def test_unreadable(self):
        self.repository.answer('', 5)
        self.check(self.run_words('check', 'none'), 5, '', 'there is no file of this path: none')
        self.check(self.run_words('check', 'examples/go.flat'), 5, '', 'a read failed on the way')
        os.mkdir(self.repository.path('folder'))
        self.check(self.run_words('check', 'folder'), 5, '', 'this path is a folder: folder')
