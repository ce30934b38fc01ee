"""What is said of a model file, in XMI, that is refused: the place in the file, and what to change there."""
from shown import marked, shown
from texts import ACT_FAULTS, FILE_FAULTS, REDEFINITIONS

EXPORT = 'docs/XMI.md'


def refused_file(path, data, byte, fault):
    """The line and the column of the byte, the tag there, and what to change."""
    what = '%s: %s (%s)' % (fault, FILE_FAULTS.get(fault, 'docs/FORMATS.md, section 5.6, has it'), EXPORT)
    if data is None or byte > len(data):
        return [what]
    begin = data.rfind(b'\n', 0, byte) + 1
    place = 'byte %d of %s is in line %d, column %d' % (
        byte, path, data.count(b'\n', 0, byte) + 1, len(data[begin:byte].decode('utf-8', 'replace')) + 1)
    if byte == len(data):
        lines = [place + ', where the file ends']
    elif fault in ('NotUtf8', 'Malformed') or data[byte:byte + 1] != b'<':
        end = data.find(b'\n', byte)
        lines = [place] + marked(data[begin:len(data) if end < 0 else end], byte - begin)
    else:
        lines = ['%s: %s' % (place, shown(data[byte:data.find(b'>', byte) + 1 or byte + 200]))]
    return lines + file_why(data, fault) + [what]


def file_why(data, fault):
    """What the first bytes of a file that is no XML tell."""
    if fault not in ('NotUtf8', 'Malformed'):
        return []
    if data.lstrip(b'\xef\xbb\xbf \t\r\n')[:9] == b'pssm-flat':
        return ['a flat text begins with its first byte: leave out the blank or byte order mark before pssm-flat']
    if data[:2] in (b'\xff\xfe', b'\xfe\xff'):
        return ['the file is in UTF-16']
    if data and data.lstrip(b'\xef\xbb\xbf \t\r\n')[:1] != b'<':
        return ['a model begins with pssm-flat, or is XML, which begins with <']
    return []


def refused_body(path, data, answer):
    """The text of a behaviour or guard, with a mark under the byte at which it goes wrong."""
    name, fault, _, byte = answer.decode('utf-8', 'replace')[len('act '):].rstrip('\n').rsplit(' ', 3)
    found = find_element(data, name)
    lines = ['the text of %s, %s' % (name, found.place(path))]
    text = found.text()
    if text is not None and int(byte) <= len(text):
        begin = text.rfind(b'\n', 0, int(byte)) + 1
        end = text.find(b'\n', int(byte))
        lines += marked(text[begin:len(text) if end < 0 else end], int(byte) - begin)
    return lines + ['%s: %s (docs/FORMATS.md, section 4)' % (fault, ACT_FAULTS.get(fault, fault))]


def refused_redefinition(path, data, answer):
    """Where the element stands that redefines another against the rules."""
    fault, name = answer.decode('utf-8', 'replace')[len('redefine '):].rstrip('\n').split(' ', 1)
    return ['the element %s, %s' % (name, find_element(data, name).place(path)),
            '%s: %s (docs/FORMATS.md, section 5.4)' % (fault, REDEFINITIONS.get(fault, fault))]


def find_element(data, name):
    """The element with this id, and what it has of bodies."""
    from xml.parsers import expat
    parser = expat.ParserCreate('UTF-8')
    found = Found(name, parser)
    parser.buffer_text = True
    parser.StartElementHandler = found.begin
    parser.EndElementHandler = found.end
    parser.CharacterDataHandler = found.add
    try:
        parser.Parse(data or b'', True)
    except expat.ExpatError:
        pass
    return found


class Found:
    """The bodies and languages in the element with an id, as a reader of XML meets them."""

    def __init__(self, name, parser):
        self.name = name
        self.parser = parser
        self.line = None
        self.texts = {'body': [], 'language': []}
        self.depth = 0
        self.open = None

    def begin(self, tag, attributes):
        """An element begins."""
        if self.depth:
            self.depth += 1
            self.open = tag if tag in self.texts else None
            if self.open:
                self.texts[tag].append('')
        elif attributes.get('xmi:id') == self.name:
            self.depth = 1
            self.line = self.parser.CurrentLineNumber

    def place(self, path):
        """Where the element stands."""
        return 'in %s' % path if self.line is None else 'line %d of %s' % (self.line, path)

    def text(self):
        """The body that stands beside the first language PSSM, or the only one."""
        bodies, languages = self.texts['body'], [each.strip(' \t\r\n').lower() for each in self.texts['language']]
        at = languages.index('pssm') if 'pssm' in languages else 0
        return bodies[at].encode('utf-8') if at < len(bodies) else None

    def end(self, _):
        """An element ends."""
        if self.depth:
            self.depth -= 1
            self.open = None

    def add(self, text):
        """A text in it."""
        if self.open:
            self.texts[self.open][-1] += text
