#!/usr/bin/env python3
"""What a reader must believe: the definitions that the clauses of the top call rest on.

  bin/believed.py             for each file of definitions, in the order of crates.txt, how many of its lines, without comments, the clauses
                              of `pssm` rest on
  bin/believed.py --names     the same, and the names of these definitions
  bin/believed.py --tiers     the same, in four parts: what the headline rests on where the model is flat text; what else the answers on flat
                              texts rest on; what model files add; and what refusals add. A reader may stop behind any of them
  bin/believed.py --others    the definitions in `specs/`, but for those in `specs/inner/`, that no clause of a function that a crate gives out
                              rests on

A clause names definitions, and these name others; all that is come to so is counted. Names are taken as they are written: where a
definition binds a name that is also another definition's, it counts as naming that one. Types of Rust that a clause speaks of are data and
stand in `src/`; what std defines stands in the toolchain.
"""
import os
import re
import sys

ROOT = os.path.dirname(os.path.dirname(os.path.abspath(__file__)))
# what each part of the reading adds: the clauses of `pssm` that it begins with (all, where none is named), and the definitions at which it stops
MODEL_FILES = ['pssm_xmi.specs.Faults.ReadsDraft', 'pssm_settings.specs.Settings.IsSettingOf']
REFUSALS = ['pssm_load.specs.Loads.IsLoadFault', 'pssm_tool.specs.Refusals.load_fault_text', 'pssm_tool.specs.Words.IsUsage',
            'pssm_journal.specs.Judged.IsBadJournal']
TIERS = [('the headline, where the model is flat text', ['headline'], MODEL_FILES + REFUSALS),
         ('what else is answered where the model is flat text', [], MODEL_FILES + REFUSALS),
         ('model files', [], REFUSALS),
         ('refusals', [], [])]
WORD = re.compile(r"[A-Za-z_][\w'-]*(?:\.[A-Za-z_][\w'-]*)*")
# the line with which a definition begins, or goes on by cases
HEAD = re.compile(r"(?:(?:abbrev|unfoldable|pub|record|data) )*([A-Za-z_][\w'-]*|◌\S+)(?= |$)")


def read(path):
    with open(path, encoding='utf-8') as f:
        return f.read()


def imports(text):
    """What each name stands for that a `use` line brings in: a path such as Rattle.pssm_model.specs.Forest.HasKind."""
    found = {}
    for path, names in re.findall(r'^\s*(?:ghost |pub )?use ([\w.+\'-]+?)(?:\.\{([^}]*)\}| as [\w\'-]+)?;?$', text, re.M):
        for name in filter(None, (part.strip() for part in (names or '').split(','))):
            name, _, other = name.partition(' as ')
            found[(other or name).strip()] = path + '.' + name.strip()
    for path, other in re.findall(r'^\s*(?:ghost |pub )?use ([\w.+\'-]+) as ([\w\'-]+);?$', text, re.M):
        found[other] = path
    return found


class Definitions:
    """The definitions of one file: for each name its lines and the words in them."""

    def __init__(self, path):
        text = read(path)
        self.lines = text.splitlines()
        self.names = imports(text)
        self.at = {}
        start, name, above, mutual = None, None, None, False
        for number, line in enumerate(self.lines + ['-- end']):
            if mutual and line and not line.startswith('  '):
                mutual = False
            if mutual:
                line = line[2:]
            head = HEAD.match(line)
            said = head.group(1) if head else None
            if line.startswith(('unfolding ', 'infix')) or (said and name and name.startswith('◌') and name.strip('◌') in line):
                said = None
            if line.startswith('--'):
                above = number if above is None else above
            begins = line.startswith('infix') or re.match(r'(abbrev )?mutual$', line)
            if not line or line.startswith(('--', 'use ', 'pub use ')) or begins or (said and said != name):
                if name is not None:
                    self.at.setdefault(name, []).append((start, number))
                    name = None
            if begins:
                # (it belongs to what follows, as a comment does)
                above = number if above is None else above
                mutual = 'mutual' in line
            elif said and not line.startswith(('use ', 'pub use ', 'pub mod ', 'mod ', '--')):
                if name is None:
                    name, start = said, number if above is None else above
                above = None
            elif not line:
                above = None

    def words(self, name):
        text = re.sub(r'--.*', '', '\n'.join('\n'.join(self.lines[a:b]) for a, b in self.at[name]))
        signs = {sign for sign in [*self.at, *self.names] if sign.startswith('◌') and sign.strip('◌') in text}
        return set(WORD.findall(text)) | signs

    def count(self, name):
        return sum(not line.lstrip().startswith('--') for a, b in self.at[name] for line in self.lines[a:b])


class House:
    def __init__(self):
        self.crates = [line.split(':')[0] for line in read(f'{ROOT}/crates.txt').splitlines() if line and not line.startswith('#')]
        self.files = {}
        for crate in self.crates:
            for folder, _, names in os.walk(f'{ROOT}/crates/{crate}/specs'):
                for name in names:
                    path = os.path.join(folder, name)
                    if name.endswith('.antt') and name != 'Lib.antt':
                        below = os.path.relpath(path, f'{ROOT}/crates/{crate}')[:-5].replace('/', '.')
                        self.files[f'Rattle.{crate}.{below}'] = Definitions(path)

    def find(self, path):
        """The module and the name of a definition, where the path leads to one."""
        module, _, name = path.rpartition('.')
        while module:
            if module in self.files:
                return (module, name.split('.')[0])
            module, _, last = module.rpartition('.')
            name = f'{last}.{name}'
        return None

    def reached(self, words, but=()):
        """All definitions that these paths lead to, but for some and what is come to through these alone."""
        found, open_paths = [], list(words)
        seen = {self.find('Rattle.' + path) for path in but}
        while open_paths:
            place = self.find(open_paths.pop())
            if place is None or place in seen or place[1] not in self.files[place[0]].at:
                continue
            seen.add(place)
            found.append(place)
            inside = self.files[place[0]]
            for word in inside.words(place[1]):
                first, _, rest = word.partition('.')
                if word in inside.at or first in inside.at:
                    open_paths.append(f'{place[0]}.{first}')
                elif first in inside.names:
                    open_paths.append(inside.names[first] + ('.' + rest if rest else ''))
        return found

    def clauses(self, crate, only=None, named=()):
        """The paths that the clauses of a crate's public functions name; of one function, those with these names, or all."""
        root = read(f'{ROOT}/crates/{crate}/src/' + ('lib.rt' if os.path.exists(f'{ROOT}/crates/{crate}/src/lib.rt') else 'main.rt'))
        given = set(re.findall(r'\w+', ' '.join(re.findall(r'pub use [\w:]+::(\{[^}]*\}|\w+)', root))))
        found = set()
        for folder, _, names in os.walk(f'{ROOT}/crates/{crate}/src'):
            for name in names:
                text = read(os.path.join(folder, name))
                known = imports(text)
                for fn, words in functions(text, given, only, named):
                    for word in words:
                        first = word.split('.')[0]
                        if first in known:
                            found.add(known[first])
        return found


def functions(text, given, only, named=()):
    """The public functions of a file, and the words of their clauses; also what an impl or a trait says of its type."""
    owner = None
    for block in re.split(r'\n(?=impl|pub |trait|fn |struct|enum|#\[)', text):
        head = re.match(r'(?:pub )?(?:impl(?:<.*?>)? (?:[\w<>]+ for )?(\w+)|(?:trait|struct|enum) (\w+)|fn (\w+))', block)
        if not head:
            continue
        owner = head.group(1) or head.group(2)
        if only is None and (owner in given):
            # (what a type keeps to itself stands in its invariant, and is no promise)
            ghosts = re.findall(r'ghost (?!invariant)\w+ = \{(.*?)\};', block, re.S)
            yield owner, set(WORD.findall(' '.join(ghosts)))
        for fn in re.finditer(r'( *)(pub )?fn (\w+)(.*?)(?=\n\1\{|\n\1\}|;\n)', block, re.S):
            if only is not None and fn.group(3) != only:
                continue
            is_public = fn.group(2) and ((owner or fn.group(3)) in given) or (owner in given and ' for ' in block.split('\n')[0]) or block.startswith('pub trait')
            if only is None and not is_public:
                continue
            clauses = re.findall(r'(?:requires|ensures)(?: (\w+))? \{(.*?)\}(?=\s*(?:requires|ensures|//|$))', re.sub(r'//.*', '', fn.group(4)), re.S)
            yield fn.group(3), set(WORD.findall(' '.join(said for name, said in clauses if not named or name in named)))


def show(house, found):
    """Prints how many lines of each file these definitions take, and how many in all."""
    by_module = {}
    for module, name in found:
        by_module.setdefault(module, []).append(name)
    total = 0
    for module in sorted(by_module, key=lambda m: (house.crates.index(m.split('.')[1]), m)):
        inside = house.files[module]
        names = sorted(set(by_module[module]), key=lambda n: inside.at[n][0])
        lines = sum(inside.count(n) for n in names)
        total += lines
        _, crate, _, *rest = module.split('.')
        print(f"{lines:5}  crates/{crate}/specs/{'/'.join(rest)}.antt" + ('  ' + ' '.join(names) if '--names' in sys.argv else ''))
    print(f'{total:5}  lines in {len(by_module)} files')


def show_tiers(house):
    """Prints part after part what is to be read, each time what the parts before do not have."""
    known = set()
    for title, named, but in TIERS:
        for path in but:
            place = house.find('Rattle.' + path)
            if place is None or place[1] not in house.files[place[0]].at:
                sys.exit(f'no definition {path}, at which a part of the reading stops')
        found = [place for place in house.reached(house.clauses('pssm_tool', 'pssm', named), but) if place not in known]
        known.update(found)
        print(f'\n{title}\n')
        show(house, found)


def main():
    house = House()
    if sys.argv[1:] == ['--others']:
        reached = set()
        for crate in house.crates:
            reached.update(house.reached(house.clauses(crate)))
        for module in sorted(house.files):
            names = [n for n in house.files[module].at if (module, n) not in reached]
            if names and '.inner.' not in module:
                whole = ' (whole)' if len(names) == len(house.files[module].at) else ''
                print(f"{module.replace('Rattle.', '')}{whole}: {', '.join(names)}")
        return
    if '--tiers' in sys.argv:
        show_tiers(house)
    else:
        show(house, house.reached(house.clauses('pssm_tool', 'pssm')))


main()
