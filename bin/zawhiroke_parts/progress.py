"""How far a build is, by crates.txt and the lines of rt in build.log."""
import re

from places import LOG, ROOT

TOP = 'zawhiroke'
BEGUN = re.compile(r'rt: chose --jobs .* (\S+)$')
SO_FAR = re.compile(r'so far: (\d+) of (\d+) functions|checked .*, (\d+) of (\d+)$')


def needed_crates():
    """The crates that the program is built of, in the order of crates.txt."""
    below = {}
    with open(ROOT + '/crates.txt', encoding='utf-8') as file:
        for line in file:
            name, colon, used = line.partition('#')[0].partition(':')
            if colon:
                below[name.split()[0]] = used.split()
    needed, new = set(), {TOP}
    while new:
        needed |= new
        new = {used for name in new for used in below.get(name, ())} - needed
    return [name for name in below if name in needed]


class Progress:
    """What the log has said so far."""

    def __init__(self):
        self.crates = needed_crates()
        self.read = 0
        self.crate = None
        self.count = None

    def look(self):
        """Reads what the log has had since."""
        with open(LOG, encoding='utf-8', errors='replace') as log:
            log.seek(self.read)
            text = log.read()
        whole = text[:text.rfind('\n') + 1]
        self.read += len(whole.encode('utf-8', 'replace'))
        for line in whole.splitlines():
            begun, so_far = BEGUN.match(line), SO_FAR.match(line)
            if begun:
                self.crate, self.count = begun[1], None
            elif so_far:
                self.count = (so_far[1] or so_far[3], so_far[2] or so_far[4])

    def text(self, minutes):
        """How far it is: the crate and the minute, and how far it is within the crate."""
        self.look()
        if self.crate not in self.crates:
            return 'reading the sources, %d min' % minutes, ''
        at = self.crates.index(self.crate) + 1
        head = 'crate %d of %d, %s, %d min' % (at, len(self.crates), self.crate, minutes)
        return head, ': %s of %s functions' % self.count if self.count else ''
