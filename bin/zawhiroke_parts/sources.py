"""The sources that the program is built of: their digest, the seal beside the program, and what is quicker to ask.

The digest is that of
    find crates.txt crates/*/src crates/*/specs crates/*/proofs -type f -exec sha256sum {} + | LC_ALL=C sort | sha256sum
The seal is a note of lines `KEY VALUE`: the digest of the sources of which the program was built, that of the program,
the kit and the commit. To read 2,700 files on each call would be slow. So the names, sizes and times of change of these
files and their folders, of the program and of the seal are listed where the digests were found to agree. While all of
that is as it is listed, they agree still: a program cannot set a time of change, as it can one of writing.
"""
import os
from operator import attrgetter

from places import PROGRAM, ROOT, SEAL, SEEN

PARTS = ('src', 'specs', 'proofs')
QUIET_SECONDS = 3  # what changed so lately might change again within the same tick of its file system's clock


def walk(folder, files, folders):
    """Adds the paths of all files and folders below this folder of the repository."""
    folders.append(folder)
    with os.scandir(os.path.join(ROOT, folder)) as entries:
        for entry in entries:
            path = folder + '/' + entry.name
            if entry.is_dir():
                walk(path, files, folders)
            elif entry.is_file():
                files.append(path)


def find_sources():
    """The paths of the sources, and of the folders in which a further one would show."""
    files, folders = ['crates.txt'], ['crates']
    for crate in sorted(os.listdir(ROOT + '/crates')):
        at = 'crates/' + crate
        if os.path.isdir(os.path.join(ROOT, at)):
            folders.append(at)
            for part in PARTS:
                if os.path.isdir(os.path.join(ROOT, at, part)):
                    walk('%s/%s' % (at, part), files, folders)
    return sorted(files), folders


def sum_of_file(path):
    """The SHA-256 of a file."""
    import hashlib
    made = hashlib.sha256()
    with open(path, 'rb') as file:
        for part in iter(lambda: file.read(1 << 20), b''):
            made.update(part)
    return made.hexdigest()


def digest_of(files):
    """The digest of sources at these paths."""
    import hashlib
    lines = sorted('%s  %s\n' % (sum_of_file(os.path.join(ROOT, path)), path) for path in files)
    return hashlib.sha256(''.join(lines).encode('utf-8', 'surrogateescape')).hexdigest()


def digest_now():
    """The digest of the sources that stand here."""
    return digest_of(find_sources()[0])


def read_seal(path=SEAL):
    """What the seal says, by its keys; nothing where there is none."""
    try:
        with open(path, encoding='utf-8') as file:
            return dict(line.split(' ', 1) for line in file.read().splitlines() if ' ' in line)
    except (OSError, UnicodeDecodeError):
        return {}


def times_of(paths):
    """What tells whether one of these paths of the repository changed: a line of numbers for each."""
    numbers = attrgetter('st_size', 'st_mtime_ns', 'st_ctime_ns', 'st_ino')
    at = ROOT + '/'
    return '\n'.join(map('%d %d %d %d'.__mod__, map(numbers, map(os.stat, [at + path for path in paths]))))


def is_as_seen():
    """Whether all stands as it did when the digests were last found to agree."""
    try:
        with open(SEEN, encoding='utf-8', errors='surrogateescape') as file:
            paths, times = file.read().split('\n\n')
        return times_of(paths.split('\n')) == times
    except (OSError, ValueError):
        return False


def note_seen(paths, times):
    """Lists what was seen, unless a part of it changed a moment ago, or nothing can be written here."""
    import time
    newest = max(int(line.split()[2]) for line in times.split('\n'))
    if newest > (time.time() - QUIET_SECONDS) * 1e9:
        return
    new = '%s.%d' % (SEEN, os.getpid())
    try:
        with open(new, 'w', encoding='utf-8', errors='surrogateescape') as file:
            file.write('\n'.join(paths) + '\n\n' + times)
        os.replace(new, SEEN)
    except OSError:
        pass


def is_fresh():
    """Whether the program that stands here was built of the sources that stand here."""
    if is_as_seen():
        return True
    seal = read_seal()
    if not os.access(PROGRAM, os.X_OK) or not {'sources', 'program'} <= seal.keys():
        return False
    try:
        files, folders = find_sources()
        paths = [*files, *folders, os.path.relpath(PROGRAM, ROOT), os.path.relpath(SEAL, ROOT)]
        times = times_of(paths)
        if (digest_of(files), sum_of_file(PROGRAM)) != (seal['sources'], seal['program']):
            return False
        if times_of(paths) == times:
            note_seen(paths, times)
    except OSError:  # something went away meanwhile
        return False
    return True
