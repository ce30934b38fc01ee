"""What the program was built of, and taking it elsewhere: --version, --program and --install."""
import os
import subprocess

from places import PROGRAM, ROOT, SEAL
from saying import NO_PROGRAM, Ended, say, write_answer
from sources import digest_now, is_fresh, read_seal

UNKNOWN = 'unknown'


def said_by(*words):
    """What a command says, where there is one and it ends well."""
    try:
        ran = subprocess.run(words, cwd=ROOT, stdin=subprocess.DEVNULL, stdout=subprocess.PIPE,
                             stderr=subprocess.DEVNULL)
    except OSError:
        return None
    return ran.stdout.decode('utf-8', 'replace').strip() if ran.returncode == 0 else None


def commit_now():
    """The commit that stands here, and whether the sources differ from it."""
    if not os.path.exists(ROOT + '/.git'):
        return UNKNOWN
    commit = said_by('git', 'rev-parse', 'HEAD')
    changed = said_by('git', 'status', '--porcelain', '--', 'crates', 'crates.txt')
    return (commit or UNKNOWN) + (', changed since' if changed else '')


def kit_now():
    """The kit whose rt is on the path."""
    return (said_by('rt', 'version') or UNKNOWN).splitlines()[0]


def print_version():
    """Prints what stands here, and of what the program that stands here was built."""
    lines = ['commit ' + commit_now(), 'kit ' + kit_now(), 'sources ' + digest_now()]
    seal = read_seal()
    if is_fresh():
        lines.append('program built and proved of these sources, by the kit ' + seal.get('kit', UNKNOWN))
    elif 'sources' in seal:
        lines.append('program not built of these sources; the one that was built last is of sources ' + seal['sources'])
    else:
        lines.append('program not built')
    write_answer(('\n'.join(lines) + '\n').encode())


def put(source, target):
    """Copies a file to its place in one go, so that who runs it meanwhile has the old one or the new."""
    import shutil
    new = '%s.%d' % (target, os.getpid())
    try:
        shutil.copy(source, new)
        os.replace(new, target)
    finally:
        if os.path.exists(new):
            os.remove(new)


def install(folder):
    """Puts the program, which is fresh, and the note of what it was built of into the folder."""
    try:
        os.makedirs(folder, exist_ok=True)
        put(PROGRAM, os.path.join(folder, 'zawhiroke'))
        put(SEAL, os.path.join(folder, 'zawhiroke.sealed'))
    except OSError as fault:
        raise Ended(NO_PROGRAM, 'it cannot be installed: %s' % fault) from None
    say('installed %s/zawhiroke, and zawhiroke.sealed beside it, which says what it was built of' % folder.rstrip('/'))
