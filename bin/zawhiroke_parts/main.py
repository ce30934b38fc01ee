"""What a call of bin/zawhiroke does. Its status is the program's, but for those of saying.py."""
import os
import sys

if sys.version_info < (3, 8):
    if 'ZAWHIROKE_PYTHON' not in os.environ:  # the Python on the path may be newer
        os.environ['ZAWHIROKE_PYTHON'] = sys.executable
        os.execvp('python3', ['python3', '-IS'] + sys.argv)
    os.write(2, b'zawhiroke: this takes Python 3.8 or later, as the Rattle kit does\n')
    os._exit(69)
sys.path.insert(0, os.path.dirname(os.path.realpath(__file__)))

from saying import (  # noqa: E402
    NO_PROGRAM, Ended, Signalled, die_of, heed_usual_signals, say, write_answer, write_error)
from words import Unclear, call_of, help_text, list_of_words, list_unread, usage, with_input  # noqa: E402


def answer_at_once(call, is_quiet):
    """Gives the answer that needs no program, and its status; None where a program has to be asked."""
    if isinstance(call, str):
        return usage(call, is_quiet)
    unread = list_unread(call.paths)
    if unread and not is_quiet:
        say(unread)
    return 5 if unread else None


def ask_program(words, is_quiet):
    """Answers by the proved program. Where it would have to be built first, what needs none comes without it."""
    from places import PROGRAM
    from running import pass_through
    from sources import is_fresh
    call = call_of(words)
    if not is_fresh():
        status = answer_at_once(call, is_quiet)
        if status is not None:
            return status
        from building import need_program
        need_program()
    status, answer = pass_through(PROGRAM, words)
    if not is_quiet:
        explain(call, status, answer, PROGRAM)
    return status


def ask_unproved(words, is_quiet):
    """Answers by the unproved program."""
    call = call_of(words)
    status = answer_at_once(call, is_quiet)
    if status is None:
        import trying
        status, answer = trying.answer(call)
        if not is_quiet:
            explain(call, status, answer, None)
    return status


def explain(call, status, answer, program):
    """Explains an answer. Whatever becomes of that, the status stays the program's."""
    try:
        if isinstance(call, str) and status == 2:
            say(call)
            write_error(list_of_words())
        elif not isinstance(call, str) and (status != 0 or call.command == 'judge'):
            from explaining import explain_answer
            explain_answer(call, status, answer, program)
    except Exception as fault:  # pylint: disable=broad-except
        say('this answer could not be explained: %r' % fault)


def own_call(words, is_quiet):
    """Does what the script does itself; nothing where the words are the program's."""
    if words in (['--help'], ['-h'], ['help']):
        write_answer(help_text().encode())
        return 0
    if words == ['--version']:
        from installing import print_version
        print_version()
        return 0
    if words == ['--program'] or (words[:1] == ['--install'] and len(words) == 2):
        from building import need_program
        from installing import install
        program = need_program()
        if words[1:]:
            install(words[1])
        else:
            write_answer(os.fsencode(program) + b'\n')
        return 0
    if words[:1] == ['judge-all'] and len(words) > 1:
        from many import judge_all
        return judge_all(words[1], words[2:], is_quiet)
    if not words or words[0] in ('--install', '--program', '--version', '--help', '-h', 'help', 'judge-all'):
        return usage('%s takes other words' % words[0] if words else 'there is no command', is_quiet)
    return None


def main(words):
    """Does what the words say; the status."""
    heed_usual_signals()
    is_quiet = is_trying = False
    while words[:1] in (['--quiet'], ['--try']):
        is_quiet, is_trying = is_quiet or words[0] == '--quiet', is_trying or words[0] == '--try'
        words = words[1:]
    status = own_call(words, is_quiet) if not is_trying or not words else None
    if status is not None:
        return status
    try:
        words = with_input(words)
    except Unclear as why:
        return usage(str(why), is_quiet)
    return ask_unproved(words, is_quiet) if is_trying else ask_program(words, is_quiet)


def run():
    """Does it, and ends."""
    for file in (0, 1, 2):  # the number of one that is closed is not for the next file that opens
        try:
            os.fstat(file)
        except OSError:
            os.open(os.devnull, os.O_RDONLY)
    try:
        status = main(sys.argv[1:])
    except Ended as end:
        status = end.status
        if end.why:
            say(end.why)
    except Signalled as signal:
        die_of(signal.number)
    except Exception:  # pylint: disable=broad-except
        import traceback
        write_error(traceback.format_exc())
        status = NO_PROGRAM  # (Python's own, 1, is that of a refused journal)
    os._exit(status)


if __name__ == '__main__':
    run()
