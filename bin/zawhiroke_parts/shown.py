"""Files and lines as they are shown to a person."""
import os
import stat

MOST = 16777217  # no file that the program reads has so many bytes
WIDTH = 100


def read(path):
    """The bytes of a plain file, or None: what can't be read a second time is not shown."""
    try:
        if stat.S_ISREG(os.stat(path).st_mode):
            with open(path, 'rb') as file:
                return file.read(MOST)
    except OSError:
        pass
    return None


def read_end(path, size):
    """The last bytes of a plain file, from the beginning of a line on, or None."""
    try:
        if stat.S_ISREG(os.stat(path).st_mode):
            with open(path, 'rb') as file:
                whole = file.seek(0, os.SEEK_END)
                file.seek(max(0, whole - size))
                data = file.read(size)
                return data if whole <= size else data[data.find(b'\n') + 1:]
    except OSError:
        pass
    return None


def line_at(data, number):
    """Line `number` of the bytes, from 1, without its line feed, or None."""
    begin, before, step = 0, number - 1, 1 << 16
    while begin < len(data):
        passed = data.count(b'\n', begin, begin + step)
        if passed >= before:
            break
        before -= passed
        begin += step
    else:
        return None
    for _ in range(before):
        begin = data.find(b'\n', begin) + 1
    end = data.find(b'\n', begin)
    line = data[begin:] if end < 0 else data[begin:end]
    return None if end < 0 and not line else line


def clean(text):
    """The text as a terminal can show it: what it can't becomes one sign."""
    return ''.join(sign if sign.isprintable() else '\ufffd' for sign in text)


def printable(data):
    """The bytes as such a text."""
    return clean(data.decode('utf-8', 'replace'))


def cut(text):
    """The text, or its beginning where it is long."""
    return text if len(text) <= WIDTH else text[:WIDTH] + ' ..'


def shown(data):
    """A line as it is shown."""
    return cut(printable(data))


def marked(data, byte):
    """The line and, below, a mark under its byte, counted from 0. Of a long line the part around it."""
    before, behind = printable(data[:byte]), printable(data[byte:])
    front, end = '', ''
    if len(before) > WIDTH // 2:
        before, front = before[-(WIDTH // 2):], '.. '
    if len(behind) > WIDTH // 2:
        behind, end = behind[:WIDTH // 2], ' ..'
    return [front + before + behind + end, ' ' * (len(front) + len(before)) + '^']
