"""The mender of messages, and what oem mend prints."""
from received import *

CHANGES_MOST = 65536  # that the program has room for
DROPPED = 'dropped'


class Unmendable(Exception):
    """The number by which mending is refused."""


def mend(text):
    """The mended text, and the changes by line: its number, and what was done."""
    try:
        lines = lines_of_edition(text)
        head = head_in(lines)
    except OtherEdition:
        raise Unmendable(OTHER_EDITION)
    except Unreadable:
        raise Unmendable(16)
    kept, epochs, dropped = lines[:head.length], [], []
    for number, line in enumerate(lines[head.length:], head.length + 1):
        point = point_in(line)
        if point is None or (epochs and point[0] <= epochs[-1]):
            dropped.append((number, DROPPED))
        else:
            kept.append(line)
            epochs.append(point[0])
    if not epochs:
        raise Unmendable(16)
    changes = []
    for keyword, epoch in zip(LAST, (epochs[0], epochs[-1])):
        number, value = head.numbers[keyword], time_text(epoch)
        if head.given[keyword] != value:
            kept[number - 1] = value_line(keyword, value)
            changes.append((number, keyword))
    return b''.join(line + b'\n' for line in kept), changes + dropped


def printed_mended(text):
    """What oem mend writes, to standard output and to standard error."""
    if too_long(text):
        return b'', too_long(text)
    try:
        mended, changes = mend(text)
        if len(changes) > CHANGES_MOST:
            raise Unmendable(12)
    except Unmendable as number:
        return b'', b'refused %d\n' % number.args[0]
    return mended, b''.join(b'%d %s\n' % (number, what.encode()) for number, what in changes)
