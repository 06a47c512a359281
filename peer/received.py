"""The strict reader of messages of both editions, ours and those of partners, and what oem read prints."""
from messages import *

BYTES_MOST = 1100000  # of a message that the program takes
# The keywords with whose lines a run of comments may begin: right behind each of them.
COMMENTED = 'CCSDS_OEM_VERS', 'META_START', 'META_STOP'
# The further keywords of the newer edition, whose lines may be left out, each by the keyword that it stands before.
FURTHER = {'CREATION_DATE': 'CLASSIFICATION', 'META_START': 'MESSAGE_ID'}
# The keywords whose values are looked at last.
LAST = 'START_TIME', 'STOP_TIME'
# The values that are printed, in this order.
PRINTED = 'CREATION_DATE', *NAMES


class Unreadable(Exception):
    """The line at which a text is no message, counted from 1."""


class OtherEdition(Exception):
    """The version line names neither edition."""


class Head:
    """The lines before the data: values and line numbers by keyword, how many lines, comments among them, and the further keywords."""

    def __init__(self, given, numbers, length, further):
        self.given, self.numbers, self.length, self.further = given, numbers, length, further


class Received:
    """What a message says: values by keyword, and of each data line seconds and whole decimals."""

    def __init__(self, given, epochs, decimals):
        self.given, self.epochs, self.decimals = given, epochs, decimals


# Lines

def lines_of_edition(text):
    """The lines of a text whose version line does not name another edition."""
    if other_edition(text, b'CCSDS_OEM_VERS = '):
        raise OtherEdition
    return lines_in(text)


def lines_in(text):
    """The lines without their newlines; none in place of a last one that was not ended."""
    *lines, rest = text.split(b'\n')
    return lines + [None] * (rest != b'')


def fits_a_line(line):
    """Whether a line has only printable characters, and not too many."""
    return len(line) <= LINE_MOST and all(0x20 <= byte <= 0x7e for byte in line)


def is_comment(line):
    return line is not None and fits_a_line(line) and (line == b'COMMENT' or line.startswith(b'COMMENT '))


def is_free_text(line, keyword):
    """Whether a line has a value under a further keyword: any case, no blank at either end."""
    before = keyword.encode() + b' = '
    if line is None or not line.startswith(before) or not fits_a_line(line):
        return False
    value = line[len(before):]
    return value != b'' and value == value.strip(b' ')


def value_in(line, keyword, fixed):
    """The value of a line before the data; none where another line has to stand there."""
    if fixed is not None:
        return fixed if line == value_line(keyword, fixed) else None
    before = keyword.encode() + b' = '
    if line is None or not line.startswith(before):
        return None
    value = line[len(before):]
    if keyword in LAST:
        stands = fits_a_line(line)
    elif keyword in NAMES:
        stands = good_name(keyword, value)
    elif keyword == 'CCSDS_OEM_VERS':
        stands = value in EDITIONS
    else:
        stands = seconds_of(value) is not None
    return value if stands else None


def decimal_in(text, places):
    """A decimal as a whole number of its last place; none where it is not written so."""
    if not re.fullmatch(rb'-?(0|[1-9][0-9]*)\.[0-9]{%d}' % places, text) or over_digits(text):
        return None
    count = int(text.replace(b'.', b''))
    return None if text.startswith(b'-') and count == 0 else count


def point_in(line):
    """Seconds and decimals of a data line; none where it is no such line."""
    epoch, *texts = (line or b'').split(b' ')
    if seconds_of(epoch) is None or len(texts) != 6:
        return None
    decimals = [decimal_in(text, PLACES[i // 3]) for i, text in enumerate(texts)]
    return None if None in decimals else (seconds_of(epoch), decimals)


# The message

def head_in(lines):
    given, numbers, at, further = {}, {}, 0, []
    for keyword, fixed in HEAD:
        other = FURTHER.get(keyword) if given.get('CCSDS_OEM_VERS') == NEWER else None
        if other and at < len(lines) and is_free_text(lines[at], other):
            further.append(other)
            at += 1
        value = value_in(lines[at] if at < len(lines) else None, keyword, fixed)
        at += 1
        if value is None:
            raise Unreadable(at)
        given[keyword], numbers[keyword] = value, at
        while keyword in COMMENTED and at < len(lines) and is_comment(lines[at]):
            at += 1
    return Head(given, numbers, at, further)


def read(text):
    """What a message says; the version is looked at first, and the two times last."""
    lines = lines_of_edition(text)
    head = head_in(lines)
    points = []
    for number, line in enumerate(lines[head.length:], head.length + 1):
        point = point_in(line)
        if point is None or (points and point[0] <= points[-1][0]):
            raise Unreadable(number)
        points.append(point)
    if not points:
        raise Unreadable(len(lines) + 1)
    for keyword, (epoch, _) in zip(LAST, (points[0], points[-1])):
        if head.given[keyword] != time_text(epoch):
            raise Unreadable(head.numbers[keyword])
    return Received(head.given, *map(list, zip(*points)))


def too_long(text):
    """The line for a text that the program does not take; none where it does."""
    return b'a message has at most %d bytes\n' % BYTES_MOST if len(text) > BYTES_MOST else None


def printed(text):
    """What oem read writes."""
    if too_long(text):
        return too_long(text)
    try:
        message = read(text)
    except OtherEdition:
        return b'refused %d\n' % OTHER_EDITION
    except Unreadable as line:
        return b'refused 15 %d\n' % line.args[0]
    lines = [b'%s %s\n' % (keyword.encode(), message.given[keyword]) for keyword in PRINTED]
    lines += [b' '.join([b'%d' % number for number in (epoch, *decimals)]) + b'\n'
              for epoch, decimals in zip(message.epochs, message.decimals)]
    return b''.join(lines)
