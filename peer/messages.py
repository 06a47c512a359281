"""The ephemeris message of a request, and its refusals."""
import re
from fractions import Fraction

from dates import *

PARTS = 159667200
LENGTH = 12  # numbers of a point
BOUNDS = 2 ** 52, 2 ** 40  # of a position and a velocity, in ticks and ticks per step
PLACES = 6, 9  # decimals of kilometres and of kilometres per second
DIGITS_MOST, LINE_MOST = 16, 254
TICK_MOST, STEP_MOST = 16, 3600
# The keywords whose values are names, each with the word of a request.
NAMES = {'ORIGINATOR': 'originator', 'OBJECT_NAME': 'object', 'OBJECT_ID': 'id',
         'CENTER_NAME': 'center', 'REF_FRAME': 'frame'}
# The versions of the editions that are read and written, the older one first, and the refusal of any other.
EDITIONS = OLDER, NEWER = b'2.0', b'3.0'
OTHER_EDITION = 17
# The lines before the data: a keyword, and its value where that is fixed.
HEAD = (('CCSDS_OEM_VERS', None), ('CREATION_DATE', None), ('ORIGINATOR', None),
        ('META_START', b''), ('OBJECT_NAME', None), ('OBJECT_ID', None), ('CENTER_NAME', None),
        ('REF_FRAME', None), ('TIME_SYSTEM', b'TAI'), ('START_TIME', None), ('STOP_TIME', None),
        ('META_STOP', b''))


class Request:
    """What a message is made of: bytes, but for tick, step, room (none if unlimited) and numbers; no edition is the older one."""

    def __init__(self, edition, created, names, start, tick, step, room, numbers):
        self.edition = edition
        self.created, self.names, self.start = created, names, start
        self.tick, self.step, self.room, self.numbers = tick, step, room, numbers

    def points(self):
        """How many points there are; numbers that fill none do not count."""
        return len(self.numbers) // LENGTH

    def epoch(self, point):
        """The seconds at a point, counted from 0; a series without points has that of its start."""
        return seconds_of(self.start) + point * self.step

    def last(self):
        return self.epoch(max(self.points(), 1) - 1)


# Names, times and settings

def good_name(keyword, name):
    """Whether a name can be a value of the keyword."""
    if not name or not all(0x20 <= byte <= 0x7e for byte in name):
        return False
    if name.startswith(b' ') or name.endswith(b' '):
        return False
    if re.search(rb'[A-Z]', name) and re.search(rb'[a-z]', name):
        return False
    return len(value_line(keyword, name)) <= LINE_MOST


def form_stands(request):
    """Whether nothing asks for 11."""
    return (all(good_name(keyword, request.names[keyword]) for keyword in NAMES)
            and seconds_of(request.created) is not None and seconds_of(request.start) is not None
            and request.tick <= TICK_MOST and 1 <= request.step <= STEP_MOST
            and len(request.numbers) > 0 and time_text(request.last()) is not None)


# Numbers

def in_range(whole, part, bound):
    return -bound <= whole < bound and 0 <= part < PARTS


def nearest(value):
    """The whole number nearest to a fraction, of two the even one."""
    below = value.numerator // value.denominator
    rest = value - below
    if rest == Fraction(1, 2):
        return below + below % 2
    return below + (rest > Fraction(1, 2))


def exact(whole, part, kind, tick, step):
    """A position (kind 0) in kilometres or a velocity (kind 1) in kilometres per second."""
    metres = (whole + Fraction(part, PARTS)) / 2 ** tick
    return metres / 1000 / (1, step)[kind]


def decimal(whole, part, kind, tick, step):
    """The same as a whole number of its last decimal."""
    return nearest(exact(whole, part, kind, tick, step) * 10 ** PLACES[kind])


def decimal_text(count, places):
    before, after = divmod(abs(count), 10 ** places)
    return b'%s%d.%0*d' % (b'-' if count < 0 else b'', before, places, after)


def over_digits(text):
    return len(re.findall(rb'[0-9]', text)) > DIGITS_MOST


def values(request, point):
    """The six values of a point: whole, part, and the kind, 0 for a position."""
    numbers = request.numbers[LENGTH * point:LENGTH * (point + 1)]
    return [(numbers[2 * i], numbers[2 * i + 1], i // 3) for i in range(6)]


def fields(request, point):
    """The six decimals of a point as text; none where one of them asks for 6."""
    texts = []
    for whole, part, kind in values(request, point):
        if not in_range(whole, part, BOUNDS[kind]):
            return None
        text = decimal_text(decimal(whole, part, kind, request.tick, request.step), PLACES[kind])
        if over_digits(text):
            return None
        texts.append(text)
    return texts


# Editions

def other_edition(text, before):
    """Whether a text begins so and goes on, up to its first newline or its end, with the version of no edition."""
    line = text.partition(b'\n')[0]
    return line.startswith(before) and line[len(before):] not in EDITIONS


# The message

def value_line(keyword, value):
    """A line before the data, without its newline."""
    return keyword.encode() + b' = ' + value if value else keyword.encode()


def message(request):
    """The refusal and nothing, or 0 and the text."""
    if not form_stands(request):
        return 11, b''
    points = [fields(request, point) for point in range(request.points())]
    if len(request.numbers) % LENGTH != 0 or None in points:
        return 6, b''
    given = {**request.names, 'CCSDS_OEM_VERS': request.edition or OLDER, 'CREATION_DATE': request.created,
             'START_TIME': request.start, 'STOP_TIME': time_text(request.last())}
    lines = [value_line(keyword, given[keyword] if fixed is None else fixed)
             for keyword, fixed in HEAD]
    lines += [b' '.join([time_text(request.epoch(i)), *texts]) for i, texts in enumerate(points)]
    text = b''.join(line + b'\n' for line in lines)
    if request.room is not None and len(text) > request.room:
        return 12, b''
    return 0, text
