"""Draws requests that are written: each kind leads to some corner of the rules."""
import collections
import math
import random
import string

from request_lines import *

UPPER = string.digits + string.ascii_uppercase + string.punctuation
LOWER = string.digits + string.ascii_lowercase + string.punctuation
TICKS = range(TICK_MOST + 1)
# The odd multiples of these numerators over PARTS, at k 0, are ties: of positions, and of velocities
# for a step without the factor 5.
POSITION_TIE, VELOCITY_TIE = 399168, 49896
LAST_SECOND = b'9999-12-31T23:59:59'
FEBRUARIES = 1900, 1996, 2000, 2100
# An edition, none for a request without a line of it, and the further keywords of a message.
Form = collections.namedtuple('Form', 'edition further')


class Source(random.Random):
    """What requests and messages are drawn from, and the form that they have where nothing else is asked for."""
    form = Form(None, ())


# Plain requests

def size(rng, most):
    """A whole number from 0 to most, small ones as likely as large ones."""
    return min(most, rng.getrandbits(rng.randint(0, most.bit_length())))


def signed(rng, most):
    return rng.choice((-1, 1)) * size(rng, most)


def room_of(keyword):
    """The most characters of a name."""
    return LINE_MOST - len(keyword) - len(' = ')


def name(rng, length):
    letters = rng.choice((UPPER, LOWER))
    inner = [rng.choice(letters + '  ') for _ in range(length)]
    inner[0], inner[-1] = rng.choice(letters), rng.choice(letters)
    return ''.join(inner).encode()


def time_drawn(rng, most=LAST_SECOND):
    return time_text(rng.randint(0, seconds_of(most)))


def most_numerator(kind, tick, step):
    """The largest numerator over PARTS that is in range and has no more than 16 digits."""
    half_over = Fraction(2 * 10 ** DIGITS_MOST - 1, 2)
    unit = exact(0, 1, kind, tick, step) * 10 ** PLACES[kind]
    return min(BOUNDS[kind] * PARTS - 1, math.ceil(half_over / unit) - 1)


def point(rng, tick, step):
    """Twelve numbers that are written."""
    numerators = [signed(rng, most_numerator(i // 3, tick, step)) for i in range(6)]
    return [number for numerator in numerators for number in divmod(numerator, PARTS)]


def plain(rng, tick=None, step=None, points=None, start=None):
    """A request that is written, of the parts that are given and others that are drawn."""
    tick = rng.choice(TICKS) if tick is None else tick
    step = rng.choice((1, 2, 10, 60, 3600, rng.randint(1, STEP_MOST))) if step is None else step
    points = rng.choice((1, 1, 2, 3, 5)) if points is None else points
    latest = time_text(seconds_of(LAST_SECOND) - step * max(points, 1))
    names = {keyword: name(rng, rng.choice((1, 2, 5, 12, rng.randint(1, room_of(keyword)))))
             for keyword in NAMES}
    room = rng.choice((None, None, 10 ** 6, 2 ** 64 - 1))
    numbers = [number for _ in range(points) for number in point(rng, tick, step)]
    return Request(rng.form.edition, time_drawn(rng), names,
                   time_drawn(rng, latest) if start is None else start, tick, step, room, numbers)


def put(request, place, numerator):
    """Puts a value of so many parts in a place: 0 to 5 are the first point's values, and so on."""
    request.numbers[2 * place:2 * place + 2] = divmod(numerator, PARTS)


def places(request, kind):
    """The places of all positions, or of all velocities."""
    return [place for place in range(len(request.numbers) // 2) if place // 3 % 2 == kind]


# Decimals

def tie_unit(kind, step):
    """The numerator at k 0 whose odd multiples are ties."""
    return (POSITION_TIE, VELOCITY_TIE * step // math.gcd(step, 625))[kind]


def twice(value, kind, request):
    """A value in halves of its last decimal."""
    whole, part = divmod(value, PARTS)
    return 2 * 10 ** PLACES[kind] * exact(whole, part, kind, request.tick, request.step)


def ties(rng, tick, kind, beside):
    """Ties of either sign in every place of a kind, or values one part beside them."""
    request = plain(rng, tick=tick)
    unit = tie_unit(kind, request.step) << tick
    for at, place in enumerate(places(request, kind)):
        odd = 2 * size(rng, (most_numerator(kind, tick, request.step) // unit - 1) // 2) + 1
        value = odd * unit * (-1) ** (at + rng.randrange(2))
        assert twice(value, kind, request) % 2 == 1
        put(request, place, value + beside)
    return request


def around_halves(rng, kind):
    """In every place of a kind the value next to the middle of two decimals, on either side of it."""
    request = plain(rng)
    most = most_numerator(kind, request.tick, request.step) - 1
    for place in places(request, kind):
        near = twice(signed(rng, most), kind, request)
        middle = (near // 2 * 2 + 1) / twice(1, kind, request)
        value = rng.choice((math.floor, math.ceil))(middle)
        put(request, place, max(-most, min(most, value)))
    return request


def to_zero(rng, kind):
    """Negative values in every place of a kind that round to zero."""
    request = plain(rng)
    half = Fraction(1, 2) / exact(0, 1, kind, request.tick, request.step) / 10 ** PLACES[kind]
    for place in places(request, kind):
        put(request, place, -rng.choice((1, size(rng, math.ceil(half) - 2) + 1, math.ceil(half) - 1)))
    return request


def half_to_zero(rng):
    """Velocities of minus half a last decimal, which only steps with the factor 625 have."""
    request = plain(rng, step=625 * rng.randint(1, 5))
    for place in places(request, 1):
        value = -tie_unit(1, request.step) << request.tick
        assert twice(value, 1, request) == -1
        put(request, place, value)
    return request


def coarse(rng, kind):
    """A tick and a step with which values in range can have too many digits."""
    if kind == 0:
        return rng.randint(0, 8), rng.randint(1, STEP_MOST)
    tick = rng.randint(0, 6)
    return tick, rng.randint(1, 108 >> tick)


def most_digits(rng, kind):
    """The largest values that have 16 digits, of either sign."""
    tick, step = coarse(rng, kind)
    request = plain(rng, tick, step)
    for place in places(request, kind):
        put(request, place, rng.choice((-1, 1)) * (most_numerator(kind, tick, step) - size(rng, 2)))
    return request


def bounds(rng, kind):
    """The least and the largest values in range."""
    request = plain(rng, rng.randint(9, 16), rng.randint(110, STEP_MOST))
    for place in places(request, kind):
        least, most = -BOUNDS[kind] * PARTS, BOUNDS[kind] * PARTS - 1
        put(request, place, rng.choice((least, least + 1, most, most - 1)))
    return request


# Times

def crossing(rng, before):
    """A series that passes midnight after a day, whose text is given without the time."""
    midnight = seconds_of(before + b'T00:00:00') + DAY
    step = rng.choice((1, 60, 3600, rng.randint(1, STEP_MOST)))
    start = midnight - rng.choice((1, step, rng.randint(1, 2 * step)))
    return plain(rng, step=step, points=rng.randint(3, 5), start=time_text(start))


def month_end(rng, month):
    year = rng.choice((1, 4, 1582, 1900, 2000, 2024, 9998, rng.randint(1, 9998)))
    return crossing(rng, b'%04d-%02d-%02d' % (year, month, month_length(year, month)))


def february(rng, year):
    """A series that passes the end of 28 February, and in leap years that of the 29th too."""
    start = seconds_of(b'%04d-02-28T23:00:00' % year) + rng.randrange(3600)
    return plain(rng, step=3600, points=30, start=time_text(start))


def leap_day(rng, year):
    request = crossing(rng, b'%04d-02-29' % year)
    request.created = b'%04d-02-29T23:59:59' % year
    return request


def last_second(rng):
    step, points = rng.randint(1, STEP_MOST), rng.randint(1, 4)
    start = time_text(seconds_of(LAST_SECOND) - (points - 1) * step)
    return plain(rng, step=step, points=points, start=start)


def first_second(rng):
    request = plain(rng, start=b'0001-01-01T00:00:00')
    request.created = b'0001-01-01T00:00:00'
    return request


# Names, settings, room

def shuffled(rng, letters):
    """All letters once, a blank among them."""
    inner = rng.sample(letters, len(letters))
    inner.insert(rng.randint(1, len(inner) - 1), ' ')
    return ''.join(inner).encode()


def with_name(rng, keyword, value):
    request = plain(rng)
    request.names[keyword] = value
    return request


def exact_room(rng):
    request = plain(rng)
    request.room = None
    request.room = len(message(request)[1])
    return request


def with_edition(rng, edition):
    request = plain(rng)
    request.edition = edition
    return request


WRITTEN = {
    'a plain request': plain,
    'no edition': lambda rng: with_edition(rng, None),
    **{f'edition {edition.decode()}': lambda rng, edition=edition: with_edition(rng, edition) for edition in EDITIONS},
    **{f'{what} {beside} at k {tick}': lambda rng, tick=tick, kind=kind, by=by: ties(rng, tick, kind, by)
       for tick in TICKS for kind, what in enumerate(('positions', 'velocities'))
       for by, beside in ((0, 'at ties'), (-1, 'below ties'), (1, 'above ties'))},
    'positions around halves': lambda rng: around_halves(rng, 0),
    'velocities around halves': lambda rng: around_halves(rng, 1),
    'negative positions that round to zero': lambda rng: to_zero(rng, 0),
    'negative velocities that round to zero': lambda rng: to_zero(rng, 1),
    'minus half a decimal': half_to_zero,
    '10 digits before the point': lambda rng: most_digits(rng, 0),
    '7 digits before the point': lambda rng: most_digits(rng, 1),
    'positions at the bounds': lambda rng: bounds(rng, 0),
    'velocities at the bounds': lambda rng: bounds(rng, 1),
    **{f'the end of month {month}': lambda rng, month=month: month_end(rng, month) for month in MONTHS},
    **{f'past 28 February {year}': lambda rng, year=year: february(rng, year) for year in FEBRUARIES},
    **{f'29 February {year}': lambda rng, year=year: leap_day(rng, year)
       for year in FEBRUARIES if leap(year)},
    'the last second of 9999': last_second,
    'the first second of 0001': first_second,
    **{f'{keyword} of the most characters': lambda rng, keyword=keyword: with_name(
        rng, keyword, name(rng, room_of(keyword))) for keyword in NAMES},
    **{f'{keyword} of one character': lambda rng, keyword=keyword: with_name(
        rng, keyword, name(rng, 1)) for keyword in NAMES},
    'blanks within a name': lambda rng: with_name(rng, rng.choice([*NAMES]), b'A  B   C'),
    'every character of upper case': lambda rng: with_name(rng, rng.choice([*NAMES]), shuffled(rng, UPPER)),
    'every character of lower case': lambda rng: with_name(rng, rng.choice([*NAMES]), shuffled(rng, LOWER)),
    'tick 0': lambda rng: plain(rng, tick=0),
    'tick 16': lambda rng: plain(rng, tick=16),
    'step 1': lambda rng: plain(rng, step=1),
    'step 3600': lambda rng: plain(rng, step=3600),
    'one point': lambda rng: plain(rng, points=1),
    '1,000 points': lambda rng: plain(rng, points=1000),
    'room that is just enough': exact_room,
}
