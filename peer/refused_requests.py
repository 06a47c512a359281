"""Draws requests that are refused: by one fault, or by several together."""
from drawn_requests import *

BAD_TIMES = {
    'year 0000': b'0000-12-31T23:59:59', 'month 00': b'2026-00-10T00:00:00',
    'month 13': b'2026-13-10T00:00:00', 'day 00': b'2026-01-00T00:00:00',
    'day 32': b'2026-01-32T00:00:00', '31 April': b'2026-04-31T00:00:00',
    '31 June': b'2026-06-31T00:00:00', '31 September': b'2026-09-31T00:00:00',
    '31 November': b'2026-11-31T00:00:00', '30 February': b'2024-02-30T00:00:00',
    '29 February 1900': b'1900-02-29T00:00:00', '29 February 2100': b'2100-02-29T12:00:00',
    '29 February 2026': b'2026-02-29T00:00:00', 'hour 24': b'2026-01-01T24:00:00',
    'minute 60': b'2026-01-01T00:60:00', 'second 60': b'2026-12-31T23:59:60',
    'no time of day': b'2026-01-01', 'no text': b'', 'a blank in front': b' 2026-01-01T00:00:00',
    'a blank behind': b'2026-01-01T00:00:00 ', 'a blank for T': b'2026-01-01 00:00:00',
    'a small t': b'2026-01-01t00:00:00', 'a fraction': b'2026-01-01T00:00:00.0',
    'a Z': b'2026-01-01T00:00:00Z', 'a day of the year': b'2026-001T00:00:00',
    'a year of five digits': b'12026-01-01T00:00:00', 'a year of three digits': b'926-01-01T00:00:00',
    'a blank for a digit': b'2026- 1-01T00:00:00', 'a sign': b'2026-01-01T+0:00:00',
    'a letter': b'2026-0A-01T00:00:00', 'a control byte behind': b'2026-01-01T00:00:00\r',
    'other bytes': b'\xd9\xa2026-01-01T00:00:0', 'other separators': b'2026/01/01T00.00.00',
}

# Versions of neither edition.
OTHER_VERSIONS = (
    b'', b' ', b'1.0', b'4.0', b'2', b'3', b'2.', b'3.', b'.0', b'2.00', b'3.00', b'02.0', b'03.0', b'2.1', b'3.1', b'20', b'30', b'2.0.0',
    b' 2.0', b' 3.0', b'2.0 ', b'3.0 ', b'2.0\r', b'3.0\r', b'2.0\t', b'3.0\0', b'2.0\x7f', b'2,0', b'3,0', b'+3.0', b'-2.0', b'V3.0',
    b'2.0 3.0', b'2.O', b'3.0 COMMENT A', b'B-3', b'two', b'THREE', b'\xef\xbb\xbf2.0', b'\xd9\xa3.0', b'3.0'.ljust(255, b'0'))


# 11

def spoil_name(keyword, value):
    """Another name under a keyword, one that is drawn."""
    return lambda rng, request: request.names.update({keyword or rng.choice([*NAMES]): value(rng)})


def with_byte(*bytes_allowed):
    """A draw of a name with one of the bytes somewhere."""
    def value(rng):
        other = name(rng, rng.randint(1, 100))
        at = rng.randint(0, len(other))
        return other[:at] + bytes([rng.choice(bytes_allowed)]) + other[at:]
    return value


def mixed_case(rng):
    letters = [rng.choice('AMZ'), rng.choice('amz')]
    rng.shuffle(letters)
    return rng.choice(('', ' ', '/', '-' * 100)).join(letters).encode()


def spoil_time(field, text):
    return lambda rng, request: setattr(request, field, text)


def setting(field, *values):
    return lambda rng, request: setattr(request, field, rng.choice(values))


def past_the_end(rng, request):
    """The last point's time one second, or more, after the last."""
    while request.points() < 2:
        request.numbers += request.numbers[:LENGTH]
    late = rng.choice((1, 1, rng.randint(1, request.step)))
    request.start = time_text(seconds_of(LAST_SECOND) - request.last() + seconds_of(request.start) + late)


def no_points(rng, request):
    request.numbers = []


BAD_NAMES = {
    'of mixed case': mixed_case,
    'of no character': lambda rng: b'',
    'with a blank in front': lambda rng: b' ' + name(rng, rng.randint(1, 100)),
    'with a blank behind': lambda rng: name(rng, rng.randint(1, 100)) + b' ',
}
CONTROL_BYTES = [byte for byte in (*range(0x20), 0x7f) if byte != ord('\n')]
FORM_FAULTS = {
    **{f'{keyword} one character over': spoil_name(keyword, lambda rng, length=room_of(keyword) + 1: name(rng, length))
       for keyword in NAMES},
    **{f'{keyword} {label}': spoil_name(keyword, value) for keyword in NAMES for label, value in BAD_NAMES.items()},
    **{f'control byte {byte:02x}': spoil_name(None, with_byte(byte)) for byte in CONTROL_BYTES},
    'a byte above 7f': spoil_name(None, with_byte(*range(0x80, 0x100))),
    'a name of blanks': spoil_name(None, lambda rng: b' ' * rng.randint(1, 5)),
    **{f'{field}: {label}': spoil_time(field, text)
       for field in ('created', 'start') for label, text in BAD_TIMES.items()},
    'a last time after 9999': past_the_end,
    'tick 17': setting('tick', 17),
    'a tick far too large': setting('tick', 64, 255, 256, 2 ** 32, 2 ** 63, 2 ** 64 - 1),
    'step 0': setting('step', 0),
    'step 3601': setting('step', 3601),
    'a step far too large': setting('step', 7200, 65536, 2 ** 32 + 1, 2 ** 63, 2 ** 64 - 1),
    'no points': no_points,
}


# 6

def some_place(rng, request, kind):
    return rng.choice(places(request, kind))


def out_of_range(kind, whole):
    """A value of so many whole ticks, with a tick so fine that it has no digits too many for that."""
    def spoil(rng, request):
        request.tick = rng.randint(9, 16)
        request.numbers[2 * some_place(rng, request, kind)] = whole
    return spoil


def wrong_part(*values):
    def spoil(rng, request):
        request.numbers[2 * rng.randrange(len(request.numbers) // 2) + 1] = rng.choice(values)
    return spoil


def one_digit_more(kind):
    """The least value of 17 digits, or one near it, of either sign; tick and step are coarse."""
    def spoil(rng, request):
        request.tick, request.step = coarse(rng, kind)
        request.numbers = [n for _ in range(request.points()) for n in point(rng, request.tick, request.step)]
        least = most_numerator(kind, request.tick, request.step) + 1
        put(request, some_place(rng, request, kind), rng.choice((-1, 1)) * (least + size(rng, 2)))
    return spoil


POINT_FAULTS = {
    **{f'{what} of {whole} ticks': out_of_range(kind, whole) for kind, what in enumerate(('a position', 'a velocity'))
       for whole in (BOUNDS[kind], -BOUNDS[kind] - 1, 2 ** 63 - 1, -2 ** 63)},
    'a negative remainder': wrong_part(-1, -PARTS, -2 ** 63),
    'a remainder of D': wrong_part(PARTS),
    'a remainder above D': wrong_part(PARTS + 1, 2 ** 32, 2 ** 32 + 1, 2 ** 63 - 1),
    '11 digits before the point': one_digit_more(0),
    '8 digits before the point': one_digit_more(1),
}


# 17

EDITION_FAULTS = {f'edition {version!r}': setting('edition', version) for version in OTHER_VERSIONS}


# 12

def one_short(rng, request):
    request.room = None
    request.room = max(len(message(request)[1]) - 1, 0)


ROOM_FAULTS = {
    'room one short': one_short,
    'room 0': setting('room', 0),
    'room for the head alone': setting('room', 200, 250),
}

REFUSED = {OTHER_EDITION: EDITION_FAULTS, 11: FORM_FAULTS, 6: POINT_FAULTS, 12: ROOM_FAULTS}


def spoilt_by(faults):
    """A draw of a request that has one fault of each kind named."""
    def draw(rng):
        # Those that draw other points come before those that look at the text.
        request = plain(rng, step=rng.randint(1, 100), start=time_drawn(rng, b'9998-01-01T00:00:00'))
        for number in (6, 12, 11, OTHER_EDITION):
            if number in faults:
                faults[number](rng, request)
        return request
    return draw


def one_of(faults):
    return lambda rng, request: rng.choice([*faults.values()])(rng, request)


# The order of the refusals, where several apply.
TOGETHER = {
    f'{" and ".join(map(str, numbers))} together': (numbers[0], spoilt_by(
        {number: one_of(REFUSED[number]) for number in numbers}))
    for numbers in ((11, 6), (11, 12), (6, 12), (11, 6, 12), (17, 11), (17, 6), (17, 12), (17, 11, 6, 12))}
