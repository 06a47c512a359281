"""Draws lines that are no request."""
from refused_requests import *

NO_NUMBERS = (b'+1', b'-0', b'01', b'00', b'-', b'1.0', b'1e3', b'0x1', b'1_0', b'one', b'1\t', b'1\r', b'1\x00',
              b'\xd9\xa1', b'9' * 40)
NO_NATURALS = (*NO_NUMBERS, b'', b'-1', b' 1', b'1 ', b'1 1', b'18446744073709551616', b'18446744073709551617')
NO_WHOLES = (*NO_NUMBERS, b'-01', b'--1', b'-' + b'9' * 40, b'9223372036854775808', b'-9223372036854775809',
             b'18446744073709551616')


def line_at(lines, word):
    """The first line that begins with a word."""
    return next(i for i, line in enumerate(lines) if line.startswith(word.encode() + b' '))


def missing(word):
    def spoil(rng, lines):
        del lines[line_at(lines, word)]
    return spoil


def doubled(word):
    def spoil(rng, lines):
        at = line_at(lines, word)
        lines.insert(at, lines[at])
    return spoil


def misplaced(word):
    """The line somewhere else."""
    def spoil(rng, lines):
        at = line_at(lines, word)
        line = lines.pop(at)
        lines.insert(rng.choice([i for i in range(len(lines) + 1) if i != at]), line)
    return spoil


def replaced(word, change):
    """Something else in place of the line."""
    def spoil(rng, lines):
        at = line_at(lines, word)
        lines[at] = change(rng, lines[at])
    return spoil


def ended_before(word):
    def spoil(rng, lines):
        del lines[line_at(lines, word):]
    return spoil


def of_numbers(count):
    """So many numbers in a point."""
    return lambda rng, line: b' '.join([b'point', *(line.split(b' ')[1:] * 2)[:count]])


def one_number(text):
    """Another text in place of one number of a line."""
    def change(rng, line):
        words = line.split(b' ')
        words[rng.randrange(1, len(words))] = text
        return b' '.join(words)
    return change


def other_space(rng, line):
    """Something else than one space after the word."""
    return line.replace(b' ', rng.choice((b'', b'\t', b'=')), 1)


REQUIRED, AFTER_EDITION = [word for word in WORDS if word not in LEFT_OUT], WORDS[1:]
BAD_HEADS = {
    'no space after': other_space,
    'the bare word': lambda rng, line: line.split(b' ')[0],
    'a capital in': lambda rng, line: line[:1].upper() + line[1:],
    'a blank before': lambda rng, line: b' ' + line,
}
OTHER_LINES = b'comment A', b'points 1', b'pointer 1', b'stop 2026-01-01T00:00:00'
LINE_FAULTS = {
    **{f'no line {word}': missing(word) for word in REQUIRED},
    **{f'a doubled line {word}': doubled(word) for word in AFTER_EDITION},
    **{f'a misplaced line {word}': misplaced(word) for word in AFTER_EDITION},
    **{f'ended before the line {word}': ended_before(word) for word in REQUIRED},
    **{f'{label} {word}': replaced(word, change) for word in (*AFTER_EDITION, 'point') for label, change in BAD_HEADS.items()},
    **{f'{text!r} for {word}': replaced(word, one_number(text)) for word in NUMBERS for text in NO_NATURALS},
    **{f'{text!r} in a point': replaced('point', one_number(text)) for text in NO_WHOLES},
    **{f'a point of {count} numbers': replaced('point', of_numbers(count)) for count in (0, 1, 6, 11, 13, 24)},
    'two spaces in a point': replaced('point', lambda rng, line: b'  '.join(line.rsplit(b' ', rng.randint(1, 12)))),
    'a space after a point': replaced('point', lambda rng, line: line + b' '),
    'a line of no bytes': lambda rng, lines: lines.insert(rng.randrange(len(lines) + 1), b''),
    'another word': lambda rng, lines: lines.insert(rng.randrange(len(lines) + 1), rng.choice(OTHER_LINES)),
    'an edition further down': lambda rng, lines: lines.insert(rng.randint(1, len(lines)), b'edition ' + rng.choice(EDITIONS)),
    'another edition further down': lambda rng, lines: lines.insert(rng.randint(1, len(lines)), b'edition ' + rng.choice(OTHER_VERSIONS)),
    'a newline in a name': replaced('object', lambda rng, line: line[:8] + b'\n' + line[8:]),
}
# These are of requests that have an edition.
EDITION_LINE_FAULTS = {
    'a doubled line edition': doubled('edition'),
    'a misplaced line edition': misplaced('edition'),
    'another edition behind an edition': lambda rng, lines: lines.insert(1, b'edition ' + rng.choice(OTHER_VERSIONS)),
    'an edition behind the creation time': lambda rng, lines: lines.insert(1, lines.pop(0)),
    **{f'{label} edition': replaced('edition', change) for label, change in BAD_HEADS.items()},
    'an edition alone': ended_before('created'),
}


def spoilt_lines(fault, *editions):
    """A draw of bytes that are no request by one fault, of one of the editions if some are given; at times the request itself is to be
    refused too."""
    def draw(rng):
        request = plain(rng)
        if editions:
            request.edition = rng.choice(editions)
        request.room = rng.choice((0, 10 ** 6))
        if rng.randrange(4) == 0:
            one_of(FORM_FAULTS)(rng, request)
        if not request.numbers:
            request.numbers = point(rng, 0, 1)
        lines = request_text(request).split(b'\n')[:-1]
        fault(rng, lines)
        return b''.join(line + b'\n' for line in lines)
    return draw


def unended(rng):
    """A request, or its first lines, without the last newline."""
    lines = re.findall(rb'[^\n]*\n', request_text(plain(rng)))
    return b''.join(lines[:rng.choice((len(lines), rng.randint(1, len(lines))))])[:-1]


def cut(rng):
    """The first bytes of a request, within a line but not within an edition."""
    request = plain(rng)
    text, first = request_text(request), len(b'edition 2.0') if request.edition else 1
    return text[:rng.choice([at for at in range(first, len(text)) if text[at - 1:at] != b'\n'])]


def of_edition(edition, rest):
    """A draw of an edition and other bytes behind it."""
    return lambda rng: b'edition ' + rng.choice(edition) + rest(rng)


# By label what is refused for its edition although it is no request.
EDITION_TEXTS = {
    'another edition before lines that are no request': of_edition(
        OTHER_VERSIONS, lambda rng: b'\n' + spoilt_lines(rng.choice([*LINE_FAULTS.values()]), None)(rng)),
    'another edition before any bytes': of_edition(OTHER_VERSIONS, lambda rng: b'\n' + rng.randbytes(rng.randint(1, 100))),
    'another edition alone': of_edition(OTHER_VERSIONS, lambda rng: b'\n'),
    'another edition without a newline': of_edition(OTHER_VERSIONS, lambda rng: b''),
    'an edition of no byte without a newline': lambda rng: b'edition ',
    'an edition cut off': lambda rng: of_edition(EDITIONS, lambda rng: b'')(rng)[:rng.choice((-1, -2))],
    'blanks for newlines': of_edition(EDITIONS, lambda rng: b' ' + request_text(plain(rng)).replace(b'\n', b' ')),
}
NO_REQUEST = {
    **{label: spoilt_lines(fault) for label, fault in LINE_FAULTS.items()},
    **{label: spoilt_lines(fault, *EDITIONS) for label, fault in EDITION_LINE_FAULTS.items()},
    'an edition without a newline': of_edition(EDITIONS, lambda rng: b''),
    'no final newline': unended,
    'bytes cut off': cut,
    'no bytes': lambda rng: b'',
}
