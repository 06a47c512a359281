"""Draws messages with faults among their data lines: what each comes to is known."""
from lost_lines import *

# By label a number with so many decimals that is not written as numbers are.
BAD_NUMBERS = {
    'minus zero': lambda places: b'-0.' + b'0' * places,
    'a plus sign': lambda places: b'+1.' + b'0' * places,
    'a spare zero': lambda places: b'01.' + b'0' * places,
    'two zeros': lambda places: b'00.' + b'0' * places,
    'a spare zero after a minus': lambda places: b'-01.' + b'5' * places,
    'no digit before the point': lambda places: b'.' + b'5' * places,
    'no digit after a minus': lambda places: b'-.' + b'5' * places,
    'a decimal too few': lambda places: b'1.' + b'0' * (places - 1),
    'a decimal too many': lambda places: b'1.' + b'0' * (places + 1),
    'no decimals': lambda places: b'1',
    'a point without decimals': lambda places: b'1.',
    'an exponent': lambda places: b'1.' + b'0' * places + b'e0',
    'a comma': lambda places: b'1,' + b'0' * places,
    'two points': lambda places: b'1..' + b'0' * (places - 1),
    'two signs': lambda places: b'--1.' + b'0' * places,
    'a letter': lambda places: b'1.' + b'0' * (places - 1) + b'O',
    'a NaN': lambda places: b'nan',
    'the text of nothing': lambda places: b'',
    'a tab behind': lambda places: b'1.' + b'0' * places + b'\t',
    'a blank between digits': lambda places: b'1.' + b'0' * (places - 1) + b' 0',
    'other digits': lambda places: b'\xd9\xa1.' + b'0' * places,
    'a colon': lambda places: b':.' + b'0' * places,
    '17 digits': lambda places: b'1' + b'0' * (DIGITS_MOST - places) + b'.' + b'0' * places,
    '17 digits below zero': lambda places: b'-' + b'9' * (DIGITS_MOST + 1 - places) + b'.' + b'9' * places,
    '40 digits': lambda places: b'9' * 40 + b'.' + b'9' * places,
}
# By label another line in place of one, from its words.
BAD_WORDS = {
    'five numbers': lambda rng, words: words[:6],
    'seven numbers': lambda rng, words: words + [b'0.000000000'],
    'accelerations': lambda rng, words: words + [b'0.000000000'] * 3,
    'a time alone': lambda rng, words: words[:1],
    'no time in the line': lambda rng, words: words[1:],
    'a second time': lambda rng, words: words[:1] + words,
    'numbers exchanged': lambda rng, words: words[:1] + words[4:] + words[1:4],
    'a blank before the line': lambda rng, words: [b''] + words,
    'a blank behind the line': lambda rng, words: words + [b''],
    'two blanks': lambda rng, words: words[:3] + [b''] + words[3:],
    'a CR behind the line': lambda rng, words: words[:-1] + [words[-1] + b'\r'],
    'a tab for a blank': lambda rng, words: [b'\t'.join(words[:2])] + words[2:],
    'a NUL behind the line': lambda rng, words: words[:-1] + [words[-1] + b'\0'],
    'a number sign before the line': lambda rng, words: [b'#' + words[0]] + words[1:],
    'the end cut off': lambda rng, words: [b' '.join(words)[:rng.randint(0, len(b' '.join(words)) - 1)]],
    'the beginning cut off': lambda rng, words: [b' '.join(words)[rng.randint(1, len(b' '.join(words))):]],
}
# Lines that are no data lines.
STRANGE = {
    'a comment': b'COMMENT A', 'a bare COMMENT': b'COMMENT', 'a blank line': b'', 'a line of a blank': b' ', 'a line of a CR': b'\r',
    'META_START': b'META_START', 'META_STOP': b'META_STOP', 'a keyword': b'OBJECT_NAME = A',
    'a START_TIME': b'START_TIME = 2026-01-01T00:00:00', 'a covariance': b'COVARIANCE_START', 'a version': b'CCSDS_OEM_VERS = 3.0',
    'a classification': b'CLASSIFICATION = A', 'a message\'s identifier': b'MESSAGE_ID = A',
    'a line of 255 characters': b'1' * 255, 'a long line': b'0' * 5000, 'a NUL': b'\0', 'a high byte': b'\xff',
}


def line_fault(spoil):
    """A kind with one data line spoilt, of several."""
    def draw(rng):
        draft = drafted(rng, least=2)
        at = draft.any_data(rng)
        draft.lines[at] = b' '.join(spoil(rng, draft.lines[at].split(b' ')))
        return draft.text(), Wanted(at + 1, draft.dropping(at))
    return draw


def other_word(place, text):
    """Another text for one of the words of a line; place gives which."""
    def spoil(rng, words):
        at = place(rng)
        return words[:at] + [text] + words[at + 1:]
    return spoil


def strange_line(line, place):
    """A kind with a line among the data lines that is none; place gives where, from 0 before the first on."""
    def draw(rng):
        draft = drafted(rng, least=2)
        at = draft.first + place(rng, len(draft.lines) - draft.first)
        draft.lines.insert(at, line)
        return draft.text(), Wanted(at + 1, draft.dropping(at))
    return draw


def before_first(*lines):
    """A kind where these lines follow the comments after META_STOP; the first of them is no comment, so none is one."""
    def draw(rng):
        draft = drafted(rng)
        places = range(draft.first, draft.first + len(lines))
        draft.lines[draft.first:draft.first] = lines
        return draft.text(), Wanted(draft.first + 1, draft.dropping(*places))
    return draw


def commented_out(rng):
    """COMMENT before a data line: before the first it is a comment, and no line is dropped."""
    draft = drafted(rng, least=2)
    at = draft.any_data(rng)
    draft.lines[at] = b'COMMENT ' + draft.lines[at]
    if at > draft.first:
        return draft.text(), Wanted(at + 1, draft.dropping(at))
    draft.first += 1
    return draft.text(), Wanted(draft.at['START_TIME'] + 1, draft.dropping())


# Epochs

def epoch_fault(other):
    """A kind where a data line after the first has the epoch that comes of those before it and its own."""
    def draw(rng):
        draft = drafted(rng, least=3, first=10 ** 9, last=10 ** 11)
        at = rng.randrange(draft.first + 1, len(draft.lines))
        earlier = [seconds_of(line[:19]) for line in draft.lines[draft.first:at]]
        draft.lines[at] = time_text(other(rng, earlier)) + draft.lines[at][19:]
        return draft.text(), Wanted(at + 1, draft.dropping(at))
    return draw


def one_later(rng):
    """Two lines a second apart, which is enough."""
    draft = drafted(rng, points=2)
    draft.lines[-1] = time_text(seconds_of(draft.lines[-2][:19]) + 1) + draft.lines[-1][19:]
    draft.put('STOP_TIME', draft.lines[-1][:19])
    return draft.text(), READABLE


def late(rng):
    """A data line before the last has an epoch after it: it is kept, and none that follows."""
    draft = drafted(rng, least=3, last=10 ** 11)
    at = rng.randrange(draft.first, len(draft.lines) - 1)
    draft.lines[at] = time_text(seconds_of(draft.lines[-1][:19]) + rng.randint(0, 10)) + draft.lines[at][19:]
    return draft.text(), Wanted(at + 2, draft.dropping(*range(at + 1, len(draft.lines))))


def swapped(rng):
    draft = drafted(rng, least=2)
    at = rng.randrange(draft.first, len(draft.lines) - 1)
    draft.lines[at], draft.lines[at + 1] = draft.lines[at + 1], draft.lines[at]
    return draft.text(), Wanted(at + 2, draft.dropping(at + 1))


def twice(rng):
    draft = drafted(rng)
    at = draft.any_data(rng)
    draft.lines.insert(at, draft.lines[at])
    return draft.text(), Wanted(at + 2, draft.dropping(at + 1))


def backward(rng):
    """All data lines in falling order."""
    draft = drafted(rng, least=2)
    draft.lines[draft.first:] = draft.lines[draft.first:][::-1]
    return draft.text(), Wanted(draft.first + 2, draft.dropping(*range(draft.first + 1, len(draft.lines))))


def rounds(rng):
    """All data lines twice, one time after the other."""
    draft = drafted(rng)
    length = len(draft.lines)
    draft.lines += draft.lines[draft.first:]
    return draft.text(), Wanted(length + 1, draft.dropping(*range(length, len(draft.lines))))


# Lines lost

def lost(which):
    """A kind with some data lines lost; which gives their places, from 0 on."""
    def draw(rng):
        draft = drafted(rng, least=4)
        gone = which(rng, len(draft.lines) - draft.first)
        draft.lines = [line for at, line in enumerate(draft.lines) if at - draft.first not in gone]
        changes = draft.dropping()
        return draft.text(), Wanted(changes[0][0] if changes else 0, changes)
    return draw


def lost_and_spoilt(rng):
    """The first and the last line lost, and another unreadable: the times come after it."""
    draft = drafted(rng, points=rng.randint(5, 40))
    del draft.lines[draft.first], draft.lines[-1]
    at = rng.randrange(draft.first + 1, len(draft.lines) - 1)
    draft.lines[at] = draft.lines[at][:-1]
    return draft.text(), Wanted(at + 1, draft.dropping(at))


def none_left(spoil):
    """A kind with no readable data line."""
    def draw(rng):
        draft = drafted(rng)
        draft.lines[draft.first:] = [made for line in draft.lines[draft.first:] for made in spoil(rng, line)]
        return draft.text(), Wanted(draft.first + 1, 16)
    return draw


DATA_FAULTS = {
    **{f'{label} as a {what}': line_fault(other_word(lambda rng, kind=kind: rng.randint(1, 3) + 3 * kind, text(PLACES[kind])))
       for kind, what in enumerate(('position', 'velocity')) for label, text in BAD_NUMBERS.items()},
    **{f'{label} as an epoch': line_fault(other_word(lambda rng: 0, text)) for label, text in BAD_TIMES.items()},
    **{f'a data line with {label}': line_fault(spoil) for label, spoil in BAD_WORDS.items()},
    **{f'{label} between data lines': strange_line(line, lambda rng, count: rng.randint(1, count - 1))
       for label, line in STRANGE.items()},
    **{f'{label} after the data': strange_line(line, lambda rng, count: count) for label, line in STRANGE.items()},
    **{f'{label} after META_STOP': before_first(line) for label, line in BAD_COMMENTS.items()},
    **{f'a comment behind {label}': before_first(line, b'COMMENT A', b'COMMENT') for label, line in BAD_COMMENTS.items()},
    'COMMENT before a data line': commented_out,
    'the line META_STOP twice': before_first(b'META_STOP'),
    'an equal epoch': epoch_fault(lambda rng, earlier: earlier[-1]),
    'an epoch one second earlier': epoch_fault(lambda rng, earlier: earlier[-1] - 1),
    'an epoch before the first': epoch_fault(lambda rng, earlier: rng.randrange(earlier[0])),
    'an epoch among those before': epoch_fault(lambda rng, earlier: rng.choice(earlier)),
    'an epoch one second later': one_later,
    'an epoch after the last': late,
    'two data lines swapped': swapped,
    'a data line twice': twice,
    'falling epochs': backward,
    'all data lines twice': rounds,
    'the first data line lost': lost(lambda rng, count: [0]),
    'the last data line lost': lost(lambda rng, count: [count - 1]),
    'the first and the last data line lost': lost(lambda rng, count: [0, count - 1]),
    'a data line within lost': lost(lambda rng, count: [rng.randint(1, count - 2)]),
    'several data lines lost': lost(lambda rng, count: rng.sample(range(count), rng.randint(2, count - 1))),
    'data lines lost and spoilt': lost_and_spoilt,
    'no data line': none_left(lambda rng, line: []),
    'all data lines cut': none_left(lambda rng, line: [line[:-1]]),
    'all data lines ended by CR LF': none_left(lambda rng, line: [line + b'\r']),
    'all data lines broken in two': none_left(lambda rng, line: [line[:40], line[40:]]),
}
