"""Draws readable messages as lines that can be spoilt, and says what reading and mending have to come to."""
from drawn_requests import *
from mended import *

# Gaps between epochs, in seconds: within a step of ours and beyond.
GAPS = 1, 30, 60, 3600, 3601, 86400, 10 ** 7
NUMBER_MOST = 10 ** DIGITS_MOST - 1
# The forms of messages.
FURTHER_WORDS = tuple(FURTHER.values())
FORMS = [Form(OLDER, ())] + [Form(NEWER, words) for words in ((), *((word,) for word in FURTHER_WORDS), FURTHER_WORDS)]


class Draft:
    """A message as lines without newlines, where its keywords stand, and where its data lines begin."""

    def __init__(self, lines, at, first):
        self.lines, self.at, self.first = lines, at, first

    def text(self):
        return b''.join(line + b'\n' for line in self.lines)

    def any_data(self, rng):
        """Where one of the data lines stands."""
        return rng.randrange(self.first, len(self.lines))

    def put(self, keyword, value):
        """Another value under a keyword."""
        self.lines[self.at[keyword]] = keyword.encode() + b' = ' + value

    def dropping(self, *places):
        """The changes where the data lines in these places are dropped and all others are kept; 16 where none is left."""
        kept = [line for at, line in enumerate(self.lines) if at >= self.first and at not in places]
        if not kept:
            return 16
        times = [(self.at[keyword] + 1, keyword) for keyword, line in zip(LAST, (kept[0], kept[-1]))
                 if self.lines[self.at[keyword]] != value_line(keyword, line.split(b' ')[0])]
        return times + [(at + 1, DROPPED) for at in sorted(places)]


class Wanted:
    """The line at which reading stops, 0 where it does not, ANOTHER where the edition is; mending's changes, or the number of its
    refusal."""

    def __init__(self, line, mending):
        self.line, self.mending = line, mending


READABLE = Wanted(0, [])
ANOTHER = 'another edition'
NEITHER = Wanted(ANOTHER, OTHER_EDITION)


def stops_at(place):
    """What a head that is unreadable from a place on comes to."""
    return Wanted(place + 1, 16)


# Readable messages

def number_drawn(rng):
    return rng.choice((0, 1, -1, NUMBER_MOST, -NUMBER_MOST, signed(rng, NUMBER_MOST), signed(rng, NUMBER_MOST),
                       signed(rng, 10 ** 10)))


def data_line(rng, seconds):
    texts = [decimal_text(number_drawn(rng), PLACES[i // 3]) for i in range(6)]
    return b' '.join([time_text(seconds), *texts])


def epochs_drawn(rng, count, first, last):
    """So many rising seconds, all between the two."""
    gaps = [rng.choice((*GAPS, rng.randint(1, 5000))) for _ in range(count - 1)]
    start = rng.randint(first, last - sum(gaps))
    return [start + sum(gaps[:at]) for at in range(count)]


def comment_drawn(rng):
    length = rng.choice((1, 5, 30, rng.randint(1, LINE_MOST - len('COMMENT '))))
    words = bytes(rng.randrange(0x20, 0x7f) for _ in range(length))
    return rng.choice((b'COMMENT', b'COMMENT ', b'COMMENT ' + words, b'COMMENT ' + words))


def free_text(rng, length):
    """A value of a further keyword."""
    text = bytearray(rng.randrange(0x20, 0x7f) for _ in range(length))
    text[0], text[-1] = rng.randrange(0x21, 0x7f), rng.randrange(0x21, 0x7f)
    return bytes(text)


def further_line(rng, keyword):
    return value_line(keyword, free_text(rng, rng.choice((1, 2, 8, 30, rng.randint(1, room_of(keyword))))))


def form_with(rng, keyword):
    """The form of the source, or for a further keyword one that has it."""
    return rng.choice([form for form in FORMS if keyword in form.further]) if keyword in FURTHER_WORDS else rng.form


def drafted(rng, points=None, least=1, comments=None, first=0, last=None, form=None):
    """A readable message; comments by keyword where they are given, else drawn; of the source's form if no other is given."""
    form = form or rng.form
    count = points or max(least, rng.choice((1, 1, 2, 3, 5, 8, rng.randint(1, 40))))
    epochs = epochs_drawn(rng, count, first, seconds_of(LAST_SECOND) if last is None else last)
    given = {keyword: name(rng, rng.choice((1, 2, 5, 12))) for keyword in NAMES}
    given.update(CCSDS_OEM_VERS=form.edition, CREATION_DATE=time_drawn(rng), START_TIME=time_text(epochs[0]), STOP_TIME=time_text(epochs[-1]))
    if comments is None:
        comments = {keyword: [comment_drawn(rng) for _ in range(rng.choice((0, 0, 1, 2)))] for keyword in COMMENTED}
    lines, at = [], {}
    for keyword, fixed in HEAD:
        if FURTHER.get(keyword) in form.further:
            at[FURTHER[keyword]] = len(lines)
            lines.append(further_line(rng, FURTHER[keyword]))
        at[keyword] = len(lines)
        lines.append(value_line(keyword, given[keyword] if fixed is None else fixed))
        lines += comments.get(keyword, [])
    return Draft(lines + [data_line(rng, epoch) for epoch in epochs], at, len(lines))


def readable(draw):
    """A kind whose messages are readable, from a draw of drafts."""
    return lambda rng: (draw(rng).text(), READABLE)


def with_value(rng, keyword, value):
    draft = drafted(rng, form=form_with(rng, keyword))
    draft.put(keyword, value)
    return draft


def with_number(rng, kind, count):
    """A number in a place of a kind, in some data line."""
    draft = drafted(rng)
    at = draft.any_data(rng)
    words = draft.lines[at].split(b' ')
    words[1 + 3 * kind + rng.randrange(3)] = decimal_text(count, PLACES[kind])
    draft.lines[at] = b' '.join(words)
    return draft


def commented(keyword, *comments):
    return lambda rng: drafted(rng, comments={keyword: list(comments)})


LONG_COMMENT = b'COMMENT '.ljust(LINE_MOST, b'x')
EVERY_CHARACTER = b'COMMENT ' + bytes(range(0x20, 0x7f))
READ = {label: readable(draw) for label, draw in {
    'no comment': lambda rng: drafted(rng, comments={}),
    'comments drawn': drafted,
    **{f'a comment after {keyword}': commented(keyword, b'COMMENT A') for keyword in COMMENTED},
    **{f'a bare COMMENT after {keyword}': commented(keyword, b'COMMENT') for keyword in COMMENTED},
    **{f'an empty comment after {keyword}': commented(keyword, b'COMMENT ') for keyword in COMMENTED},
    **{f'a comment of 254 characters after {keyword}': commented(keyword, LONG_COMMENT) for keyword in COMMENTED},
    **{f'every character in a comment after {keyword}': commented(keyword, EVERY_CHARACTER) for keyword in COMMENTED},
    **{f'a keyword in a comment after {keyword}': commented(keyword, b'COMMENT META_STOP', b'COMMENT COMMENT')
       for keyword in COMMENTED},
    **{f'thirty comments after {keyword}': commented(keyword, *[b'COMMENT A', b'COMMENT'] * 15) for keyword in COMMENTED},
    'a comment in all three places': lambda rng: drafted(rng, comments={keyword: [b'COMMENT A'] for keyword in COMMENTED}),
    'one point': lambda rng: drafted(rng, points=1),
    'two points': lambda rng: drafted(rng, points=2),
    '40 points': lambda rng: drafted(rng, points=40),
    'the first months of 0001': lambda rng: drafted(rng, points=rng.randint(1, 2), last=10 ** 7),
    'the last second of 9999': lambda rng: drafted(rng, points=1, first=seconds_of(LAST_SECOND)),
    'the first second of 0001': lambda rng: drafted(rng, points=1, last=0),
    **{f'a line {keyword} of 254 characters': lambda rng, keyword=keyword: with_value(
        rng, keyword, name(rng, room_of(keyword))) for keyword in NAMES},
    **{f'one character for {keyword}': lambda rng, keyword=keyword: with_value(rng, keyword, name(rng, 1)) for keyword in NAMES},
    'blanks within a name': lambda rng: with_value(rng, rng.choice([*NAMES]), b'A  = B   C'),
    'every character of upper case': lambda rng: with_value(rng, rng.choice([*NAMES]), shuffled(rng, UPPER)),
    'every character of lower case': lambda rng: with_value(rng, rng.choice([*NAMES]), shuffled(rng, LOWER)),
    'a leap day': lambda rng: with_value(rng, 'CREATION_DATE', b'%d-02-29T23:59:59' % rng.choice((1996, 2000, 2024))),
    **{f'{label} as a {what}': lambda rng, kind=kind, count=count: with_number(rng, kind, count)
       for kind, what in enumerate(('position', 'velocity'))
       for label, count in (('zero', 0), ('the least above zero', 1), ('the greatest below zero', -1),
                            ('16 digits', NUMBER_MOST), ('16 digits below zero', -NUMBER_MOST))},
}.items()}
READ['a message that was written'] = lambda rng: (message(plain(rng, points=rng.randint(1, 40)))[1], READABLE)
