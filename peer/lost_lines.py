"""Draws messages with one fault before the data, or with a wrong time: what each comes to is known."""
from drafts import *
from refused_requests import BAD_TIMES

KEYWORDS = [keyword for keyword, _ in HEAD]
PRINTABLE_TIMES = [text for text in BAD_TIMES.values() if fits_a_line(text)]
NEVER_COMMENTED = [after for before, after in zip(KEYWORDS, KEYWORDS[1:]) if before not in COMMENTED]
BAD_COMMENTS = {
    'a comment of 255 characters': LONG_COMMENT + b'x', 'a longer word than COMMENT': b'COMMENTS A',
    'a small comment': b'comment A', 'a blank before COMMENT': b' COMMENT A', 'a tab after COMMENT': b'COMMENT\tA',
    'an equals sign after COMMENT': b'COMMENT=A', 'a tab in a comment': b'COMMENT A\tB', 'a CR after a comment': b'COMMENT A\r',
    'a NUL in a comment': b'COMMENT A\0B', 'a delete byte in a comment': b'COMMENT A\x7f',
    'a high byte in a comment': b'COMMENT \xc3\xa9', 'a part of COMMENT': b'COMMEN', 'a number sign': b'# A', 'a blank line': b'',
}
BAD_NAMES = {
    'no name': lambda rng: b'', 'a blank for a name': lambda rng: b' ', 'a blank before a name': lambda rng: b' A',
    'a blank behind a name': lambda rng: b'A ', 'a name of both cases': lambda rng: rng.choice((b'Earth', b'eARTH', b'A-z')),
    'a tab in a name': lambda rng: b'A\tB', 'a CR behind a name': lambda rng: b'A\r', 'a delete byte in a name': lambda rng: b'A\x7f',
    'a high byte in a name': lambda rng: b'\xc3\x89', 'a unit separator in a name': lambda rng: b'A\x1fB',
}
OPTIONAL = (b'REF_FRAME_EPOCH = 2000-01-01T12:00:00', b'USEABLE_START_TIME = 2026-01-01T00:00:00',
            b'USEABLE_STOP_TIME = 2026-01-01T00:00:00', b'INTERPOLATION = LAGRANGE', b'INTERPOLATION_DEGREE = 7')


def head_fault(keyword, spoil):
    """A kind where the head cannot be read from a keyword's line on."""
    def draw(rng):
        word = keyword or rng.choice(KEYWORDS)
        draft = drafted(rng, form=form_with(rng, word))
        at = draft.at[word]
        spoil(rng, draft.lines, at)
        return draft.text(), stops_at(at)
    return draw


def lose(rng, lines, at):
    del lines[at]


def swap(rng, lines, at):
    lines[at], lines[at + 1] = lines[at + 1], lines[at]


def misspell(rng, lines, at):
    """The line with its keyword or its sign written otherwise."""
    line = lines[at]
    keyword, sign, value = line.partition(b' = ')
    rest = sign + value
    spellings = [b' ' + line, b'\t' + line, b'X' + line, b'\xef\xbb\xbf' + line, line[1:], keyword.lower() + rest, keyword[:-1] + rest,
                 line + b'\r', line + b'\0']
    if sign:
        spellings += [keyword, *(keyword + other + value for other in (b'=', b' =', b'= ', b'  = ', b'\t= ', b' == ', b': '))]
    else:
        spellings += [line + b' ', line + b' =', line + b' = ', line * 2]
    lines[at] = rng.choice(spellings)


def doubled(keyword):
    """The line twice: the second stands where the next one has to."""
    def draw(rng):
        draft = drafted(rng, comments={}, form=form_with(rng, keyword))
        at = draft.at[keyword]
        draft.lines.insert(at, draft.lines[at])
        return draft.text(), stops_at(at + 1)
    return draw


def insert(*lines_allowed):
    return lambda rng, lines, at: lines.insert(at, rng.choice(lines_allowed))


def replace_value(text):
    """Another value in the line."""
    def spoil(rng, lines, at):
        lines[at] = lines[at].partition(b' = ')[0] + b' = ' + text(rng)
    return spoil


def ended(keyword, cut):
    """A text that ends before a keyword's line, or within it."""
    def draw(rng):
        draft = drafted(rng, form=form_with(rng, keyword))
        at = draft.at[keyword]
        text = b''.join(line + b'\n' for line in draft.lines[:at])
        line = draft.lines[at]
        return text + line[:rng.choice((len(line), rng.randint(1, len(line)))) if cut else 0], stops_at(at)
    return draw


def bad_comment(keyword, line):
    """A line that is no comment after a keyword of the head, behind those that are."""
    def draw(rng):
        draft = drafted(rng)
        following = KEYWORDS[KEYWORDS.index(keyword) + 1]
        at = rng.randint(draft.at[keyword] + 1, draft.at[following])
        draft.lines.insert(at, line)
        return draft.text(), stops_at(at)
    return draw


def time_fault(keywords, value, line_stands=True):
    """A kind where these of the two times are others; with line_stands these lines are still known as theirs."""
    def draw(rng):
        draft = drafted(rng)
        for keyword in keywords:
            old = draft.lines[draft.at[keyword]].split(b' ')[2]
            draft.put(keyword, value(rng, keyword, old))
        at = draft.at[keywords[0]]
        return draft.text(), Wanted(at + 1, draft.dropping()) if line_stands else stops_at(at)
    return draw


def other_time(rng, keyword, old):
    seconds = seconds_of(old)
    return time_text(rng.choice([new for new in (seconds - 1, seconds + 1, seconds + DAY, rng.randrange(10 ** 11))
                                 if new >= 0 and new != seconds and time_text(new)]))


OTHER_VALUES = {
    'another': other_time,
    'no time as': lambda rng, keyword, old: rng.choice(PRINTABLE_TIMES),
    'no value for': lambda rng, keyword, old: b'',
    'a blank behind': lambda rng, keyword, old: old + b' ',
    'a blank before': lambda rng, keyword, old: b' ' + old,
    'a cut': lambda rng, keyword, old: old[:rng.randint(1, 18)],
    'a line of 254 characters for': lambda rng, keyword, old: b'x' * room_of(keyword),
}
UNREADABLE_VALUES = {
    'a line of 255 characters for': lambda rng, keyword, old: b'x' * (room_of(keyword) + 1),
    'a CR behind': lambda rng, keyword, old: old + b'\r',
    'a tab behind': lambda rng, keyword, old: old + b'\t',
    'a NUL in': lambda rng, keyword, old: old[:5] + b'\0' + old[6:],
    'a unit separator in': lambda rng, keyword, old: old[:5] + b'\x1f' + old[6:],
    'a delete byte in': lambda rng, keyword, old: old[:5] + b'\x7f' + old[6:],
    'a high byte in': lambda rng, keyword, old: old[:5] + bytes([rng.randrange(0x80, 0x100)]) + old[6:],
}


def exchanged_times(rng):
    draft = drafted(rng, least=2)
    start, stop = (draft.lines[draft.at[keyword]].split(b' ')[2] for keyword in LAST)
    draft.put('START_TIME', stop)
    draft.put('STOP_TIME', start)
    return draft.text(), Wanted(draft.at['START_TIME'] + 1, draft.dropping())


HEAD_FAULTS = {
    **{f'no line {keyword}': head_fault(keyword, lose) for keyword in KEYWORDS},
    **{f'the line {keyword} after the next': head_fault(keyword, swap) for keyword in KEYWORDS},
    **{f'the line {keyword} misspelt': head_fault(keyword, misspell) for keyword in KEYWORDS[1:]},
    **{f'the line {keyword} twice': doubled(keyword) for keyword in KEYWORDS[:-1]},
    **{f'ended before the line {keyword}': ended(keyword, False) for keyword in KEYWORDS},
    **{f'ended within the line {keyword}': ended(keyword, True) for keyword in KEYWORDS[1:]},
    **{f'a comment before {keyword}': head_fault(keyword, insert(b'COMMENT', b'COMMENT A')) for keyword in NEVER_COMMENTED},
    'a comment before CCSDS_OEM_VERS': head_fault('CCSDS_OEM_VERS', insert(b'COMMENT', b'COMMENT A')),
    'a blank line before the data': head_fault(None, insert(b'', b' ', b'\r')),
    'a keyword that may be left out': head_fault('META_STOP', insert(*OPTIONAL)),
    'a keyword of the metadata before CREATION_DATE': head_fault('CREATION_DATE', insert(*OPTIONAL)),
    'another time system': head_fault('TIME_SYSTEM', replace_value(lambda rng: rng.choice((b'UTC', b'tai', b'TAI ', b'GPS', b'')))),
    **{f'{label} of creation': head_fault('CREATION_DATE', replace_value(lambda rng, text=text: text))
       for label, text in BAD_TIMES.items()},
    **{label: lambda rng, bad=bad: head_fault(rng.choice([*NAMES]), replace_value(bad))(rng) for label, bad in BAD_NAMES.items()},
    **{f'a line {keyword} of 255 characters': head_fault(keyword, replace_value(
        lambda rng, keyword=keyword: name(rng, room_of(keyword) + 1))) for keyword in NAMES},
    **{f'{label} after {keyword}': bad_comment(keyword, line) for keyword in COMMENTED[:-1] for label, line in BAD_COMMENTS.items()},
}
TIME_FAULTS = {
    **{f'{label} {keyword}': time_fault([keyword], value) for keyword in LAST for label, value in OTHER_VALUES.items()},
    **{f'{label} {keyword}': time_fault([keyword], value, False) for keyword in LAST for label, value in UNREADABLE_VALUES.items()},
    'both times wrong': time_fault(LAST, other_time),
    'the two times exchanged': exchanged_times,
}
