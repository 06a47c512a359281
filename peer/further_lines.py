"""Draws messages with the further keywords of the newer edition: in their places, in others, twice, and with every sort of value."""
from version_lines import *

GOOD_TEXTS = {
    'one character for': lambda rng, keyword: free_text(rng, 1),
    'capitals for': lambda rng, keyword: b'UNCLASSIFIED',
    'small letters for': lambda rng, keyword: b'unclassified',
    'letters of both cases for': lambda rng, keyword: rng.choice((b'Internal use', b'aZ', b'oEM-2026-0117/b')),
    'every character for': lambda rng, keyword: b'!' + bytes(range(0x20, 0x7f)),
    'the first and the last character for': lambda rng, keyword: rng.choice((b'! ~', b'~!', b'~', b'!')),
    'blanks within': lambda rng, keyword: b'A  b   C',
    'an equals sign first for': lambda rng, keyword: b'= A',
    'a keyword as': lambda rng, keyword: rng.choice([value_line(word, b'2026-01-01T00:00:00') for word in (*KEYWORDS, *FURTHER_WORDS)]),
    'a comment as': lambda rng, keyword: b'COMMENT A',
    'a line of 254 characters for': lambda rng, keyword: free_text(rng, room_of(keyword)),
}
BAD_TEXTS = {
    'no value for': lambda rng, keyword: b'',
    'a blank for': lambda rng, keyword: b' ' * rng.randint(1, 3),
    'a blank before': lambda rng, keyword: b' ' + free_text(rng, 8),
    'a blank behind': lambda rng, keyword: free_text(rng, 8) + b' ',
    'a tab in': lambda rng, keyword: b'A\tB',
    'a tab before': lambda rng, keyword: b'\tA',
    'a tab behind': lambda rng, keyword: b'A\t',
    'a CR behind': lambda rng, keyword: b'A\r',
    'a NUL in': lambda rng, keyword: b'A\0B',
    'a unit separator in': lambda rng, keyword: rng.choice((b'A\x1fB', b'\x1fB', b'A\x1f')),
    'a delete byte in': lambda rng, keyword: rng.choice((b'A\x7fB', b'\x7fB', b'A\x7f')),
    'byte 80 in': lambda rng, keyword: rng.choice((b'A\x80B', b'\x80B', b'A\x80')),
    'a high byte in': lambda rng, keyword: b'A' + bytes([rng.randrange(0x80, 0x100)]),
    'a line of 255 characters for': lambda rng, keyword: free_text(rng, room_of(keyword) + 1),
    'a far longer line for': lambda rng, keyword: free_text(rng, rng.randint(256, 5000)),
}
# By further keyword the keywords before which its line stops the reader.
WRONG_PLACES = {other: [keyword for keyword in KEYWORDS if FURTHER.get(keyword) != other] for other in FURTHER_WORDS}
# Lines that may not stand beside those of the further keywords.
BETWEEN = {'a comment': b'COMMENT A', 'a bare COMMENT': b'COMMENT', 'a blank line': b'', 'another further keyword': b'MESSAGE_IDS = A'}


def inserted(line, place, form, comments=None, stop=0):
    """A kind with a line in a place of a message of a form; reading stops so many lines later."""
    def draw(rng):
        draft = drafted(rng, form=form, comments=comments)
        at = place(draft)
        draft.lines.insert(at, line(rng))
        return draft.text(), stops_at(at + stop)
    return draw


def misplaced(keyword, place, *further, **how):
    """A kind of the newer edition with a further keyword's line in a place, beside those that stand in theirs."""
    return inserted(lambda rng: further_line(rng, keyword), place, Form(NEWER, further), **how)


def before(keyword):
    return lambda draft: draft.at[keyword]


def after(keyword):
    return lambda draft: draft.at[keyword] + 1


def exchanged(rng):
    """Both further keywords, each in the other's place."""
    draft = drafted(rng, form=Form(NEWER, FURTHER_WORDS))
    first, second = (draft.at[keyword] for keyword in FURTHER_WORDS)
    draft.lines[first], draft.lines[second] = draft.lines[second], draft.lines[first]
    return draft.text(), stops_at(first)


def exchanged_words(rng):
    """A keyword in the other's place, and none in its own."""
    keyword, other = rng.sample(FURTHER_WORDS, 2)
    draft = drafted(rng, form=Form(NEWER, (keyword,)))
    draft.lines[draft.at[keyword]] = further_line(rng, other)
    return draft.text(), stops_at(draft.at[keyword])


def lost_further(keyword):
    """The line lost, which can be done without."""
    def draw(rng):
        draft = drafted(rng, form=form_with(rng, keyword))
        del draft.lines[draft.at[keyword]]
        return draft.text(), READABLE
    return draw


def under_older(*further):
    """Further keywords under the older version."""
    def draw(rng):
        draft = drafted(rng, form=Form(NEWER, further))
        draft.put('CCSDS_OEM_VERS', OLDER)
        return draft.text(), stops_at(draft.at[further[0]])
    return draw


def under_newer(rng):
    """A message of the older edition under the newer version."""
    draft = drafted(rng, form=Form(OLDER, ()))
    draft.put('CCSDS_OEM_VERS', NEWER)
    return draft.text(), READABLE


def value_kind(keyword, value, wanted):
    def draw(rng):
        draft = with_value(rng, keyword, value(rng, keyword))
        return draft.text(), wanted or stops_at(draft.at[keyword])
    return draw


COMMENTS = {'CCSDS_OEM_VERS': [b'COMMENT A', b'COMMENT']}
FURTHER_KINDS = {
    **{f'the form {form.edition.decode()} {" ".join(form.further)}'.strip(): readable(lambda rng, form=form: drafted(rng, form=form))
       for form in FORMS},
    **{f'comments before {" and ".join(form.further)}': readable(lambda rng, form=form: drafted(rng, form=form, comments=COMMENTS))
       for form in FORMS if form.further},
    **{f'{label} {keyword}': value_kind(keyword, value, READABLE) for keyword in FURTHER_WORDS for label, value in GOOD_TEXTS.items()},
    **{f'{label} {keyword}': value_kind(keyword, value, None) for keyword in FURTHER_WORDS for label, value in BAD_TEXTS.items()},
    **{f'the line {keyword} lost': lost_further(keyword) for keyword in FURTHER_WORDS},
    **{f'the line {keyword} misspelt': head_fault(keyword, misspell) for keyword in FURTHER_WORDS},
    **{f'the line {keyword} twice': doubled(keyword) for keyword in FURTHER_WORDS},
    **{f'ended before the line {keyword}': ended(keyword, False) for keyword in FURTHER_WORDS},
    **{f'ended within the line {keyword}': ended(keyword, True) for keyword in FURTHER_WORDS},
    **{f'two lines {keyword}': misplaced(keyword, before(keyword), keyword, stop=1) for keyword in FURTHER_WORDS},
    **{f'{keyword} before {place}': misplaced(keyword, before(place)) for keyword in FURTHER_WORDS for place in WRONG_PLACES[keyword]},
    **{f'{keyword} in its place and before {place}': misplaced(keyword, before(place), keyword)
       for keyword in FURTHER_WORDS for place in WRONG_PLACES[keyword]},
    **{f'{keyword} after {place}': misplaced(keyword, after(place)) for keyword, place in (
        ('CLASSIFICATION', 'CREATION_DATE'), ('CLASSIFICATION', 'META_START'), ('MESSAGE_ID', 'CREATION_DATE'), ('MESSAGE_ID', 'META_START'))},
    **{f'{keyword} {label} {other}': misplaced(keyword, place(other), other) for keyword, other in (FURTHER_WORDS, FURTHER_WORDS[::-1])
       for label, place in (('before', before), ('after', after))},
    'CLASSIFICATION before comments': misplaced('CLASSIFICATION', after('CCSDS_OEM_VERS'), comments=COMMENTS, stop=1),
    'CLASSIFICATION between comments': misplaced('CLASSIFICATION', lambda draft: 2, comments=COMMENTS, stop=1),
    'the two further lines exchanged': exchanged,
    'a further line for the other': exchanged_words,
    **{f'{label} {side} {keyword}': inserted(lambda rng, line=line: line, place(keyword), Form(NEWER, FURTHER_WORDS))
       for label, line in BETWEEN.items() for keyword in FURTHER_WORDS for side, place in (('before', before), ('after', after))
       if not (line.startswith(b'COMMENT') and side == 'before' and keyword == 'CLASSIFICATION')},
    **{f'{" and ".join(form.further)} in 2.0': under_older(*form.further) for form in FORMS if form.further},
    'an older message under 3.0': under_newer,
}
