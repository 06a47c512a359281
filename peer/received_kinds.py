"""Every kind of message that is drawn to be read and mended, how each ends, and what has to hold of the peer's answers."""
from further_lines import *
from spoilt_texts import *

# What is drawn for each edition, and what is drawn once.
OF_EACH = {**READ, **HEAD_FAULTS, **TIME_FAULTS, **DATA_FAULTS, **TEXTS}
ONCE = {**NO_MESSAGES, **VERSION_FAULTS, **VERSION_TEXTS, **FURTHER_KINDS}
# By label the forms that are taken in turn, and the draw of a text and of what it has to come to, none where that is not known.
KINDS = {
    **{f'{label}, {edition.decode()}': ([form for form in FORMS if form.edition == edition], draw)
       for edition in EDITIONS for label, draw in OF_EACH.items()},
    **{label: (FORMS, draw) for label, draw in ONCE.items()},
}
LABELS = sorted(KINDS)
READ_ENDINGS = ('read', 'refused 15 in the head', 'refused 15 at the end of the head', 'refused 15 at a data line',
                'refused 15 for want of data', 'refused 15 at START_TIME', 'refused 15 at STOP_TIME', 'too long')
MENDED_ENDINGS = ('unchanged', 'START_TIME', 'STOP_TIME', 'START_TIME and STOP_TIME', 'dropped', 'START_TIME and dropped',
                  'STOP_TIME and dropped', 'START_TIME and STOP_TIME and dropped', 'refused 16 for the head',
                  'refused 16 for want of data', 'refused 12', 'too long')
# The endings of texts of no edition.
NO_EDITION = 'no edition'
READ_WITHOUT = 'refused 17', 'refused 15 at line 1', 'too long'
MENDED_WITHOUT = 'refused 17', 'refused 16 at line 1', 'too long'


def drawn(seed, index):
    """The label of the index's kind, its text, and what that has to come to: every kind once in each round, its forms in turn."""
    turn, at = divmod(index, len(LABELS))
    label = random.Random(f'{seed}/{turn}').sample(LABELS, len(LABELS))[at]
    forms, draw = KINDS[label]
    source = Source(f'{seed}/{turn}/{label}')
    source.form = forms[(turn + LABELS.index(label)) % len(forms)]
    return label, *draw(source)


def reading_of(text):
    """The line at which reading stops, 0 where it does not, and ANOTHER where the edition is."""
    try:
        read(text)
        return 0
    except OtherEdition:
        return ANOTHER
    except Unreadable as line:
        return line.args[0]


def mending_of(text):
    """The mended text and the changes, or nothing and the number of the refusal."""
    try:
        mended, changes = mend(text)
        return (mended, changes) if len(changes) <= CHANGES_MOST else (b'', 12)
    except Unmendable as number:
        return b'', number.args[0]


# How they end

def edition_in(text):
    """The edition that a text's first line names, as a word."""
    first, newline, _ = text.partition(b'\n')
    return next((edition.decode() for edition in EDITIONS if newline and first == value_line('CCSDS_OEM_VERS', edition)), NO_EDITION)


def form_in(text):
    """The form of a text, as words; none where its head is not readable."""
    try:
        head = head_in(lines_in(text))
    except Unreadable:
        return None
    return form_name(Form(head.given['CCSDS_OEM_VERS'], tuple(head.further)))


def form_name(form):
    return ' with '.join(filter(None, (form.edition.decode(), ' and '.join(form.further))))


def endings(text):
    """How reading ends, and how mending does."""
    if too_long(text):
        return 'too long', 'too long'
    line, (_, changes) = reading_of(text), mending_of(text)
    if edition_in(text) == NO_EDITION:
        return ('refused 17' if line == ANOTHER else f'refused 15 at line {line}',
                f'refused {changes}' + ' at line 1' * (changes != OTHER_EDITION))
    lines = lines_in(text)
    try:
        head = head_in(lines)
    except Unreadable:
        return 'refused 15 at the end of the head' if line > len(lines) else 'refused 15 in the head', 'refused 16 for the head'
    if line == 0:
        read_ending = 'read'
    elif line <= head.length:
        read_ending = 'refused 15 at START_TIME' if line == head.numbers['START_TIME'] else 'refused 15 at STOP_TIME'
    else:
        read_ending = 'refused 15 for want of data' if line > len(lines) else 'refused 15 at a data line'
    if isinstance(changes, int):
        return read_ending, 'refused 12' if changes == 12 else 'refused 16 for want of data'
    return read_ending, ' and '.join(dict.fromkeys(what for _, what in changes)) or 'unchanged'


# What there is to meet: by command and edition the endings, and the forms of what is readable and of what is mended.
TO_MEET = {
    **{f'read {edition.decode()}': READ_ENDINGS for edition in EDITIONS}, f'read {NO_EDITION}': READ_WITHOUT,
    **{f'mend {edition.decode()}': MENDED_ENDINGS for edition in EDITIONS}, f'mend {NO_EDITION}': MENDED_WITHOUT,
    **{f'forms that are {what}': tuple(map(form_name, FORMS)) for what in ('readable', 'mended')},
}


def met_by(text):
    """What a text meets of all that."""
    read_ending, mended_ending = endings(text)
    met = [(f'read {edition_in(text)}', read_ending), (f'mend {edition_in(text)}', mended_ending)]
    if read_ending == 'read':
        met.append(('forms that are readable', form_in(text)))
    elif not mended_ending.startswith(('refused', 'too long')):
        met.append(('forms that are mended', form_in(text)))
    return met


# What has to hold

def without(lines, changes):
    """The lines but for those that the changes name."""
    numbers = {number for number, _ in changes}
    return [line for number, line in enumerate(lines, 1) if number not in numbers]


def fault_of(text, wanted):
    """What is wrong with the peer's answers, none where nothing is."""
    line, (mended, changes) = reading_of(text), mending_of(text)
    if wanted and (line, changes) != (wanted.line, wanted.mending):
        return 'the peer answers otherwise than it has to'
    if (line == 0) != ((mended, changes) == (text, [])):
        return 'it is readable and mended, or neither'
    if isinstance(changes, int):
        return None
    if reading_of(mended) != 0 or mending_of(mended) != (mended, []):
        return 'the mended text is not readable'
    numbers = [number for number, _ in changes]
    if numbers != sorted(set(numbers)):
        return 'the changes do not rise'
    corrected = [(number, what) for number, what in changes if what in LAST]
    if without(lines_in(text), changes) != without(lines_in(mended), corrected):
        return 'a kept line does not stand as it stood'
    return None
