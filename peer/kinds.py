"""Every kind of request that is drawn, and what it has to come to."""
from spoilt_lines import *

WRITTEN_ANSWER, NO_REQUEST_ANSWER = 'written', 'not a request'
# By label: the answer, and the draw of a request or of bytes.
KINDS = {
    **{label: (WRITTEN_ANSWER, draw) for label, draw in WRITTEN.items()},
    **{f'refused {number}, {label}': (f'refused {number}', spoilt_by({number: fault}))
       for number, faults in REFUSED.items() for label, fault in faults.items()},
    **{label: (f'refused {number}', draw) for label, (number, draw) in TOGETHER.items()},
    **{f'refused {OTHER_EDITION}, {label}': (f'refused {OTHER_EDITION}', draw) for label, draw in EDITION_TEXTS.items()},
    **{f'not a request, {label}': (NO_REQUEST_ANSWER, draw) for label, draw in NO_REQUEST.items()},
}
LABELS = sorted(KINDS)
ANSWERS = tuple(dict.fromkeys(answer for answer, _ in KINDS.values()))
# The editions that are taken in turn, none first; and all answers to requests of each, but for the one that no edition has.
IN_TURN = None, *EDITIONS
TO_MEET = [(answer, edition) for answer in ANSWERS if answer != f'refused {OTHER_EDITION}' for edition in IN_TURN]


def drawn(seed, index):
    """The label of the index's kind and the bytes of its request: every kind once in each round, the editions in turn."""
    turn, at = divmod(index, len(LABELS))
    label = random.Random(f'{seed}/{turn}').sample(LABELS, len(LABELS))[at]
    source = Source(f'{seed}/{turn}/{label}')
    source.form = Form(IN_TURN[(turn + LABELS.index(label)) % len(IN_TURN)], ())
    given = KINDS[label][1](source)
    return label, given if isinstance(given, bytes) else request_text(given)


def edition_in(text):
    """The edition that the first line of a request names, if one does."""
    return next((edition for edition in EDITIONS if text.startswith(b'edition %s\n' % edition)), None)


def answer_kind(written):
    """What the bytes that oem has written come to."""
    if re.fullmatch(rb'refused \d+\n', written):
        return written.decode().strip()
    return NO_REQUEST_ANSWER if written.startswith(b'line') else WRITTEN_ANSWER
