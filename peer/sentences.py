"""The sentences of the program `why`: one for each correction of a script that is answered again or refused."""
import re

from program import *

AGAIN = 2
NAMES = ('x', 'y', 'z', 'vx', 'vy', 'vz')
ORDINALS = ('first', 'second', 'third', 'fourth', 'fifth', 'sixth', 'seventh', 'eighth')
COUNTS = ('one', 'two', 'three', 'four', 'five', 'six', 'seven', 'eight')
DECIMALS = 10
# A line of a correction, and where its name ends.
CORRECTION = re.compile(rb'correct((?: [0-9a-f]{16}){3}\n)')


def decimal(parts):
    """A number of parts in ticks, with at most ten decimals, the nearest."""
    whole, rest = divmod(abs(parts), PARTS)
    text = f'{"-" if parts < 0 else ""}{whole}'
    if rest:
        # The decimals of a rest never end in a tie: D has too few factors 2 for one.
        shown = (2 * rest * 10 ** DECIMALS + PARTS) // (2 * PARTS)
        text += '.' + f'{shown:0{DECIMALS}}'.rstrip('0')
    return text


def moved(reason, record):
    """The sentence of a correction whose named value has moved too far."""
    unit = 'ticks' if reason.value <= 3 else 'ticks per step'
    text = (f'{NAMES[reason.value - 1]} moved {decimal(reason.change)} {unit},'
            f' its tolerance is {reason.tolerance};'
            f' {ORDINALS[record[CORRECTIONS]]} correction of {COUNTS[record[LIMIT] - 1]}')
    return text if reason.number == 0 else text + ', the last: refused 8'


def sentence(reason, record):
    """What is said of a correction, from its reason and the record before it; none where it is accepted."""
    if reason.number == 8 or reason.kind == AGAIN:
        return moved(reason, record)
    if reason.number == 0:
        return None
    name = NAMES[reason.value - 1]
    said = {4: f'{name} of the sample is a NaN',
            13: f'{name} of the sample is infinite',
            5: f'{name} of the sample rounds to more than 268435456 ticks',
            6: f'{name} would be out of range',
            7: 'no correction is awaited'}
    return f'{said[reason.number]}: refused {reason.number}'


def with_questions(script):
    """The script with a question before each correction; for each of its lines whether it is one, and its number before."""
    lines, origins = [], []
    for number, line in enumerate(lines_of(script), 1):
        correction = CORRECTION.fullmatch(line)
        if correction:
            lines.append(b'why' + correction[1])
            origins.append((True, number))
        lines.append(line)
        origins.append((False, number))
    return lines, origins


def sentences(peer, script):
    """The sentences of a script with the numbers of their lines; at the end the number of a line that is no call, or none."""
    lines, origins = with_questions(script)
    written = iter(lines_of(run(peer, b''.join(lines))))
    said, record = [], [0] * RECORD_LENGTH
    for line, (is_question, number) in zip(lines, origins):
        answer = next(written)
        if answer.startswith(b'line'):
            return said, number
        if is_question:
            text = sentence(Reason(answer), record)
            if text:
                said.append((number, text))
        elif not line.startswith((b'why', b'save')):
            record_line = answer if answer.startswith(b'record') else next(written)
            record = record_fields(record_line)
    return said, None


def told(peer, script):
    """What the program `why` writes for a script."""
    said, no_call = sentences(peer, script)
    lines = [f'line {number}: {text}\n' for number, text in said]
    if no_call:
        lines.append(f'line {no_call}: not a call\n')
    return ''.join(lines).encode()
