"""The answers to `why`: counted, and held to the corrections that follow them, in exact fractions."""
import functools
import itertools
import math
import struct

from held import columns, weighted
from program import *
from round_figures import product, quotient

ACCEPTING, AGAIN = 1, 2
ASKED = 'why'
STATES = ('closed', 'settled', 'awaiting', 'starting')
# The values in the order in which they are looked at, and the axes of a sample.
VALUES = ('x', 'y', 'z', 'vx', 'vy', 'vz')
# By answer what it names; accepted and 7 name nothing.
NAMED = {'again': VALUES, 8: VALUES, 6: VALUES, 4: VALUES[:3], 13: VALUES[:3], 5: VALUES[:3]}
NAMELESS = ('accepted', 7)
# With which answers the differences come at a first correction, and for how many points.
WITH_DIFFERENCES = ('accepted', 'again', 6, 8)
SIZES = range(1, 10)
ORDINALS = range(1, 9)
SAMPLE_MOST = 2 ** 28
BOUNDS = [2 ** 52 * PARTS] * 3 + [2 ** 40 * PARTS] * 3


def answer_of(number, kind):
    """The refusal's number, or the name of the kind."""
    return number or {ACCEPTING: 'accepted', AGAIN: 'again'}[kind]


# Counting

def count(met, reason, record):
    """Counts a reason, asked for on a record."""
    answer = answer_of(reason.number, reason.kind)
    met[ASKED] += 1
    met[ASKED, answer] += 1
    met[ASKED, answer, VALUES[reason.value - 1] if reason.value else 'none'] += 1
    met[ASKED, answer, 'differences' if reason.differences else 'no differences'] += 1
    if answer == 7:
        met[ASKED, 'refused', STATES[record[STATE]]] += 1
    if reason.differences:
        met[ASKED, 'with points', record[POINTS]] += 1
    if answer in ('again', 8):
        met[ASKED, 'at correction', record[CORRECTIONS] + 1] += 1


def print_reasons(met):
    print(f'{ASKED}: {met[ASKED]}, by the sample of the correction that follows {met[ASKED, "before"]}')
    for answer in NAMELESS:
        print(f'{ASKED} {answer}: {met[ASKED, answer]}, named none {met[ASKED, answer, "none"]}')
    for answer, values in NAMED.items():
        print(f'{ASKED} {answer}: {met[ASKED, answer]}, named '
              + ', '.join(f'{value} {met[ASKED, answer, value]}' for value in values))
    for answer in WITH_DIFFERENCES:
        print(f'{ASKED} {answer}: differences {met[ASKED, answer, "differences"]},'
              f' no differences {met[ASKED, answer, "no differences"]}')
    print(f'{ASKED} with differences of points: '
          + ', '.join(f'{p}: {met[ASKED, "with points", p]}' for p in SIZES))
    print(f'{ASKED} again or 8 at correction: '
          + ', '.join(f'{n}: {met[ASKED, "at correction", n]}' for n in ORDINALS))
    print(f'{ASKED} refused: ' + ', '.join(f'{state} {met[ASKED, "refused", state]}' for state in STATES))


def reasons_wanted():
    """What a run has to meet."""
    return [(ASKED, 'before'), *((ASKED, answer, 'none') for answer in NAMELESS),
            *((ASKED, answer, value) for answer, values in NAMED.items() for value in values),
            *((ASKED, answer, word) for answer in WITH_DIFFERENCES
              for word in ('differences', 'no differences')),
            *((ASKED, answer, 'no differences') for answer in (4, 13, 5, 7)),
            *((ASKED, 'with points', p) for p in SIZES),
            *((ASKED, 'at correction', n) for n in ORDINALS),
            *((ASKED, 'refused', state) for state in STATES)]


# Holding a reason to the correction that follows it

@functools.cache
def coefficients(points):
    """s(p+1) and g(p), from the rules of the series."""
    c = quotient(points + 2)
    return sum(product(c, c, points + 2)), sum(c[:points + 1])


def ordered(values):
    """Values of x, vx, y, vy, z, vz with the positions first."""
    return [*values[0:6:2], *values[1:6:2]]


def reported(parts):
    """The bits of the report of a number of parts."""
    whole, part = divmod(parts, PARTS)
    return bits(float(part) / float(PARTS) + float(whole))


def first(values, is_reason):
    """The number of the first value that is a reason, 0 if none is."""
    return next((number for number, value in enumerate(values, 1) if is_reason(value)), 0)


def is_too_large(value):
    return math.isfinite(value) and abs(round(value)) > SAMPLE_MOST


# The numbers that floats call for, in their order, each with what a float is that does.
AT_FAULT = {4: math.isnan, 13: math.isinf, 5: is_too_large}


def fault_number(floats):
    """The number that a sample calls for, none if it calls for none."""
    return next((number for number, calls_for in AT_FAULT.items() if any(map(calls_for, floats))), None)


def untrue(reason, record, floats, answer):
    """What a reason, asked for on a record, says that the answer of the same correction does not bear out."""
    if (reason.number, reason.kind) != (answer.number, answer.kind):
        return 'another number or kind'
    outcome = answer_of(answer.number, answer.kind)
    if (reason.value > 0) != (outcome in NAMED):
        return 'names a value or none'
    if (reason.differences is not None) != (record[CORRECTIONS] == 0 and outcome in WITH_DIFFERENCES):
        return 'differences'
    if outcome in ('again', 8):
        tolerance = record[TOLERANCES][reason.value > 3]
        if reason.tolerance != tolerance or abs(reason.change) <= tolerance * PARTS:
            return 'no change beyond its tolerance'
    elif reason.change or reason.tolerance:
        return 'a change without a reason'
    if reason.report != reported(reason.change):
        return 'another report'
    if outcome != 7 and (outcome if outcome in AT_FAULT else None) != fault_number(floats):
        return 'another number than the floats call for'
    if outcome in AT_FAULT and reason.value != first(floats, AT_FAULT[outcome]):
        return 'not the first float that calls for the number'
    return untrue_changes(reason, record, floats, answer, outcome)


def corrected(record, floats):
    """The corrected point of the record for a sample, in parts, positions first, from the series' weights."""
    points, values = record[POINTS], []
    for axis, tick in zip(AXES, map(round, floats)):
        begin = axis_at(axis, 0)
        first_sum, second_sum = (record[begin + what] * PARTS + record[begin + what + 1]
                                 for what in (FIRST_SUM, SECOND_SUM))
        samples = [tick, *record[begin + SAMPLES:begin + SAMPLES + points - 1]]
        of_position, of_velocity = (weighted(weights, samples) for weights in columns(points))
        values += [second_sum + of_position, first_sum + tick * PARTS + of_velocity]
    return ordered(values)


def untrue_changes(reason, record, floats, answer, outcome):
    """So for the values that the correction comes to, where it comes to any."""
    if outcome not in WITH_DIFFERENCES:
        return None
    point = corrected(record, floats)
    changes = [new - old for new, old in zip(point, ordered(estimate(record)))]
    if outcome in ('accepted', 'again') and point != ordered(answer.values):
        return 'another point'
    if reason.differences and changes != [factor * difference * PARTS
                                          for factor in coefficients(record[POINTS])
                                          for difference in reason.differences]:
        return 'changes are not those of the differences'
    if outcome == 6:
        if reason.value != first(zip(point, BOUNDS), lambda pair: not -pair[1] <= pair[0] < pair[1]):
            return 'not the first value out of range'
        return None
    most = [record[TOLERANCES][kind] * PARTS for kind in (0, 0, 0, 1, 1, 1)]
    over = first(zip(changes, most), lambda pair: abs(pair[0]) > pair[1])
    if (reason.value, reason.change) != (over, changes[over - 1] if over else 0):
        return 'not the first value, or not its change'
    return None


def answered_lines(script, written):
    """Each line of the script with the lines that it is answered by, as far as they go."""
    written = iter(lines_of(written))
    for line in lines_of(script):
        answers = list(itertools.islice(written, 1))
        if not answers or answers[0].startswith(b'line'):
            return
        if not line.startswith((b'why', b'fill', b'save')):
            answers += itertools.islice(written, 1)
        yield line, answers


def held_to_corrections(script, written):
    """How many reasons came right before a correction by the same sample, and what is wrong with one of them."""
    asked, record_line, seen, wrong = None, b'record' + b' 0' * RECORD_LENGTH, 0, None
    for line, answers in answered_lines(script, written):
        if line.startswith(b'why'):
            asked = line, answers[0]
            continue
        if line.startswith(b'save'):
            continue
        if asked and line == asked[0].replace(b'why', b'correct'):
            seen += 1
            floats = [struct.unpack('>d', bytes.fromhex(word.decode()))[0] for word in line.split()[1:]]
            fault = untrue(Reason(asked[1]), record_fields(record_line), floats, Answer(answers[0]))
            if fault:
                wrong = f'{fault}: {asked[1].decode().strip()}'
        asked, record_line = None, answers[-1]
    return seen, wrong
