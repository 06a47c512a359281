"""Floats at fault, by their bits: the number that each call answers for them, and what it leaves."""
import itertools

from program import *

# By number, in the order in which the floats are looked at: what calls for it, each of both signs.
FLOATS = {4: ('7ff8000000000000', '7ff8000000000001', '7fffffffffffffff', '7ff0000000000001',
              '7ff0000100000000', '7ff4000000000000', '7ff7ffffffffffff'),
          13: ('7ff0000000000000',),
          5: ('41b0000000800001', '41b0000001000000', '7fefffffffffffff')}
FLOATS = {number: (*words, *(f'{int(word, 16) | 1 << 63:016x}' for word in words))
          for number, words in FLOATS.items()}
ZERO, INFINITE, FAR = bits(0.0), FLOATS[13][0], 2 ** 52
# Three floats of nine, at one point and over points.
TRIPLES = ((0, 1, 2), (6, 7, 8), (0, 4, 8), (2, 3, 7))


def opening(line, points, floats, position=0, velocity=0, limit=1):
    return line(points, (0, 0), limit, [0, position, 0], [0, velocity, 0], floats)


SETTLED = opening(open_line, 1, [ZERO] * 3)
STARTED = opening(start_line, 3, [ZERO] * 9)


def of_slices(answers, expect, floats, number):
    """Nine floats, to the calls that take them: what is refused opens nothing, and between rounds leaves what was."""
    for line in (open_line, start_line):
        _, (answer, record) = answers(SETTLED, opening(line, 3, floats))
        expect(f'{line.__name__} {floats}', (answer.number, any(answer.values), any(record)),
               (number, False, False))
    (_, before), (answer, after) = answers(STARTED, refine_line(floats))
    expect(f'refine {floats}', (answer.number, any(answer.values), after), (number, False, before))


def of_samples(answers, reason, expect, floats, number, axis):
    """Three floats: a correction that is not counted, and the axis that is its reason."""
    (_, _), (_, before), (answer, after) = answers(SETTLED, 'predict', correct_line(floats))
    expect(f'correct {floats}', (answer.number, any(answer.values), after), (number, False, before))
    found = reason([SETTLED, 'predict'], floats)
    expect(f'why {floats}', (found.number, found.kind, found.value, found.change, found.tolerance,
                             found.differences), (number, 0, axis + 1, 0, 0, None))


def placed(count, faults):
    """So many floats, of which some, by their place, are at fault."""
    return [faults.get(at, ZERO) for at in range(count)]


def alone(answers, reason, expect):
    for number, words in FLOATS.items():
        for at, word in enumerate(words):
            of_samples(answers, reason, expect, placed(3, {at % 3: word}), number, at % 3)
            of_slices(answers, expect, placed(9, {at % 9: word}), number)


def together(answers, reason, expect):
    """Two or three kinds in every order: the first number of the three that one calls for."""
    for count in (2, 3):
        for kinds in itertools.permutations(FLOATS, count):
            number = next(n for n in FLOATS if n in kinds)
            words = [FLOATS[kind][0] for kind in kinds]
            for axes in itertools.combinations(AXES, count):
                of_samples(answers, reason, expect, placed(3, dict(zip(axes, words))), number,
                           axes[kinds.index(number)])
            for places in TRIPLES:
                of_slices(answers, expect, placed(9, dict(zip(places, words))), number)


def beside_others(answers, expect):
    """13 beside faults that are looked at before it, and after it."""
    for line, points, count, position, velocity, limit, number in [
            (open_line, 0, 0, FAR, 0, 0, 1), (open_line, 10, 30, FAR, 0, 0, 1),
            (open_line, 1, 4, FAR, 0, 0, 2), (open_line, 1, 3, FAR, 0, 9, 3),
            (open_line, 1, 3, FAR, 0, 1, 6), (open_line, 1, 3, 0, -2 ** 40 - 1, 1, 6),
            (open_line, 1, 3, FAR - 1, 0, 1, 13), (start_line, 10, 30, FAR, 0, 0, 1),
            (start_line, 4, 5, FAR, 0, 0, 10), (start_line, 3, 8, FAR, 0, 0, 2),
            (start_line, 3, 9, FAR, 0, 0, 3), (start_line, 3, 9, FAR, 0, 1, 6),
            (start_line, 3, 9, FAR - 1, 1, 1, 13)]:
        given = opening(line, points, [INFINITE] * count, position, velocity, limit)
        [(answer, record)] = answers(given)
        expect(f'{number} of {given}', (answer.number, any(record)), (number, False))
    far, some = bits(-268435456.0), bits(12.0)
    for begun, floats, number in [
            ([], [INFINITE] * 9, 7), ([opening(open_line, 3, [ZERO] * 9)], [INFINITE] * 9, 7),
            ([STARTED], [INFINITE] * 8, 2), ([STARTED], [INFINITE] * 10, 2),
            ([opening(start_line, 3, [ZERO] * 9, FAR - 2, 1)], [some] * 8 + [INFINITE], 13),
            ([STARTED], [some] * 8 + [INFINITE], 13)]:
        given = answers(*begun, refine_line(floats))
        expect(f'{number} of a later round after {begun}', given[-1][0].number, number)
    for begun, floats, number in [
            ([], [INFINITE] * 3, 7), ([SETTLED], [INFINITE] * 3, 7), ([STARTED], [INFINITE] * 3, 7),
            ([opening(open_line, 1, [ZERO] * 3, -FAR), 'predict'], [ZERO, far, INFINITE], 13),
            ([SETTLED, 'predict'], [some, some, INFINITE], 13)]:
        given = answers(*begun, correct_line(floats))
        expect(f'{number} of a correction after {begun}', given[-1][0].number, number)


def not_counted(answers, expect):
    """As many corrections and rounds refused for an infinity as one likes, and then the last that is allowed."""
    infinite = correct_line([ZERO, INFINITE, ZERO])
    last = answers(SETTLED, 'predict', *[infinite] * 9, correct_line([ZERO] * 3))[-1]
    expect('accepted after nine refused', (last[0].number, last[0].kind, last[1][ACCEPTED]), (0, 1, 1))
    last = answers(STARTED, *[refine_line([INFINITE] * 9)] * 9, refine_line([ZERO] * 9))[-1]
    expect('opened after nine refused', (last[0].number, last[0].kind), (0, 3))


def check(answers, reason, expect):
    alone(answers, reason, expect)
    together(answers, reason, expect)
    beside_others(answers, expect)
    not_counted(answers, expect)
