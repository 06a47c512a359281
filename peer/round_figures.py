"""The rounds of a start in exact fractions: from their series, and for accelerations whose motion is known."""
import fractions
import math
import random

from program import *

SIZES = (3, 5, 7, 9)
AGAIN, OPENED = 2, 3
NEAR = (5, 3)  # tolerances of position and velocity
STARTING, SETTLED = 3, 1


# Series, as lists of coefficients

def product(a, b, terms):
    return [sum(a[k] * b[i - k] for k in range(i + 1)) for i in range(terms)]


def quotient(terms):
    """x / L: its product with L / x, which is 1 + x/2 + x^2/3 + .., is 1."""
    result = []
    for i in range(terms):
        result.append(fractions.Fraction(i == 0)
                      - sum(result[i - k] / fractions.Fraction(k + 1) for k in range(1, i + 1)))
    return result


def one_less_x(power, terms):
    return [(-1) ** k * math.comb(power, k) for k in range(terms)]


def position_series(back, points):
    terms = points + 2
    rest = product(quotient(terms), quotient(terms), terms)
    for i, term in enumerate(one_less_x(1, terms)):
        rest[i] -= term
    return product(one_less_x(back, points), rest[2:], points)


def velocity_series(back, points):
    rest = quotient(points + 1)
    rest[0] -= 1
    return product(one_less_x(back, points), rest[1:], points)


def applied(series, samples):
    """The series as differences of the newest sample; samples newest first."""
    return sum(term * sum(one_less_x(i, i + 1)[k] * samples[k] for k in range(i + 1))
               for i, term in enumerate(series))


# A round of an axis

def worked_out(position, velocity, samples):
    """The points, oldest first, and the two sums at the newest; samples newest first."""
    points = len(samples)
    centre = points // 2
    first = {centre: velocity - applied(velocity_series(centre, points), samples)}
    for j in range(centre, 0, -1):
        first[j - 1] = first[j] + samples[j - 1]
    for j in range(centre, points):
        first[j + 1] = first[j] - samples[j]
    second = {centre + 1: position - applied(position_series(centre, points), samples)}
    for j in range(centre + 1, 0, -1):
        second[j - 1] = second[j] + first[j - 1]
    for j in range(centre + 1, points):
        second[j + 1] = second[j] - first[j]
    found = [(second[j + 1] + applied(position_series(j, points), samples),
              first[j] + applied(velocity_series(j, points), samples)) for j in range(points)]
    return found[::-1], (first[0], second[0])


def in_parts(value):
    return value * PARTS


def words(samples):
    """Samples of three axes, each newest first, as the floats of a call."""
    return [bits(float(tick)) for point in list(zip(*samples))[::-1] for tick in point]


def answered(answer, points):
    return [[(answer.position(axis, k), answer.velocity(axis, k)) for k in range(points)]
            for axis in AXES]


# What is held against the fractions

def coefficients(expect, table_c, table_l):
    """At the newest point the two series are the correctors of the table."""
    for points in SIZES:
        expect(f'{points} points: series of the newest position',
               [in_parts(term) for term in position_series(0, points)], table_l[2:points + 2])
        expect(f'{points} points: series of the newest velocity',
               [in_parts(term) for term in velocity_series(0, points)], table_c[1:points + 1])


def drawn_rounds(answers, expect):
    """Rounds of drawn samples that come closer and agree at last, with every field they leave."""
    rng = random.Random(11)
    for points in SIZES:
        epoch = [[rng.randint(-2 ** 40, 2 ** 40) for _ in AXES],
                 [rng.randint(-2 ** 30, 2 ** 30) for _ in AXES]]
        settled = [[rng.randint(-2 ** 24, 2 ** 24) for _ in range(points)] for _ in AXES]
        rounds = [[[tick + rng.randint(-size, size) for tick in axis] for axis in settled]
                  for size in (2 ** 24, 2 ** 16, 2 ** 8, 0, 0)]
        lines = [start_line(points, NEAR, 8, *epoch, words(rounds[0])),
                 *(refine_line(words(samples)) for samples in rounds[1:])]
        before, is_open = None, False
        for count, (samples, (answer, record)) in enumerate(zip(rounds, answers(*lines))):
            label = f'{points} points, round {count + 1}'
            if is_open:
                expect(f'{label}: after the opening', answer.number, 7)
                continue
            found = [worked_out(epoch[0][axis], epoch[1][axis], samples[axis]) for axis in AXES]
            now = [[tuple(map(in_parts, point)) for point in axis] for axis, _ in found]
            expect(f'{label}: points', answered(answer, points), now)
            expect(f'{label}: unused places', any(answer.values[6 * points + 2:]), False)
            expect(f'{label}: epoch', [axis[points // 2] for axis in answered(answer, points)],
                   [tuple(map(in_parts, point)) for point in zip(*epoch)])
            changes = [max(abs(new[kind] - old[kind]) for axis, last in zip(now, before or now)
                           for new, old in zip(axis, last)) for kind in range(2)]
            is_open = count > 0 and all(change <= in_parts(most)
                                        for change, most in zip(changes, NEAR))
            expect(f'{label}: answer', (answer.number, answer.kind, answer.changes()),
                   (0, OPENED if is_open else AGAIN, [0, 0] if is_open else changes))
            expect(f'{label}: record', record, left(points, count, epoch, samples, found, is_open))
            before = now
        expect(f'{points} points: opened', is_open, True)


def left(points, count, epoch, samples, found, is_open):
    """The record after a round of limit 8."""
    record = [SETTLED if is_open else STARTING, points, *NEAR, 8, 0, 0 if is_open else count]
    for axis in AXES:
        sums = [divmod(in_parts(value), PARTS) for value in found[axis][1]]
        older = [divmod(in_parts(applied(series(0, points), [0, *samples[axis][:-1]])), PARTS)
                 for series in (position_series, velocity_series)]
        estimate = [0] * 4 if is_open else [epoch[0][axis], 0, epoch[1][axis], 0]
        record += [*sums[0], *sums[1], *older[0], *older[1]] if is_open else [0] * SAMPLES
        record += [*samples[axis], *[0] * (9 - points), *estimate]
    return record


def known_motion(answers, expect):
    """Accelerations that are polynomials of degree below p: each point lies on the motion itself."""
    rng = random.Random(12)
    for points in SIZES:
        centre = points // 2
        for degree in range(points):
            terms = [[rng.randint(-1000, 1000) for _ in range(degree + 1)] for _ in AXES]
            epoch = [[rng.randint(-10 ** 9, 10 ** 9) for _ in AXES] for _ in range(2)]

            def sample(axis, time):
                return sum(term * time ** k for k, term in enumerate(terms[axis]))

            def place(axis, time):
                position = epoch[0][axis] + epoch[1][axis] * time + sum(
                    fractions.Fraction(term * time ** (k + 2), (k + 1) * (k + 2))
                    for k, term in enumerate(terms[axis]))
                velocity = epoch[1][axis] + sum(fractions.Fraction(term * time ** (k + 1), k + 1)
                                                for k, term in enumerate(terms[axis]))
                return in_parts(position), in_parts(velocity)

            times = range(-centre, centre + 1)
            floats = words([[sample(axis, time) for time in reversed(times)] for axis in AXES])
            (first, _), (second, _), (next_point, _) = answers(
                start_line(points, (0, 0), 1, *epoch, floats), refine_line(floats), 'predict')
            wanted = [[place(axis, time) for time in times] for axis in AXES]
            label = f'{points} points, degree {degree}'
            expect(f'{label}: first round', answered(first, points), wanted)
            expect(f'{label}: second round', (second.kind, answered(second, points)),
                   (OPENED, wanted))
            expect(f'{label}: next point',
                   [(next_point.position(axis), next_point.velocity(axis)) for axis in AXES],
                   [place(axis, centre + 1) for axis in AXES])


def refused_first(answers, expect):
    """First rounds with some faults: the number of the one that is looked at first, and nothing left."""
    nothing, far, nan, large = bits(0.0), 2 ** 52, bits(math.nan), bits(268435457.0)
    infinite = bits(math.inf)
    for number, points, limit, position, velocity, floats in [
            (1, 0, 0, far, 0, []), (1, 10, 0, far, 0, [nan]), (1, 12, 1, 0, 0, [nothing] * 36),
            *((10, points, 0, far, 0, [nan] * 5) for points in (1, 2, 4, 6, 8)),
            (2, 3, 0, far, 0, [nan] * 8), (3, 3, 9, far, 0, [nan] * 9),
            (6, 3, 1, far, 0, [nan] * 9), (6, 3, 1, 0, -2 ** 40 - 1, [nan] * 9),
            (4, 3, 1, far - 1, 1, [large] * 8 + [nan]), (4, 3, 1, far - 1, 1, [infinite] * 8 + [nan]),
            (13, 3, 1, far - 1, 1, [large] * 8 + [infinite]), (5, 3, 1, far - 1, 1, [large] * 9),
            (6, 3, 1, far - 1, 1, [nothing] * 9), (0, 3, 1, far - 2, 1, [nothing] * 9),
            (6, 9, 1, 3 - far, 1, [nothing] * 27), (0, 9, 1, 4 - far, 1, [nothing] * 27)]:
        line = start_line(points, (0, 0), limit, [0, position, 0], [0, velocity, 0], floats)
        answer, record = answers(line)[0]
        expect(f'{number} of {line}', (answer.number, answer.kind, any(record)),
               (number, 0 if number else AGAIN, number == 0))


def refused_later(answers, expect):
    """Later rounds that are refused leave what they found, but 8, which closes."""
    nothing, nan, large, some = bits(0.0), bits(math.nan), bits(268435457.0), bits(12.0)
    infinite = bits(-math.inf)
    line = start_line(3, (0, 0), 1, [2 ** 52 - 2, 0, 0], [1, 0, 0], [nothing] * 9)
    for number, floats in [(2, [nan] * 8), (4, [large] * 8 + [nan]), (4, [infinite] * 8 + [nan]),
                           (13, [large] * 8 + [infinite]), (5, [large] * 9), (6, [some] * 9),
                           (8, [nothing, nothing, some] * 3)]:
        (_, before), (answer, after) = answers(line, refine_line(floats))
        expect(f'{number} of a later round', (answer.number, answer.kind, any(answer.values)),
               (number, 0, False))
        expect(f'record after {number}', after, [0] * len(before) if number == 8 else before)
    opening = open_line(3, (0, 0), 1, [0] * 3, [0] * 3, [nothing] * 9)
    for before in ([], [opening], [opening, 'predict'], [line, refine_line([nothing] * 9)]):
        answer, _ = answers(*before, refine_line([nan]))[-1]
        expect(f'7 of a later round after {before}', answer.number, 7)
    for call in ('predict', 'withdraw', correct_line([nan] * 3)):
        (_, before), (answer, after) = answers(line, call)
        expect(f'{call} while starting', (answer.number, after), (7, before))


def moved_at_one_end(answers, expect):
    """A sample of 12 at one end of three: by its parabola 6 t^2 - 6 t the point there moves by 3/2 and its
    velocity by 5, the other end by 1/2 and 1, the epoch not at all."""
    half, tick, nothing = PARTS // 2, PARTS, bits(0.0)
    start = ([1000, 0, 0], [10, 0, 0], [nothing] * 9)
    for axis in AXES:
        for end in (0, 2):
            floats = [nothing] * 9
            floats[3 * end + axis] = bits(12.0)
            for tolerances, limit, number, kind in [
                    ((2, 5), 1, 0, OPENED), ((2, 4), 2, 0, AGAIN), ((1, 5), 2, 0, AGAIN),
                    ((1, 4), 2, 0, AGAIN), ((5, 2), 2, 0, AGAIN), ((1048576, 0), 2, 0, AGAIN),
                    ((2, 4), 1, 8, 0), ((1, 5), 1, 8, 0)]:
                _, (answer, record) = answers(start_line(3, tolerances, limit, *start),
                                              refine_line(floats))
                label = f'axis {axis}, end {end}, tolerances {tolerances}, limit {limit}'
                changes = [tick + half, 5 * tick] if kind == AGAIN else [0, 0]
                expect(label, (answer.number, answer.kind, answer.changes()),
                       (number, kind, changes))
                expect(f'{label}: state', record[STATE],
                       {OPENED: SETTLED, AGAIN: STARTING, 0: 0}[kind])
                expect(f'{label}: settings', record[TOLERANCES],
                       list(tolerances) if number == 0 else [0, 0])


def check(answers, expect, table_c, table_l):
    coefficients(expect, table_c, table_l)
    refused_first(answers, expect)
    refused_later(answers, expect)
    moved_at_one_end(answers, expect)
    drawn_rounds(answers, expect)
    known_motion(answers, expect)
