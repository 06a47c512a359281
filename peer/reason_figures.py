"""Reasons worked out by hand, and from the printed table for samples whose differences are known."""
import math
from fractions import Fraction

from program import *

AGAIN = 2
WIDEST = 1048576
# s(p+1) and g(p) as printed, for p from 1 to 9.
S = '1/12 1/12 19/240 3/40 863/12096 275/4032 33953/518400 8183/129600 3250433/53222400'.split()
G = '1/2 5/12 3/8 251/720 95/288 19087/60480 5257/17280 1070017/3628800 25713/89600'.split()
NAN, INFINITY, LARGE = math.nan, math.inf, 268435457.0


def words(*samples):
    return [bits(float(value)) for sample in samples for value in sample]


def opened(tolerances, limit, position=(0, 0, 0), velocity=(0, 0, 0), samples=((0, 0, 0),)):
    return open_line(len(samples), tolerances, limit, position, velocity, words(*samples))


def told(reason):
    return (reason.number, reason.kind, reason.value, reason.change, reason.tolerance,
            reason.differences)


def first_example(reason, expect):
    """H3, and then a sample of 24: x moves by 1 and vx by 6."""
    for tolerance, limit, wanted in [(1, 2, (0, 1, 0, 0, 0, [12, 0, 0])),
                                     (0, 2, (0, AGAIN, 1, PARTS, 0, [12, 0, 0])),
                                     (0, 1, (8, 0, 1, PARTS, 0, [12, 0, 0]))]:
        lines = [opened((tolerance, WIDEST), limit, (1000, 0, 0), (10, 0, 0), [(12, 0, 0)]), 'predict']
        expect(f'tolerance {tolerance}, limit {limit}', told(reason(lines, words((24, 0, 0)))), wanted)
        lines += [correct_line(words((24, 0, 0)))]
        wanted = (0, 1, 0, 0, 0, None) if wanted[1] == AGAIN else (7, 0, 0, 0, 0, None)
        expect(f'tolerance {tolerance}, limit {limit}, once more', told(reason(lines, words((24, 0, 0)))),
               wanted)


def named(reason, expect):
    """One point at rest: a sample of 12 moves its axis by 1 tick and 6 ticks per step."""
    tick = PARTS
    for tolerances, sample, value, change in [
            ((0, WIDEST), (12, 12, 12), 1, tick), ((0, WIDEST), (0, -12, 12), 2, -tick),
            ((0, WIDEST), (0, 0, 1), 3, tick // 12), ((1, WIDEST), (12, -13, 0), 2, -13 * tick // 12),
            ((0, 0), (0, 0, -12), 3, -tick), ((1, 0), (0, 0, -12), 6, -6 * tick),
            ((1, 5), (12, 12, 0), 4, 6 * tick), ((1, 5), (11, -12, 12), 4, 11 * tick // 2),
            ((1, 5), (10, -12, 12), 5, -6 * tick), ((1, 0), (1, 1, 13), 3, 13 * tick // 12)]:
        tolerance = tolerances[value > 3]
        found = reason([opened(tolerances, 2), 'predict'], words(sample))
        expect(f'{tolerances}, {sample}', told(found),
               (0, AGAIN, value, change, tolerance, list(sample)))


def out_of_range(reason, expect):
    """One point whose sample of 12, or of -12, leads past a bound."""
    far, fast = 2 ** 52 - 1, 2 ** 40 - 1
    for position, velocity, sample, value in [
            ((far, 0, far), (0, 0, 0), (12, 0, 12), 1), ((far, 0, far), (0, 0, 0), (0, 0, 12), 3),
            ((0, -far - 1, 0), (fast, 0, 0), (12, -12, 0), 2), ((0, -far - 1, 0), (fast, 0, 0), (12, 0, 0), 4),
            ((0, 0, 0), (0, -fast - 1, fast), (0, -12, 12), 5), ((0, 0, 0), (0, -fast - 1, fast), (0, 0, 12), 6)]:
        found = reason([opened((0, 0), 1, position, velocity), 'predict'], words(sample))
        expect(f'{position}, {velocity}, {sample}', told(found), (6, 0, value, 0, 0, list(sample)))


def at_fault(reason, expect):
    for number, sample, value in [
            (4, (NAN, INFINITY, LARGE), 1), (4, (INFINITY, NAN, NAN), 2), (4, (LARGE, -INFINITY, NAN), 3),
            (4, (INFINITY, LARGE, -NAN), 3), (13, (-INFINITY, LARGE, INFINITY), 1), (13, (LARGE, INFINITY, -INFINITY), 2),
            (13, (LARGE, -LARGE, -INFINITY), 3), (13, (0, INFINITY, 0), 2),
            (5, (LARGE, 0, LARGE), 1), (5, (0, -LARGE, LARGE), 2), (5, (268435456.5, 0, 268435456.75), 3)]:
        found = reason([opened((0, 0), 1), 'predict'], words(sample))
        expect(f'{sample}', told(found), (number, 0, value, 0, 0, None))
        expect(f'{sample}, none awaited', told(reason([opened((0, 0), 1)], words(sample))),
               (7, 0, 0, 0, 0, None))


def differences(reason, expect):
    """Samples t^p at the times t: their difference of order p is p!."""
    for points in range(1, 10):
        held = [(t ** points, -t ** points, 0) for t in range(1 - points, 1)]
        order = math.factorial(points)
        for tolerances, value, factor in [((0, 0), 1, S), ((WIDEST, 0), 4, G)]:
            change = Fraction(factor[points - 1]) * order
            found = reason([opened(tolerances, 2, samples=held), 'predict'], words((1, -1, 0)))
            expect(f'{points} points, value {value}', told(found),
                   (0, AGAIN, value, change * PARTS, 0, [order, -order, 0]))


def check(reason, expect):
    first_example(reason, expect)
    named(reason, expect)
    out_of_range(reason, expect)
    at_fault(reason, expect)
    differences(reason, expect)
