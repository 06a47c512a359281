"""The held sums of the corrector: figures by hand, sums afresh from the table's differences, and records where they are untrue."""
from program import *

WIDEST = 1048576  # tolerance
ACCEPTED = 1
PLACES_OF_HELD = [axis_at(axis, what) for axis in AXES for what in (HELD_POSITION, HELD_VELOCITY)]


def held_on(axis, record):
    """The wholes and parts of an axis's held sums."""
    return record[axis_at(axis, HELD_POSITION):axis_at(axis, SAMPLES)]


def along_x(*samples):
    """The floats of samples whose y and z are zero."""
    return [bits(float(tick)) for sample in samples for tick in (sample, 0, 0)]


def opened(samples):
    """An opening with position tolerance 0 and limit 2; samples oldest first."""
    return open_line(len(samples), (0, WIDEST), 2, [-5, 0, 0], [3, 0, 0], along_x(*samples))


def corrected(sample):
    return correct_line(along_x(sample))


def by_hand(answers, expect):
    """One point holds nothing; two hold nothing for position, for velocity a twelfth of the newest sample."""
    for samples, held in [((12,), [0] * 4), ((-7, 12), [0, 0, 1, 0]), ((5, -12), [0, 0, -1, 0]),
                          ((12, 6), [0, 0, 0, 79833600]), ((0, -6), [0, 0, -1, 79833600]),
                          ((12, 0), [0] * 4)]:
        [(_, record)] = answers(opened(samples))
        expect(f'held after opening with {samples}', held_on(0, record), held)
    history = answers(opened((5, 12)), 'predict', corrected(24), corrected(36), 'predict',
                      'withdraw', 'predict', corrected(24), corrected(24))
    expect('held over again, 8, withdraw, again, accepted',
           [(answer.number, answer.kind, held_on(0, record)) for answer, record in history],
           [(number, kind, [0, 0, held, 0]) for number, kind, held in
            [(0, 0, 1), (0, 0, 1), (0, 2, 1), (8, 0, 1), (0, 0, 1), (0, 0, 1), (0, 0, 1), (0, 2, 1),
             (0, 1, 2)]])


def difference(samples, order):
    """The backward difference at the last of the samples."""
    for _ in range(order):
        samples = [later - earlier for earlier, later in zip(samples, samples[1:])]
    return samples[-1]


def afresh(terms, samples, points):
    """What the samples, newest last, give to the point after them: its own is taken for 0."""
    known = [*samples[len(samples) - points:], 0]
    return sum(terms[order] * difference(known, order) for order in range(points))


def of_every_p(answers, expect, table_c, table_l):
    """After each call the sums afresh; a corrected point is made of them and the new sample alone."""
    for points in range(1, 10):
        terms = table_l[2:points + 2], table_c[1:points + 1]
        samples = [pow(7, 10 * points + n, 2003) - 1000 for n in range(points + 12)]
        calls = [(opened(samples[:points]), None)]
        for sample in samples[points:]:
            calls += [('predict', None), (corrected(sample + 5000), sample + 5000),
                      ('withdraw', None), ('predict', None), *[(corrected(sample), sample)] * 2]
        known, before = samples[:points], None
        for (_, sample), (answer, record) in zip(calls, answers(*(line for line, _ in calls))):
            label = f'{points} points, {answer.call} after {len(known)} samples'
            if answer.call == 'correct':
                expect(f'{label}: from the held sums', (answer.position(0), answer.velocity(0)),
                       from_held(before, sample, terms))
            if answer.kind == ACCEPTED:
                known = [*known, sample]
            expect(f'{label}: held', held_on(0, record),
                   [word for kind in terms for word in divmod(afresh(kind, known, points), PARTS)])
            before = record
        expect(f'{points} points: accepted', known, samples)


def from_held(record, sample, terms):
    """The corrected position and velocity on x, in parts."""
    first, second, position, velocity = (
        record[axis_at(0, at)] * PARTS + record[axis_at(0, at) + 1]
        for at in (FIRST_SUM, SECOND_SUM, HELD_POSITION, HELD_VELOCITY))
    return (second + position + sum(terms[0]) * sample,
            first + sample * PARTS + velocity + sum(terms[1]) * sample)


def untrue(answers, expect):
    """Each held sum off by a part, left out or in another form; between rounds each that is not zero."""
    floats = [bits(12.0 * tick) for tick in (1, -2, 3, 5, 7, -11, 13, 17, 19)]
    opening = 3, (WIDEST, WIDEST), 2, [0] * 3, [0] * 3, floats
    (_, settled), (_, awaiting) = answers(open_line(*opening), 'predict')
    [(_, starting)] = answers(start_line(*opening))
    expect('held between rounds', [held_on(axis, starting) for axis in AXES], [[0] * 4] * 3)
    for record, call in ((settled, 'predict'), (awaiting, corrected(12)), (awaiting, 'withdraw'),
                         (starting, refine_line(floats))):
        expect(f'{call} on true held sums', answers(fill_line(record), call)[0][0].number, 0)
        for at in PLACES_OF_HELD:
            value = record[at] * PARTS + record[at + 1]
            words = [divmod(value - 1, PARTS), divmod(value + 1, PARTS),
                     (record[at] - 1, record[at + 1] + PARTS)]
            for held in words if value == 0 else [*words, (0, 0)]:
                filled = [*record[:at], *held, *record[at + 2:]]
                [(answer, after)] = answers(fill_line(filled), call)
                expect(f'{call} on {filled}', (answer.number, any(answer.values), after),
                       (7, False, filled))


def check(answers, expect, table_c, table_l):
    by_hand(answers, expect)
    of_every_p(answers, expect, table_c, table_l)
    untrue(answers, expect)
