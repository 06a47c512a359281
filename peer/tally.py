"""What the lines that a program writes have met: calls, numbers, kinds, states and causes, counted."""
import collections

from program import *
from ran import RUN
from reasons import ASKED, STATES, count
from saved import LOAD, SAVE, TAKEN, count_load, count_save

# The numbers that each call can answer.
NUMBERS = {'open': (0, 1, 2, 3, 4, 5, 6, 13), 'predict': (0, 6, 7, 9),
           'correct': (0, 4, 5, 6, 7, 8, 13), 'withdraw': (0, 7),
           'start': (0, 1, 2, 3, 4, 5, 6, 10, 13), 'refine': (0, 2, 4, 5, 6, 7, 8, 13)}
COLUMNS = sorted({n for numbers in NUMBERS.values() for n in numbers})
# The kinds of answer, and which of them each call gives; none is not counted.
KINDS = ('none', 'accepted', 'again', 'opened')
KINDS_OF = {'correct': ('accepted', 'again'), 'start': ('again',), 'refine': ('again', 'opened')}
# With how many points each call that opens or starts can do so.
SIZES = {'open': range(1, 10), 'start': (3, 5, 7, 9), 'refine': (3, 5, 7, 9)}
# The calls that do not fit every state, and the states of the records that they refuse.
FITTING = [call for call, numbers in NUMBERS.items() if 7 in numbers]
NO_CALL = 'not a call'
# The values that an estimate has, in its order, and the calls that ask for another if one has moved too far.
VALUES = ('x', 'vx', 'y', 'vy', 'z', 'vz')
COMPARING = ('correct', 'refine')
# By call the faults of the held sums that alone make it refuse a record: one sum, by its value, off by
# one part or between rounds not zero, and sums wrongly made. Only the drawn script knows them.
FOR_HELD = 'refused for held'
UNTRUE = (*VALUES, 'not normal', 'exchanged', 'samples one off', 'columns one off', 'with the oldest',
          'with S1', 'zero', 'before the accepted point')
HELD_FAULTS = {'predict': UNTRUE, 'correct': UNTRUE, 'withdraw': UNTRUE,
               'refine': (*VALUES, 'of the samples')}


def over_tolerance(before, after, tolerances):
    """The values that have moved beyond their tolerance at one of the points, or the only one."""
    return {VALUES[at % 6] for at, (old, new) in enumerate(zip(before, after))
            if abs(new - old) > tolerances[at % 2] * PARTS}


class Causes:
    """Which values each *again* comes from, worked out from the lines before it."""

    def __init__(self):
        self.record, self.points = [0] * RECORD_LENGTH, None  # points of the last round, if known

    def found(self, answer, kind):
        """The values beyond their tolerance in an answer; none where that cannot be known."""
        over = set()
        if answer.call == 'correct' and kind == 'again':
            over = over_tolerance(estimate(self.record), answer.values, self.record[TOLERANCES])
        elif answer.call in ROUNDS and answer.number == 0:
            after = answer.values[2:]
            if answer.call == 'refine' and kind == 'again' and self.points is not None:
                over = over_tolerance(self.points, after, self.record[TOLERANCES])
            self.points = after
        return over


def tally(written):
    """How often each call was met, each of its numbers and kinds, on or with which record, and by which values."""
    met = collections.Counter()
    causes = Causes()
    call = None
    for line in lines_of(written):
        words = line.split(b' ', 3)
        head = words[0].decode()
        if head == 'line':
            met[NO_CALL] += 1
        elif head == ASKED:
            count(met, Reason(line), causes.record)
        elif head == SAVE:
            count_save(met, line, causes.record)
        elif head == LOAD:
            call, number = head, loaded_number(line)
        elif head == RUN:
            call, number = head, int(words[1])
            met[call] += 1
            met[call, number] += 1
        elif head == 'record':
            before, causes.record = causes.record, record_fields(line)
            if call == LOAD:
                count_load(met, number, before, causes.record)
                causes.points = None if number == TAKEN else causes.points
            elif call is None:
                met['fill'] += 1
                causes.points = None
            elif number == 7:
                met[call, 'refused', STATES[int(words[1])]] += 1
            elif number == 0 and (call != 'refine' or kind == 'opened'):
                met[call, 'with points', int(words[2])] += 1
            call = None
        else:
            call, number, kind = head, int(words[1]), KINDS[int(words[2])]
            met[call] += 1
            met[call, number] += 1
            met[call, kind] += 1
            over = causes.found(Answer(line), kind)
            for value in over:
                met[call, 'again by', value] += 1
                met[call, 'again by', value, 'alone'] += len(over) == 1
    return met


def calls(met):
    return sum(met[call] for call in (*NUMBERS, 'fill', ASKED, SAVE, LOAD, RUN))


def print_table(met):
    print(f'{"":10}{"calls":>9}' + ''.join(f'{number:>9}' for number in COLUMNS))
    for call, numbers in NUMBERS.items():
        print(f'{call:10}{met[call]:>9}' + ''.join(
            f'{met[call, n] if n in numbers else "":>9}' for n in COLUMNS).rstrip())
    print(f'{"fill":10}{met["fill"]:>9}')
    for call in (ASKED, SAVE, LOAD, RUN, NO_CALL):
        print(f'{call:10}{met[call]:>9}')
    for call, kinds in KINDS_OF.items():
        print(f'{call} answers: ' + ', '.join(f'{kind} {met[call, kind]}' for kind in kinds))
    for call in COMPARING:
        print(f'{call} again by: ' + ', '.join(
            f'{value} {met[call, "again by", value]} ({met[call, "again by", value, "alone"]} alone)'
            for value in VALUES))
    for call, sizes in SIZES.items():
        print(f'{call} with points: '
              + ', '.join(f'{p}: {met[call, "with points", p]}' for p in sizes))
    for call in FITTING:
        print(f'{call} refused: '
              + ', '.join(f'{state} {met[call, "refused", state]}' for state in STATES))


def print_held(met):
    for call, faults in HELD_FAULTS.items():
        print(f'{call} {FOR_HELD}: '
              + ', '.join(f'{fault} {met[call, FOR_HELD, fault]}' for fault in faults))


def missing(met, wanted):
    return [item if isinstance(item, str) else ' '.join(map(str, item))
            for item in wanted if met[item] == 0]


def held_never_met(met):
    return missing(met, [(call, FOR_HELD, fault) for call, faults in HELD_FAULTS.items()
                         for fault in faults])


def never_met(met):
    return missing(met, [
        *NUMBERS, 'fill', NO_CALL,
        *((call, n) for call, numbers in NUMBERS.items() for n in numbers),
        *((call, kind) for call, kinds in KINDS_OF.items() for kind in kinds),
        *((call, 'again by', value, 'alone') for call in COMPARING for value in VALUES),
        *((call, 'with points', p) for call, sizes in SIZES.items() for p in sizes),
        *((call, 'refused', state) for call in FITTING for state in STATES)])
