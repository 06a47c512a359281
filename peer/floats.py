"""The floats for which calls are answered 4 or 13: of which kinds, and in which orders, counted."""
import itertools
import math
import struct

from program import *
from reasons import ASKED, SAMPLE_MOST, answered_lines

# The calls that take floats, and how many words stand before them.
TAKING = {'open': 11, 'start': 11, 'refine': 1, 'correct': 1, ASKED: 1}
SIGNS = ('+', '-')
NAN, INFINITE, LARGE = FAULTS = 'NaN', 'infinity', 'too large'
NUMBERS = {NAN: 4, INFINITE: 13}
PAYLOADS = ('least', 'greatest', 'other')
NANS = [' '.join(kind) for kind in itertools.product(SIGNS, ('quiet', 'signalling'), PAYLOADS)]
INFINITIES = [f'{sign} infinity' for sign in SIGNS]
# In which order kinds of fault first stand; where the floats are of several points, at one or each at its own.
ORDERS = [', '.join(kinds) for count in (2, 3) for kinds in itertools.permutations(FAULTS, count)]
PLACES = {call: ('over axes',) if call in ('correct', ASKED) else ('at one point', 'over points')
          for call in TAKING}


def fault_of(word):
    """The kind of fault of a float, none if it has none."""
    value, = struct.unpack('>d', bytes.fromhex(word))
    if value != value:
        return NAN
    if math.isinf(value):
        return INFINITE
    return LARGE if abs(round(value)) > SAMPLE_MOST else None


def nan_kind(word):
    pattern = int(word, 16)
    quiet, payload = pattern >> 51 & 1, pattern & 2 ** 51 - 1
    size = {1 - quiet: 'least', 2 ** 51 - 1: 'greatest'}.get(payload, 'other')
    return f'{SIGNS[pattern >> 63]} {("signalling", "quiet")[quiet]} {size}'


def infinity_kind(word):
    return INFINITIES[int(word, 16) >> 63]


def count_faults(met, script, written):
    """Counts the calls of a script that are answered 4 or 13, by the floats that they are for."""
    for line, answers in answered_lines(script, written):
        call, number = answers[0].decode().split()[:2]
        if call in TAKING and int(number) in NUMBERS.values():
            count_call(met, call, int(number), line.decode().split()[TAKING[call]:])


def count_call(met, call, number, words):
    found = {}
    for at, word in enumerate(words):
        found.setdefault(fault_of(word), []).append(at)
    found.pop(None, None)
    # A kind counts where no other of the same fault is there to call for the number.
    for fault, kind_of in ((NAN, nan_kind), (INFINITE, infinity_kind)):
        kinds = {kind_of(words[at]) for at in found.get(fault, ())}
        if NUMBERS[fault] == number and len(kinds) == 1:
            met[call, number, *kinds] += 1
    if len(found) > 1:
        firsts = [places[0] for places in found.values()]
        points = {at // 3 for at in firsts}
        where = 'over axes' if call in ('correct', ASKED) else 'at one point' if len(points) == 1 else \
            'over points' if len(points) == len(firsts) else None
        met[call, number, ', '.join(found), where] += 1


def kinds_wanted(call):
    return [*((call, 4, kind) for kind in NANS), *((call, 13, kind) for kind in INFINITIES)]


def orders_wanted(call):
    return [(call, 4 if NAN in order else 13, order, where) for where in PLACES[call] for order in ORDERS]


def faults_wanted():
    """What a run has to meet."""
    return [item for call in TAKING for item in (*kinds_wanted(call), *orders_wanted(call))]


def print_faults(met):
    for call in TAKING:
        for number, kinds in ((4, NANS), (13, INFINITIES)):
            print(f'{call} {number} by: '
                  + ', '.join(f'{kind} {met[call, number, kind]}' for kind in kinds))
        for where in PLACES[call]:
            print(f'{call} {where}: ' + '; '.join(
                f'{order}: {met[item]}' for item in orders_wanted(call) for order in (item[2],)
                if item[3] == where))
