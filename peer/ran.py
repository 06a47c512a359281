"""The answers to runs: counted by how they end, and held to their allowance."""
from program import *
from reasons import STATES, answered_lines

RUN = 'run'
SIZES = range(1, 10)
FLOATS_MOST = 192
NONE_WANTED, ENOUGH, NONE_LEFT = 'none wanted', 'enough points', 'no sample left'
# How a run ends that is not refused before its first call.
ENDINGS = (NONE_WANTED, f'{ENOUGH}, samples left', f'{ENOUGH} by the last sample',
           f'{NONE_LEFT}, settled', f'{NONE_LEFT}, awaiting', 'no sample at all',
           *(f'{number} of a sample, {when}' for number in (4, 13, 5, 6, 8) for when in ('at once', 'after points')),
           *(f'{number} of predict, {when}' for number in (6, 9) for when in ('at once', 'after points')))
# What is also counted of them.
USED_UP = ('allowance used up, no point', 'allowance used up after points')
WANTED = ('wanted 0', 'wanted 1', 'wanted as many as samples', 'wanted more than samples', 'wanted more than 2^32')
# The lengths of slices by what is left of them over threes, by number, and the longest slice.
LENGTHS = [(number, rest) for number in (7, 2) for rest in range(3) if (number, rest) != (2, 0)]
LONGEST = 'longest slice'


def ending(answer, wanted, samples, record):
    """How a run ended that made calls or could have, from its answer and the record after it."""
    if answer.number in (6, 9) and STATES[record[STATE]] == 'settled':
        return f'{answer.number} of predict, {"after points" if answer.points else "at once"}'
    if answer.number:
        return f'{answer.number} of a sample, {"after points" if answer.points else "at once"}'
    if wanted == 0:
        return NONE_WANTED
    if answer.points == wanted:
        return f'{ENOUGH}, samples left' if answer.used < samples else f'{ENOUGH} by the last sample'
    return f'{NONE_LEFT}, {STATES[record[STATE]]}' if samples else 'no sample at all'


def wanted_as(wanted, samples):
    """What there is to say of the points wanted."""
    return [what for what, so in zip(WANTED, (wanted == 0, wanted == 1, wanted == samples > 0, wanted > samples,
                                              wanted > 2 ** 32)) if so]


def untrue_run(answer, wanted, length, before, after):
    """What an answer to a run says that cannot be, from the records before and after it."""
    if answer.number in (7, 2):
        return 'a refused run that did something' if (answer.points, answer.used) != (0, 0) or before != after else None
    if answer.used > before[LIMIT] * (answer.points + 1):
        return 'more samples than the allowance'
    if answer.points > wanted or 3 * answer.used > length:
        return 'more points than wanted, or more samples than there are'
    if after[ACCEPTED] != before[ACCEPTED] + answer.points:
        return 'other points than the session counts'
    return None


def count_runs(met, script, written):
    """Counts the runs of a script by their endings; what one of them says that cannot be."""
    before, wrong = [0] * RECORD_LENGTH, None
    for line, answers in answered_lines(script, written):
        if line.startswith(b'run'):
            _, wanted, *floats = line.split()
            after, answer = record_fields(answers[1]), RunAnswer(answers[0])
            count_run(met, answer, int(wanted), len(floats), before, after)
            wrong = untrue_run(answer, int(wanted), len(floats), before, after) or wrong
        if answers[-1].startswith(b'record'):
            before = record_fields(answers[-1])
    return wrong


def count_run(met, answer, wanted, length, before, after):
    if answer.number in (7, 2):
        met[RUN, answer.number, 'floats over threes', length % 3] += 1
        met[RUN, answer.number, NONE_WANTED] += wanted == 0
        return
    met[RUN, ending(answer, wanted, length // 3, after)] += 1
    for what in wanted_as(wanted, length // 3):
        met[RUN, what] += 1
    if answer.used and answer.used == before[LIMIT] * (answer.points + 1):
        met[RUN, USED_UP[answer.points > 0]] += 1
    met[RUN, LONGEST] += length == FLOATS_MOST


def print_runs(met):
    print(f'{RUN} ends: ' + '; '.join(f'{ending} {met[RUN, ending]}' for ending in (*ENDINGS, *USED_UP, LONGEST)))
    print(f'{RUN}s: ' + ', '.join(f'{what} {met[RUN, what]}' for what in WANTED))
    for number in (7, 2):
        print(f'{RUN} {number}: none wanted {met[RUN, number, NONE_WANTED]}, floats over threes: ' + ', '.join(
            f'{rest}: {met[RUN, number, "floats over threes", rest]}' for which, rest in LENGTHS if which == number))
    print(f'{RUN} refused: ' + ', '.join(f'{state} {met[RUN, "refused", state]}' for state in STATES))
    print(f'{RUN} with points: ' + ', '.join(f'{p}: {met[RUN, "with points", p]}' for p in SIZES))


def runs_wanted():
    """What many runs have to meet."""
    return [*((RUN, what) for what in (*ENDINGS, *USED_UP, *WANTED, LONGEST)),
            *((RUN, number, NONE_WANTED) for number in (7, 2)),
            *((RUN, number, 'floats over threes', rest) for number, rest in LENGTHS),
            *((RUN, 'refused', state) for state in STATES), *((RUN, 'with points', p) for p in SIZES)]
