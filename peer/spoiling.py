"""Lines that are no calls, or hardly are, made from lines that are."""
from program import RECORD_LENGTH, bits, fill_line, load_line, open_line, refine_line, run_line, start_line, why_line

U64, I64, U32 = 2 ** 64 - 1, 2 ** 63 - 1, 2 ** 32 - 1
# What takes the place of a number, and of a float.
NUMBERS = ['', '-', '+1', '-0', '00', '01', '-01', '-1', '3', '4', '1.0', '1e3', '0x1', 'a', '\uff11',
           U32 + 1, I64, I64 + 1, -I64 - 1, -I64 - 2, U64, U64 + 1, 2 ** 65, 2 ** 128, -2 ** 64]
FLOATS = ['', '0', '0' * 15, '0' * 17, 'F' * 16, 'g' * 16, '3fF' + '0' * 13, '-' + '0' * 15]
# Whole lines.
LINES = ['', ' ', 'predict ', ' predict', 'predict  ', 'Predict', 'predictpredict', 'predict 0',
         'predict\r', 'predict\t', 'withdrawn', 'withdraw 1', 'withdra', 'fil', 'fill', 'correct',
         'open', 'close', '#', '\0', 'predict\0', 'start', 'start ', 'refine', 'refine ', 'refined',
         'refine 0', 'why', 'why ', 'wh', 'whys', 'why 0', 'save ', 'save 0', 'saved', 'sav', 'saves', 'load', 'load ',
         'loa', 'loaded', 'load00', 'load  00', 'load 00 ', 'load 00 00', 'load 0', 'load 000', 'load 0g', 'load g0', 'load 0A',
         'load 0x00', 'load -0', 'load 00', 'load 00\r',
         'run', 'run ', 'ru', 'runs', 'run 0', 'run 1 ', 'run 01', 'run -1', 'run  1', 'run1', 'run 1 0',
         f'run {U64}', f'run {U64 + 1}',
         *(run_line(1, [bits(0.0)] * count) for count in (64, 191, 192, 193, 194)),
         *(line(1, (0, 0), 1, [0] * 3, [0] * 3, [bits(0.0)] * count)
           for count in (64, 65, 66) for line in (open_line, start_line)),
         *(fill_line([state] + [0] * (RECORD_LENGTH - 1)) for state in (3, 4)),
         *(refine_line([bits(0.0)] * count) for count in (64, 65, 66)),
         *(why_line([bits(0.0)] * count) for count in (2, 3, 4)),
         *(load_line('0' * count) for count in (4090, 4091, 4092, 70000)),
         *('predict'.ljust(length) for length in (4095, 4096, 4097, 70000))]


def cut_word(words, at, rng):
    del words[at]


def double_word(words, at, rng):
    words.insert(at, words[at])


def append_word(words, at, rng):
    words.append(rng.choice(('', '0', bits(0.0))))


def append_to_word(words, at, rng):
    words[at] += rng.choice(('\r', '\t', ',', '.', '0', ' ', '\0', '\u00e9'))


def put_before_word(words, at, rng):
    words[at] = rng.choice(('0', '-', '+', ' ', '\t', '_')) + words[at]


def shorten_word(words, at, rng):
    words[at] = words[at][:-1]


def raise_letters(words, at, rng):
    words[:] = [word.upper() if i >= at else word for i, word in enumerate(words)]


def join_words(words, at, rng):
    words[at:at + 2] = [rng.choice(('', '\t', '  ', ',')).join(words[at:at + 2])]


def end_early(words, at, rng):
    del words[at:]


EDITS = [cut_word, double_word, append_word, append_to_word, put_before_word, shorten_word,
         raise_letters, join_words, end_early]


def replaced(lines, word, long, rng):
    """One of the lines with a number, or if long a float, replaced by the word."""
    places = [(line, at) for line in lines for at, old in enumerate(line.split(' '))
              if at > 0 and (len(old) == 16) == long]
    if not places:
        return word
    line = rng.choice([line for line, _ in places])
    at = rng.choice([at for held, at in places if held == line])
    words = line.split(' ')
    words[at] = word
    return ' '.join(words)


def edited(lines, edit, rng):
    words = rng.choice(lines).split(' ')
    edit(words, rng.randrange(len(words)), rng)
    return ' '.join(words)


WAYS = [*(lambda lines, rng, w=w: replaced(lines, str(w), False, rng) for w in NUMBERS),
        *(lambda lines, rng, w=w: replaced(lines, w, True, rng) for w in FLOATS),
        *(lambda lines, rng, e=e: edited(lines, e, rng) for e in EDITS + EDITS),
        *(lambda lines, rng, line=line: line for line in LINES)]


def spoilt(lines, which, rng):
    """One of the lines spoilt, with what comes after it; each way has its turn."""
    which %= len(WAYS) + 1
    if which == len(WAYS):
        return rng.choice(lines).encode()
    ending = rng.choice(('\n', '\n', '\npredict\n', ''))
    return (WAYS[which](lines, rng) + ending).encode()
