"""Draws texts that are damaged as a whole, and messages with damage anywhere, one or several together."""
from dropped_lines import *


# What these come to is known

def unended(rng):
    """The last data line, or part of it, without its newline."""
    draft = drafted(rng, least=2)
    at = len(draft.lines) - 1
    line = draft.lines[at]
    wanted = Wanted(at + 1, draft.dropping(at))
    return draft.text()[:-1 - rng.choice((0, rng.randrange(len(line))))], wanted


def unended_alone(rng):
    """The one data line without its newline."""
    draft = drafted(rng, points=1)
    return draft.text()[:-1], Wanted(draft.first + 1, 16)


def rest_behind(rest):
    """Bytes after the last newline."""
    def draw(rng):
        draft = drafted(rng)
        return draft.text() + rest, Wanted(len(draft.lines) + 1, [(len(draft.lines) + 1, DROPPED)])
    return draw


def unended_comment(rng):
    draft = drafted(rng)
    del draft.lines[draft.first:]
    return draft.text() + b'COMMENT A', stops_at(draft.first)


def twice_over(rng):
    """A message and then the same again."""
    draft = drafted(rng)
    length = len(draft.lines)
    draft.lines += draft.lines
    return draft.text(), Wanted(length + 1, draft.dropping(*range(length, 2 * length)))


def many_changes(count):
    """As many blank lines behind the data."""
    def draw(rng):
        draft = drafted(rng)
        length = len(draft.lines)
        wanted = [(length + i + 1, DROPPED) for i in range(count)] if count <= CHANGES_MOST else 12
        return draft.text() + b'\n' * count, Wanted(length + 1, wanted)
    return draw


def fill(rng, draft):
    """Puts comments after META_STOP, so that the text has the most bytes."""
    count, rest = divmod(BYTES_MOST - len(draft.text()) - 100, LINE_MOST + 1)
    lengths = [99, *[LINE_MOST] * count]
    if rest > len('COMMENT'):
        lengths.append(rest - 1)
    else:
        lengths[0] += rest
    draft.lines[draft.first:draft.first] = [b'COMMENT '.ljust(length, b'x')[:length] for length in rng.sample(lengths, len(lengths))]
    draft.first += len(lengths)


def most_bytes(rng):
    draft = drafted(rng)
    fill(rng, draft)
    return draft.text(), READABLE


def growing(rng):
    """A text of the most bytes without the values of the two times: mended it is longer."""
    draft = drafted(rng)
    for keyword in LAST:
        draft.put(keyword, b'')
    fill(rng, draft)
    return draft.text(), Wanted(draft.at['START_TIME'] + 1, draft.dropping())


def most_points(rng):
    """As many points as a text of the most bytes can have."""
    draft = drafted(rng, points=1, comments={}, last=10 ** 11)
    for keyword in NAMES:
        draft.put(keyword, name(rng, 1))
    seconds, numbers = seconds_of(draft.lines.pop()[:19]), b' 0.000000' * 3 + b' 0.000000000' * 3
    count = (BYTES_MOST - len(draft.text())) // len(time_text(seconds) + numbers + b'\n')
    draft.lines += [time_text(seconds + i) + numbers for i in range(count)]
    draft.put('STOP_TIME', draft.lines[-1][:19])
    return draft.text(), READABLE


def one_byte_more(rng):
    return most_bytes(rng)[0] + b'\n', None


def other_version_too_long(rng):
    return (b'CCSDS_OEM_VERS = 4.0' + most_bytes(rng)[0][len(b'CCSDS_OEM_VERS = 2.0'):]) + b'\n', None


# What these come to is up to the two that are compared

def lose_line(rng, lines):
    del lines[rng.randrange(len(lines))]


def lose_lines(rng, lines):
    at = rng.randrange(len(lines))
    del lines[at:at + rng.randint(2, 10)]


def double_line(rng, lines):
    at = rng.randrange(len(lines))
    lines.insert(rng.choice((at, rng.randint(0, len(lines)))), lines[at])


def cut_line(rng, lines):
    at = rng.randrange(len(lines))
    lines[at] = lines[at][:rng.randint(0, len(lines[at]))]


def swap_lines(rng, lines):
    at, other = rng.randrange(len(lines)), rng.randrange(len(lines))
    lines[at], lines[other] = lines[other], lines[at]


def join_lines(rng, lines):
    at = rng.randrange(len(lines))
    lines[at:at + 2] = [rng.choice((b'', b' ')).join(lines[at:at + 2])]


def break_line(rng, lines):
    at = rng.randrange(len(lines))
    to = rng.randint(0, len(lines[at]))
    lines[at:at + 1] = [lines[at][:to], lines[at][to:]]


def garble_line(rng, lines):
    """Another text in place of some of a line."""
    at = rng.randrange(len(lines))
    begin, end = sorted(rng.randint(0, len(lines[at])) for _ in range(2))
    garbled = bytes(rng.choice(b'0123456789.- :TABC\r\t\x00\xff') for _ in range(end - begin))
    lines[at] = lines[at][:begin] + garbled + lines[at][end:]


def change_byte(change):
    """A byte that becomes others."""
    def spoil(rng, lines):
        at = rng.randrange(len(lines))
        line = lines[at]
        if line:
            place = rng.randrange(len(line))
            lines[at] = line[:place] + change(rng, line[place:place + 1]) + line[place + 1:]
    return spoil


def insert_line(rng, lines):
    line = rng.choice((b'', b'COMMENT A', b'COMMENT', b'META_STOP', b'garbage', b'\r', rng.choice(lines)[:10]))
    lines.insert(rng.randint(0, len(lines)), line)


def return_line(rng, lines):
    lines[rng.randrange(len(lines))] += b'\r'


def wrong_epoch(rng, lines):
    """Another time in a line that begins or ends with one."""
    at = rng.randrange(len(lines))
    lines[at] = re.sub(rb'\d{4}-\d\d-\d\dT\d\d:\d\d:\d\d', time_drawn(rng), lines[at])


DAMAGES = {
    'a line lost': lose_line, 'some lines lost': lose_lines, 'a line doubled': double_line, 'a line cut': cut_line,
    'two lines swapped': swap_lines, 'two lines joined': join_lines, 'a line broken': break_line, 'a line garbled': garble_line,
    'a line that is new': insert_line, 'a CR': return_line, 'another time': wrong_epoch,
    'a byte lost': change_byte(lambda rng, byte: b''), 'a byte doubled': change_byte(lambda rng, byte: byte * 2),
    'a byte garbled': change_byte(lambda rng, byte: bytes([rng.randrange(256)])),
    'a bit turned': change_byte(lambda rng, byte: bytes([byte[0] ^ 1 << rng.randrange(8)])),
    'a digit garbled': change_byte(lambda rng, byte: rng.choice((b'0', b'1', b'9', b'-', b'.', b' '))),
}


def damaged(spoils, where):
    """A kind with damage, in the head, in the data or anywhere."""
    def draw(rng):
        draft = drafted(rng, least=2)
        begin = draft.first if where == 'the data' else 0
        end = draft.first if where == 'the head' else len(draft.lines)
        part = draft.lines[begin:end]
        for spoil in spoils(rng):
            if part:
                spoil(rng, part)
        draft.lines[begin:end] = part
        text = draft.text()
        return text[:-1] if rng.randrange(20) == 0 else text, None
    return draw


def several(count):
    return lambda rng: [rng.choice([*DAMAGES.values()]) for _ in range(count)]


def cut_anywhere(rng):
    text = drafted(rng).text()
    return text[:rng.randrange(len(text))], None


def gap_anywhere(rng):
    """Some bytes lost in the middle, newlines among them."""
    text = drafted(rng).text()
    at = rng.randrange(len(text))
    return text[:at] + text[at + rng.randint(1, 400):], None


# These are of no edition.
NO_MESSAGES = {
    'no byte': lambda rng: (b'', stops_at(0)),
    'a newline alone': lambda rng: (b'\n', stops_at(0)),
    'comments alone': lambda rng: (b'COMMENT A\n' * 3, stops_at(0)),
    'random bytes': lambda rng: (rng.randbytes(rng.randint(1, 500)), stops_at(0)),
    'another version in a text of a byte more': other_version_too_long,
    'data lines alone': lambda rng: (data_line(rng, 10 ** 10) + b'\n', stops_at(0)),
}
TEXTS = {
    'CR LF everywhere': lambda rng: (drafted(rng).text().replace(b'\n', b'\r\n'), NEITHER),
    'CR everywhere': lambda rng: (drafted(rng).text().replace(b'\n', b'\r'), NEITHER),
    'an unended last line': unended,
    'one data line that is not ended': unended_alone,
    'an unended comment after META_STOP': unended_comment,
    **{f'{rest!r} after the last newline': rest_behind(rest) for rest in (b' ', b'\0', b'\x1a', b'COMMENT A', b'x')},
    'a message twice': twice_over,
    'as many changes as there is room for': many_changes(CHANGES_MOST),
    'one change more than there is room for': many_changes(CHANGES_MOST + 1),
    'a text of the most bytes': most_bytes,
    'a text of the most bytes that grows': growing,
    'a text of the most points': most_points,
    'a text of a byte more': one_byte_more,
    **{f'{label} in {where}': damaged(lambda rng, spoil=spoil: [spoil], where)
       for label, spoil in DAMAGES.items() for where in ('the head', 'the data', 'the text')},
    **{f'{count} damages in {where}': damaged(several(count), where) for count in range(2, 7) for where in ('the data', 'the text')},
    'cut anywhere': cut_anywhere,
    'a gap anywhere': gap_anywhere,
}
