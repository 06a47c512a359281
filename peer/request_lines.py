"""The lines of a request to the program oem, read and written."""
import re

from messages import *

NATURAL = re.compile(rb'0|[1-9][0-9]*')
WHOLE = re.compile(rb'0|-?[1-9][0-9]*')
UNSIGNED, SIGNED = range(2 ** 64), range(-2 ** 63, 2 ** 63)
# The lines that stand before the points, in their order, and those of them that may be left out.
WORDS = ('edition', 'created', *NAMES.values(), 'start', 'tick', 'step', 'room')
LEFT_OUT = 'edition', 'room'
NUMBERS = 'tick', 'step', 'room'


class NoRequest(Exception):
    """The line at which a text is no request, counted from 1."""


def number(text, form, allowed):
    """A number of that form; none where the text is no such number or too large."""
    if not form.fullmatch(text) or len(text) > 20 or int(text) not in allowed:
        return None
    return int(text)


def rest_of(line, word):
    """What follows the word and one space; none where the line does not begin so."""
    head = word.encode() + b' '
    return line[len(head):] if line.startswith(head) else None


def point_of(line):
    """The twelve numbers of a point; none where the line has other ones."""
    rest = rest_of(line, 'point')
    numbers = [] if rest is None else [number(text, WHOLE, SIGNED) for text in rest.split(b' ')]
    return None if len(numbers) != LENGTH or None in numbers else numbers


def read_request(text):
    lines = text.split(b'\n')
    unended = lines.pop()
    given, numbers, at = {}, [], 0
    for word in WORDS:
        rest = rest_of(lines[at], word) if at < len(lines) else None
        if rest is None and word in LEFT_OUT:
            continue
        given[word] = number(rest or b'', NATURAL, UNSIGNED) if word in NUMBERS else rest
        at += 1
        if given[word] is None:
            raise NoRequest(at)
    for line in lines[at:]:
        at += 1
        point = point_of(line)
        if point is None:
            raise NoRequest(at)
        numbers += point
    if unended:
        raise NoRequest(at + 1)
    names = {keyword: given[word] for keyword, word in NAMES.items()}
    return Request(given.get('edition'), given['created'], names, given['start'], given['tick'], given['step'],
                   given.get('room'), numbers)


def request_text(request):
    """The lines of a request; its numbers have to fill points."""
    values = [request.edition, request.created, *(request.names[keyword] for keyword in NAMES), request.start,
              *(None if value is None else b'%d' % value for value in (request.tick, request.step, request.room))]
    lines = [word.encode() + b' ' + value for word, value in zip(WORDS, values) if value is not None]
    for at in range(0, len(request.numbers), LENGTH):
        point = request.numbers[at:at + LENGTH]
        lines.append(b' '.join([b'point', *(b'%d' % value for value in point)]))
    return b''.join(line + b'\n' for line in lines)


def answer_to(text):
    """What the program oem writes for the lines of a request."""
    if other_edition(text, b'edition '):
        return b'refused %d\n' % OTHER_EDITION
    try:
        refusal, written = message(read_request(text))
    except NoRequest as line:
        return b'line %d: not a request\n' % line.args[0]
    return b'refused %d\n' % refusal if refusal else written
