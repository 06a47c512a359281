#!/usr/bin/env python3
"""Reads what replay has written and writes the request for a message of its accepted points."""
import argparse
import sys

# The words of a request in their order, with what stands there if nothing is given: the low orbit of host/.
WORDS = {'created': '2026-01-01T00:00:00', 'originator': 'DURUNGKILAT', 'object': 'LOW ORBIT', 'id': '2026-001A',
         'center': 'EARTH', 'frame': 'EME2000', 'start': '2026-01-01T00:00:30', 'tick': '15', 'step': '30'}
# Where whole and remainder of x, y, z, vx, vy, vz stand in an answer; its values are x, vx, y, vy, z, vz.
PLACES = [3 + 3 * value + part for value in (0, 2, 4, 1, 3, 5) for part in (0, 1)]
ACCEPTED = ['correct', '0', '1']


class Arguments(argparse.ArgumentParser):
    """Arguments whose faults are told in one line."""

    def error(self, message):
        self.exit(2, f'make_message.py: {message}\n')


def points(lines):
    """The twelve numbers of each accepted point of one session."""
    found = []
    for at, line in enumerate(lines, 1):
        words = line.split()
        if words[:3] == ACCEPTED and len(words) == 27:
            found.append([words[place] for place in PLACES])
        elif words[:2] in (['open', '0'], ['start', '0']) and found:
            sys.exit(f'make_message.py: line {at}: a second session begins')
    if not found:
        sys.exit('make_message.py: no accepted point')
    return found


def main():
    parser = Arguments(prog='make_message.py', description=__doc__)
    for word, value in WORDS.items():
        parser.add_argument(f'--{word}', default=value, help=f'{value} if not given')
    given = vars(parser.parse_args())
    lines = [f'{word} {given[word]}' for word in WORDS]
    lines += [' '.join(['point', *numbers]) for numbers in points(sys.stdin)]
    print('\n'.join(lines))


main()
