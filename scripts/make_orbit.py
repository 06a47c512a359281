#!/usr/bin/env python3
"""Writes orbit.script: a low circular orbit of 200 points, its calls made one by one on a program named as the argument."""
import math
import os
import pathlib
import struct
import subprocess
import sys

POINTS, LIMIT, STEPS = 9, 6, 200
# Of position and of velocity, the widest one.
TOLERANCES = 1, 1048576
# A tick is a hundredth of a millimetre, a step ten seconds.
TICK, STEP = 1e-5, 10.0
EARTH = 3.986004418e14 / TICK ** 3 * STEP ** 2
RADIUS = 6778137.0 / TICK
SLANT = math.radians(51.6)
ANGLE = math.sqrt(EARTH / RADIUS ** 3)


def placed(n):
    """Position and velocity of the circle at a point."""
    c, s = math.cos(ANGLE * n), math.sin(ANGLE * n)
    return ([RADIUS * c, RADIUS * s * math.cos(SLANT), RADIUS * s * math.sin(SLANT)],
            [-RADIUS * ANGLE * s, RADIUS * ANGLE * c * math.cos(SLANT),
             RADIUS * ANGLE * c * math.sin(SLANT)])


def pull(position):
    """The sample at a position."""
    size = math.sqrt(sum(x * x for x in position)) ** 3
    return [-EARTH * x / size for x in position]


def words(floats):
    return ' '.join(struct.pack('>d', x).hex() for x in floats)


def first_line(call, samples):
    """The line of an opening or a first round whose point is point 0."""
    position, velocity = ([round(x) for x in part] for part in placed(0))
    return ' '.join(map(str, [call, POINTS, *TOLERANCES, LIMIT, *position, *velocity, words(samples)]))


class Calls:
    """The calls made so far on the program named as the argument."""

    def __init__(self):
        if len(sys.argv) != 2:
            sys.exit(f'{sys.argv[0]}: name the program to make the calls on')
        try:
            self.program = subprocess.Popen([sys.argv[1]], stdin=subprocess.PIPE, stdout=subprocess.PIPE)
        except OSError:
            sys.exit(f'{sys.argv[0]}: {sys.argv[1]} is no program')
        self.lines = []

    def call(self, line):
        """The kind of the answer and all its reports; no refusal is expected."""
        self.lines.append(line + '\n')
        try:
            os.write(self.program.stdin.fileno(), self.lines[-1].encode())
        except BrokenPipeError:
            pass  # no answer comes then
        answer = self.program.stdout.readline().decode().split()
        if not answer or answer[0] != line.split()[0]:
            sys.exit(f'{sys.argv[0]}: {sys.argv[1]} does not answer line {len(self.lines)}')
        if answer[1] != '0':
            sys.exit(f'{sys.argv[0]}: refused {answer[1]}')
        self.program.stdout.readline()
        return int(answer[2]), [struct.unpack('>d', bytes.fromhex(word))[0] for word in answer[5::3]]

    def step(self):
        """Predicts and corrects until the point is accepted; its position."""
        kind, reports = self.call('predict')
        while kind != 1:
            kind, reports = self.call('correct ' + words(pull(reports[0:6:2])))
        return reports[0:6:2]

    def write(self, name, position, n):
        """Ends the program, writes the script, and says how far a position is from a point."""
        self.program.stdin.close()
        off = math.dist(position, placed(n)[0]) * TICK
        print(f'{len(self.lines)} calls; {off:.6f} m off the circle at point {n}')
        (pathlib.Path(__file__).parent / name).write_text(''.join(self.lines))


def main():
    calls = Calls()
    calls.call(first_line('open', [x for n in range(1 - POINTS, 1) for x in pull(placed(n)[0])]))
    for _ in range(STEPS):
        position = calls.step()
    calls.write('orbit.script', position, STEPS)


if __name__ == '__main__':
    main()
