#!/usr/bin/env python3
"""Writes start.script: the orbit of make_orbit.py from an epoch, and a short start, its calls made on a program named as the argument."""
import sys

sys.dont_write_bytecode = True
from make_orbit import POINTS, Calls, first_line, placed, pull, words

STEPS = 20


def main():
    calls = Calls()
    # At first every point has the epoch's sample.
    kind, reports = calls.call(first_line('start', pull(placed(0)[0]) * POINTS))
    while kind != 3:
        points = [reports[2 + 6 * k:8 + 6 * k:2] for k in range(POINTS)]
        kind, reports = calls.call('refine ' + words(x for point in points for x in pull(point)))
    for _ in range(STEPS):
        position = calls.step()
    # The oldest of three points moves by 3/2, which agrees, and its velocity by 5, which does not.
    calls.call('start 3 2 4 2 1000 0 0 10 0 0 ' + words([0.0] * 9))
    moved = 'refine ' + words([12.0] + [0.0] * 8)
    calls.call(moved)
    calls.call(moved)
    calls.call('predict')
    calls.write('start.script', position, POINTS // 2 + STEPS)


main()
