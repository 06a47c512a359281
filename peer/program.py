"""Building the peer, running a program on a script of calls, and reading the lines it writes."""
import argparse
import os
import pathlib
import re
import struct
import subprocess

HERE = pathlib.Path(__file__).resolve().parent
TOP = HERE.parent
OUT = TOP / 'target' / 'peer'
REPLAY = TOP / 'programs' / 'replay'
SOURCES = ('rules.h', 'shared.h', 'host.h', 'rules.c', 'rounds.c', 'reasons.c', 'runs.c', 'host.c', 'peer.c')

PARTS = 159667200
AXES = range(3)
(STATE, POINTS, POSITION_TOLERANCE, VELOCITY_TOLERANCE, LIMIT, ACCEPTED,
 CORRECTIONS) = range(7)
TOLERANCES = slice(POSITION_TOLERANCE, VELOCITY_TOLERANCE + 1)
# Where the 21 numbers of an axis begin, and what stands where among them.
FIRST_AXIS, AXIS_LENGTH = 7, 21
RECORD_LENGTH = FIRST_AXIS + 3 * AXIS_LENGTH
FIRST_SUM, SECOND_SUM, HELD_POSITION, HELD_VELOCITY, SAMPLES, POSITION, VELOCITY = (
    0, 2, 4, 6, 8, 17, 19)


class Arguments(argparse.ArgumentParser):
    """Arguments whose faults are told in one line."""

    def error(self, message):
        self.exit(2, f'{self.prog}: {message}\n')


def is_built(program):
    """Whether the program of the library that a name in programs/ stands for is there."""
    return (TOP / 'crates' / program.name / 'out' / program.name).is_file()


def program_path(text):
    """The path of a program that can be run."""
    path = pathlib.Path(os.path.abspath(text))
    if not os.access(path, os.X_OK) or not path.is_file():
        raise argparse.ArgumentTypeError(f'{text} is no program')
    return path


def build(folder=OUT, sources=HERE, warnings=('-Wall', '-Wextra', '-Werror')):
    """Compiles the peer into the folder, unless that is done; the path of the program."""
    program, new = folder / 'peer', folder / f'peer.{os.getpid()}'
    files = [sources / name for name in SOURCES]
    if not program.exists() or program.stat().st_mtime < max(f.stat().st_mtime for f in files):
        folder.mkdir(parents=True, exist_ok=True)
        subprocess.run(['gcc', '-O2', '-std=c11', *warnings, '-ffp-contract=off', '-o', new,
                        *(f for f in files if f.suffix == '.c')], check=True)
        new.rename(program)
    return program


def run(program, script, seconds=120):
    """What the program writes for the script, with a last line added if it does not end well."""
    try:
        done = subprocess.run([str(program)], input=script, stdout=subprocess.PIPE,
                              timeout=seconds)
    except subprocess.TimeoutExpired as late:
        return (late.stdout or b'') + b'(did not end)\n'
    if done.returncode < 0:
        return done.stdout + b'(ended by signal %d)\n' % -done.returncode
    return done.stdout


def lines_of(text):
    """The lines of a script or an output, each with its newline, the last perhaps without."""
    return re.findall(rb'[^\n]*\n|[^\n]+', text)


def bits(value):
    """A float as a word of a script."""
    return struct.pack('>d', value).hex()


def open_line(points, tolerances, limit, positions, velocities, floats, call='open'):
    """A line that opens; tolerances of position and velocity, the floats are words."""
    return ' '.join(map(str, [call, points, *tolerances, limit,
                              *positions, *velocities, *floats]))


def start_line(*opening):
    """A line of a first round, from the parts of one that opens."""
    return open_line(*opening, call='start')


def correct_line(floats):
    return ' '.join(['correct', *floats])


def why_line(floats):
    """A line that asks why a correction would be answered as it would be."""
    return ' '.join(['why', *floats])


def refine_line(floats):
    """A line of a later round."""
    return ' '.join(['refine', *floats])


def run_line(wanted, floats):
    """A line of a run, for so many points."""
    return ' '.join(['run', str(wanted), *floats])


def fill_line(record):
    return ' '.join(map(str, ['fill', *record]))


def load_line(digits):
    return f'load {digits}'


def saved_digits(line):
    """The image of an answer to save, as its digits."""
    return line.split()[2].decode()


def loaded_number(line):
    """The number of an answer to load."""
    return int(line.split()[1])


def record_fields(line):
    """The numbers of a record line."""
    return [int(word) for word in line.split()[1:]]


def axis_at(axis, what):
    """Where a number of an axis stands in a record."""
    return FIRST_AXIS + AXIS_LENGTH * axis + what


def estimate(record):
    """The values of the estimate in the fields of a record, x, vx, y, vy, z, vz, in parts."""
    places = [axis_at(axis, what) for axis in AXES for what in (POSITION, VELOCITY)]
    return [record[at] * PARTS + record[at + 1] for at in places]


ROUNDS = ('start', 'refine')


class Answer:
    """An answer line: number, kind, and values in parts with the bits of their reports."""

    def __init__(self, line):
        words = line.decode().split()
        self.call, self.number, self.kind = words[0], int(words[1]), int(words[2])
        wholes, parts, self.reports = words[3::3], words[4::3], words[5::3]
        self.values = [int(w) * PARTS + int(p) for w, p in zip(wholes, parts)]
        self.exact = [(int(w), int(p)) for w, p in zip(wholes, parts)]

    def position(self, axis, point=0):
        """Of a step, or of one of a round's points, oldest first."""
        return self.values[self.at(axis, point)]

    def velocity(self, axis, point=0):
        return self.values[self.at(axis, point) + 1]

    def at(self, axis, point):
        return 2 * axis + (6 * point + 2 if self.call in ROUNDS else 0)

    def changes(self):
        """The largest change of position and that of velocity."""
        return self.values[:2] if self.call in ROUNDS else self.values[-2:]


class RunAnswer:
    """An answer to a run: number, points settled, samples used."""

    kind = 0

    def __init__(self, line):
        self.call, *numbers = line.decode().split()
        self.number, self.points, self.used = map(int, numbers)


def answer_in(line):
    """The answer of any call that changes a session."""
    return RunAnswer(line) if line.startswith(b'run') else Answer(line)


class Reason:
    """An answer to `why`: number, kind, the value named, its change in parts, its tolerance, the differences if given."""

    def __init__(self, line):
        words = line.decode().split()
        (self.number, self.kind, self.value, whole, part), self.report = map(int, words[1:6]), words[6]
        self.change = whole * PARTS + part
        self.tolerance, given, *differences = map(int, words[7:])
        self.differences = differences if given else None
