"""A script as it is drawn: the peer answers each call at once, so that the next can fit."""
import collections
import random
import struct
import subprocess

from program import *

POSITION_BOUND, VELOCITY_BOUND = 2 ** 52, 2 ** 40
TOLERANCE_MOST, LIMIT_MOST, SAMPLE_MOST, ACCEPTED_MOST = 2 ** 20, 8, 2 ** 28, 1000000
U64, I64, U32 = 2 ** 64 - 1, 2 ** 63 - 1, 2 ** 32 - 1
CLOSED, SETTLED, AWAITING, STARTING = STATES = range(4)
ACCEPTING, AGAIN, OPENING = 1, 2, 3  # kinds of answer
PLACES = 9
PART_PLACES = [what + 1 for what in (FIRST_SUM, SECOND_SUM, HELD_POSITION, HELD_VELOCITY,
                                     POSITION, VELOCITY)]
UNSIGNED = [0, 1, 2, 8, 9, 10, TOLERANCE_MOST, TOLERANCE_MOST + 1, ACCEPTED_MOST, 2 ** 32,
            2 ** 63 - 1, 2 ** 63, U64 - 1, U64]
SIGNED = [0, 1, -1, SAMPLE_MOST, SAMPLE_MOST + 1, -SAMPLE_MOST, -SAMPLE_MOST - 1, 2 ** 31, -2 ** 31,
          VELOCITY_BOUND, -VELOCITY_BOUND - 1, POSITION_BOUND, -POSITION_BOUND - 1, 2 ** 53,
          I64, I64 - 1, -I64, -I64 - 1]
PART = [0, 1, PARTS - 1, PARTS, PARTS + 1, 2 * PARTS, 2 ** 31, U32 - 1, U32]


def word(bit_pattern):
    return f'{bit_pattern & U64:016x}'


class Script:
    """The lines drawn so far, and the peer that has answered them."""

    def __init__(self, peer, seed):
        self.rng = random.Random(seed)
        self.peer = subprocess.Popen([str(peer)], stdin=subprocess.PIPE, stdout=subprocess.PIPE)
        self.script, self.written = [], []
        self.met = collections.Counter()  # what the script alone knows that it has met
        self.seen = []  # records that calls have left, each with its present point if known
        self.state, self.present, self.answer, self.record_line = CLOSED, None, None, b''
        self.scale, self.last_sample = 1, None

    # Calls

    def send(self, line):
        """Puts a line into the script and to the peer."""
        self.script.append(line)
        self.peer.stdin.write(line.encode() + b'\n')
        self.peer.stdin.flush()

    def read(self):
        """The next line that the peer writes."""
        self.written.append(self.peer.stdout.readline())
        return self.written[-1]

    def call(self, line):
        """Makes a call and takes note of what it leaves; the answer, none for fill."""
        self.send(line)
        self.answer = None if line.startswith('fill') else answer_in(self.read())
        self.read_record()
        self.note(line)
        return self.answer

    def read_record(self):
        self.record_line = self.read()
        self.state = int(self.record_line[7:8])

    def ask(self, floats):
        """Asks why a correction by the sample would be answered as it would be; the record stays."""
        self.send(why_line(floats))
        return Reason(self.read())

    def save(self):
        """The image of the session, as digits; the record stays."""
        self.send('save')
        return saved_digits(self.read())

    def load(self, digits, present=None):
        """Loads the bytes, which hold a session with that present point if known; whether they were taken."""
        self.send(load_line(digits))
        taken = loaded_number(self.read()) == 0
        self.read_record()
        if taken:
            self.present = present
        return taken

    def note(self, line):
        if self.answer is None:
            self.present = None
        elif self.answer.call == 'open' and self.answer.number == 0:
            numbers = [int(n) * PARTS for n in line.split()[5:11]]
            self.present = list(zip(numbers[:3], numbers[3:]))
        elif self.answer.call == 'run':
            self.present = None if self.answer.points else self.present
        elif self.answer.kind in (ACCEPTING, OPENING):
            newest = self.record()[POINTS] - 1 if self.answer.call in ROUNDS else 0
            self.present = [(self.answer.position(axis, newest), self.answer.velocity(axis, newest))
                            for axis in AXES]
        if self.answer and self.answer.number == 0 and self.rng.random() < 0.2:
            entry = (self.record_line, self.present)
            if len(self.seen) < 20:
                self.seen.append(entry)
            else:
                self.seen[self.rng.randrange(20)] = entry

    def end(self, tail):
        """Ends the script by bytes that may be no calls; its bytes, those the peer wrote, what it met."""
        text = ''.join(line + '\n' for line in self.script).encode()
        rest, _ = self.peer.communicate(tail)
        return text + tail, b''.join(self.written) + rest, self.met

    def record(self):
        return record_fields(self.record_line)

    def fill(self, record):
        self.call(fill_line(record))

    # Numbers

    def near(self, value):
        """The value or one of its neighbours."""
        return value + self.rng.choice((-1, 0, 0, 1))

    def size(self, most):
        """A whole number from 0 to most, small ones as likely as large ones."""
        return min(most, self.rng.getrandbits(self.rng.randint(0, most.bit_length())))

    def signed(self, most):
        return self.rng.choice((-1, 1)) * self.size(most)

    def some_float(self):
        """A float of any kind, as a word."""
        rng = self.rng
        kind = rng.randrange(8)
        if kind == 0:
            return word(rng.getrandbits(64))
        if kind == 1:
            return rng.choice((self.infinity, self.no_number, self.no_number))()
        if kind == 2:  # zeros, tiny ones, the largest finite ones
            edge = rng.choice((0, 1, 2 ** 52 - 1, 2 ** 52, 0x7fe << 52, 0x7ff << 52))
            return word(rng.getrandbits(1) << 63 | max(0, self.near(edge)))
        if kind == 3:  # a power of two and its neighbours
            return word((rng.getrandbits(1) << 63) + self.near(rng.randint(1, 0x7fe) << 52))
        if kind == 4:  # the largest sample and its neighbours
            limit = SAMPLE_MOST + rng.choice((-1.0, -0.5, 0.0, 0.5, 1.0, 1.5, float(SAMPLE_MOST)))
            return self.neighbour(rng.choice((-1, 1)) * limit)
        if kind == 5:  # a tie and its neighbours
            return self.neighbour(self.signed(2 ** 29) + rng.choice((-0.5, 0.5)))
        if kind == 6:
            return bits(float(self.signed(2 ** rng.choice((10, 28, 30, 60)))))
        return self.usable_float()

    def infinity(self):
        """One of both signs."""
        return word(self.rng.getrandbits(1) << 63 | 0x7ff << 52)

    def no_number(self):
        """A NaN of either sign, quiet or signalling, with the least payload, the greatest, a half of one or any."""
        rng = self.rng
        quiet = rng.getrandbits(1)
        half = rng.choice((rng.randrange(1, 2 ** 32), rng.randrange(1, 2 ** 19) << 32))
        payload = rng.choice((1 - quiet, 2 ** 51 - 1, half, rng.randrange(1, 2 ** 51)))
        return word(rng.getrandbits(1) << 63 | 0x7ff << 52 | quiet << 51 | payload)

    def too_large(self):
        """A float that rounds to more ticks than a sample may have; at times hardly, or the largest there is."""
        rng = self.rng
        size = SAMPLE_MOST + rng.choice((0.75, 1.0, 1.5, float(self.size(2 ** 60) + 1)))
        return rng.choice((bits(size), bits(-size), word(0x7fe << 52 | 2 ** 52 - 1),
                           word(0xffe << 52 | 2 ** 52 - 1)))

    def neighbour(self, value):
        pattern = struct.unpack('>Q', struct.pack('>d', value))[0]
        return word(max(0, self.near(pattern)))

    def usable_float(self):
        """A float that no call refuses, of the session's scale."""
        ticks = float(self.rng.randint(-self.scale, self.scale))
        kind = self.rng.randrange(6)
        if kind > 2:
            return bits(ticks)
        if kind == 2:
            return self.neighbour(ticks / 2)
        return bits(ticks - self.rng.random() if ticks > 0 else ticks + self.rng.random())

    def sample(self):
        return [self.usable_float() for _ in AXES]
