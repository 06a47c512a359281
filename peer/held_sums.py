"""Episodes of records that are right but for their held sums."""
from held import KINDS, columns, exact_words, older_parts, weighted
from records import *
from tally import FOR_HELD, VALUES


class HeldSums(Records):
    """A script with records whose held sums are untrue, each beside the true one."""

    def untrue_held(self):
        """Settled and awaiting records with one fault in their held sums."""
        for _ in range(6):
            record, _ = self.some_record((SETTLED, AWAITING))
            if self.rng.random() < 0.2:
                record = self.random_record(SETTLED)
            self.beside(record, self.fitting_line(record), *self.untrue(record))

    def held_while_starting(self):
        """Records between rounds with a held sum that is not zero."""
        for _ in range(4):
            record, _ = self.some_record((STARTING,))
            self.beside(record, self.fitting_line(record), *self.not_zero(record))

    def held_before_accepted(self):
        """Records that an accepted point has left, with the held sums from before it."""
        before, _ = self.some_record((AWAITING,))
        before[TOLERANCES] = TOLERANCE_MOST, TOLERANCE_MOST
        self.fill(before)
        self.call(correct_line(self.sample()))
        if self.answer.kind != ACCEPTING:
            return
        for _ in range(3):
            record = self.record()
            untrue = self.with_held_of(before, record)
            self.beside(record, self.fitting_line(record), untrue, 'before the accepted point')
            self.fill(record)
            if self.state == SETTLED:
                self.call('predict')

    def beside(self, record, line, untrue, label):
        """A call on a record and, where it fits, on the untrue one, which it has to refuse and leave."""
        self.fill(record)
        if untrue == record or self.call(line).number == 7:
            return
        self.fill(untrue)
        if self.call(line).number == 7 and self.record() == untrue:
            self.met[line.split()[0], FOR_HELD, label] += 1

    def fitting_line(self, record):
        """A call that fits the state of the record."""
        if record[STATE] == SETTLED:
            return 'predict'
        if record[STATE] == STARTING:
            return refine_line([self.usable_float() for _ in range(3 * record[POINTS])])
        return self.rng.choice(('withdraw', correct_line(self.sample())))

    # Faults: each gives a record and its name

    def untrue(self, record):
        """One held sum off by a part or in another form, or those of some axes wrongly made."""
        rng, result = self.rng, list(record)
        axis, kind = rng.choice(AXES), rng.choice(KINDS)
        what = (HELD_POSITION, HELD_VELOCITY)[kind]
        if rng.random() < 0.5:
            self.move(result, axis, what, rng.choice((-1, 1)))
            return result, VALUES[2 * axis + kind]
        if rng.random() < 0.3:
            at = axis_at(axis, what)
            ticks = rng.choice((1, rng.randint(1, (U32 - record[at + 1]) // PARTS)))
            result[at:at + 2] = record[at] - ticks, record[at + 1] + ticks * PARTS
            return result, 'not normal'
        label, fault = rng.choice(list(FAULTS.items()))
        for axis in self.some_axes():
            begin = axis_at(axis, 0)
            values = fault(record[POINTS], record[begin:begin + AXIS_LENGTH])
            result[begin + HELD_POSITION:begin + SAMPLES] = exact_words(values)
        return result, label

    def not_zero(self, record):
        """Between rounds: one held sum not zero, or all those of the samples."""
        rng, result = self.rng, list(record)
        if rng.random() < 0.3:
            result[STATE] = SETTLED
            self.hold(result)
            result[STATE] = STARTING
            return result, 'of the samples'
        axis, kind = rng.choice(AXES), rng.choice(KINDS)
        at = axis_at(axis, (HELD_POSITION, HELD_VELOCITY)[kind])
        result[at:at + 2] = rng.choice(((0, 1), (-1, PARTS - 1), (1, 0), (-1, 0), (-1, PARTS),
                                        (self.signed(SAMPLE_MOST), rng.randrange(PARTS))))
        return result, VALUES[2 * axis + kind]

    def with_held_of(self, other, record):
        """The record with the held sums of another."""
        result = list(record)
        for axis in AXES:
            held = slice(axis_at(axis, HELD_POSITION), axis_at(axis, SAMPLES))
            result[held] = other[held]
        return result


# Faults of an axis: from the points and the axis's numbers its two held sums in parts

def samples_of(axis):
    return axis[SAMPLES:POSITION]


def exchanged(points, axis):
    return older_parts(points, samples_of(axis))[::-1]


def samples_one_off(points, axis):
    return older_parts(points, samples_of(axis)[1:])


def columns_one_off(points, axis):
    return [weighted(columns(points)[kind][:-1], samples_of(axis)) for kind in KINDS]


def with_the_oldest(points, axis):
    """The oldest under the last column too."""
    return [value + columns(points)[kind][-1] * samples_of(axis)[points - 1]
            for kind, value in enumerate(older_parts(points, samples_of(axis)))]


def with_the_first_sum(points, axis):
    position, velocity = older_parts(points, samples_of(axis))
    return [position, velocity + axis[FIRST_SUM] * PARTS + axis[FIRST_SUM + 1]]


def nothing(points, axis):
    return [0, 0]


FAULTS = {'exchanged': exchanged, 'samples one off': samples_one_off,
          'columns one off': columns_one_off, 'with the oldest': with_the_oldest,
          'with S1': with_the_first_sum, 'zero': nothing}
