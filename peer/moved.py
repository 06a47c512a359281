"""Episodes of corrections that several values, or a chosen one, give reason to refuse or to ask for again."""
import math

from reasons import coefficients
from starts import *

WHATS = ((POSITION, POSITION_BOUND), (VELOCITY, VELOCITY_BOUND))


class Moved(Starts):
    """A script with corrections whose changes are chosen."""

    def first_correction(self):
        """A record that awaits the first correction of its point; none where it cannot be had."""
        record, _ = self.some_record((AWAITING,))
        if record[CORRECTIONS] != 0:
            self.fill(record)
            self.call('withdraw')
            self.call('predict')
            record = self.record()
        return record if record[STATE] == AWAITING else None

    def first_at_tolerance(self):
        """First corrections of which the change of a chosen kind is about its tolerance."""
        rng = self.rng
        for _ in range(4):
            record = self.first_correction()
            if record is None:
                return
            kind = rng.randrange(2)
            factor = coefficients(record[POINTS])[kind]
            most = max(1, int(TOLERANCE_MOST / factor) // factor.denominator)
            size = rng.choice((factor.denominator * rng.randint(1, most), self.size(2 ** 24)))
            sample = self.with_differences(record, [rng.choice((-size, size, 0, 1)) for _ in AXES])
            edge = min(TOLERANCE_MOST, max(0, int(factor * size) + rng.choice((-1, 0, 0, 1))))
            record[TOLERANCES] = TOLERANCE_MOST, rng.choice((0, TOLERANCE_MOST, edge))
            record[POSITION_TOLERANCE + kind] = edge
            record[LIMIT] = rng.choice((1, 1, 2, LIMIT_MOST))
            self.fill(record)
            self.call(correct_line(sample))

    def with_differences(self, record, wanted):
        """The sample whose difference of order p on each axis is the wanted one, if it is small enough."""
        points = record[POINTS]
        ticks = []
        for axis in AXES:
            held = record[axis_at(axis, SAMPLES):axis_at(axis, SAMPLES) + points]
            ticks.append(wanted[axis] - sum((-1) ** back * math.comb(points, back) * tick
                                            for back, tick in enumerate(held, 1)))
        return self.words(ticks)

    def corrected(self, record, sample):
        """The point that the correction gives on the record, with every tolerance; none where it is refused."""
        tried = list(record)
        tried[TOLERANCES] = TOLERANCE_MOST, TOLERANCE_MOST
        self.fill(tried)
        answer = self.call(correct_line(sample))
        return answer if answer.number == 0 else None

    def several_over_tolerance(self):
        """Later corrections of which each value moves by its tolerance or less, or by more."""
        rng = self.rng
        record, _ = self.some_record((AWAITING,))
        record[LIMIT], record[CORRECTIONS] = LIMIT_MOST, rng.randint(1, LIMIT_MOST - 2)
        sample = self.last_sample = self.sample()
        answer = self.corrected(record, sample)
        if answer is None:
            return
        for _ in range(4):
            record[TOLERANCES] = [rng.choice((0, self.size(TOLERANCE_MOST))) for _ in range(2)]
            record[LIMIT] = record[CORRECTIONS] + rng.choice((1, 2))
            often = rng.choice((0.1, 0.3, 0.6))
            for axis in AXES:
                for kind, (what, _) in enumerate(WHATS):
                    apart = record[POSITION_TOLERANCE + kind] * PARTS
                    if rng.random() < often:
                        apart += rng.choice((1, 1, PARTS, self.size(2 ** 50)))
                    at = axis_at(axis, what)
                    found = answer.values[2 * axis + kind]
                    record[at:at + 2] = divmod(found + rng.choice((-apart, apart)), PARTS)
            self.fill(record)
            self.call(correct_line(sample))

    def out_at_some_values(self):
        """Corrections that lead some values out of range, from an estimate within it."""
        rng = self.rng
        for _ in range(6):
            record, _ = self.some_record((AWAITING,))
            sample = self.sample()
            answer = self.corrected(record, sample)
            if answer is None:
                continue
            for axis, kinds in self.led_out():
                self.lead_out(record, axis, kinds, (answer.position(axis), answer.velocity(axis)))
            if rng.random() < 0.5:
                record[LIMIT], record[TOLERANCES] = record[CORRECTIONS] + 1, (0, 0)
            self.fill(record)
            self.call(correct_line(sample))

    def led_out(self):
        """Some axes, each with one kind or both; at times the velocity of one alone, or with the position of a later one."""
        rng = self.rng
        if rng.random() < 0.4:
            return [(rng.choice(AXES), (1,))]
        if rng.random() < 0.4:
            early, late = sorted(rng.sample(AXES, 2))
            return (early, (1,)), (late, (0,))
        return [(axis, rng.choice(((0,), (1,), (0, 1)))) for axis in rng.sample(AXES, rng.randint(1, 3))]

    def lead_out(self, record, axis, kinds, found):
        """Moves an axis so that the correction takes its position, its velocity or both to a bound or past it."""
        rng = self.rng
        at = axis_at(axis, POSITION)
        side = 1 if found[0] >= record[at] * PARTS + record[at + 1] else -1
        # Toward that side the point before lies within the range.
        moves = [0, side * abs(found[1]) - found[1]]
        for kind in kinds:
            edge = WHATS[kind][1] * PARTS + rng.choice((-1, 0, 0, 1, 1, PARTS))
            moves[kind] = side * edge - found[kind]
        # A move of the velocity moves the position after a step as much.
        self.shift(record, axis, moves[0] - moves[1], moves[1])

    def several_floats_at_fault(self):
        """Corrections of records in every state by samples with faults on some axes."""
        for state in self.rng.sample(STATES, 2) + [AWAITING, AWAITING]:
            self.fill(self.some_record((state,))[0] if state != CLOSED else [0] * RECORD_LENGTH)
            for _ in range(3):
                self.call(correct_line(self.faulty_sample()))
