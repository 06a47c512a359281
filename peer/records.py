"""Episodes of calls on records that a host has filled."""
from held import held_words
from sessions import *


class Records(Sessions):
    """A script with records filled at random, or from records that calls have left."""

    def some_record(self, states):
        """A record that a call has left in one of the states, with its present point if known."""
        found = [entry for entry in self.seen if int(entry[0][7:8]) in states]
        if found:
            line, present = self.rng.choice(found)
            return record_fields(line), present
        if STARTING in states:
            self.start()
        else:
            self.open()
        if AWAITING in states and self.state == SETTLED:
            self.call('predict')
        return self.record(), self.present

    def nearly_right(self, states=(SETTLED, AWAITING)):
        """Records with one field off."""
        for _ in range(10):
            record, _ = self.some_record(states)
            at = self.rng.choice((self.rng.randrange(FIRST_AXIS), self.rng.randrange(len(record)),
                                  axis_at(self.rng.choice(AXES), self.rng.choice(PART_PLACES))))
            record[at] = self.changed(record, at)
            if self.rng.random() < 0.7:
                self.hold(record)
            self.fill(record)
            self.fitting_call()

    def hold(self, record):
        """Makes the held sums those that the record's state, points and samples call for."""
        for axis in AXES:
            samples = record[axis_at(axis, SAMPLES):axis_at(axis, POSITION)]
            words = held_words(record[POINTS], samples)
            if record[STATE] not in (SETTLED, AWAITING):
                words = [0] * 4
            if max(map(abs, words)) <= I64:
                record[axis_at(axis, HELD_POSITION):axis_at(axis, SAMPLES)] = words

    def changed(self, record, at):
        """Another value for the field."""
        rng, old = self.rng, record[at]
        if at == STATE:
            return rng.choice(STATES)
        if at < FIRST_AXIS:
            beyond = (TOLERANCE_MOST, TOLERANCE_MOST + 1)
            edges = {POINTS: (0, 1, 9, 10, max(0, old - 2), old + 2),
                     POSITION_TOLERANCE: beyond, VELOCITY_TOLERANCE: beyond,
                     LIMIT: (0, 1, 8, 9, record[CORRECTIONS], record[CORRECTIONS] + 1),
                     ACCEPTED: (ACCEPTED_MOST - 1, ACCEPTED_MOST, ACCEPTED_MOST + 1),
                     CORRECTIONS: (0, 1, max(0, record[LIMIT] - 1), record[LIMIT])}
            return min(U64, rng.choice((max(0, old - 1), old + 1, self.wider(old), U64,
                                        rng.choice(UNSIGNED), *edges[at])))
        place = (at - FIRST_AXIS) % AXIS_LENGTH
        if SAMPLES <= place < POSITION and rng.random() < 0.7:
            if place - SAMPLES >= record[POINTS]:
                return rng.choice((1, -1, self.signed(SAMPLE_MOST)))
            return rng.choice((-1, 1)) * self.near(SAMPLE_MOST)
        if place in PART_PLACES:
            return rng.choice(((old + 1) % PARTS, (old - 1) % PARTS, min(U32, old + PARTS),
                               PARTS, rng.choice(PART), rng.randrange(PARTS)))
        moved = old + rng.choice((-1, 1)) * rng.choice((1, 1, 2 ** 32, self.size(POSITION_BOUND)))
        return max(-I64 - 1, min(I64, rng.choice((moved, moved, -old, rng.choice(SIGNED)))))

    def move(self, record, axis, what, by):
        """Adds parts to an exact value of a record, if the result has a whole of 64 bits."""
        at = axis_at(axis, what)
        number = record[at] * PARTS + record[at + 1] + by
        if abs(number // PARTS) < I64:
            record[at], record[at + 1] = divmod(number, PARTS)

    def shift(self, record, axis, position, velocity):
        """Moves every point of the axis by so many parts, later ones also by the velocity's."""
        self.move(record, axis, FIRST_SUM, velocity)
        self.move(record, axis, SECOND_SUM, position + velocity)
        if record[STATE] == AWAITING:
            self.move(record, axis, POSITION, position + velocity)
            self.move(record, axis, VELOCITY, velocity)

    def bound_parts(self, bound):
        """A bound in parts, or just beside it."""
        return (self.rng.choice((-bound, bound)) * PARTS
                + self.rng.choice((-PARTS, -1, -1, 0, 0, 1, PARTS)))

    def moved_to_bounds(self):
        """Records moved so that a present, predicted or corrected value lies at a bound."""
        for _ in range(5):
            record, present = self.some_record((SETTLED, AWAITING))
            line = 'predict' if record[STATE] == SETTLED else correct_line(self.sample())
            axis = self.rng.choice(AXES)
            if present is None or self.rng.random() < 0.6:
                self.fill(record)
                answer = self.call(line)
                if answer.number != 0:
                    continue
                found = (answer.position(axis), answer.velocity(axis))
            else:
                found = present[axis]
            if self.rng.random() < 0.5:
                self.shift(record, axis, self.bound_parts(POSITION_BOUND) - found[0], 0)
            else:
                by = self.bound_parts(VELOCITY_BOUND) - found[1]
                self.shift(record, axis, -by if self.rng.random() < 0.5 else 0, by)
            self.at_other_limits(record)
            self.fill(record)
            self.call(line)
            self.fitting_call()

    def at_other_limits(self, record):
        """At times also puts the record where another refusal is near."""
        if self.rng.random() < 0.2 and record[STATE] == SETTLED:
            record[ACCEPTED] = ACCEPTED_MOST
        elif self.rng.random() < 0.2:
            record[LIMIT] = record[CORRECTIONS] + 1
            record[TOLERANCES] = self.rng.choice(([0, 0], [0, TOLERANCE_MOST], [TOLERANCE_MOST, 0]))

    def estimate_at_bounds(self):
        """Records after a correction whose estimate lies at a bound."""
        record, _ = self.some_record((AWAITING,))
        record[LIMIT], record[CORRECTIONS] = LIMIT_MOST, self.rng.randint(1, LIMIT_MOST - 1)
        for _ in range(5):
            moved = list(record)
            what, bound = self.rng.choice(((POSITION, POSITION_BOUND), (VELOCITY, VELOCITY_BOUND)))
            at = axis_at(self.rng.choice(AXES), what)
            moved[at:at + 2] = divmod(self.bound_parts(bound), PARTS)
            self.fill(moved)
            self.fitting_call()

    def at_tolerance(self):
        """Corrections of which one change is its tolerance or a part beside it."""
        rng = self.rng
        record, _ = self.some_record((AWAITING,))
        record[LIMIT], record[CORRECTIONS] = LIMIT_MOST, rng.randint(1, LIMIT_MOST - 2)
        sample = self.last_sample = self.sample()
        self.fill(record)
        answer = self.call(correct_line(sample))
        if answer.number != 0:
            return
        for _ in range(5):
            record[TOLERANCES] = [rng.choice((old, 0, self.size(TOLERANCE_MOST), TOLERANCE_MOST))
                                  for old in record[TOLERANCES]]
            record[LIMIT] = rng.choice((LIMIT_MOST, record[CORRECTIONS] + 1,
                                        record[CORRECTIONS] + 2))
            odd = rng.choice(AXES), rng.randrange(2)
            for axis in AXES:
                for kind, what in enumerate((POSITION, VELOCITY)):
                    edge = record[POSITION_TOLERANCE + kind] * PARTS
                    apart = edge - rng.choice((0, 0, self.size(edge)))
                    if (axis, kind) == odd:
                        apart = edge + rng.choice((-PARTS, -1, 0, 0, 1, 1, PARTS,
                                                   self.size(2 ** (80 - 12 * kind))))
                    found = answer.values[2 * axis + kind]
                    at = axis_at(axis, what)
                    record[at:at + 2] = divmod(found + rng.choice((-apart, apart)), PARTS)
            self.fill(record)
            self.call(correct_line(sample))

    def at_last_point(self):
        """Sessions at and about the largest number of accepted points."""
        record, _ = self.some_record((SETTLED, AWAITING))
        record[ACCEPTED] = ACCEPTED_MOST - self.rng.choice((-1, 0, 1, 1, 2))
        self.fill(record)
        for _ in range(8):
            self.fitting_call()

    def random_record(self, state):
        """A record with every field in its range, whether or not they fit together."""
        rng = self.rng
        if state == STARTING:
            return self.random_start()
        points, limit = rng.randint(1, PLACES), rng.randint(1, LIMIT_MOST)
        waits = state == AWAITING
        record = [state, points, *self.tolerances(), limit,
                  rng.choice((self.size(ACCEPTED_MOST), ACCEPTED_MOST)) if not waits
                  else self.size(ACCEPTED_MOST - 1),
                  rng.randrange(limit) if waits else 0]
        scale = max(1, self.size(SAMPLE_MOST))
        for _ in AXES:
            record += [self.signed(VELOCITY_BOUND - 1), rng.randrange(PARTS),
                       self.signed(POSITION_BOUND - 1), rng.randrange(PARTS)]
            samples = self.random_samples(points, scale)
            record += held_words(points, samples) + samples
            for bound in (POSITION_BOUND, VELOCITY_BOUND):
                record += [self.signed(bound - 1), rng.randrange(PARTS)] if waits else [0, 0]
        return record

    def random_start(self):
        """A starting record with every field in its range."""
        rng = self.rng
        points, limit = rng.choice(SIZES_WITH_CENTRE), rng.randint(1, LIMIT_MOST)
        record = [STARTING, points, *self.tolerances(), limit, 0, rng.randrange(limit)]
        scale = max(1, self.size(SAMPLE_MOST))
        for _ in AXES:
            record += [0] * SAMPLES + self.random_samples(points, scale)
            record += [self.signed(POSITION_BOUND - 1), 0, self.signed(VELOCITY_BOUND - 1), 0]
        return record

    def random_samples(self, points, scale):
        return [self.rng.randint(-scale, scale) if i < points else 0 for i in range(PLACES)]

    def random_fills(self):
        """Records filled at random, within their ranges or not at all."""
        rng = self.rng
        for _ in range(5):
            record = self.random_record(rng.choice((SETTLED, AWAITING, STARTING)))
            kind = rng.randrange(3)
            if kind == 0:
                for _ in range(rng.randint(1, 4)):
                    at = rng.randrange(len(record))
                    record[at] = self.changed(record, at)
                if rng.random() < 0.7:
                    self.hold(record)
            elif kind == 1 and rng.random() < 0.5:
                record = self.wild_record()
            self.fill(record)
            for _ in range(rng.randint(1, 4)):
                self.fitting_call()

    def wild_record(self):
        rng = self.rng

        def number(edges, most, least=0):
            return rng.choice((rng.choice(edges), rng.randint(least, most)))
        record = [rng.choice(STATES)] + [number(UNSIGNED, U64) for _ in range(1, FIRST_AXIS)]
        for _ in AXES:
            exact = [[number(SIGNED, I64, -I64 - 1), number(PART, U32)] for _ in range(6)]
            samples = [number(SIGNED, I64, -I64 - 1) for _ in range(PLACES)]
            record += sum(exact[:4], []) + samples + sum(exact[4:], [])
        return record
