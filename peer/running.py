"""Episodes of runs, toward each of their endings."""
from loaded import *

SAMPLES_MOST = 64


class Running(Loaded):
    """A script with runs on its sessions."""

    def run(self, floats, wanted=None):
        """A run with the samples, for some number of points."""
        return self.call(run_line(self.some_wanted(len(floats) // 3) if wanted is None else wanted, floats))

    def some_wanted(self, samples):
        rng = self.rng
        return rng.choice((0, 1, 1, 2, samples, samples + 1, rng.randint(0, samples + 1), U64, rng.choice(UNSIGNED)))

    def run_samples(self, count, again=0.5):
        """So many samples, each the one before it at times, which is how a correction comes to agree."""
        floats = []
        for _ in range(count):
            floats += floats[-3:] if floats and self.rng.random() < again else self.sample()
        return floats

    def some_count(self):
        return self.rng.choice((0, 1, 2, 3, self.rng.randint(1, 12), self.rng.randint(1, 12), SAMPLES_MOST))

    def runs(self):
        """Runs one after another, what they leave awaiting corrected or withdrawn between them."""
        self.open()
        for _ in range(self.rng.randint(3, 10)):
            self.settled_again()
            self.run(self.run_samples(self.some_count(), self.rng.choice((0, 0.5, 0.5, 0.9))))
            if self.rng.random() < 0.2:
                self.any_call()

    def settled_again(self):
        """Leaves a session that can go on, mostly settled."""
        if self.rng.random() < 0.1:
            return
        if self.state == AWAITING:
            self.call('withdraw')
        elif self.state != SETTLED:
            self.open()

    def runs_of_every_number_of_points(self):
        for points in self.rng.sample(range(1, PLACES + 1), PLACES):
            self.open(self.opening(points))
            self.run(self.run_samples(self.rng.randint(2, 12)))

    def runs_refused(self):
        """Runs on records of every state, with slices of every length; some of the settled ones count as closed."""
        rng = self.rng
        for state in (*rng.sample(STATES, len(STATES)), SETTLED, SETTLED):
            record = self.record_of(state)
            if state == SETTLED and rng.random() < 0.4:
                at = rng.randrange(POINTS, len(record))
                record[at] = self.changed(record, at)
            self.fill(record)
            for _ in range(rng.randint(1, 3)):
                floats = self.run_samples(rng.randint(0, 4)) + self.sample()[:rng.choice((0, 1, 2))]
                self.run(floats)

    def runs_with_floats_at_fault(self):
        """Runs with a sample that is refused, at once or after others, and samples behind it."""
        rng = self.rng
        for _ in range(4):
            self.fill(self.wide(self.some_record((SETTLED,))[0]))
            floats = self.run_samples(rng.randint(1, 6))
            at = 3 * rng.randrange(len(floats) // 3)
            refused = self.sample()
            if rng.random() < 0.5:
                self.put_faults(refused)
            else:
                refused[rng.choice(AXES)] = rng.choice((self.no_number, self.infinity, self.too_large))()
            floats[at:at + 3] = refused
            self.run(floats, rng.choice((U64, None, None)))

    def wide(self, record):
        """The record with tolerances and a limit that let most points pass, at times."""
        if self.rng.random() < 0.6:
            record[TOLERANCES], record[LIMIT] = (TOLERANCE_MOST, TOLERANCE_MOST), self.rng.randint(2, LIMIT_MOST)
        return record

    def allowance_used_up(self):
        """Runs of which each point takes as many corrections as the limit, the last one more than it has."""
        rng = self.rng
        o = self.opening()
        limit = o[2] = rng.choice((1, 2, 2, 3, LIMIT_MOST))
        o[1] = [0, 0]
        self.scale = max(self.scale, 2 ** 12)
        self.open(o)
        points = rng.randint(0, min(5, SAMPLES_MOST // limit - 1)) if limit > 1 else 0
        floats = []
        for _ in range(points):
            floats += self.run_samples(limit - 1, 0)
            floats += floats[-3:]
        floats += self.run_samples(limit + rng.choice((-1, 0, 1, 2)), 0)
        self.run(floats[:3 * SAMPLES_MOST], rng.choice((points, points + 1, U64)))

    def runs_out_of_range(self):
        """Runs that cross a bound, by a prediction or by a correction."""
        rng = self.rng
        o = self.headed_out(self.opening())
        o[1] = [TOLERANCE_MOST, TOLERANCE_MOST]
        self.open(o)
        self.run(self.run_samples(rng.randint(1, 12)), U64)
        self.run_led_out()

    def run_led_out(self):
        """A run of which one correction is out of range, the first or one behind a settled point."""
        record = self.first_correction()
        sample = self.sample()
        answer = record and self.corrected(record, sample)
        if not answer:
            return
        for axis, kinds in self.led_out():
            self.lead_out(record, axis, kinds, (answer.position(axis), answer.velocity(axis)))
        self.fill(record)
        self.call('withdraw')
        self.run(sample + self.run_samples(2), self.rng.choice((1, U64)))

    def runs_from_rest_to_the_bound(self):
        """One back point, at rest one tick from the bound: settled points, then a sample that leads out or past it."""
        rng = self.rng
        o, zero, axis = self.opening(1), [bits(0.0)] * 3, rng.choice(AXES)
        side = rng.choice((-1, 1))
        o[1], o[4], o[5] = [TOLERANCE_MOST, TOLERANCE_MOST], [0, 0, 0], list(zero)
        o[3][axis] = side * (POSITION_BOUND - 1)
        self.open(o)
        out = list(zero)
        out[axis] = bits(float(side * rng.choice((11, 12, 13, 24, 1000))))
        self.run(zero * rng.randint(0, 4) + out + zero * rng.randint(0, 2), U64)

    def runs_to_the_last_point(self):
        """Runs at and about the largest number of accepted points."""
        rng = self.rng
        for _ in range(3):
            record = self.wide(self.some_record((SETTLED,))[0])
            record[ACCEPTED] = ACCEPTED_MOST - rng.choice((0, 1, 1, 2))
            self.fill(record)
            self.run(self.run_samples(rng.randint(1, 8)), rng.choice((1, 2, U64, U64)))
