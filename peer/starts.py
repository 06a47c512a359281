"""Episodes of first and later rounds, and of records that a host has filled between them."""
from held_sums import *


class Starts(HeldSums):
    """A script with sessions started from an epoch."""

    def rounds(self, most=LIMIT_MOST):
        """Later rounds until the session is no longer starting."""
        for _ in range(most):
            if self.state == STARTING:
                self.refine()

    def every_start(self):
        """Starts of every number of points, those without a centre too."""
        for points in self.rng.sample(range(1, PLACES + 1), PLACES):
            self.start(self.opening(points))
            self.rounds()
            if self.state == SETTLED:
                self.steps(self.rng.randint(0, 8), 0.95)

    def host(self):
        """A host that takes its samples from the points of the round before, and steps on."""
        o = self.centred()
        self.scale = SAMPLE_MOST - 1
        o[1][0] = self.rng.choice((0, 1, 1, self.size(2 ** 10), o[1][0]))
        o[1][1] = self.rng.choice((o[1][0], TOLERANCE_MOST, TOLERANCE_MOST, o[1][1]))
        o[2] = LIMIT_MOST
        o[3] = [self.signed(2 ** self.rng.randint(4, 33)) for _ in AXES]
        o[4] = [self.signed(2 ** self.rng.randint(4, 30)) for _ in AXES]
        self.start(o)
        while self.state == STARTING:
            self.call(refine_line(self.pulled()))
        if self.state == SETTLED:
            self.steps(self.rng.randint(2, 20), 0.95)

    def to_the_limit(self):
        """Later rounds of new samples, with every limit and with calls that do not fit between."""
        for limit in self.rng.sample(range(1, LIMIT_MOST + 1), 4):
            o = self.centred()
            o[1] = self.rng.choice(([0, 0], [0, TOLERANCE_MOST], [TOLERANCE_MOST, 0], o[1]))
            o[2] = limit
            self.start(o)
            while self.state == STARTING:
                if self.rng.random() < 0.2:
                    self.any_call()
                elif self.rng.random() < 0.1:
                    self.call(refine_line(self.near_held()))
                else:
                    self.call(refine_line([self.usable_float() for _ in self.held()]))

    def while_starting(self):
        """Calls that do not fit a starting record; a round that agrees afterwards opens it."""
        self.start()
        if self.rng.random() < 0.5:
            # With samples of zero only its state tells a record between rounds from an awaiting one.
            self.call(refine_line([bits(0.0) for _ in self.held()]))
        words = self.words(self.held())
        self.call(self.rng.choice(('predict', 'withdraw', correct_line(self.sample()))))
        for _ in range(self.rng.randint(0, 4)):
            if self.rng.random() < 0.5:
                self.any_call()
            else:
                self.spoilt_round()
        self.call(refine_line(words))
        self.steps(self.rng.randint(0, 4), 0.95)

    def later_in_every_state(self):
        """Later rounds on records of every state, as calls or the host left them."""
        for state in self.rng.sample(STATES, len(STATES)):
            if state == CLOSED:
                self.call(open_line(0, (0, 0), 1, [0] * 3, [0] * 3, []))
            elif self.rng.random() < 0.7:
                self.fill(self.some_record((state,))[0])
            else:
                self.fill(self.random_record(state))
            self.rng.choice((self.refine, self.spoilt_round))()

    def refused_starts(self):
        """First rounds with one fault or some, over whatever session there is."""
        for _ in range(10):
            self.start(self.faulty(self.centred()))
            if self.rng.random() < 0.3:
                self.fitting_call()

    def refused_rounds(self):
        """Later rounds with a fault; then one without."""
        self.start()
        for _ in range(self.rng.randint(1, 6)):
            self.spoilt_round()
        self.rounds(2)

    def starts_headed_out(self):
        """First rounds near a bound whose outer points lie beyond it, at times with another fault."""
        for _ in range(5):
            o = self.headed_out(self.centred())
            if self.rng.random() < 0.5:
                o[5] = [bits(float(self.rng.randint(-1, 1))) for _ in o[5]]
            if self.rng.random() < 0.3:
                self.spoilt_floats(o[5])
            self.start(o)
            self.rounds(self.rng.randint(0, 2))

    def epochs_at_bounds(self):
        """Epochs at and beside the ends of their range."""
        for _ in range(5):
            o = self.centred()
            if self.rng.random() < 0.7:
                o[5] = [bits(0.0) for _ in o[5]]
            o[3][self.rng.randrange(3)] = self.at_bound(POSITION_BOUND)
            axis = self.rng.randrange(3)
            o[4] = [0 if self.rng.random() < 0.7 else v for v in o[4]]
            if self.rng.random() < 0.5:
                o[4][axis] = self.at_bound(VELOCITY_BOUND)
            self.start(o)
            if self.state == STARTING:
                self.fitting_call()

    def points_at_bounds(self):
        """Rounds moved so that a point lies at a bound or within a tick of it."""
        for _ in range(4):
            o = self.centred()
            if self.rng.random() < 0.5:
                o[4] = [self.signed(2 ** 8) for _ in AXES]
            if self.rng.random() < 0.3:
                # Even samples that do not change give points of whole ticks.
                o[5] = self.words([2 * self.signed(self.scale // 2) for _ in AXES]) * o[0]
            answer = self.start(o)
            axis, point = self.rng.choice(AXES), self.rng.randrange(o[0])
            what, bound, found = self.rng.choice((
                (3, POSITION_BOUND, answer.position(axis, point)),
                (4, VELOCITY_BOUND, answer.velocity(axis, point))))
            self.moved_start(o, what, axis, self.bound_parts(bound) - found)

    def moved_start(self, o, what, axis, by):
        """The first round moved by parts; the same as a later round, and of a filled record."""
        record = self.record()
        moved = max(-I64 - 1, min(I64, o[what][axis] + by // PARTS + self.rng.randint(0, 1)))
        o[what][axis] = moved
        record[axis_at(axis, POSITION if what == 3 else VELOCITY)] = moved
        self.start(o)
        self.fill(record)
        self.fitting_call()
        if self.rng.random() < 0.5:
            # From a straight line, whose points lie elsewhere, to the samples of that round.
            record[TOLERANCES], record[LIMIT] = self.rng.choice((([0, 0], 1),
                                                                 (record[TOLERANCES], 8)))
            record[CORRECTIONS] = 0
            for a in AXES:
                record[axis_at(a, SAMPLES):axis_at(a, POSITION)] = [0] * PLACES
            self.fill(record)
            self.call(refine_line(self.spoilt_floats(o[5]) if self.rng.random() < 0.5 else o[5]))

    def rounds_at_tolerance(self):
        """Later rounds whose largest move of a kind is its tolerance, or close to it."""
        rng = self.rng
        o = self.centred()
        self.scale = min(self.scale, 2 ** 26)
        o[1:3] = [0, 0], LIMIT_MOST
        o[5] = [self.usable_float() for _ in o[5]]
        self.start(o)
        record, ticks = self.record(), self.held()
        for _ in range(4):
            words = self.shifted(ticks)
            self.fill(record)
            answer = self.call(refine_line(words))
            if answer.number != 0:
                continue
            o[1] = [max(0, min(TOLERANCE_MOST, change // PARTS + rng.choice((-1, 0, 0, 0, 1))))
                    for change in answer.changes()]
            if rng.random() < 0.7:
                o[1][rng.randrange(2)] = TOLERANCE_MOST
            if rng.random() < 0.5:
                self.start(o)
            else:
                again = list(record)
                again[TOLERANCES] = o[1]
                again[CORRECTIONS] = rng.choice((0, 1, LIMIT_MOST - 1))
                self.fill(again)
            self.call(refine_line(words))

    def shifted(self, ticks):
        """The samples moved by a polynomial of the time on each axis, so that points move by whole ticks."""
        rng = self.rng
        times = [at // 3 - len(ticks) // 6 for at in range(len(ticks))]
        moved = list(ticks)
        most = rng.choice((1, 8, 2 ** 8, 2 ** 16))
        for axis in rng.sample(AXES, rng.randint(1, 3)):
            level, slope = 2 * rng.randint(-most, most), 6 * rng.randint(-most, most)
            slope *= rng.random() < 0.5
            for at in range(axis, len(ticks), 3):
                moved[at] += level + slope * times[at]
        if rng.random() < 0.4:
            moved[rng.randrange(len(moved))] += rng.choice((-1, 1))
        return self.words(moved)

    def nearly_starting(self):
        """Starting records with one field off."""
        self.nearly_right((STARTING,))
