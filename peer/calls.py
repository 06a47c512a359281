"""Single calls of a script, drawn to fit the record or not to."""
from saving import *

SIZES_WITH_CENTRE = (3, 5, 7, 9)


class Calls(Saving):
    """A script with calls that are drawn one by one."""

    # Openings and first rounds

    def opening(self, points=None):
        """The parts of an opening that is not refused."""
        rng = self.rng
        self.scale = max(1, self.size(SAMPLE_MOST - 1))
        points = points or rng.randint(1, PLACES)
        return [points, self.tolerances(), rng.randint(1, LIMIT_MOST),
                [self.signed(2 ** 51) for _ in AXES], [self.signed(2 ** 38) for _ in AXES],
                [self.usable_float() for _ in range(3 * points)]]

    def tolerances(self):
        """Tolerances of position and velocity; half of the latter let pass what the former does."""
        rng = self.rng
        position, velocity = (rng.choice((0, 0, self.size(TOLERANCE_MOST), TOLERANCE_MOST))
                              for _ in range(2))
        # The velocity of a step changes by at most six times as much as its position.
        wide = rng.choice((min(6 * position, TOLERANCE_MOST), TOLERANCE_MOST))
        return [position, rng.choice((wide, velocity))]

    def centred(self, points=None):
        """The parts of a first round that is not refused."""
        return self.opening(points or self.rng.choice(SIZES_WITH_CENTRE))

    def open(self, opening=None):
        return self.call(open_line(*(opening or self.opening())))

    def start(self, opening=None):
        return self.call(start_line(*(opening or self.centred())))

    def faulty(self, o):
        """Puts one fault or some into an opening."""
        rng = self.rng
        for _ in range(rng.choice((1, 1, 1, 2, 3))):
            fault = rng.randrange(8)
            if fault == 0:
                o[0] = rng.choice((0, 10, 21, 22, (2 ** 64 + 2) // 3, self.wider(o[0]),
                                   rng.randint(1, 9), rng.choice(UNSIGNED)))
            elif fault == 1:
                o[5] = self.other_length(o[5])
            elif fault in (2, 3):
                kind = fault - 2
                o[1][kind] = rng.choice((TOLERANCE_MOST, TOLERANCE_MOST + 1,
                                         self.wider(o[1][kind]), rng.choice(UNSIGNED)))
            elif fault == 4:
                o[2] = rng.choice((0, 1, LIMIT_MOST, LIMIT_MOST + 1, self.wider(o[2]),
                                   rng.choice(UNSIGNED)))
            elif fault == 5:
                o[3][rng.randrange(3)] = self.at_bound(POSITION_BOUND)
            elif fault == 6:
                o[4][rng.randrange(3)] = self.at_bound(VELOCITY_BOUND)
            elif o[5]:
                o[5][rng.randrange(len(o[5]))] = self.some_float()
        return o

    def wider(self, number):
        """A number whose low bits are those of the given one."""
        return min(U64, number + 2 ** self.rng.choice((8, 16, 32, 63)))

    def at_bound(self, bound):
        return self.rng.choice((-bound - 1, -bound, -bound + 1, bound - 1, bound, bound + 1,
                                self.rng.choice(SIGNED)))

    # Later rounds

    def held(self):
        """The samples that the record holds, in whole ticks, in the order of a call."""
        record = self.record()
        return [record[axis_at(axis, SAMPLES) + back]
                for back in reversed(range(min(record[POINTS], PLACES))) for axis in AXES]

    def refine(self):
        """A later round: by new samples, by those held, by some near them or by pulled ones."""
        choice = self.rng.random()
        if choice < 0.2:
            words = [self.usable_float() for _ in self.held()]
        elif choice < 0.6:
            words = self.near_held()
        else:
            words = self.pulled()
        return self.call(refine_line(words))

    def near_held(self):
        """The samples held, or others that move the outer points by about a tolerance."""
        rng, record, ticks = self.rng, self.record(), self.held()
        if rng.random() < 0.3:
            return self.words(ticks)
        # A shift of all samples of an axis moves the outermost points by centre^2 / 2 times it,
        # and their velocities by centre times it.
        centre = max(1, record[POINTS] // 2)
        shift = rng.choice((2 * record[POSITION_TOLERANCE] // centre ** 2,
                            record[VELOCITY_TOLERANCE] // centre))
        for axis in self.some_axes():
            by = rng.choice((-1, 1)) * rng.choice((0, self.size(shift), self.near(shift)))
            for at in range(axis, len(ticks), 3):
                ticks[at] += by
        if ticks and rng.random() < 0.3:
            ticks[rng.randrange(len(ticks))] += rng.choice((-1, 1))
        return self.words(ticks)

    def some_axes(self):
        """All three axes, or one."""
        return self.rng.choice((AXES, [self.rng.choice(AXES)]))

    def pulled(self):
        """Samples of a force toward the origin at the points last answered, as a host takes them."""
        record, count = self.record(), len(self.held())
        if self.answer is None or self.answer.call not in ROUNDS or self.answer.number != 0:
            return self.words(self.held())
        # The same force in all rounds of a start.
        weakness = PARTS << (record[axis_at(0, POSITION)] % 5 + 4)
        return self.words([-self.answer.position(at % 3, at // 3) // weakness
                           for at in range(count)])

    def words(self, ticks):
        return [bits(float(max(-SAMPLE_MOST, min(SAMPLE_MOST, tick)))) for tick in ticks]

    def spoilt_round(self):
        """A later round with some floats of any kind, or of another length."""
        words = self.spoilt_floats(self.words(self.held()) or self.sample())
        if self.rng.random() < 0.3:
            words = self.other_length(words)
        return self.call(refine_line(words))

    def spoilt_floats(self, words):
        """The floats with some of any kind among them."""
        for _ in range(self.rng.randint(1, 3)):
            words[self.rng.randrange(len(words))] = self.some_float()
        return words

    def other_length(self, words):
        """Floats from among those given, of another number than a call mostly takes."""
        count = len(words)
        count = self.rng.choice((0, count - 1, count + 1, 3 * self.rng.randint(1, 9), 64))
        return [self.rng.choice(words or [bits(0.0)]) for _ in range(max(0, min(count, 64)))]

    # Steps

    def correct(self):
        """Corrects by a new sample, by the last one again, or by one at the tolerance."""
        choice = self.rng.random()
        if self.last_sample is None or choice < 0.5:
            self.last_sample = self.sample()
        elif choice < 0.6:
            record = self.record()
            # One point: position changes by a twelfth of the change of sample, velocity by half.
            apart = self.near(self.rng.choice((12 * record[POSITION_TOLERANCE],
                                               2 * record[VELOCITY_TOLERANCE])))
            ticks = [record[axis_at(axis, SAMPLES)] for axis in AXES]
            for axis in self.some_axes():
                ticks[axis] += self.rng.choice((-apart, 0, apart))
            self.last_sample = [bits(float(t)) for t in ticks]
        return self.call(correct_line(self.last_sample))

    def any_call(self):
        kind = self.rng.randrange(8)
        if kind == 0:
            self.call('withdraw')
        elif kind == 1:
            self.call('predict')
        elif kind == 2:
            self.call(correct_line(self.sample()))
        elif kind == 3:
            self.refine()
        elif kind == 4:
            self.spoilt_round()
        else:
            words = self.sample()
            for _ in range(self.rng.randint(1, 2)):
                words[self.rng.randrange(3)] = self.some_float()
            self.call(correct_line(words))

    def fitting_call(self):
        """Mostly a call that fits the state."""
        if self.rng.random() < 0.1:
            self.any_call()
        elif self.state == SETTLED:
            self.call('predict')
        elif self.state == STARTING:
            self.refine()
        elif self.rng.random() < 0.3:
            self.call('withdraw')
        else:
            self.call(correct_line(self.last_sample or self.sample()))
