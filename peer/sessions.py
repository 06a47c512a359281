"""Episodes of calls on sessions that open has opened, or has refused to."""
from calls import *


class Sessions(Calls):
    """A script with sessions opened and stepped."""

    def steps(self, count, plain=0.85):
        """Steps a session, mostly by calls that fit its state."""
        for _ in range(count):
            if self.state == CLOSED:
                self.open()
            elif self.rng.random() > plain:
                self.any_call()
            elif self.state == AWAITING:
                self.correct()
            elif self.state == STARTING:
                self.refine()
            elif self.call('predict').number != 0:
                self.open()

    def session(self):
        self.open()
        self.steps(self.rng.randint(5, 60))

    def long_run(self):
        self.open()
        self.steps(self.rng.choice((300, 2000)), 0.99)

    def every_number_of_points(self):
        for points in self.rng.sample(range(1, PLACES + 1), PLACES):
            self.open(self.opening(points))
            self.steps(self.rng.randint(4, 12), 0.95)

    def floats(self):
        """Openings and rounds whose samples show the rounding of floats of every kind."""
        for _ in range(10):
            if self.rng.random() < 0.6:
                o = self.opening()
                self.floats_of_every_kind(o[5])
                self.open(o)
            else:
                o = self.centred()
                self.floats_of_every_kind(o[5])
                self.start(o)
                self.floats_of_every_kind(o[5])
                self.call(refine_line(o[5]))

    def floats_of_every_kind(self, words):
        """Puts floats in the place of some, only few that are refused."""
        for at in range(len(words)):
            if self.rng.random() < 0.5:
                value = self.some_float()
                size = abs(struct.unpack('>d', bytes.fromhex(value))[0])
                if size <= SAMPLE_MOST + 0.5 or self.rng.random() < 0.02:
                    words[at] = value

    def refused_openings(self):
        """Openings with one fault or some."""
        for _ in range(10):
            self.open(self.faulty(self.opening()))

    def far_out(self):
        """Sessions that step across a bound of position or velocity."""
        self.open(self.headed_out(self.opening()))
        self.steps(12, 0.95)

    def headed_out(self, o):
        """Puts an opening near a bound of position or velocity on some axes, moving towards it."""
        for axis in AXES:
            if self.rng.random() < 0.5:
                side = self.rng.choice((-1, 1))
                o[4][axis] = side * self.size(VELOCITY_BOUND - 1)
                steps = self.rng.randint(0, 4)
                o[3][axis] = side * (POSITION_BOUND - 1 - abs(o[4][axis]) * steps
                                     - self.size(self.scale))
            elif self.rng.random() < 0.5:
                o[4][axis] = self.rng.choice((-1, 1)) * (VELOCITY_BOUND - 1 - self.size(self.scale))
        return o
