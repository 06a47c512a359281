"""Questions why, drawn before the calls of a script."""
from drawing import *

# How often a question comes before a correction, and before another call.
BEFORE_CORRECTION, BEFORE_OTHER = 0.75, 0.05


class Asking(Script):
    """A script that asks for the reason of a correction before it makes one, or another call."""

    def call(self, line):
        """Makes a call, at times after a question."""
        words = line.split()
        if words[0] == 'correct':
            if self.rng.random() < BEFORE_CORRECTION:
                self.ask_before(words[1:])
        elif self.rng.random() < BEFORE_OTHER:
            self.ask(self.asked_sample())
        return super().call(line)

    def ask_before(self, floats):
        """Asks by the sample of the correction that follows; at times by another one first, or alone."""
        choice = self.rng.random()
        if choice < 0.3:
            self.ask(self.asked_sample())
        if choice < 0.15 or choice >= 0.3:
            self.ask(floats)

    def asked_sample(self):
        """A sample of the session's scale, or the last one, or one with floats that are refused."""
        choice = self.rng.random()
        if choice < 0.4:
            return self.sample()
        if choice < 0.6:
            return self.last_sample or self.sample()
        return self.faulty_sample()

    def faulty_sample(self):
        """A sample with NaNs, infinities or floats that are too large, or hardly not, on one axis or some."""
        words = self.sample()
        for axis in self.rng.sample(AXES, self.rng.randint(1, 3)):
            words[axis] = self.faulty_float()
        return words

    def faulty_float(self):
        kind = self.rng.randrange(6)
        if kind == 0:
            return self.infinity()
        if kind == 1:
            return self.no_number()
        if kind < 4:
            return self.too_large()
        if kind == 4:
            return bits(self.rng.choice((-1, 1)) * (SAMPLE_MOST + self.rng.choice((0.0, 0.5))))
        return self.some_float()
