"""Episodes of calls whose floats are at fault: NaNs, infinities and some that are too large, in every order."""
from moved import *


class Faults(Moved):
    """A script with every call that takes floats refused for them."""

    def floats_at_fault(self):
        """Openings, first and later rounds and corrections with some floats at fault."""
        for call in self.rng.sample((self.fault_of_open, self.fault_of_start, self.fault_of_rounds,
                                     self.fault_of_corrections), 4):
            call()

    def fault_of_open(self):
        for _ in range(5):
            self.open(self.with_faults(self.opening()))

    def fault_of_start(self):
        for _ in range(5):
            o = self.centred() if self.rng.random() < 0.9 else self.opening()
            self.start(self.with_faults(o))

    def fault_of_rounds(self):
        """Later rounds; afterwards one that is not refused for its floats."""
        self.fill_some(STARTING)
        for _ in range(5):
            words = self.words(self.held()) or self.sample()
            self.put_faults(words)
            self.call(refine_line(words if self.rng.random() < 0.9 else self.other_length(words)))
        self.refine()

    def fault_of_corrections(self):
        """Corrections; afterwards one that is not refused for its sample."""
        self.fill_some(AWAITING)
        for _ in range(4):
            words = self.sample()
            self.put_faults(words)
            self.call(correct_line(words))
        self.correct()

    def with_faults(self, o):
        """An opening with floats at fault, at times beside faults of other kinds."""
        rng = self.rng
        self.put_faults(o[5])
        if rng.random() < 0.1:
            what, bound = rng.choice(((3, POSITION_BOUND), (4, VELOCITY_BOUND)))
            o[what][rng.randrange(3)] = rng.choice((bound, -bound - 1))
        return self.faulty(o) if rng.random() < 0.25 else o

    def fill_some(self, state):
        """A record that a call has left in the state, at times with one field off."""
        record = self.some_record((state,))[0]
        if self.rng.random() < 0.2:
            at = self.rng.randrange(len(record))
            record[at] = self.changed(record, at)
        self.fill(record)

    def put_faults(self, words):
        """Puts some kinds of fault into floats, in any order, at one point or each at a point of its own."""
        rng = self.rng
        kinds = rng.sample((self.no_number, self.infinity, self.too_large), rng.choice((1, 2, 2, 3, 3)))
        points = range(len(words) // 3)
        if len(points) >= len(kinds) and rng.random() < 0.5:
            places = [3 * point + rng.randrange(3) for point in sorted(rng.sample(points, len(kinds)))]
        else:
            point = rng.choice(points)
            places = [3 * point + axis for axis in sorted(rng.sample(AXES, len(kinds)))]
        for kind, at in zip(kinds, places):
            words[at] = kind()
        if rng.random() < 0.3 and places[-1] + 1 < len(words):
            words[rng.randrange(places[-1] + 1, len(words))] = rng.choice(kinds)()
