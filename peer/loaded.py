"""Episodes of images that are loaded: saved earlier, damaged, or of records that were never saved."""
from faults import *
from images import damaged, image_of


class Loaded(Faults):
    """A script with sessions that come back."""

    def gone_back(self):
        """A session that is saved, stepped on, left for another at times, and loaded again."""
        rng = self.rng
        rng.choice((self.open, self.start))()
        self.steps(rng.randint(0, 12), 0.95)
        digits, present = self.save(), self.present
        for _ in range(rng.randint(1, 3)):
            rng.choice((lambda: self.steps(rng.randint(1, 8)), self.open, self.start,
                        lambda: self.open(self.faulty(self.opening()))))()
            self.load(digits, present)
            self.save()
        self.steps(rng.randint(1, 8), 0.95)

    def record_of(self, state):
        """A record of that state, one that counts as closed at times."""
        if self.rng.random() < 0.4:
            return self.random_record(state) if state != CLOSED else [0] * RECORD_LENGTH
        if state == CLOSED:
            return [CLOSED] + self.some_record((SETTLED,))[0][1:]
        return self.some_record((state,))[0]

    def loaded_in_every_state(self):
        """Images saved earlier, whole or damaged, over records of every state; each is saved before and after."""
        for state in self.rng.sample(STATES, len(STATES)):
            self.fill(self.record_of(state))
            self.save()
            digits, present = self.some_image()
            if self.rng.random() < 0.5:
                digits = damaged(digits, self.rng)
            self.load(digits, present)
            self.save()
            self.fitting_call()

    def damaged_images(self):
        """Damages of one image, one after another, with the session that it holds in its place."""
        digits, present = self.some_image()
        self.load(digits, present)
        for _ in range(8):
            self.load(damaged(digits, self.rng))
            if self.rng.random() < 0.3:
                self.fitting_call()

    def images_nearly_right(self):
        """Images of records with one field off, or filled at random, which no call has saved."""
        rng = self.rng
        for _ in range(6):
            record = self.record_of(rng.choice((SETTLED, AWAITING, STARTING)))
            if rng.random() < 0.2:
                record = self.wild_record()
            else:
                at = rng.randrange(len(record))
                record[at] = self.changed(record, at)
                if rng.random() < 0.5:
                    self.hold(record)
            if self.load(image_of(record)) or rng.random() < 0.2:
                self.fitting_call()
            if rng.random() < 0.3:
                self.fill(record)
                self.save()
