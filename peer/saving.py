"""Saves and loads, drawn before the calls of a script."""
from asking import *
from images import damaged, image_of

# How often a session is saved before a call.
BEFORE_CALL = 0.08
IMAGES_MOST = 20


class Saving(Asking):
    """A script that saves its sessions on the way, and loads them again."""

    def __init__(self, peer, seed):
        super().__init__(peer, seed)
        self.images = []  # saved lately, each with the present point of its session if known

    def save(self):
        digits = super().save()
        if len(self.images) == IMAGES_MOST:
            del self.images[self.rng.randrange(IMAGES_MOST)]
        self.images.append((digits, self.present))
        return digits

    def some_image(self):
        """An image that was saved, with the present point of its session if known."""
        if not self.images:
            self.save()
        return self.rng.choice(self.images)

    def call(self, line):
        """Makes a call, at times after saves and loads that leave the session as it was."""
        if self.rng.random() < BEFORE_CALL:
            self.save_and_load()
        return super().call(line)

    def save_and_load(self):
        """Saves the session; loads it damaged or again, unless it counts as closed."""
        digits, choice = self.save(), self.rng.random()
        if not self.record_line or digits != image_of(self.record()):
            return
        present = self.present
        changed = choice < 0.6 and self.load(damaged(digits, self.rng))
        if changed or choice < 0.2 or choice > 0.7:
            self.load(digits, present)

    def make(self, line):
        """Makes a call by its line, whichever it is."""
        name, *words = line.split()
        if name == 'why':
            return self.ask(words)
        if name == 'save':
            return self.save()
        if name == 'load':
            return self.load(*words)
        return self.call(line)
