"""Images as digits: of a record as it stands, damaged ones, and what an image says."""
from program import *

CONTENTS = (1, 96, 56, 2, 152, 192, 3, 344, 216, 4, 560, 96)
WORD_LENGTH, TABLE_LENGTH, IMAGE_LENGTH = 8, 96, 656
# What a line has room for.
BYTES_MOST = 2045
U64 = 2 ** 64 - 1


def image_of(record):
    """The words of a record, one that counts as closed too."""
    axes = [record[axis_at(axis, 0):axis_at(axis, AXIS_LENGTH)] for axis in AXES]
    sums = [number for axis in axes for number in axis[:SAMPLES]]
    samples = [number for place in zip(*(axis[SAMPLES:POSITION] for axis in axes)) for number in place]
    estimates = [number for axis in axes for number in axis[POSITION:]]
    words = [*CONTENTS, *record[:FIRST_AXIS], *sums, *samples, *estimates]
    return b''.join((word & U64).to_bytes(WORD_LENGTH, 'little') for word in words).hex()


def state_in(digits):
    """The state that an image says."""
    return bytes.fromhex(digits)[TABLE_LENGTH]


# Damages: each changes the bytes of an image

def other_byte(image, rng):
    image[rng.randrange(len(image))] = rng.randrange(256)


def other_bit(image, rng):
    image[rng.randrange(len(image))] ^= 1 << rng.randrange(8)


def other_digit(image, rng):
    at = rng.randrange(len(image))
    digits = list(image[at:at + 1].hex())
    digits[rng.randrange(2)] = rng.choice('0123456789abcdef')
    image[at:at + 1] = bytes.fromhex(''.join(digits))


def other_word(image, rng):
    """A word one more or less, or another of the image in its place."""
    at, other = (WORD_LENGTH * rng.randrange(IMAGE_LENGTH // WORD_LENGTH) for _ in range(2))
    word = int.from_bytes(image[at:at + WORD_LENGTH], 'little')
    moved = (word + rng.choice((-1, 1))) & U64
    image[at:at + WORD_LENGTH] = rng.choice((moved.to_bytes(WORD_LENGTH, 'little'), image[other:other + WORD_LENGTH]))


def other_state(image, rng):
    image[TABLE_LENGTH] = rng.randrange(5)


def other_contents(image, rng):
    image[rng.randrange(TABLE_LENGTH)] ^= rng.choice((1, 1 << rng.randrange(8)))


def digits_exchanged(image, rng):
    image[:] = bytes(byte >> 4 | (byte & 15) << 4 for byte in image)


def words_turned(image, rng):
    """Each word with its highest byte first."""
    for at in range(0, len(image), WORD_LENGTH):
        image[at:at + WORD_LENGTH] = image[at:at + WORD_LENGTH][::-1]


def shorter(image, rng):
    at = rng.choice((0, len(image) - 1, rng.randrange(len(image))))
    del image[at:at + rng.choice((1, 1, WORD_LENGTH))]


def longer(image, rng):
    image[len(image):] = rng.choice((b'\0', bytes(WORD_LENGTH), rng.randbytes(1), image[-1:]))


def other_length(image, rng):
    image[:] = (image * 4)[:rng.choice((1, 2, TABLE_LENGTH, 2 * IMAGE_LENGTH, BYTES_MOST, rng.randint(1, BYTES_MOST)))]


def random_bytes(image, rng):
    image[:] = rng.choice((rng.randbytes(len(image)), bytes(len(image))))


DAMAGES = [other_byte, other_bit, other_digit, other_word, other_word, other_state, other_contents,
           digits_exchanged, words_turned, shorter, longer, other_length, random_bytes]


def damaged(digits, rng):
    """An image after one damage; at times it is an image still."""
    image = bytearray.fromhex(digits)
    rng.choice(DAMAGES)(image, rng)
    return image.hex()
