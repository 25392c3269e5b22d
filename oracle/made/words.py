"""Floats as words, from edge values to any bit pattern; whole numbers; lines with one thing wrong."""

import math
import struct


def word(x):
    """The float's word; a NaN's is one word, since machines differ in the NaN they compute."""
    return struct.pack(">d", x).hex() if x == x else NANS[0]


def value(text):
    return struct.unpack(">d", bytes.fromhex(text))[0]


def beside(x, steps):
    """The float that many places from x, towards infinity."""
    for _ in range(abs(steps)):
        x = math.nextafter(x, math.copysign(math.inf, steps))
    return x


NANS = ["7ff8000000000000", "fff8000000000000", "7ff800000000beef", "7fffffffffffffff",
        "7ff0000000000001", "fff0000000000001", "7ff4000000000000", "ffffffffffffffff"]
LARGEST, NORMAL, _ROOT = 1.7976931348623157e308, 2.2250738585072014e-308, 1.3407807929942596e154
_LIMITS = [0.0, 5e-324, 1e-323, beside(NORMAL, -1), NORMAL, 1.5e-162, 1e-154, 1e-100, 1e-10, 0.1, 0.2, 0.3, 0.5,
           0.8, beside(1.0, -1), 1.0, beside(1.0, 1), 2.0, 3.0, 32766.0, 32767.0, 32768.0, 2.0 ** 31, 2.0 ** 53,
           2.0 ** 53 + 2, beside(_ROOT, -1), _ROOT, beside(_ROOT, 1), 1e200, 2.0 ** 1023, LARGEST, math.inf]
EDGES = [sign * x for x in _LIMITS for sign in (1.0, -1.0)]
AROUND_ZERO_TEST = [sign * beside(1e-10, step) for step in range(-3, 4) for sign in (1.0, -1.0)]
EDGE_WORDS = [word(x) for x in EDGES + AROUND_ZERO_TEST] + NANS


def any_word(rng):
    """A float of any kind: an edge, a whole number, a fraction, any bit pattern."""
    kind = rng.random()
    if kind < 0.4:
        return rng.choice(EDGE_WORDS)
    if kind < 0.6:
        return word(float(rng.randint(-9, 9)))
    if kind < 0.8:
        return word(rng.uniform(-2.0, 2.0))
    return "%016x" % rng.getrandbits(64)


def run(words):
    return " ".join([str(len(words)), *words])


def any_words(rng, count):
    return [any_word(rng) for _ in range(count)]


# whole numbers with a sign have 32 bits
BOTTOM, TOP = -2 ** 31, 2 ** 31 - 1
# a side or a used count has 64, without a sign
LARGEST_COUNT = 2 ** 64 - 1


def any_int(rng):
    """A whole number of any kind: small, at its limits, any."""
    kind = rng.random()
    if kind < 0.5:
        return rng.randint(-3, 9)
    if kind < 0.8:
        return rng.choice((BOTTOM, BOTTOM + 1, -1, 0, TOP - 2, TOP - 1, TOP))
    return rng.randint(BOTTOM, TOP)


def any_count(rng):
    """A counter, seldom a negative one: small, near its limit, any."""
    kind = rng.random()
    if kind < 0.7:
        return rng.randint(0, 9)
    if kind < 0.95:
        return TOP - rng.randint(0, 3)
    return rng.randint(0, TOP) if kind < 0.98 else rng.choice((-1, BOTTOM))


def spoilt(rng, line):
    """A request with one thing wrong (now and then it says another request)."""
    words = line.split(" ")
    place = rng.randrange(len(words))
    kind = rng.randrange(6)
    if kind == 0:
        del words[place]
    elif kind == 1:
        words.insert(place, any_word(rng))
    elif kind == 2:
        words[place] = words[place][:-1]
    elif kind == 3:
        words[place] = words[place].upper()
    elif kind == 4:
        words[place] += "0"
    else:
        words.insert(place, "")
    return " ".join(words)
