"""Requests of single floats."""

from made.words import EDGE_WORDS, NANS, any_word, word


def limits(rng):
    for x in EDGE_WORDS:
        for name in ("abs", "is_finite", "is_zero"):
            yield "%s %s" % (name, x)
    some = EDGE_WORDS[::3] + NANS
    for x in some:
        yield "min %s %s" % (x, rng.choice(some))
        yield "max %s %s" % (x, rng.choice(some))
    for zero in (word(0.0), word(-0.0)):
        for other in (word(0.0), word(-0.0), *NANS):
            for pair in ((zero, other), (other, zero)):
                yield "min %s %s" % pair
                yield "max %s %s" % pair


def one(rng):
    name = rng.choice(("min", "max", "min", "max", "abs", "is_finite", "is_zero"))
    x = any_word(rng)
    if name in ("min", "max"):
        y = x if rng.random() < 0.05 else any_word(rng)
        return "%s %s %s" % (name, x, y)
    if name == "is_zero" and rng.random() < 0.5:
        x = word(rng.choice((1.0, -1.0)) * rng.uniform(0.0, 2e-10))
    return "%s %s" % (name, x)
