"""Requests of module 2: matrices of every kind."""

import math
import random

from made.boxes import bits, edge, fraction, huge, tiny, whole
from made.words import (AROUND_ZERO_TEST, EDGE_WORDS, LARGEST, LARGEST_COUNT, NANS, NORMAL, any_word, any_words, beside,
                        run, spoilt, value, word)


def _drawn(draw):
    """A kind of matrix whose entries are drawn one by one."""
    return lambda rng, rows, columns: [draw(rng) for _ in range(rows * columns)]


def _ties(rng, rows, columns):
    low, high = rng.choice(((0, 1), (0, 2), (0, 9), (-1, 1), (-3, 3)))
    return [float(rng.randint(low, high)) for _ in range(rows * columns)]


def _million(rng):
    return float(rng.randint(-10 ** 6, 10 ** 6))


def _real(rng):
    return rng.uniform(-1e6, 1e6)


# steps of the zero test's breadth, from 0 or from where a float is as coarse as that
_STEPS = [0.0, *AROUND_ZERO_TEST, 0.5e-10, *(k * 1e-10 for k in (1.5, 2, 3, 4, 7, 10))]


def _near_zero_test(rng, rows, columns):
    base = rng.choice((0.0, 0.0, 1.0, 1e-10, 2.0 ** 20))
    return [base + rng.choice(_STEPS) for _ in range(rows * columns)]


_OVERFLOW = [1e308, -1e308, 1.5e308, -1.5e308, LARGEST, -LARGEST, 9e307, -9e307, 0.0, 1.0]
_SUBNORMAL = [k * 5e-324 for k in range(4)] + [-5e-324, -0.0, NORMAL, beside(NORMAL, -1), -NORMAL, 1e-300, 1e-10, 1.0]


def _additive(rng, rows, columns):
    """A row's term and a column's: all zeros but for rounding, which 01's zero test sees in large terms."""
    term = rng.choice((whole, fraction, _real, _real, tiny, huge))
    down, along = [term(rng) for _ in range(rows)], [term(rng) for _ in range(columns)]
    return [x + y for x in down for y in along]


def _unreduced(rng, rows, columns):
    """Step B leaves lines with -infinity as they are: a negative entry stays in two of them, for step F to stop at."""
    j, k = rng.randrange(columns), rng.randrange(columns)
    lines = []
    for _ in range(rows):
        line = [float(rng.randint(1, 9)) for _ in range(columns)]
        kind = rng.random()
        if kind < 0.3:
            line[j], line[k] = -math.inf, -float(rng.randint(1, 3))
        elif kind < 0.5:
            line[rng.randrange(columns)], line[k] = 0.0, -math.inf
        else:
            line[j] = 0.0
        lines += line
    return lines


def _product(rng, rows, columns):
    """(i+1)(j+1), as it stands or with rows and columns in any order, or products of other terms: many corrections."""
    down, along = [float(i + 1) for i in range(rows)], [float(j + 1) for j in range(columns)]
    kind = rng.random()
    if kind < 0.3:
        down, along = [rng.random() for _ in down], [rng.random() for _ in along]
    if kind < 0.7:
        rng.shuffle(down)
        rng.shuffle(along)
    return [x * y for x in down for y in along]


def _stairs(rng, rows, columns):
    rule = rng.choice((lambda i, j: abs(i - j), lambda i, j: max(i, j), lambda i, j: (i - j) ** 2,
                       lambda i, j: i <= j, lambda i, j: (i * 7 + j * 3) % 5))
    return [float(rule(i, j)) for i in range(rows) for j in range(columns)]


def _distances(rng, rows, columns):
    """The distances of small boxes: many are 1.0, some 0.0."""
    spread = rng.choice((3, 6, 12))

    def boxes(count):
        corners = [(rng.randint(0, spread), rng.randint(0, spread)) for _ in range(count)]
        return [(x, y, x + rng.randint(1, 4), y + rng.randint(1, 4)) for x, y in corners]

    def distance(a, b):
        shared = max(min(a[2], b[2]) - max(a[0], b[0]), 0) * max(min(a[3], b[3]) - max(a[1], b[1]), 0)
        union = (a[2] - a[0]) * (a[3] - a[1]) + (b[2] - b[0]) * (b[3] - b[1]) - shared
        return 1.0 - shared / union

    predicted = boxes(columns)
    return [distance(a, b) for a in boxes(rows) for b in predicted]


COSTS = [_ties, _ties, _drawn(_million), _drawn(_million), _drawn(random.Random.random), _drawn(fraction),
         _near_zero_test, _near_zero_test, _additive, _additive, _product, _stairs, _distances, _distances,
         _drawn(edge), _drawn(lambda rng: rng.choice(_OVERFLOW)), _drawn(huge),
         _drawn(lambda rng: rng.choice(_SUBNORMAL)), _unreduced, _drawn(bits)]
INFINITIES = [word(math.inf), word(-math.inf)]
SPRINKLES = [NANS, INFINITIES[:1], INFINITIES[1:], INFINITIES + NANS, [word(x) for x in _OVERFLOW],
             [word(0.0), word(-0.0)], EDGE_WORDS]


def cost_words(rng, costs, rows, columns):
    """The matrix as words; three in ten with special values here and there, or over a whole row or column."""
    entries = [word(x) for x in costs(rng, rows, columns)]
    kind = rng.random()
    if kind >= 0.3 or not entries:
        return entries
    special, share, lines = rng.choice(SPRINKLES), rng.choice((0.05, 0.3, 0.9)), ()
    if kind < 0.1:
        i = rng.randrange(rows)
        lines += tuple(range(i * columns, (i + 1) * columns)),
    if 0.05 < kind < 0.15:
        lines += tuple(range(rng.randrange(columns), rows * columns, columns)),
    for places in lines or ([k for k in range(len(entries)) if rng.random() < share],):
        # a line has one value throughout, or several
        some = [rng.choice(special)] if rng.random() < 0.5 else special
        for k in places:
            entries[k] = rng.choice(some)
    return entries


def _threshold(rng, costs, entries):
    """An infinity, NaN, an entry or its neighbour, between two entries, half, or anything."""
    kind = rng.random()
    if costs is _distances and kind < 0.4:
        return word(0.5)
    if kind < 0.3:
        return rng.choice((word(math.inf), word(math.inf), word(1e300), word(-math.inf), *NANS[:2]))
    if not entries or kind > 0.9:
        return any_word(rng)
    x, y = value(rng.choice(entries)), value(rng.choice(entries))
    if kind < 0.6:
        return word(x)
    return word(beside(x, rng.choice((-1, 1)))) if kind < 0.7 and x == x else word(0.5 * x + 0.5 * y)


def _solve(rows, columns, entries, most):
    return "linear_sum_assignment %d %d %s %s" % (rows, columns, run(entries), most)


def _sides(rng, low, high):
    """Two sides, the longer from low to high: equal, nearly equal, or the other of any length."""
    long = rng.randint(low, high)
    kind = rng.random()
    short = long if kind < 0.5 else max(long - rng.randint(1, 2), 1) if kind < 0.65 else rng.randint(1, long)
    return (long, short) if rng.random() < 0.5 else (short, long)


def _matrix_of(rng, costs, low, high, most=None):
    rows, columns = _sides(rng, low, high)
    entries = cost_words(rng, costs, rows, columns)
    return _solve(rows, columns, entries, most or _threshold(rng, costs, entries))


def limits(rng):
    """Document 01's marked examples, its limits, numbers that apply together, and one matrix of each kind."""
    def words(*costs):
        return [word(float(x)) for x in costs]
    for rows, columns, costs, most in ((2, 2, (0, 4, 1, 9), 3), (3, 3, (1, 2, 3, 2, 4, 6, 3, 6, 9), 9),
                                       (3, 3, (1, 2, 3, 2, 4, 6, 3, 6, 9), 3), (1, 1, (math.nan,), 9),
                                       (2, 0, (), 9), (64, 65, (), 9)):
        yield _solve(rows, columns, words(*costs), word(float(most)))
    # every refusal, sides that wrap when multiplied, and what is next to a refusal
    for rows in (0, 1, 2, 64, 65, 66, 2 ** 32, 2 ** 63, LARGEST_COUNT):
        for columns in (0, 1, 2, 64, 65, 2 ** 32, 2 ** 63, LARGEST_COUNT):
            need = rows * columns
            for length in sorted({0, 1, need % 2 ** 64, need - 1, need + 1}):
                if 0 <= length <= 130 and (length < 60 or length == need):
                    yield _solve(rows, columns, words(*(rng.randint(0, 9) for _ in range(length))), word(5.0))
    # a matrix of each kind, alone and with each kind of special value as every second entry
    for costs in dict.fromkeys(COSTS):
        entries = [word(x) for x in costs(rng, 5, 5)]
        yield _solve(5, 5, entries, word(math.inf))
        yield _solve(4, 6, entries[:24], _threshold(rng, costs, entries))
        for special in SPRINKLES:
            mixed = [rng.choice(special) if k % 2 else x for k, x in enumerate(entries[:12])]
            yield _solve(4, 3, mixed, word(math.inf))
    for special in [[x] for x in (*INFINITIES, word(-0.0), word(5e-324), word(LARGEST), *NANS)]:
        yield _solve(2, 3, special * 6, special[0])
    # each edge as the threshold, beside entries that are edges too
    for edge in EDGE_WORDS:
        yield _solve(2, 2, [edge, word(1.0), word(-0.0), edge], edge)
    # as large as it goes: (i+1)(j+1), whole numbers, fractions
    for n in (8, 20, 64):
        yield _solve(n, n, [word(float((i + 1) * (j + 1))) for i in range(n) for j in range(n)], word(2e3))
    yield _solve(64, 64, [word(_million(rng)) for _ in range(4096)], word(-9.5e5))
    yield _solve(64, 64, [word(rng.random()) for _ in range(4096)], word(0.01))
    yield from FAULTS


def one(rng):
    kind = rng.random()
    if kind < 0.01:
        return spoilt(rng, one(rng))
    if kind < 0.02:
        rows, columns = (rng.choice((0, 0, 1, 5, 64, 65, 2 ** 33, LARGEST_COUNT, rng.getrandbits(64)))
                         for _ in range(2))
        need = rows * columns
        return _solve(rows, columns, any_words(rng, rng.choice((0, need, need + 1)) if need < 65 else 3), any_word(rng))
    costs = rng.choice(COSTS)
    if kind < 0.03:
        # one entry too few, or more than there are
        rows, columns = _sides(rng, 1, 8)
        entries = cost_words(rng, costs, rows, columns)
        entries = entries[:-1] if kind < 0.025 else entries + any_words(rng, rng.randint(1, 9))
        return _solve(rows, columns, entries, any_word(rng))
    if kind < 0.93:
        return _matrix_of(rng, costs, 1, 8)
    return _matrix_of(rng, costs, 9, 20) if kind < 0.995 else _matrix_of(rng, costs, 21, 64)


FAULTS = ["linear_sum_assignment " + rest % ((word(1.0),) * rest.count("%s")) for rest in (
    "", "1 1", "1 1 1 %s", "1 1 %s %s", "1 1 1 %s %s %s", "-1 1 0 %s", "1 -1 0 %s", "1 1.0 1 %s %s", "+1 1 1 %s %s",
    "x 1 1 %s %s", "1  1 1 %s %s", "1 1 1 %s 1", "18446744073709551616 1 0 %s", "1 18446744073709551616 0 %s",
    "99999999999999999999 65 0 %s", "65 36893488147419103232 0 %s", "65 65 8193 %s", "001 01 1 %s %s",
    "000000000000000000000000001 1 01 %s %s", "000018446744073709551615 0 0 %s")]
