"""Requests of module 3's MOTAccumulator: a log and a table of last matches, and frames of ids and distances."""

import math

from made.logs import MOST_EVENTS, a_log, extra, filled, frame_numbers, match, miss, off_by_some, switch, table
from made.scenes import id_pool, ids
from made.search import COSTS, cost_words
from made.words import BOTTOM, EDGES, LARGEST_COUNT, NANS, TOP, any_int, any_words, run, spoilt, word

MOST_MATCHES = 256
INFINITE = word(math.inf)


def state(events=(), matches=(), log_used=None, used=None):
    """Events are words; matches are pairs of ids."""
    return "%s %s" % (table(events, log_used), table(["%d 1 %d" % pair for pair in matches], used))


def frame(number, objects, hypotheses, distances):
    """Distances are words, or numbers."""
    words = [x if isinstance(x, str) else word(float(x)) for x in distances]
    return " ".join((str(number), ids(objects), ids(hypotheses), run(words)))


def mot(start, *frames):
    return " ".join(("mot", start, str(len(frames)), *frames))


NEW = state()
ONE, NOTHING = frame(1, [7], [1], [0.5]), frame(1, [], [], [])


def _examples():
    """Document 01's marked example 14, and other ties."""
    yield mot(NEW, frame(1, [1, 2], [5, 6], [0.5] * 4))
    for rows, columns in ((1, 3), (3, 1), (2, 3), (3, 2), (3, 3), (8, 8)):
        objects, hypotheses = list(range(1, rows + 1)), list(range(11, columns + 11))
        for distances in ([0.5] * (rows * columns), [float(i % 2) for i in range(rows * columns)],
                          [float(-(i % 3)) for i in range(rows * columns)],
                          [word(-0.0) if i % 2 else word(0.0) for i in range(rows * columns)]):
            yield mot(NEW, frame(1, objects, hypotheses, distances), frame(2, objects[::-1], hypotheses, distances))
    # the smallest first leaves the rest with what is free
    yield mot(NEW, frame(1, [1, 2, 3], [5, 6, 7], [1, 2, 3, 2, 4, 6, 3, 6, 9]), frame(2, [1, 2], [5, 6], [3, 1, 1, 9]))
    side = list(range(64))
    yield mot(NEW, frame(1, side, side, [(i * 7 + j * 3) % 50 for i in side for j in side]))


def _floats():
    """Distances that are not finite are not taken; every other is."""
    for x in (*NANS, INFINITE, word(-math.inf)):
        yield mot(NEW, frame(1, [7], [1], [x]), frame(2, [7, 8], [1, 2], [x] * 4),
                  frame(3, [7, 8], [1, 2], [x, 1, x, 2]), frame(4, [7, 8], [1, 2], [x, 3, 1, x]))
    for x in EDGES:
        yield mot(NEW, frame(1, [7, 8], [1, 2], [x, 0.5, 0.5, x]))
    yield mot(NEW, frame(1, [7, 8], [1, 2], [word(5e-324), word(-0.0), word(0.0), word(-5e-324)]))


def _unsound():
    """Every fault of refusal 1, beside the other refusals, and what is no fault."""
    faults = [state(log_used=1025), state(log_used=LARGEST_COUNT), state([miss(1, 7)], log_used=2 ** 32),
              state(used=257), state(used=LARGEST_COUNT), state(used=2), state(used=256),
              state(matches=[(0, 5)], used=2), state(matches=[(7, 1), (8, 2), (7, 3)]), state(matches=[(7, 1), (7, 1)])]
    for start in faults:
        yield mot(start, ONE, NOTHING)
    wrong = frame(1, [1] * 65, [], []), frame(1, [7], [1], []), frame(1, [900], [1], [0.5])
    yield mot(state(log_used=1025), *wrong)
    yield mot(state(matches=[(7, 1)] * 256, log_used=1024), *wrong)
    for start in (state(matches=[(7, 1), (7, 2)], used=1), state(matches=[(7, 1)], used=0),
                  state(matches=[(8, 1)], used=2), state(used=1), state(log_used=3),
                  state([miss(1, 7), extra(2, 1)], log_used=1),
                  state([match(BOTTOM, -1, TOP), switch(TOP, BOTTOM, 0, NANS[3])], [(BOTTOM, TOP)])):
        yield mot(start, ONE, frame(2, [7, 8, 0], [2, 3, 4], [0, 1, 1, 1, 0, 1, 1, 1, 0]), NOTHING)


def _shapes():
    """Refusals 2 and 3 at their limits, together, and beside an empty side."""
    for rows, columns in ((64, 0), (0, 64), (65, 0), (0, 65), (128, 0), (0, 128), (64, 65), (65, 65)):
        yield mot(NEW, frame(1, list(range(rows)), list(range(columns)), []))
    for rows, columns in ((64, 1), (1, 64), (65, 1), (1, 65)):
        yield mot(NEW, frame(1, list(range(rows)), list(range(columns)), [i % 7 for i in range(rows * columns)]))
    for rows in range(4):
        for columns in range(4):
            need = rows * columns
            for length in sorted({0, 1, max(need - 1, 0), need, need + 1}):
                distances = [i % 3 for i in range(length)]
                yield mot(NEW, frame(1, [7, 8, 9][:rows], [1, 2, 3][:columns], distances), NOTHING)


def _full():
    """Refusals 5 and 6: the table at 255 and 256, the log at its last places, both, and lower numbers beside them."""
    def matches(count):
        return [(truth, 1) for truth in range(1, count + 1)]
    far = [INFINITE] * 4
    new, missed = frame(1, [900], [1], [0.5]), frame(2, [901], [1], [INFINITE])
    both, twice = frame(3, [902, 903], [1, 2], [0, 1, 1, 0]), frame(4, [904, 904], [1, 2], [0, 1, 1, 0])
    for start in (state(matches=matches(256)), state(matches=matches(255)), state(matches=matches(255), used=256),
                  state(matches=matches(255) + [(904, 3)], used=255), state(matches=matches(254))):
        # the matched truths alone need a place
        yield mot(start, missed, both, twice, new, frame(5, [7, 905], [2, 3], [0, 1, 1, INFINITE]),
                  frame(6, [7, 905], [3, 2], [0, 1, 1, 0]), frame(7, [7], [4], [0]), NOTHING)
    for left in range(5):
        start = state(log_used=MOST_EVENTS - left)
        yield mot(start, frame(1, [7, 8], [1, 2], far), frame(2, [7, 8], [1, 2], [0, 1, 1, 0]), ONE, NOTHING,
                  frame(3, [7], [], []), frame(4, [], [1], []), frame(5, [7], [1], [INFINITE]))
    for left in (0, 1):
        yield mot(state(matches=matches(256), log_used=MOST_EVENTS - left), new, both, missed, frame(1, [7], [1], []),
                  frame(1, [7] * 65, [], []), frame(1, [7, 900], [1, 2], [0, 1, 1, 0]), frame(1, [7], [1], [0]),
                  NOTHING)
    # 1, 2 and 3 come before 5
    yield mot(state(matches=matches(256), log_used=MOST_EVENTS + 1), new)
    yield mot(state(matches=matches(256)), frame(1, list(range(900, 965)), [1], [0] * 65), frame(1, [900], [1], [0, 1]))
    # 64 misses beside 64 false positives, with room for all and for all but one
    for left in (128, 127):
        start = state(log_used=MOST_EVENTS - left)
        yield mot(start, frame(1, list(range(64)), [], []), frame(1, [], list(range(64)), []))


def _ids():
    """Switches, ids twice in a frame, ids at their limits, frame numbers that stand and go back."""
    for partner in (1, 2, -1, BOTTOM, TOP):
        start = state(matches=[(7, partner)])
        for number in (1, BOTTOM, TOP):
            yield mot(start, frame(1, [7], [number], [0]), frame(2, [7], [number], [INFINITE]), frame(3, [7], [], []),
                      frame(4, [7], [number], [0]), frame(5, [7], [3], [0]), frame(6, [7], [number], [0]))
    for distances in ([0, 1, 1, 0], [1, 0, 0, 1], [0, 0, 0, 0], [0, *[INFINITE] * 3], [INFINITE, 0, 0, INFINITE]):
        yield mot(NEW, frame(1, [7, 7], [1, 2], distances), frame(2, [7], [1], [0]),
                  frame(3, [7, 7], [1, 2], distances), frame(4, [7, 8], [1, 1], distances),
                  frame(5, [7, 7], [1, 1], distances))
    for number in (0, -1, BOTTOM, TOP):
        yield mot(NEW, frame(number, [number], [number], [0]), frame(number, [number, 7], [], []),
                  frame(number, [], [number], []))
    yield mot(NEW, *(frame(number, [7], [1, 2], [number % 2, 0.5]) for number in (5, 5, 4, -3, TOP, BOTTOM, 5)))
    # last matches stand in the order of the matches
    yield mot(NEW, frame(1, [4, 5, 6], [1, 2, 3], [3, 9, 9, 9, 2, 9, 9, 9, 1]), frame(2, [6, 5, 4], [3, 2, 1], [0] * 9))


def _metrics():
    """Logs of one kind of event, of none, of all; distances of every kind to sum."""
    kinds = [match(1, 7, 1, word(0.25)), switch(2, 7, 2, word(0.5)), miss(3, 7), extra(4, 1)]
    for pick in range(16):
        some = [event for i, event in enumerate(kinds) if pick >> i & 1]
        yield mot(state(some))
        yield mot(state(some * 3 + kinds[:1]), ONE)
    for distances in ((0.1, 0.2, 0.3), (0.3, 0.2, 0.1), (1e16, 1.0, -1e16), (1.0, 1e16, -1e16),
                      (math.inf, -math.inf, 1.0), (math.inf, 1.0, 2.0), (1e308, 1e308, -1e308), (-0.0, -0.0, -0.0),
                      (5e-324, 5e-324, 1.0), (-0.5, 0.25, 0.0)):
        first, *rest = map(word, distances)
        yield mot(state([match(1, 7, 1, first)] + [switch(2, 7, 2, x) for x in rest]))
    for nan in NANS:
        yield mot(state([match(1, 7, 1, nan), match(1, 8, 2)]), ONE)
    yield mot(state([extra(1, 1)] * 9 + kinds), NOTHING)
    yield mot(state([match(1, 7, 1, word(0.1))] * 30 + [miss(1, 7)] * 7), NOTHING)
    yield mot(state(kinds, log_used=2), NOTHING)


FAULTS = """mot
mot 0
mot 0 0 0 0
{new}
{new} 1
{new} x
{new} 0 0
{new} 2 {good}
{new} 1 {good} {good}
{new} 1 {good}0
{new} 2 {good} {good}0
{new} 3 {good} 2147483648 0 0 0 {good}
{new} 3 {good} -2147483648 0 0 0 {good}
{new} 3 {good} -0 1 -0 1 00 1 {zero} {good}
{new} 3 {good} 1 1 2147483648 0 0 {good}
{new} 3 {good} 1 0 1 -2147483649 0 {good}
{new} 3 {good} 1 0 0 1 {good}
{new} 3 {good} 1 0 0 8193 {good}
{new} 3 {good} 1 0 0 {good}
mot -1 0 0 0 0
mot 18446744073709551616 0 0 0 0
mot 18446744073709551615 0 0 0 0
mot 0 0 18446744073709551616 0 0
mot 1 1 0 4 7 0 0 0
mot 1 1 0 -1 7 0 0 0
mot 1 1 0 0 7 1 {zero} 0 0 0
mot 1 1 0 0 7 {zero} 0 0 0
mot 1 1 0 2 7 1 {zero} 0 0 0
mot 1 1 0 3 7 0 0 0
mot 1 1 -0 02 -7 0 0 0
mot 1 1 2147483648 2 7 0 0 0
mot 0 1025 0 0 0
mot 0 0 0 257 0
mot 0 0 1 1 7 0
mot 0 0 1 1 7 1 1 0
mot 0 0 1 1 7 1 0
mot 0 0 1 1 7 2 0
mot 0 0 1 1 7 1 2147483648 0"""


def _faults():
    """Lines that say no request, and frames that are none after some that are."""
    yield from FAULTS.format(new="mot " + NEW, good=ONE, zero=word(0.0)).split("\n")
    yield "mot 0 1025%s 0 0 0" % (" 0 2 0" * 1025)
    yield "mot 0 0 0 257%s 0" % (" 0 0" * 257)
    for many in (128, 129):
        yield "mot %s 3 %s 2 %s 0 0 %s" % (NEW, ONE, ids([1] * many), ONE)


def limits(rng):
    for some in (_examples, _floats, _unsound, _shapes, _full, _ids, _metrics, _faults):
        yield from some()


def _a_state(rng, truth, predicted):
    kind = rng.random()
    if kind < 0.45:
        return NEW
    log = a_log(rng, truth, predicted)
    known = rng.sample(truth, rng.randint(0, len(truth)))
    if kind < 0.53:
        known = filled(rng, known, MOST_MATCHES)
    pairs = ["%d 1 %d" % (number, rng.choice(predicted)) for number in known]
    if rng.random() < 0.2 and len(pairs) < MOST_MATCHES:
        # a place that is not in use
        return "%s %s" % (log, table([*pairs, "%d 1 %d" % (any_int(rng), any_int(rng))], len(pairs)))
    if 0.53 <= kind < 0.56:
        fault = rng.randrange(3)
        if fault == 0:
            log = table([miss(1, 7)], off_by_some(rng, 1))
        elif fault == 1 and pairs:
            pairs[rng.randrange(len(pairs))] = rng.choice(pairs)
        else:
            return "%s %s" % (log, table(pairs, off_by_some(rng, len(pairs))))
    return "%s %s" % (log, table(pairs))


def _a_frame(rng, number, truth, predicted, costs):
    # an id comes once, or may come twice
    repeats = rng.random() < 0.3

    def some(pool):
        count = rng.choice((0, 1, 1, 2, 2, 3, 3, 4, 5, 7))
        return rng.choices(pool, k=count) if repeats else rng.sample(pool, min(count, len(pool)))
    objects, hypotheses = some(truth), some(predicted)
    distances = cost_words(rng, costs, len(objects), len(hypotheses)) if objects and hypotheses else []
    if rng.random() < 0.15:
        # as trackers have it, what is too far is infinite
        distances = [x if rng.random() < 0.5 else INFINITE for x in distances]
    kind = rng.random()
    if kind < 0.01:
        distances = distances[:-1] if kind < 0.005 else distances + any_words(rng, rng.randint(1, 3))
    elif kind < 0.02:
        (objects if kind < 0.015 else hypotheses).extend([1] * 65)
    return frame(number, objects, hypotheses, distances)


def one(rng):
    if rng.random() < 0.01:
        return spoilt(rng, one(rng))
    truth, predicted = id_pool(rng, rng.randint(1, 7)), id_pool(rng, rng.randint(1, 7))
    count = rng.choice((0, 1, 1, 2, 3, 4, 5, 6, 8, 12)) if rng.random() < 0.98 else rng.randint(13, 40)
    costs, numbers = rng.choice(COSTS), frame_numbers(rng)
    return mot(_a_state(rng, truth, predicted),
               *(_a_frame(rng, next(numbers), truth, predicted, costs) for _ in range(count)))
