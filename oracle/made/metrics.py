"""Requests of modules 4 and 5: a log and the ids seen, and frames of ids and boxes."""

import math

from made.logs import MOST_EVENTS, a_log, extra, filled, frame_numbers, match, miss, off_by_some, switch, table
from made.scenes import boxed, frames, id_pool, ids
from made.words import BOTTOM, EDGE_WORDS, LARGEST_COUNT, NANS, TOP, any_int, beside, run, spoilt, word

MOST_TRUTHS, MOST_HYPOTHESES = 256, 1024


def seen(gt_id, partner=None):
    return "%d 0" % gt_id if partner is None else "%d 1 %d" % (gt_id, partner)


def state(events=(), truths=(), hypotheses=(), log_used=None, truths_used=None, hypotheses_used=None):
    """Events and truths are words; hypotheses are ids."""
    hypotheses = list(map(str, hypotheses))
    return " ".join((table(events, log_used), table(truths, truths_used), table(hypotheses, hypotheses_used)))


def frame_words(number, truth, truth_boxes, hypotheses, hypothesis_boxes, threshold):
    return " ".join((str(number), ids(truth), ids(hypotheses), run(truth_boxes), run(hypothesis_boxes), threshold))


def frame(number, truth, hypotheses, threshold=0.5):
    """A frame of two lists: ids, each with a box after it."""
    def side(mixed):
        return mixed[::2], [x for box in mixed[1::2] for x in box]
    threshold = threshold if isinstance(threshold, str) else word(threshold)
    return frame_words(number, *side(truth), *side(hypotheses), threshold)


def metrics(start, *said):
    return " ".join(("metrics", start, str(len(said)), *said))


NEW = state()
A, B, C = boxed((0, 0, 2, 2)), boxed((4, 4, 6, 6)), boxed((0, 7, 1, 9))
# they share a half with A, and a third as rounded
HALF, THIRD = boxed((0, 0, 2, 1)), boxed((1, 0, 3, 2))
FLAT = boxed((1, 1, 1, 2))
ONE, NOTHING = frame(1, [7, A], [1, A]), frame(1, [], [])


def _examples():
    """Document 01's marked example 15, and ties."""
    yield metrics(NEW, frame(1, [5, A, 6, B], [9, B]))
    for threshold in (0.5, 0.0, 1.0):
        yield metrics(NEW, frame(1, [5, A, 6, A], [8, A, 9, A], threshold),
                      frame(2, [6, A, 5, A], [8, A, 9, A], threshold))
        yield metrics(NEW, frame(1, [5, A, 6, HALF], [8, HALF, 9, A], threshold))
        yield metrics(NEW, frame(1, [5, A, 6, B, 7, C], [8, C, 9, A, 1, THIRD], threshold))
        yield metrics(NEW, frame(1, [5, HALF, 6, HALF], [8, A, 9, A, 1, HALF], threshold))
    # no overlap at all, taken from the threshold 0.0 down
    for threshold in (0.0, -0.0, 5e-324, -1.0):
        yield metrics(NEW, frame(1, [5, A, 6, B], [8, C], threshold), frame(2, [5, A], [8, C, 9, B], threshold))
    for edge in (0.5, 2 / 6, 1.0):
        for threshold in (edge, beside(edge, 1), beside(edge, -1)):
            yield metrics(NEW, frame(1, [5, A, 6, B], [8, HALF, 9, THIRD, 1, B], threshold))
    for threshold in (*NANS, word(math.inf), word(-math.inf), word(1.5), word(1e-10)):
        yield metrics(NEW, frame(1, [5, A, 6, B], [8, A, 9, C], threshold))


def _boxes():
    """Refusals 2 and 3 at their limits and together; boxes that are not refused here."""
    many = A * 64
    for truth, truth_boxes, hypotheses, boxes in (
            (64, [], 0, []), (65, [], 0, []), (0, [], 65, []), (128, [], 65, []), (64, many, 0, []), (0, [], 64, many),
            (64, many + A, 1, A), (1, A, 64, many + A), (65, many + A, 0, []), (64, many + A[:3], 1, A),
            (1, B, 64, many[:-1])):
        yield metrics(NEW, frame_words(1, list(range(truth)), truth_boxes, list(range(hypotheses)), boxes, word(0.5)))
    spread = [boxed((3 * i, 0, 3 * i + 2 + i % 2, 5)) for i in range(64)]
    side = list(range(64))
    yield metrics(NEW, frame_words(1, side, sum(spread, []), side, sum(spread[::-1], []), word(0.3)))
    for numbers, some in (([], A), ([], A[:1]), ([], A[:3]), ([7], []), ([7], A[:3]), ([7], A + A[:1]), ([7], A + B),
                          ([7, 8], A), ([7, 8], A + B[:3])):
        for other, others in (([], []), ([1], A), ([1], FLAT), ([1], A[:2])):
            yield metrics(NEW, frame_words(1, numbers, some, other, others, word(0.5)),
                          frame_words(2, other, others, numbers, some, word(0.5)))
    turned = boxed((2, 2, 0, 0))
    for box in (FLAT, boxed((0, 0, 2, 0)), boxed((2, 0, 0, 2)), turned, boxed((0, 0, 0, 0)), [NANS[0], *A[1:]]):
        for threshold in (0.5, 0.0):
            yield metrics(NEW, frame(1, [7, box], [1, A], threshold), frame(2, [7, A], [1, box], threshold),
                          frame(3, [7, box, 8, B], [1, box, 2, B], threshold), frame(4, [7, box], [], threshold))
    for edge in EDGE_WORDS[::2]:
        yield metrics(NEW, frame(1, [7, [edge, *A[1:]], 8, A], [1, A, 2, [*A[:2], edge, A[3]]], 0.0))


def _unsound():
    """Every fault of refusal 1, beside the other refusals, and what is no fault."""
    faults = [state(log_used=1025), state(log_used=LARGEST_COUNT), state(truths_used=257), state(truths_used=2),
              state(truths_used=LARGEST_COUNT), state(truths=[seen(0)], truths_used=2),
              state(truths=[seen(7, 1), seen(8), seen(7)]),
              state(hypotheses_used=1025), state(hypotheses_used=LARGEST_COUNT), state(hypotheses_used=2),
              state(hypotheses=[0], hypotheses_used=2), state(hypotheses=[1, 2, 1]), state(hypotheses=[1, 1])]
    for start in faults:
        yield metrics(start, ONE, NOTHING)
    wrong = (frame_words(1, [1] * 65, [], [], [], word(0.5)), frame_words(1, [7], [], [1], A, word(0.5)),
             frame(1, [900, A], [901, A]))
    yield metrics(state(log_used=1025), *wrong)
    yield metrics(state(truths=[seen(7)] * 256, log_used=1024), *wrong)
    for start in (state(truths=[seen(7, 2), seen(7)], truths_used=1), state(truths=[seen(7)], truths_used=0),
                  state(truths_used=1), state(hypotheses=[1, 1], hypotheses_used=1), state(hypotheses_used=1),
                  state(hypotheses=[5], hypotheses_used=2), state(log_used=3),
                  state([miss(1, 7), extra(2, 1)], log_used=1),
                  state([match(BOTTOM, -1, TOP), switch(TOP, BOTTOM, 0, NANS[3])], [seen(BOTTOM, TOP)], [TOP, BOTTOM])):
        yield metrics(start, ONE, frame(2, [7, A, 0, B, 8, C], [2, A, 0, B, 3, C]), NOTHING)


def _full():
    """Refusals 5 and 6: each table and the log at their last places, and lower numbers beside them."""
    truths, hypotheses = [seen(n) for n in range(1, 257)], list(range(1, 1025))
    new = frame(1, [900, A], [1, A])
    for start in (state(truths=truths), state(truths=truths[:-1]), state(truths=truths[:-1], truths_used=256),
                  state(truths=truths[:-1] + [seen(900, 4)], truths_used=255), state(truths=truths[:-2])):
        # missed ones need a place too
        yield metrics(start, frame(1, [901, A, 902, B], [1, A]), frame(2, [903, A, 903, B], []), new,
                      frame(3, [7, A, 905, B], [2, A]), frame(4, [7, A], [3, A]), frame(5, [], [2000, A]), NOTHING)
    for start in (state(hypotheses=hypotheses), state(hypotheses=hypotheses[:-1]), state(hypotheses=hypotheses[:-2]),
                  state(hypotheses=hypotheses[:-1], hypotheses_used=1024)):
        yield metrics(start, frame(1, [7, A], [2001, A, 2002, B]), frame(2, [], [2003, A, 2003, B]),
                      frame(3, [7, A], [2004, A]), frame(4, [7, A], [3, A]), frame(5, [2000, A], []), NOTHING)
    far = frame(1, [7, A, 8, B], [1, C, 2, C])
    for left in range(5):
        yield metrics(state(log_used=MOST_EVENTS - left), far, frame(2, [7, A, 8, B], [1, A, 2, B]), ONE, NOTHING,
                      frame(3, [7, A], []), frame(4, [], [1, A]), frame(5, [9, A], [3, B]))
    # 5 comes before 6, 2 and 3 before both
    for left in (0, 1):
        yield metrics(state(truths=truths, log_used=MOST_EVENTS - left), new, frame(1, [900, A, 7, B], [1, C]),
                      frame_words(1, [900], A[:3], [1], A, word(0.5)), frame_words(1, [900] * 65, A, [1], A, word(0.5)),
                      frame(1, [7, A], [1, A]), frame(1, [7, A], [1, B]), NOTHING)
    # and 1 before all
    yield metrics(state(truths=truths, log_used=MOST_EVENTS + 1), new)
    for left in (128, 127):
        yield metrics(state(log_used=MOST_EVENTS - left), frame_words(1, list(range(64)), A * 64, [], [], word(0.5)),
                      frame_words(1, [], [], list(range(64)), A * 64, word(0.5)))


def _ids():
    """Switches, ids twice in a frame, ids at their limits, seen ids beside an empty side, frame numbers."""
    for partner in (None, 1, 2, -1, BOTTOM, TOP):
        start = state(truths=[seen(7, partner)], hypotheses=[2])
        for number in (1, BOTTOM, TOP):
            yield metrics(start, frame(1, [7, A], [number, A]), frame(2, [7, A], [number, B]), frame(3, [7, A], []),
                          frame(4, [7, A], [number, A]), frame(5, [7, A], [3, A]), frame(6, [7, A], [number, A]))
    for said in (frame(1, [7, A, 7, B], [1, A, 2, B]), frame(1, [7, A, 7, B], [1, B]), frame(1, [7, A, 7, A], [1, A]),
                 frame(1, [7, A, 8, B], [1, A, 1, B]), frame(1, [7, A, 7, B, 7, C], [1, A, 2, B, 1, C]),
                 frame(1, [7, A, 7, B], []), frame(1, [], [1, A, 1, B])):
        yield metrics(NEW, said, ONE, said)
    for number in (0, -1, BOTTOM, TOP):
        yield metrics(NEW, frame(number, [number, A], [number, A]), frame(number, [number, A, 7, B], []),
                      frame(number, [], [number, A, 3, B]))
    yield metrics(NEW, frame(1, [], [3, A, 1, B, 2, C]), frame(1, [9, A, 8, B], []),
                  frame(2, [8, A, 9, B], [2, A, 1, B, 3, C]))
    yield metrics(NEW, *(frame(number, [7, A], [1, A, 2, B]) for number in (5, 5, 4, -3, TOP, BOTTOM, 5)))


def _scores():
    """Logs of one kind of event, of none, of all; distances of every kind to sum; seen ids that no event has."""
    kinds = [match(1, 7, 1, word(0.25)), switch(2, 7, 2, word(0.5)), miss(3, 7), extra(4, 1)]
    for pick in range(16):
        some = [event for i, event in enumerate(kinds) if pick >> i & 1]
        yield metrics(state(some, [seen(7)], [1, 2]))
        yield metrics(state(some * 3 + kinds[:1]), ONE)
    for distances in ((0.1, 0.2, 0.3), (0.3, 0.2, 0.1), (1e16, 1.0, -1e16), (1.0, 1e16, -1e16),
                      (math.inf, -math.inf, 1.0), (math.inf, 1.0, 2.0), (1e308, 1e308, -1e308), (1.0, 1.0, 1.0),
                      (-0.0, 1.0, 0.0), (1e-17, 2.0, 0.0)):
        first, *rest = map(word, distances)
        yield metrics(state([match(1, 7, 1, first)] + [switch(2, 7, 2, x) for x in rest]))
    for nan in NANS:
        yield metrics(state([match(1, 7, 1, nan), match(1, 8, 2)]), ONE)
    # precision and recall for which the order of idf1's operations shows
    for found, wrong, missed in ((1, 2, 0), (1, 0, 2), (3, 4, 7), (10, 3, 1), (7, 13, 6), (49, 1, 2), (5, 8, 11)):
        yield metrics(state([match(1, 7, 1, word(0.1))] * found + [extra(1, 1)] * wrong + [miss(1, 7)] * missed))
    yield metrics(state(kinds, [seen(7), seen(8, 1)], [1], log_used=2, truths_used=1, hypotheses_used=0), NOTHING)


FAULTS = """metrics
metrics 0
metrics 0 0 0 0 0 0
{new} 1
{new} x
{new} 0 0
{new} 2 {good}
{new} 1 {good} {good}
{new} 1 {good}0
{new} 2 {good} {good}0
{new} 3 {good} 2147483648 0 0 0 0 {zero} {good}
{new} 3 {good} -2147483648 0 0 0 0 {zero} {good}
{new} 3 {good} -0 1 -0 1 00 0 0 {zero} {good}
{new} 3 {good} 1 1 2147483648 0 0 0 {zero} {good}
{new} 3 {good} 1 0 0 1 0 {zero} {good}
{new} 3 {good} 1 0 0 0 8193 {zero} {good}
{new} 3 {good} 1 0 0 0 0 {good}
metrics -1 0 0 0 0 0 0
metrics 18446744073709551616 0 0 0 0 0 0
metrics 0 0 18446744073709551616 0 0 0 0
metrics 0 0 0 0 18446744073709551616 0 0
metrics 0 0 0 0 -0 0 0
metrics 1 1 0 4 7 0 0 0 0 0
metrics 1 1 0 0 7 {zero} 0 0 0 0 0
metrics 1 1 0 2 7 1 {zero} 0 0 0 0 0
metrics 1 1 -0 02 -7 0 0 0 0 0
metrics 0 1025 0 0 0 0 0
metrics 0 0 0 257 0 0 0
metrics 0 0 0 0 0 1025 0
metrics 0 0 1 1 7 2 0 0 0
metrics 0 0 1 1 7 0 1 0 0
metrics 0 0 1 1 7 1 0 0 0
metrics 0 0 1 1 7 1 2147483648 0 0 0
metrics 0 0 0 0 1 1 -2147483649 0"""


def _faults():
    """Lines that say no request, and frames that are none after some that are."""
    yield from FAULTS.format(new="metrics " + NEW, good=ONE, zero=word(0.0)).split("\n")
    yield "metrics 0 0 0 257%s 0 0 0" % (" 0 0" * 257)
    yield "metrics 0 0 0 0 0 %s 0" % ids([1] * 1025)
    yield "metrics 0 0 0 0 0 %s 0" % ids([1] * 1024)
    for many in (128, 129):
        yield "metrics %s 3 %s 2 %s 0 0 0 %s %s" % (NEW, ONE, ids([1] * many), word(0.5), ONE)


def limits(rng):
    for some in (_examples, _boxes, _unsound, _full, _ids, _scores, _faults):
        yield from some()


def _a_state(rng, truth, predicted):
    kind = rng.random()
    if kind < 0.45:
        return NEW
    log = a_log(rng, truth, predicted)
    known = rng.sample(truth, rng.randint(0, len(truth)))
    met = rng.sample(predicted, rng.randint(0, len(predicted)))
    if kind < 0.53:
        known = filled(rng, known, MOST_TRUTHS)
    elif kind < 0.55:
        met = filled(rng, met, MOST_HYPOTHESES)
    truths = [seen(number, rng.choice(predicted) if rng.random() < 0.6 else None) for number in known]
    hypotheses = list(map(str, met))
    truths_used, hypotheses_used = len(truths), len(hypotheses)
    if rng.random() < 0.2 and len(truths) < MOST_TRUTHS and len(hypotheses) < MOST_HYPOTHESES:
        # places that are not in use
        truths.append(seen(any_int(rng), any_int(rng)))
        hypotheses.append(str(any_int(rng)))
    if 0.55 < kind < 0.59:
        fault = rng.randrange(4)
        if fault == 0:
            truths_used = off_by_some(rng, len(truths))
        elif fault == 1:
            hypotheses_used = off_by_some(rng, len(hypotheses))
        elif fault == 2 and truths:
            truths[rng.randrange(len(truths))] = rng.choice(truths)
        elif hypotheses:
            hypotheses[rng.randrange(len(hypotheses))] = rng.choice(hypotheses)
    return " ".join((log, table(truths, truths_used), table(hypotheses, hypotheses_used)))


def one(rng):
    if rng.random() < 0.01:
        return spoilt(rng, one(rng))
    truth, predicted = id_pool(rng, rng.randint(1, 6)), id_pool(rng, rng.randint(1, 8))
    count = rng.choice((0, 1, 2, 2, 3, 3, 4, 5, 6, 8, 12)) if rng.random() < 0.98 else rng.randint(13, 25)
    numbers = frame_numbers(rng)
    said = frames(rng, count, truth, predicted, (0.5, 0.5, 0.3, 0.7, 0.1, 0.0))
    return metrics(_a_state(rng, truth, predicted), *(frame_words(next(numbers), *frame) for frame in said))
