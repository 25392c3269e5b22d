"""Requests of module 3's extended accumulator: a state, and frames that are booked on it one after the other."""

import math

from made.lifecycles import lifecycle
from made.scenes import Frame, boxed, frames, id_pool, ids
from made.words import BOTTOM, LARGEST_COUNT, NANS, TOP, any_count, any_int, any_word, beside, run, spoilt, word

COUNTERS = "frame", "matches", "misses", "false_positives", "switches", "objects"
MOST_SLOTS = 256


def slot(gt_id, *rest, partner=None, **named):
    return "%s %s" % (lifecycle(gt_id, *rest, **named), "0" if partner is None else "1 %d" % partner)


def state(slots=(), used=None, distance=word(0.0), **counters):
    numbers = [len(slots) if used is None else used, *(counters.get(name, 0) for name in COUNTERS)]
    return " ".join([*map(str, numbers), distance, run(slots)])


def frame_words(frame):
    return " ".join((ids(frame.truth), run(frame.truth_boxes), ids(frame.predicted), run(frame.predicted_boxes),
                     frame.threshold))


def extended(start, *said):
    return " ".join(("extended", start, str(len(said)), *map(frame_words, said)))


NEW = state()
A, B, C = boxed((0, 0, 2, 2)), boxed((4, 4, 6, 6)), boxed((0, 7, 1, 9))
# at 0.5 from A, and at 2/3 as rounded
HALF, THIRD = boxed((0, 0, 2, 1)), boxed((1, 0, 3, 2))
FLAT = boxed((1, 1, 1, 2))


def _frame(truth, predicted, threshold=0.5):
    """A frame of two lists: ids, each with a box after it."""
    def side(mixed):
        return mixed[::2], [x for box in mixed[1::2] for x in box]
    return Frame(*side(truth), *side(predicted), threshold if isinstance(threshold, str) else word(threshold))


MATCH, MISS, EXTRA, NOTHING = _frame([7, A], [1, A]), _frame([7, A], []), _frame([], [1, A]), _frame([], [])
# refused by 2, 3 and 4, and what each does to a frame that another number would refuse
SPOILS = (lambda frame: frame._replace(predicted=[1] * 65),
          lambda frame: frame._replace(truth_boxes=frame.truth_boxes + A[:1]),
          lambda frame: frame._replace(truth_boxes=FLAT + frame.truth_boxes[4:]))


def _spoilt_all(frame):
    """The frame with each of refusals 2, 3 and 4, and with each two of them."""
    two, three, four = SPOILS
    return [two(frame), three(frame), four(frame), two(three(frame)), two(four(frame)), three(four(frame))]


def _examples():
    """Document 01's marked examples 10 to 13."""
    yield extended(NEW, MISS, MATCH)
    yield extended(NEW, MATCH, MATCH, MATCH, MATCH, MISS)
    yield extended(NEW, MATCH, MISS, MISS, MISS, MISS)
    yield extended(NEW, _frame([7, A], [1, A]), _frame([7, A], [1, B]), _frame([7, A], [2, A]))


def _unsound():
    """Every fault of refusal 1 alone, beside refusals 2 to 7, and what is next to a fault."""
    faults = [state(used=257), state(used=LARGEST_COUNT), state(used=2 ** 32), state(used=2), state(used=256),
              state([slot(0)], used=2), state([slot(7), slot(8), slot(7)]), state([slot(7, partner=1)] * 2)]
    faults += [state([slot(7)], **{name: negative}) for name in COUNTERS for negative in (-1, BOTTOM)]
    faults += [state([slot(8), slot(7, **{name: negative})]) for name in ("tracked", "detected", "fragmentations")
               for negative in (-1, BOTTOM)]
    for start in faults:
        yield extended(start, MATCH, NOTHING)
    for start in (state(used=257, frame=TOP), state([slot(7)], misses=-1, frame=TOP)):
        yield extended(start, *_spoilt_all(MATCH), NOTHING)
    yield extended(state([slot(7)] * 256, frame=TOP), _frame([8, A], []))
    # no fault: unused places, frame numbers, counts that don't fit each other, floats
    negative = slot(8, tracked=-1, detected=-1, fragmentations=-1)
    for start in (state([slot(7), slot(7)], used=1), state([slot(7), slot(8), slot(8)], used=1),
                  state([slot(7), negative], used=1), state([slot(7)], used=0), state([slot(8)], used=2), state(used=1),
                  state([slot(7, -5, BOTTOM)]), state([slot(7, 9, 3, 5, 2, 9, 1)]), state([slot(7, mark=1)]),
                  state([slot(7)], matches=3, objects=1, distance=word(-1.0))):
        yield extended(start, MATCH, MISS, _frame([8, A, 7, B], [1, A, 2, B]))


def _shapes():
    """Refusals 2, 3 and 4 at their limits, each two together, and beside an empty side."""
    yield extended(NEW, *_spoilt_all(MATCH), MATCH)
    for truth, predicted in ((64, 0), (0, 64), (65, 0), (0, 65), (128, 0), (0, 128), (64, 65), (65, 65)):
        yield extended(NEW, Frame([5] * truth, [], [6] * predicted, [], word(0.5)))
    many = A * 64
    for truth, truth_boxes, predicted, predicted_boxes in (
            (64, many, 0, []), (0, [], 64, many), (64, many + A, 1, A), (1, A, 64, many + A), (65, many + A, 0, []),
            (64, many + A[:3], 1, A), (1, B, 64, many[:-1]), (64, many + FLAT, 1, A), (1, A, 64, many[:-4] + FLAT)):
        yield extended(NEW, Frame(list(range(truth)), truth_boxes, list(range(predicted)), predicted_boxes, word(0.5)))
    spread = [boxed((3 * i, 0, 3 * i + 2 + i % 2, 5)) for i in range(64)]
    yield extended(NEW, Frame(list(range(64)), sum(spread, []), list(range(64)), sum(spread[::-1], []), word(0.3)))
    for numbers, boxes in (([], A), ([], A[:1]), ([], A[:3]), ([7], []), ([7], A[:3]), ([7], A + A[:1]), ([7], A + B),
                           ([7, 8], A), ([7, 8], A + B[:3]), ([7, 7], A + B + A)):
        for other, other_boxes in (([], []), ([1], A), ([1], FLAT), ([1], A[:2])):
            yield extended(NEW, Frame(numbers, boxes, other, other_boxes, word(0.5)),
                           Frame(other, other_boxes, numbers, boxes, word(0.5)))
    for box in (FLAT, boxed((0, 0, 2, 0)), boxed((2, 0, 0, 2)), boxed((0, 2, 2, 0)), [NANS[0], *FLAT[:1] * 3],
                [*A[:2], NANS[0], A[0]], [A[0], NANS[0], A[0], A[2]], boxed((-0.0, 0, 0.0, 1))):
        # beside an empty side no box is read
        yield extended(NEW, _frame([7, box], []), _frame([], [1, box]), _frame([7, box], [1, A]),
                       _frame([7, A], [1, box]), _frame([7, A, 8, B, 9, box], [1, A, 2, B]),
                       _frame([7, A, 8, B], [1, A, 2, B, 3, box]))


def _full():
    """Refusal 5: tables with 255 and 256 slots, new ids and none, ids twice, and 7 beside it."""
    def slots(first, count):
        return [slot(gt_id, 0, 0) for gt_id in range(first, first + count)]
    known, new, twice = _frame([7, A], [1, A]), _frame([900, A], [1, A]), _frame([900, A, 900, B], [1, B])
    for start in (state(slots(1, 256)), state(slots(1, 255)), state(slots(1, 255) + [slot(900)], used=255),
                  state(slots(1, 255), used=256), state(slots(0, 255), used=256), state(slots(1, 254))):
        yield extended(start, known, _frame([901, B, 902, B], []), twice, _frame([7, A, 903, B], [2, A]), known, new,
                       _frame([], [1, A]), _frame([904, A, 905, A, 904, A], [1, A]), NOTHING)
    # 5 comes before 7, whichever row is booked first, and after 2, 3 and 4
    over = slots(1, 255) + [slot(900, 0, 0, TOP, TOP, TOP)]
    for extra in ({}, {"frame": TOP}, {"misses": TOP}, {"matches": TOP, "objects": TOP}):
        yield extended(state(over, **extra), _frame([900, A, 901, B], [1, A]), _frame([901, A, 900, B], [1, A]),
                       _frame([901, A], []), _frame([901, A, 901, A], [1, A]), known,
                       *_spoilt_all(_frame([901, A], [1, A])), MISS)
    # a frame that brings many: 64 ids, of which as many are new as there is room for, then one more
    several = sum(([gt_id, A] for gt_id in range(230, 294)), [])
    for count in (229, 230):
        yield extended(state(slots(1, 229) + slots(500, count - 229)), _frame(several, [])._replace(truth_boxes=A * 64),
                       _frame(several[:-2] + [7, A], []))


def _passed():
    """Refusal 7: each counter and each count of a slot, next to its limit and at it."""
    twice = _frame([7, A, 7, B], [1, A, 2, B])
    change, mixed = _frame([7, A], [2, A]), _frame([7, A, 8, B], [1, A, 3, C])
    known = slot(7, 0, 0, 3, 4, 1, 1, partner=1)
    for name in COUNTERS:
        for left in (0, 1, 2):
            yield extended(state([known], **{name: TOP - left}), NOTHING, EXTRA, MISS, MATCH, change, twice, mixed)
    yield extended(state(frame=TOP), NOTHING, *_spoilt_all(MATCH), MATCH)
    yield extended(state(frame=TOP - 1), NOTHING, NOTHING)
    yield extended(state(**{name: TOP for name in COUNTERS[1:]}), NOTHING, MISS, NOTHING)
    yield extended(state(matches=TOP - 2), _frame([1, A, 2, B, 3, C], [1, A, 2, B, 3, C]), twice, MATCH)
    yield extended(state(false_positives=TOP - 2), _frame([], [1, A, 2, B, 3, C]), _frame([7, A], [1, B, 2, B]), EXTRA)
    for name in ("tracked", "detected", "fragmentations"):
        for left in (0, 1):
            for mark in (0, 1):
                counts = {"tracked": 2, "detected": 3, "fragmentations": 1, name: TOP - left}
                for said in ((MATCH, MATCH), (MISS, MATCH, MISS), (twice, MATCH), (_frame([7, A, 7, B], []), MISS),
                             (_frame([7, B, 7, A], [1, A]), NOTHING), (_frame([8, A, 7, B], [1, A]), MATCH)):
                    yield extended(state([slot(7, mark=mark, partner=1, **counts), slot(8)]), *said)
    # a count at its limit that the frame leaves alone
    yield extended(state([slot(7, 0, 0, TOP, TOP, TOP, 1), slot(8)]), _frame([8, A], [1, A]), EXTRA, MATCH)
    yield extended(state([slot(7, 0, 0, TOP, 5, TOP, 1), slot(8)]), MISS, MISS, MATCH)


def _pairings():
    """Thresholds, totals of distances, ids twice in a frame, ids at their limits, switches."""
    three = [7, A, 8, HALF, 9, B], [1, THIRD, 2, A, 3, C]
    for threshold in (*NANS[:3], *map(word, (math.inf, -math.inf, 0.0, -0.0, -1.0, 5e-324, 0.5, beside(0.5, -1), 2 / 3,
                                             1 - 2 / 6, beside(1 - 2 / 6, -1), 1.0, beside(1.0, -1), 1e308))):
        yield extended(NEW, _frame(*three, threshold), _frame([7, A], [1, A], threshold))
    for total in (*NANS[:4], *map(word, (math.inf, -math.inf, -0.0, 0.0, -0.5, 1e308, 2.0 ** 53, 5e-324, 0.1))):
        yield extended(state(distance=total), NOTHING, MISS, EXTRA, MATCH, _frame([7, A], [1, HALF]),
                       _frame(*three, 1.0))
    # 1.0 and 0.1 added one by one to a large total
    tenths = [7, A, 8, B, 9, C], [1, boxed((0, 0, 2, 1.8)), 2, boxed((4, 4, 6, 5.7)), 3, boxed((0, 7, 1, 8.4))]
    for total in (0.0, 0.1, 1e16, 2.0 ** 53 - 1, -0.3):
        yield extended(state(distance=word(total)), _frame(*tenths), _frame(*tenths), _frame(*tenths))
    for first in (A, B):
        # one id in two rows: matched twice, matched and missed in either order of the rows, missed twice
        for said in (_frame([7, A, 7, B], [1, A, 2, B]), _frame([7, A, 7, B], [1, first]),
                     _frame([7, A, 7, A], [1, A]), _frame([7, A, 7, B], []), _frame([7, A, 8, B, 7, C], [1, B, 2, C]),
                     _frame([7, A, 8, B], [1, A, 1, B]), _frame([7, A, 7, B, 7, C], [1, A, 2, B, 1, C])):
            yield extended(NEW, said, MATCH, said)
            yield extended(state([slot(8, partner=2), slot(7, 0, 0, 1, 1, 0, 1, partner=1)]), said, MISS, said)
    for partner in (None, 1, 2, -1, BOTTOM, TOP):
        start = [slot(7, 0, 0, 2, 2, 0, 1, partner=partner)]
        for number in (1, -1, BOTTOM, TOP):
            yield extended(state(start), _frame([7, A], [number, A]), MISS, MISS, _frame([7, A], [number, A]), MATCH)
    for number in (0, -1, BOTTOM, TOP):
        yield extended(NEW, _frame([number, A], [number, A]), _frame([7, A, number, B], [1, A, 2, B]),
                       _frame([number, A], []))
    # slots come in the order of booking: matched rows before missed ones
    yield extended(NEW, _frame([5, C, 6, A, 7, boxed((20, 0, 22, 2)), 8, B], [1, B, 2, A]))
    # the nearest first is not the search's way
    yield extended(NEW, _frame([7, boxed((0, 0, 10, 1)), 8, boxed((4, 0, 14, 1))],
                               [1, boxed((3, 0, 13, 1)), 2, boxed((7, 0, 17, 1))], 1.0))
    yield extended(NEW, NOTHING, EXTRA, NOTHING, MISS, NOTHING, MATCH, EXTRA, NOTHING)


def _metrics():
    """Coverages at 0.8 and 0.2 and next to them; fragmentations whose sum is next to the limit."""
    lives = [(4, 5), (1, 5), (0, 0), (3, 0), (0, 5), (5, 5), (9, 5), (TOP, TOP), (0, TOP), (3, 4), (2, 11),
             (1717986917, TOP), (1717986918, TOP), (429496729, TOP), (429496730, TOP), (TOP // 5 * 4, TOP - 2)]
    for tracked, detected in lives:
        yield extended(state([slot(7, 0, 0, tracked, detected)]))
    yield extended(state([slot(gt_id, 0, 0, *life) for gt_id, life in enumerate(lives)]), MATCH)
    for counts in ((TOP,), (TOP, 0), (TOP - 1, 1), (TOP, 1), (2 ** 30, 2 ** 30), (2 ** 30, 2 ** 30 - 1), (TOP,) * 5,
                   (TOP, TOP, 2)):
        slots = [slot(gt_id, 0, 0, 1, 2, count, 0) for gt_id, count in enumerate(counts)]
        yield extended(state(slots), _frame([0, A], [1, A]), MISS)
    yield extended(state([slot(7, 0, 0, 1, 2, TOP), slot(8, 0, 0, 1, 2, 1)], used=1), NOTHING)
    yield extended(state([slot(gt_id, 0, 0, 1, 2, TOP) for gt_id in range(256)]))
    yield extended(state([slot(gt_id, 0, 0, gt_id % 7, 6, 8388607) for gt_id in range(256)]))


FAULTS = """extended
extended 0
extended 0 0 0 0 0 0 0 {zero}
{new}
{new} 1
{new} x
{new} -1
{new} 18446744073709551616
{new} 18446744073709551615
{new} 0 0
{new} 2 {good}
{new} 1 {good} {good}
{new} 1 {good}0
{new} 2 {good} 1
{new} 2 {good}  {good}
{new} 3 {good} {good} 1 {good}
{new} 01 {good}
{new} 000000000000000000000000000002 {good} {good}
{new} 3 {good} 1 2147483648 0 0 0 {zero} {good}
{new} 3 {good} 1 -2147483648 0 0 0 {zero} {good}
{new} 3 {good} 0 8193 0 0 {zero} {good}
{new} 3 {good} -1 0 0 0 {zero} {good}
{new} 3 {good} 0 0 0 0 {good}
{new} 3 {good} 0 0 0 0 0 {good}
{new} 3 {good} 1 -0 4 {zero} {zero} {good}
{new} 3 {good} 1 -0 0 01 00 0 {zero} {good}
extended -1 0 0 0 0 0 0 {zero} 0 0
extended 18446744073709551616 0 0 0 0 0 0 {zero} 0 0
extended 0 2147483648 0 0 0 0 0 {zero} 0 0
extended 0 -0 0 0 0 00 -00 {zero} 0 0
extended 0 0 0 0 0 0 0 0 0 0
extended 0 0 0 0 0 0 {zero} 0 0
extended 1 0 0 0 0 0 0 {zero} 1 7 0 0 0 0 0 2 0 0
extended 1 0 0 0 0 0 0 {zero} 1 7 0 0 0 0 0 0 2 0
extended 1 0 0 0 0 0 0 {zero} 1 7 0 0 0 0 0 1 1 0
extended 1 0 0 0 0 0 0 {zero} 1 7 0 0 0 0 0 1 1
extended 1 0 0 0 0 0 0 {zero} 1 7 0 0 0 0 0 1 1 -2147483649 0
extended 0 0 0 0 0 0 0 {zero} 257 0"""


def _faults():
    """Lines that say no request, and frames that are none after some that are."""
    good, zero, start = frame_words(MATCH), word(0.0), "extended " + NEW
    yield from FAULTS.format(new=start, good=good, zero=zero).split("\n")
    yield "%s 1 %s " % (start, good)
    yield "%s 1 %s" % (start, good[:-1])
    yield "%s 2 %s %s" % (start, good, good.upper())
    yield "extended 0 0 0 0 0 0 0 %s 257%s 0" % (zero, " 0" * 8 * 257)
    for many in (128, 129):
        yield "%s 3 %s %s 0 0 0 %s %s" % (start, good, ids([1] * many), zero, good)


def limits(rng):
    for some in (_examples, _unsound, _shapes, _full, _passed, _pairings, _metrics, _faults):
        yield from some()


def _a_slot(rng, gt_id, partners, count):
    partner = rng.choice(partners) if rng.random() < 0.7 else None
    detected = count(rng)
    tracked = rng.randint(0, detected) if detected >= 0 and rng.random() < 0.8 else count(rng)
    return slot(gt_id, rng.randint(0, 9), rng.randint(0, 9), tracked, detected, count(rng), rng.randrange(2),
                partner=partner)


def _few(rng):
    return rng.randint(0, 9)


def _near_top(rng):
    return rng.choice((rng.randint(0, 9), rng.randint(0, 9), TOP - rng.randint(0, 4), TOP - rng.randint(5, 30)))


def _a_state(rng, truth, predicted):
    """New, or any: some ids that come, a table full but for a place or two, counters near their limit, unsound."""
    kind = rng.random()
    if kind < 0.5:
        return NEW
    count = _near_top if kind < 0.6 else any_count if kind < 0.63 else _few
    known = rng.sample(truth, rng.randint(0, len(truth)))
    if 0.63 < kind < 0.7:
        # other ids fill the table up to a few places
        room = rng.choice((0, 0, 0, 1, 1, 2, 3))
        known = list(dict.fromkeys(known + list(range(1000, 1000 + MOST_SLOTS))))[:MOST_SLOTS - room]
        rng.shuffle(known)
    used = len(known)
    spare = rng.randint(0, 2) if rng.random() < 0.3 else 0
    slots = [_a_slot(rng, gt_id, predicted, count) for gt_id in known]
    slots += [_a_slot(rng, any_int(rng), predicted, any_count) for _ in range(min(spare, MOST_SLOTS - used))]
    if rng.random() < 0.05 and 0 not in known and used == len(slots) < MOST_SLOTS:
        # the next place, as a new accumulator has it
        used += 1
    counters = {name: count(rng) if rng.random() < 0.5 else 0 for name in COUNTERS}
    if 0.7 < kind < 0.74:
        fault = rng.randrange(4)
        if fault == 0:
            used = rng.choice((used + 1, used + 2, 256, 257, 2 ** 32, LARGEST_COUNT))
        elif fault == 1 and slots:
            slots[rng.randrange(len(slots))] = rng.choice(slots)
        else:
            counters[rng.choice(COUNTERS)] = rng.choice((-1, BOTTOM, any_int(rng)))
    distance = word(rng.choice((0.0, 0.5, rng.uniform(0.0, 9.0)))) if rng.random() < 0.8 else any_word(rng)
    return state(slots, used, distance, **counters)


def one(rng):
    if rng.random() < 0.01:
        return spoilt(rng, one(rng))
    truth, predicted = id_pool(rng, rng.randint(1, 6)), id_pool(rng, rng.randint(1, 8))
    count = rng.choice((0, 1, 2, 2, 3, 3, 4, 5, 6, 8, 12)) if rng.random() < 0.97 else rng.randint(13, 25)
    return extended(_a_state(rng, truth, predicted), *frames(rng, count, truth, predicted, (0.5, 0.5, 0.7, 0.3, 1.0)))
