"""Requests of module 1: boxes of every kind, alone and as the sides of a matrix."""

from made.words import EDGE_WORDS, EDGES, NANS, any_word, any_words, beside, run, spoilt, value, word


def small(rng):
    return float(rng.randint(0, 6))


def whole(rng):
    return float(rng.randint(-32767, 32767))


def fraction(rng):
    return rng.uniform(-10.0, 10.0)


def edge(rng):
    return rng.choice(EDGES)


def bits(rng):
    x = value("%016x" % rng.getrandbits(64))
    return x if x == x else 0.5


# sides whose products fall below the normal range, or pass it
def tiny(rng):
    return rng.uniform(-1.0, 1.0) * float("1e%d" % rng.randint(-170, -150))


def huge(rng):
    return rng.uniform(-1.0, 1.0) * float("1e%d" % rng.randint(150, 308))


COORDINATES = [small, small, small, whole, fraction, edge, bits, tiny, huge]


def box_of(rng, coordinate):
    """A box with sides the right way round, but for equal ones."""
    x1, x2, y1, y2 = coordinate(rng), coordinate(rng), coordinate(rng), coordinate(rng)
    return [word(min(x1, x2)), word(min(y1, y2)), word(max(x1, x2)), word(max(y1, y2))]


def wider(rng, box):
    """The box with equal sides pulled apart, so that most calls are not refused."""
    for low, high in ((0, 2), (1, 3)):
        x = value(box[high])
        if value(box[low]) == x:
            box[high] = word(beside(x, 1) if x + 1.0 == x or rng.random() < 0.2 else x + 1.0)
    return box


def near(rng, box):
    """A box made from another: the same, touching it, or a float's breadth off."""
    box = list(box)
    kind = rng.randrange(5)
    if kind == 0:
        box[0], box[2] = box[2], word(value(box[2]) + 1.0)
    elif kind == 1:
        box[1], box[3] = box[3], word(2.0 * value(box[3]) - value(box[1]))
    elif kind == 2:
        place = rng.randrange(4)
        box[place] = word(beside(value(box[place]), rng.choice((-1, 1))))
    return box


def box_lists(rng, counts):
    """Lists of boxes, one for each count, that have to do with each other; now and then one is spoilt."""
    coordinate = rng.choice(COORDINATES)
    before, lists = [], []
    for count in counts:
        boxes = []
        for _ in range(count):
            box = near(rng, rng.choice(before)) if before and rng.random() < 0.3 else box_of(rng, coordinate)
            boxes.append(wider(rng, box))
            before.append(box)
        lists.append(boxes)
    kind = rng.random()
    if before and kind < 0.3:
        box, place = rng.choice(before), rng.randrange(4)
        if kind < 0.1:
            box[place] = box[place - 2]
        else:
            box[place] = rng.choice(NANS) if kind < 0.2 else any_word(rng)
    return lists


def flat(boxes):
    return [x for box in boxes for x in box]


def _matrix(name, truth, predicted, lent):
    return " ".join((name, run(truth), run(predicted), run(lent)))


MATRICES = ("compute_iou_distance_matrix", "iou_matrix")
GOOD = [word(x) for x in (0.0, 0.0, 2.0, 2.0)]
BAD = [word(x) for x in (1.0, 0.0, 1.0, 2.0)]


def limits(rng):
    """Each limit of document 01, and numbers that apply together."""
    sides = (0, 1, 2, 63, 64, 65)
    for name in MATRICES:
        for rows in sides:
            for columns in sides:
                need = rows * columns
                # long lines only where they show something: one of 4,096 floats is 70 KB
                if max(rows, columns) > 64:
                    rooms = (7,) if 63 not in (rows, columns) else ()
                elif need > 200:
                    rooms = {(64, 64): (need, need - 1)}.get((rows, columns), ())
                elif need > 60:
                    rooms = (need,)
                else:
                    rooms = (need, need - 1, need + 3)
                for room in rooms:
                    if room >= 0:
                        truth, predicted = ([wider(rng, box_of(rng, small)) for _ in range(n)] for n in (rows, columns))
                        yield _matrix(name, flat(truth), flat(predicted), any_words(rng, room))
        # runs that are not whole fours, on either side and beside every other number
        few = [], GOOD, BAD, GOOD + GOOD[:2]
        for extra in (1, 2, 3):
            for rows, others in ((0, few), (1, few), (64, [GOOD]), (65, [BAD] if extra > 1 else [])):
                for other in others:
                    for room in (0, 2) if rows < 64 else (extra,):
                        odd = GOOD * rows + BAD[:extra]
                        yield _matrix(name, odd, other, any_words(rng, room))
                        yield _matrix(name, other, odd, any_words(rng, room))
        # bad boxes: beside an empty side, a short output, too many boxes, and each box alone
        for truth, predicted in (([], BAD), (BAD, []), (BAD, GOOD), (GOOD, BAD), (BAD, BAD),
                                 (GOOD * 3 + BAD, GOOD * 2), (GOOD * 2, GOOD * 3 + BAD),
                                 (GOOD, GOOD * 63 + BAD), (GOOD * 63 + BAD, GOOD), (BAD * 65, GOOD)):
            need = len(truth) // 4 * (len(predicted) // 4)
            for room in (max(need - 1, 0), need):
                yield _matrix(name, truth, predicted, any_words(rng, room))
    # the longest runs the protocol has, and one more
    yield _matrix("iou_matrix", GOOD, BAD + GOOD, any_words(rng, 8192))
    yield _matrix("iou_matrix", GOOD, BAD + GOOD, [word(1.0)] * 8193)
    # every edge as each coordinate of a box, and beside itself
    for place in range(4):
        for edge in EDGE_WORDS:
            box = list(GOOD)
            box[place] = edge
            yield " ".join(("iou_distance", *box, *GOOD))
            yield " ".join(("iou_share", *GOOD, *box))
    # NaN in x beside a bad y, and the other way round
    for nan in NANS:
        for box in ([nan, *BAD[2:], BAD[2]], [*GOOD[:2], nan, GOOD[0]], [*BAD[:3], nan], [BAD[0], nan, *BAD[2:]]):
            yield " ".join(("iou_distance", *box, *GOOD))
            yield " ".join(("iou_distance", *GOOD, *box))
    yield from FAULTS


def _side(rng):
    kind = rng.random()
    if kind < 0.97:
        return rng.randint(0, 6)
    return rng.randint(7, 20) if kind < 0.995 else rng.choice((63, 64, 65))


def one(rng):
    kind = rng.random()
    if kind < 0.5:
        (box1, box2), = box_lists(rng, (2,))
        return " ".join(("iou_distance" if kind < 0.3 else "iou_share", *box1, *box2))
    if kind > 0.995:
        return spoilt(rng, one(rng))
    rows, columns = _side(rng), _side(rng)
    truth, predicted = map(flat, box_lists(rng, (rows, columns)))
    if rng.random() < 0.05:
        rng.choice((truth, predicted)).extend(any_words(rng, rng.randint(1, 3)))
    room = rows * columns
    kind = rng.random()
    if kind < 0.1:
        room = max(room - 1, 0)
    elif kind < 0.4:
        room += rng.randint(1, 5)
    elif kind < 0.5:
        room = rng.randint(0, room)
    return _matrix(rng.choice(MATRICES), truth, predicted, any_words(rng, room))


FAULTS = ["", "min", "?", "minimum %s %s" % (word(1.0), word(2.0)), "is_zero 0", "abs 3FF0000000000000",
          "abs 3ff000000000000", "abs 3ff00000000000000", "abs 3ff000000000000g", "abs -3ff0000000000000",
          "abs\t3ff0000000000000", "abs  3ff0000000000000", "abs 3ff0000000000000 ", " abs 3ff0000000000000",
          "iou_matrix 0 0", "iou_matrix 0 0 -1", "iou_matrix 0 0 1", "iou_matrix 0 0 0 0", "iou_matrix 0 0 8193",
          "iou_matrix 0 0 99999999999999999999", "iou_matrix 18446744073709551616 0 0", "iou_matrix x 0 0",
          "iou_matrix 00 0 01 %s" % word(-0.0), "iou_matrix 0 0 8193" + " 3ff0000000000000" * 3,
          "iou_share " + " ".join(GOOD), "iou_distance " + " ".join(GOOD * 2 + GOOD[:1])]
