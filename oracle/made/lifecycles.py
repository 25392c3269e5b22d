"""Requests of module 3's lifecycles: every count at its limits, alone and together."""

from made.words import BOTTOM, TOP, any_count, any_int, spoilt

UPDATES = "update_matched", "update_missed"


def lifecycle(gt_id=7, first=1, last=1, tracked=0, detected=0, fragmentations=0, mark=0):
    return "%d %d %d %d %d %d %d" % (gt_id, first, last, tracked, detected, fragmentations, mark)


def _coverage(tracked, detected):
    return "coverage " + lifecycle(tracked=tracked, detected=detected)


def limits(rng):
    for gt_id in (0, 1, -1, BOTTOM, TOP):
        for frame in (0, 5, BOTTOM, TOP):
            yield "lifecycle_new %d %d" % (gt_id, frame)
    # document 01's marked examples 10 to 12
    yield "update_missed %s 1" % lifecycle()
    yield "update_matched %s 2" % lifecycle(detected=1)
    yield _coverage(4, 5)
    yield _coverage(1, 5)
    # every count at each limit beside every other, so each refusal and both together
    counts = -1, 0, 1, TOP - 1, TOP
    for tracked in counts:
        for detected in counts:
            for fragmentations in counts:
                for mark in (0, 1):
                    life = lifecycle(rng.randint(-9, 9), 3, 5, tracked, detected, fragmentations, mark)
                    for name in UPDATES:
                        yield "%s %s %d" % (name, life, rng.choice((6, 6, 0, BOTTOM, TOP)))
                yield "coverage " + life
    for place in range(6):
        for limit in (BOTTOM, TOP):
            life = lifecycle(2, 3, 4, 5, 6, 7, 1).split(" ")
            life[place] = str(limit)
            for name in UPDATES:
                yield "%s %s 8" % (name, " ".join(life))
            yield "coverage " + " ".join(life)
    # next to 0.8 and 0.2, and at them
    for parts in (5, 10, 1000, TOP - 2, TOP - 1, TOP):
        for share in (parts // 5, 4 * parts // 5):
            for tracked in range(max(share - 1, 0), share + 3):
                yield _coverage(tracked, parts)
    for tracked, detected in ((3, 0), (5, 4), (TOP, 1), (1, TOP), (TOP, TOP), (TOP - 1, TOP), (1, 3), (2, 3)):
        yield _coverage(tracked, detected)
    yield from FAULTS


def one(rng):
    kind = rng.random()
    if kind < 0.02:
        return spoilt(rng, one(rng))
    if kind < 0.07:
        return "lifecycle_new %d %d" % (any_int(rng), any_int(rng))
    life = lifecycle(any_int(rng), any_int(rng), any_int(rng), any_count(rng), any_count(rng), any_count(rng),
                     rng.randrange(2))
    if kind < 0.3:
        return "coverage " + life
    return "%s %s %d" % (rng.choice(UPDATES), life, any_int(rng))


FAULTS = ["lifecycle_new" + rest for rest in (
    "", " 1", " 1 2 3", " -0 00", " -007 -00", " - 1", " --1 1", " +1 1", " 1- 1", " 1.0 1", " 2147483648 1",
    " 1 -2147483649", " 99999999999999999999 1", " 1 18446744073709551617",
    " 0000000000002147483647 -0000000000002147483648", "  1 2", " 1 2 ", " x 2")]
FAULTS += ["coverage 1 2 3 4 5 6" + rest for rest in ("", " 2", " -1", " 01", " 0 7")]
FAULTS += ["update_matched 1 2 3 4 5 6 1", "update_matched 1 2 3 4 5 6 1 2147483648", "update_missed 1 2 3 4 5 6 10 8",
           "update_matched 1 2 3 4 2147483648 6 1 8", "update_missed 1 2 3 -2147483649 5 6 1 8",
           "update_missed 1 2 3 4 5 6 1 8 9", "update_missed -1 -2 -3 4 5 6 1 -8"]
