"""The words of logs and tables, for modules 3 to 5; logs of any events."""

from made.words import LARGEST_COUNT, any_int, any_word, run, word

MOST_EVENTS = 1024


def match(frame, truth, predicted, distance=word(0.0)):
    return "%d 0 %d %d %s" % (frame, truth, predicted, distance)


def switch(frame, truth, predicted, distance=word(0.0)):
    return "%d 1 %d %d %s" % (frame, truth, predicted, distance)


def miss(frame, truth):
    return "%d 2 %d" % (frame, truth)


def extra(frame, predicted):
    return "%d 3 %d" % (frame, predicted)


def table(places=(), used=None):
    """A table or a log: its used count, which is that of the places if it isn't given, and the places."""
    return "%d %s" % (len(places) if used is None else used, run(list(places)))


def an_event(rng, truth, predicted):
    frame = rng.randint(0, 9) if rng.random() < 0.9 else any_int(rng)
    kind = rng.random()
    if kind < 0.5:
        distance = word(rng.choice((0.0, 0.5, rng.random()))) if rng.random() < 0.9 else any_word(rng)
        return (match if kind < 0.35 else switch)(frame, rng.choice(truth), rng.choice(predicted), distance)
    return miss(frame, rng.choice(truth)) if kind < 0.75 else extra(frame, rng.choice(predicted))


def a_log(rng, truth, predicted):
    """Some events, all in use or not; now and then so many places in use that a few frames fill the log."""
    events = [an_event(rng, truth, predicted) for _ in range(rng.randint(0, 9))]
    kind = rng.random()
    if kind < 0.75:
        return table(events)
    if kind < 0.85:
        return table(events, rng.randint(0, len(events) + 2))
    return table(events, MOST_EVENTS - rng.choice((0, 1, 2, 3, 4, 6, 10, 20)))


def filled(rng, known, most):
    """The known ids and others, so many that few places are left."""
    room = rng.choice((0, 0, 0, 1, 1, 2, 3))
    numbers = list(dict.fromkeys(known + list(range(1000, 1000 + most))))[:most - room]
    rng.shuffle(numbers)
    return numbers


def off_by_some(rng, count):
    """A used count that is not what is given."""
    return rng.choice((count + 1, count + 2, 256, 257, 1024, 1025, 2 ** 32, LARGEST_COUNT))


def frame_numbers(rng):
    """Numbers that rise by 1, stand, leap, go back or are any."""
    number, kind = rng.randint(0, 3), rng.random()
    while True:
        yield number
        if kind < 0.7:
            number += 1
        elif kind < 0.95:
            number += rng.choice((-1, 0, 0, 1, 1, 5))
        else:
            number = any_int(rng)
