"""Frames with the ids and boxes of two sides and a threshold: scenes that are tracked, crowds, anything."""

import math
from typing import NamedTuple

from made.boxes import BAD, box_lists, flat
from made.words import BOTTOM, NANS, TOP, any_int, any_word, any_words, beside, run, word


class Frame(NamedTuple):
    truth: list
    truth_boxes: list
    predicted: list
    predicted_boxes: list
    threshold: str


def ids(numbers):
    return run(list(map(str, numbers)))


def boxed(*corners):
    """The words of boxes, one after the other."""
    return [word(float(x)) for box in corners for x in box]


def id_pool(rng, count):
    """So many ids, each once: the first numbers, or any."""
    if rng.random() < 0.7:
        return list(range(1, count + 1))
    pool = dict.fromkeys(rng.sample((0, -1, BOTTOM, TOP), 2))
    while len(pool) < count:
        pool[any_int(rng)] = None
    return list(pool)[:count]


def a_threshold(rng, usual):
    """The usual ones, the floats next to them, 0.0, infinities, NaN, any."""
    kind = rng.random()
    if kind < 0.75:
        return word(rng.choice(usual))
    if kind < 0.85:
        return word(beside(rng.choice(usual), rng.choice((-1, 1))))
    if kind < 0.97:
        return rng.choice((word(0.0), word(-0.0), word(math.inf), word(1e-10), word(2.0)))
    return rng.choice((NANS[0], word(-math.inf), word(-1.0), any_word(rng)))


class _Tracked:
    """Objects that move a little, seen and followed most of the time; what follows one may change, or two may swap."""

    def __init__(self, rng, truth, predicted):
        self.rng, self.free = rng, list(predicted)
        self.unit = rng.choice((1.0, 1.0, 0.5, rng.uniform(0.1, 2.0)))
        self.seen, self.followed = rng.choice((0.75, 0.9, 1.0)), rng.choice((0.7, 0.9, 1.0))
        self.spread, self.jitter = rng.choice((3, 8, 30)), rng.choice((0.0, 0.25, 0.5, 1.0, rng.random()))
        self.objects = {gt_id: self.anywhere() for gt_id in truth}
        self.follower = {gt_id: self.next_follower() for gt_id in truth}

    def anywhere(self):
        draw = self.rng.randint
        return [draw(0, self.spread), draw(0, self.spread), draw(2, 6), draw(2, 6)]

    def next_follower(self):
        """Ids come in order, then again from the first."""
        self.free.append(self.free[0])
        return self.free.pop(0)

    def box(self, place, breadth):
        """The box of a place, so far off it at most in either direction."""
        x, y = (self.unit * (z + breadth * self.rng.randint(-1, 1)) for z in place[:2])
        return [word(x), word(y), word(x + self.unit * place[2]), word(y + self.unit * place[3])]

    def step(self):
        rng = self.rng
        truth, predicted = [], []
        if rng.random() < 0.15:
            one, other = rng.choice(list(self.objects)), rng.choice(list(self.objects))
            self.follower[one], self.follower[other] = self.follower[other], self.follower[one]
        for gt_id, place in self.objects.items():
            place[0] += rng.randint(-1, 1)
            place[1] += rng.randint(-1, 1)
            if rng.random() < 0.1:
                self.follower[gt_id] = self.next_follower()
            if rng.random() < self.seen:
                truth.append((gt_id, self.box(place, 0.0)))
            if rng.random() < self.followed:
                predicted.append((self.follower[gt_id], self.box(place, self.jitter)))
        if rng.random() < 0.15:
            predicted.append((rng.choice(self.free), self.box(self.anywhere(), 0.0)))
        for side in (truth, predicted):
            if rng.random() < 0.3:
                rng.shuffle(side)
        return truth, predicted


class _Crowd:
    """Boxes on a small grid, so that distances tie; few ids, so that some are given twice."""

    def __init__(self, rng, truth, predicted):
        self.rng, self.pools = rng, (truth, predicted)
        self.grid, self.most = rng.choice((1, 2, 4)), rng.choice((2, 5, 8)) if rng.random() < 0.97 else 24

    def side(self, pool):
        def box():
            x, y = (self.rng.randint(0, self.grid) for _ in range(2))
            return boxed((x, y, x + self.rng.randint(1, 2), y + self.rng.randint(1, 2)))
        return [(self.rng.choice(pool), box()) for _ in range(self.rng.randint(0, self.most))]

    def step(self):
        return tuple(map(self.side, self.pools))


class _Unrelated:
    """Boxes of any kind, with floats of any kind in them; now and then a bad one."""

    def __init__(self, rng, truth, predicted):
        self.rng, self.pools = rng, (truth, predicted)

    def step(self):
        boxes = box_lists(self.rng, [self.rng.randint(0, 4) for _ in range(2)])
        return tuple([(self.rng.choice(pool), box) for box in side] for pool, side in zip(self.pools, boxes))


def _spoil(rng, frame):
    """The frame with one thing that document 01 refuses."""
    frame = Frame(*map(list, frame[:4]), frame.threshold)
    numbers, boxes = frame[:2] if rng.random() < 0.5 else frame[2:4]
    kind = rng.random()
    if kind < 0.15:
        numbers += [rng.randint(1, 99) for _ in range(65 - len(numbers))]
    elif kind < 0.3:
        numbers.append(any_int(rng))
    elif kind < 0.4:
        boxes += any_words(rng, rng.randint(1, 4))
    elif kind < 0.5:
        del boxes[-1:], numbers[-1:]
    elif boxes:
        place = rng.randrange(len(numbers)) * 4
        boxes[place:place + 4] = BAD
    return frame


def _special(rng, boxes):
    """The boxes with one float of any kind in them."""
    boxes = list(boxes)
    if boxes:
        place = rng.randrange(len(boxes))
        boxes[place] = rng.choice((word(-0.0), NANS[0], word(math.inf), word(-math.inf), any_word(rng)))
    return boxes


def frames(rng, count, truth, predicted, usual, refused=0.04):
    """So many frames with ids of the two pools; most say something that is taken."""
    kind = rng.random()
    scene = (_Tracked if kind < 0.6 else _Crowd if kind < 0.88 else _Unrelated)(rng, truth, predicted)
    threshold, special = a_threshold(rng, usual), rng.random() < 0.08
    for _ in range(count):
        sides = list(scene.step())
        if rng.random() < 0.06:
            sides[rng.randrange(2)] = []
        (truth_ids, truth_boxes), (predicted_ids, predicted_boxes) = (
            ([number for number, _ in side], flat(box for _, box in side)) for side in sides)
        if special:
            truth_boxes, predicted_boxes = _special(rng, truth_boxes), _special(rng, predicted_boxes)
        frame = Frame(truth_ids, truth_boxes, predicted_ids, predicted_boxes,
                      threshold if rng.random() < 0.9 else a_threshold(rng, usual))
        yield _spoil(rng, frame) if rng.random() < refused else frame
