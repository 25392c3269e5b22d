"""The scenes of crates/scenes: who is in the picture of each frame, and where the tracker has its labels.

A scene is a list of frames; a frame is two lists of (id, box), the truth's and the tracker's. Boxes are whole numbers of
pixels, x_min, y_min, x_max, y_max. Everything is whole-number arithmetic, so every machine makes the same scenes.
"""

from typing import NamedTuple

FRAMES = 36


class Player(NamedTuple):
    """A player's size, and where he is: (frame, x, y) from turn to turn, straight lines between them."""
    wide: int
    high: int
    turns: list

    def box(self, frame):
        before = [turn for turn in self.turns if turn[0] <= frame][-1]
        after = [turn for turn in self.turns if turn[0] >= frame][0]
        span = max(after[0] - before[0], 1)
        x, y = (before[i] + (after[i] - before[i]) * (frame - before[0]) // span for i in (1, 2))
        return x, y, x + self.wide, y + self.high


def spell(first, last):
    return range(first, last + 1)


ALL = spell(1, FRAMES)


def without(gone):
    """All frames but these."""
    return [frame for frame in ALL if frame not in gone]


def shaken(box, label, frame):
    """A tracker's box is a few pixels off."""
    off = [(label * 7 + frame * 11 + corner * 13 + label * frame * 3) % 7 - 3 for corner in range(4)]
    return tuple(x + o for x, o in zip(box, off))


def slid(box, by):
    """A box that has slid off its player."""
    x_min, y_min, x_max, y_max = box
    return x_min + by, y_min, x_max + by, y_max


def football():
    """A miss, a re-entry, an identity switch and false positives."""
    keeper = Player(44, 92, [(1, 90, 470), (18, 110, 500), (36, 96, 460)])
    back = Player(40, 90, [(1, 420, 300), (36, 700, 380)])
    far_side = Player(24, 56, [(1, 900, 130), (36, 1180, 150)])
    stopper = Player(42, 92, [(1, 500, 620), (20, 640, 600), (36, 600, 640)])
    winger = Player(40, 88, [(1, 760, 820), (36, 1460, 760)])
    striker = Player(42, 94, [(1, 1500, 420), (14, 1850, 400), (21, 1850, 430), (36, 1420, 470)])
    left_half = Player(40, 90, [(1, 800, 460), (36, 1220, 520)])
    right_half = Player(40, 90, [(1, 1220, 500), (36, 800, 474)])
    truth = [  # id, player, frames in the picture
        (1, keeper, ALL),
        (3, back, ALL),
        (23, far_side, ALL),
        (5, stopper, ALL),
        (7, winger, ALL),
        (9, striker, without(spell(15, 20))),  # out of the picture, and back
        (4, left_half, ALL),
        (10, right_half, ALL),
    ]
    labels = [  # label, player, frames in which the tracker has it on him
        (11, keeper, ALL),
        (13, back, spell(1, 20)),  # lost for good: partly tracked
        (12, far_side, spell(1, 5)),  # mostly lost
        (15, stopper, without(spell(27, 28))),
        (17, winger, without(spell(9, 11))),  # the miss: he runs behind the referee
        (19, striker, without(spell(15, 21))),  # the re-entry, which the tracker sees a frame late
        (14, left_half, spell(1, 17)),
        (20, right_half, spell(1, 17)),
        (20, left_half, spell(19, 36)),  # the identity switch: the two cross, and their labels change places
        (14, right_half, spell(19, 36)),
    ]
    alone = [  # label, box, frames: false positives
        (40, (30, 880, 62, 950), spell(5, 8)),  # a ball boy
        (41, (1870, 700, 1890, 780), spell(16, 16)),  # a corner flag
        (42, (1000, 20, 1100, 70), spell(31, 32)),  # a board
    ]
    frames = []
    for frame in ALL:
        there = [(number, player.box(frame)) for number, player, when in truth if frame in when]
        seen = [(label, shaken(player.box(frame), label, frame)) for label, player, when in labels if frame in when]
        if frame in spell(27, 28):  # the label slides off: a miss and a false positive
            seen.append((15, slid(stopper.box(frame), 30)))
        seen += [(label, shaken(box, label, frame)) for label, box, when in alone if frame in when]
        frames.append((there, seen))
    return frames


def one_name_for_two():
    """Two players who carry truth id 7. Of nine frames the tracker has both in four, one in two, and neither in three."""
    first = Player(42, 92, [(1, 520, 400), (36, 900, 460)])
    second = Player(40, 88, [(1, 1300, 620), (36, 980, 560)])
    frames = []
    for frame in ALL:
        seen = [(21, first)] if (frame - 1) % 9 < 6 else []
        seen += [(22, second)] if (frame - 1) % 9 < 4 else []
        there = [(7, first.box(frame)), (7, second.box(frame))]
        frames.append((there, [(label, shaken(player.box(frame), label, frame)) for label, player in seen]))
    return frames


def flat_box():
    """Four frames, the third with a box of no width: what a refusal looks like."""
    frames = football()[:4]
    there, seen = frames[2]
    number, (x_min, y_min, _, y_max) = there[1]
    there[1] = (number, (x_min, y_min, x_min, y_max))
    return frames


SCENES = {"match": football, "incident": one_name_for_two, "flat": flat_box}
