"""What the accumulators share: the sides of a frame, tables with a used count, calls one after the other."""

from words import Fault

MOST_A_SIDE = 64

# 01's numbers
DONE, TOO_MANY, SHAPE = 0, 2, 3


def sides_number(*sides):
    """01's 2 or 3 for the ids and the box floats of each side, or 0."""
    if any(len(ids) > MOST_A_SIDE or len(boxes) // 4 > MOST_A_SIDE for ids, boxes in sides):
        return TOO_MANY
    return SHAPE if any(len(boxes) != 4 * len(ids) for ids, boxes in sides) else DONE


class Table:
    """Places with a used count. Where a request gives fewer than there are, the others are a new accumulator's."""

    def __init__(self, used, given, most, new):
        self.used, self.given, self.most = used, len(given), most
        self.places = given + [new] * (most - len(given))

    def copy(self):
        other = Table.__new__(Table)
        other.used, other.given, other.most, other.places = self.used, self.given, self.most, list(self.places)
        return other

    def in_use(self):
        return self.places[:self.used]

    def append(self, place):
        """Takes the next place. There is always one: whether they are too many is settled at the end."""
        self.places[self.used:self.used + 1] = [place]
        self.used += 1

    def is_over(self):
        return self.used > self.most

    def is_sound(self, ids):
        """01's rule for a table: the used count within its capacity and no id twice in the used places."""
        return not self.is_over() and len(set(ids)) == self.used

    def words(self, place_words):
        shown = self.places[:max(self.used, self.given)]
        return " ".join([str(len(shown)), *map(place_words, shown)])


def play(request, state, read_frame, update, frame_words, end_words):
    """The calls one after the other, answered as they are read; where one is no frame the answer breaks off."""
    said = []
    try:
        for _ in range(request.whole()):
            number, state = update(state, *read_frame(request))
            said.append("%d %s" % (number, frame_words(state)))
        request.end()
    except Fault:
        return " ".join([*said, "?"])
    return " ".join([*said, end_words(state)])
