"""Module 3 of document 01: the extended accumulator."""

from typing import NamedTuple, Optional

import lifecycles
from boxes import any_bad, distance, entries
from frames import Table, play, sides_number
from lifecycles import Lifecycle, class_of, lifecycle_words, read_lifecycle
from search import assignment
from words import LARGEST_INT, float_word, kept

MOST_SLOTS = 256

# 01's numbers
DONE, UNSOUND, BAD_BOX, FULL, PASSED = 0, 1, 4, 5, 7


class Slot(NamedTuple):
    """A truth id's lifecycle and its last partner."""
    life: Lifecycle
    partner: Optional[int] = None


class State(NamedTuple):
    frame_id: int
    matches: int
    misses: int
    false_positives: int
    switches: int
    objects: int
    distance: float
    slots: Table

    def counters(self):
        return self[:6]


def ids_of(slots):
    return [slot.life.gt_id for slot in slots.in_use()]


def is_sound(state):
    return (state.slots.is_sound(ids_of(state.slots)) and min(state.counters()) >= 0
            and all(lifecycles.is_sound(slot.life) for slot in state.slots.in_use()))


def has_passed(state):
    return (max(state.counters()) > LARGEST_INT
            or any(lifecycles.has_passed(slot.life) for slot in state.slots.in_use()))


class Booking:
    """A copy of the table, on which rows are booked without any bound."""

    def __init__(self, slots, frame):
        self.slots, self.frame, self.switches = slots.copy(), frame, 0
        self.places = {gt_id: place for place, gt_id in enumerate(ids_of(slots))}

    def place_of(self, gt_id):
        """The id's slot, taken now if it has none."""
        if gt_id not in self.places:
            self.places[gt_id] = self.slots.used
            self.slots.append(Slot(lifecycles.new(gt_id, self.frame)))
        return self.places[gt_id]

    def match(self, gt_id, partner):
        place = self.place_of(gt_id)
        slot = self.slots.places[place]
        self.switches += slot.partner is not None and slot.partner != partner
        self.slots.places[place] = Slot(lifecycles.matched(slot.life, self.frame), partner)

    def miss(self, gt_id):
        place = self.place_of(gt_id)
        slot = self.slots.places[place]
        self.slots.places[place] = Slot(lifecycles.missed(slot.life, self.frame), slot.partner)


def update(state, truth, truth_boxes, predicted, predicted_boxes, threshold):
    """01's number and the state after the call, which is the one before it at a refusal."""
    if not is_sound(state):
        return UNSOUND, state
    number = sides_number((truth, truth_boxes), (predicted, predicted_boxes))
    if number:
        return number, state
    if truth and predicted and (any_bad(truth_boxes) or any_bad(predicted_boxes)):
        return BAD_BOX, state
    after = booked(state, truth, truth_boxes, predicted, predicted_boxes, threshold)
    if after.slots.is_over():
        return FULL, state
    if has_passed(after):
        return PASSED, state
    return DONE, after


def booked(state, truth, truth_boxes, predicted, predicted_boxes, threshold):
    """The state after a frame of the right shape, where neither a table nor a counter has a bound."""
    distances = entries(distance, truth_boxes, predicted_boxes)
    if truth and predicted:
        pairs, missed, extra, _, _ = assignment(distances, len(truth), len(predicted), threshold)
    else:
        pairs, missed, extra = [], range(len(truth)), range(len(predicted))
    # the call's own frame number is the raised one
    frame = state.frame_id + 1
    total, booking = state.distance, Booking(state.slots, frame)
    for row, column in pairs:
        total += distances[row * len(predicted) + column]
        booking.match(truth[row], predicted[column])
    for row in missed:
        booking.miss(truth[row])
    return State(frame, state.matches + len(pairs), state.misses + len(missed), state.false_positives + len(extra),
                 state.switches + booking.switches, state.objects + len(truth), total, booking.slots)


def metrics(state):
    """01's number, how many ids are mostly tracked, mostly lost and partly tracked, and their fragmentations."""
    if not is_sound(state):
        return UNSOUND, 0, 0, 0, 0
    lives = [slot.life for slot in state.slots.in_use()]
    fragmentations = sum(life.fragmentations for life in lives)
    if fragmentations > LARGEST_INT:
        return PASSED, 0, 0, 0, 0
    classes = list(map(class_of, lives))
    return (DONE, classes.count(lifecycles.MOSTLY_TRACKED), classes.count(lifecycles.MOSTLY_LOST),
            classes.count(lifecycles.PARTIALLY_TRACKED), fragmentations)


def read_partner(request):
    return request.int() if request.int(0, 1) else None


def partner_words(partner):
    return "0" if partner is None else "1 %d" % partner


def _read_slot(request):
    return Slot(read_lifecycle(request), read_partner(request))


def _slot_words(slot):
    return "%s %s" % (lifecycle_words(slot.life), partner_words(slot.partner))


def _read_state(request):
    used, counters, total = request.whole(), [request.int() for _ in range(6)], request.floats(1)[0]
    given = request.run_of(lambda: _read_slot(request), MOST_SLOTS)
    return State(*counters, total, Table(used, given, MOST_SLOTS, Slot(lifecycles.new(0, 0))))


def _read_frame(request):
    return request.ids(), request.run(), request.ids(), request.run(), request.floats(1)[0]


def _frame_words(state):
    return " ".join([*map(str, (state.slots.used, *state.counters())), float_word(kept(state.distance))])


def _end_words(state):
    return "%d %d %d %d %d %s" % (*metrics(state), state.slots.words(_slot_words))


def _answer(request):
    return play(request, _read_state(request), _read_frame, update, _frame_words, _end_words)


ANSWERS = {"extended": _answer}
