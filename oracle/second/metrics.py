"""Modules 4 and 5 of document 01: the second MOTAccumulator, its getters, and MOTMetrics::from_accumulator."""

from typing import NamedTuple, Optional

import events
from boxes import entries, share
from events import MATCH, SWITCH, Event, append_unpaired, event_words, is_switch, quotient, read_log, summed, taken
from extended import partner_words, read_partner
from frames import Table, play, sides_number
from words import computed, float_word

MOST_TRUTHS, MOST_HYPOTHESES = 256, 1024

# 01's numbers
DONE, UNSOUND, FULL, LOG_FULL = 0, 1, 5, 6


class Seen(NamedTuple):
    """A truth id and its last partner."""
    gt_id: int
    partner: Optional[int] = None


class State(NamedTuple):
    log: Table
    truths: Table
    hypotheses: Table


def is_sound(state):
    return (not state.log.is_over() and state.truths.is_sound([seen.gt_id for seen in state.truths.in_use()])
            and state.hypotheses.is_sound(state.hypotheses.in_use()))


def update(state, frame, truth, hypotheses, truth_boxes, hypothesis_boxes, threshold):
    """01's number and the state after the call, which is the one before it at a refusal."""
    if not is_sound(state):
        return UNSOUND, state
    number = sides_number((truth, truth_boxes), (hypotheses, hypothesis_boxes))
    if number:
        return number, state
    # no box is refused here: that is for the distance's callers, and this takes the share
    shares = entries(share, truth_boxes, hypothesis_boxes)
    after = booked(state, frame, truth, hypotheses, shares, threshold)
    if after.truths.is_over() or after.hypotheses.is_over():
        return FULL, state
    if after.log.is_over():
        return LOG_FULL, state
    return DONE, after


def pairing(shares, columns, threshold):
    """Shares from the threshold on, descending; what ties stays in the order of rows and columns."""
    some = [(i // columns, i % columns, x) for i, x in enumerate(shares) if x >= threshold]
    return taken(sorted(some, key=lambda entry: -entry[2]))


def booked(state, frame, truth, hypotheses, shares, threshold):
    """The state after a frame of the right shape, where neither the tables nor the log have a bound."""
    log, truths, seen = state.log.copy(), state.truths.copy(), state.hypotheses.copy()
    places = {entry.gt_id: place for place, entry in enumerate(truths.in_use())}
    for gt_id in truth:
        if gt_id not in places:
            places[gt_id] = truths.used
            truths.append(Seen(gt_id))
    known = set(seen.in_use())
    for number in hypotheses:
        if number not in known:
            known.add(number)
            seen.append(number)
    pairs = pairing(shares, len(hypotheses), threshold)
    for row, column, iou in pairs:
        gt_id, partner = truth[row], hypotheses[column]
        switched = is_switch(truths.places[places[gt_id]].partner, partner)
        truths.places[places[gt_id]] = Seen(gt_id, partner)
        log.append(Event(frame, SWITCH if switched else MATCH, gt_id, partner, 1.0 - iou))
    append_unpaired(log, frame, truth, hypotheses, pairs)
    return State(log, truths, seen)


def motp(state, counts):
    return quotient(summed(state.log, lambda distance: 1.0 - distance), counts.found())


def idf1(counts):
    p, r = counts.precision(), counts.recall()
    return 2.0 * p * r / (p + r) if p + r > 0.0 else 0.0


def getters_words(state):
    """Each getter with its number, then from_accumulator."""
    if not is_sound(state):
        zero, refused = float_word(0.0), str(UNSOUND)
        return " ".join([refused, "0"] * 6 + [refused, zero] * 2 + [refused, *[zero] * 5, *"00000000"])
    counts = events.counts(state.log)
    truths, hypotheses = state.truths.used, state.hypotheses.used
    numbers = counts.matches, counts.false_positives, counts.misses, counts.switches, truths, hypotheses
    floats = counts.mota(), motp(state, counts), idf1(counts), counts.precision(), counts.recall()
    floats = [float_word(computed(x)) for x in floats]
    # mostly tracked, mostly lost and fragmentations stay 0
    said = [DONE, *floats, counts.false_positives, counts.misses, counts.switches, truths, hypotheses, 0, 0, 0]
    return " ".join(["%d %s" % (DONE, x) for x in (*numbers, *floats[:2])] + list(map(str, said)))


def _read_state(request):
    log = read_log(request)
    used = request.whole()
    truths = request.run_of(lambda: Seen(request.int(), read_partner(request)), MOST_TRUTHS)
    truths = Table(used, truths, MOST_TRUTHS, Seen(0))
    used = request.whole()
    return State(log, truths, Table(used, request.ids(MOST_HYPOTHESES), MOST_HYPOTHESES, 0))


def _read_frame(request):
    return request.int(), request.ids(), request.ids(), request.run(), request.run(), request.floats(1)[0]


def _frame_words(state):
    return "%d %d %d" % (state.log.used, state.truths.used, state.hypotheses.used)


def _end_words(state):
    return " ".join((getters_words(state), state.log.words(event_words),
                     state.truths.words(lambda seen: "%d %s" % (seen.gt_id, partner_words(seen.partner))),
                     state.hypotheses.words(str)))


def _answer(request):
    return play(request, _read_state(request), _read_frame, update, _frame_words, _end_words)


ANSWERS = {"metrics": _answer}
