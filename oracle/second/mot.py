"""Module 3 of document 01: its own MOTAccumulator and MOTMetrics."""

from typing import NamedTuple

import events
from events import MATCH, SWITCH, Event, append_unpaired, event_words, is_switch, quotient, read_log, summed, taken
from floats import is_finite
from extended import partner_words, read_partner
from frames import MOST_A_SIDE, Table, play
from words import computed, float_word

MOST_MATCHES = 256

# 01's numbers
DONE, UNSOUND, TOO_MANY, SHAPE, FULL, LOG_FULL = 0, 1, 2, 3, 5, 6


class State(NamedTuple):
    log: Table
    last_match: Table


def is_sound(state):
    return not state.log.is_over() and state.last_match.is_sound([truth for truth, _ in state.last_match.in_use()])


def update(state, frame, truth, predicted, distances):
    """01's number and the state after the call, which is the one before it at a refusal."""
    if not is_sound(state):
        return UNSOUND, state
    if len(truth) > MOST_A_SIDE or len(predicted) > MOST_A_SIDE:
        return TOO_MANY, state
    if len(distances) != len(truth) * len(predicted):
        return SHAPE, state
    after = booked(state, frame, truth, predicted, distances)
    if after.last_match.is_over():
        return FULL, state
    if after.log.is_over():
        return LOG_FULL, state
    return DONE, after


def pairing(distances, columns):
    """Finite distances, ascending; what ties stays in the order of rows and columns."""
    entries = [(i // columns, i % columns, x) for i, x in enumerate(distances) if is_finite(x)]
    return taken(sorted(entries, key=lambda entry: entry[2]))


def booked(state, frame, truth, predicted, distances):
    """The state after a frame of the right shape, where neither the table nor the log has a bound."""
    log, table = state.log.copy(), state.last_match.copy()
    places = {number: place for place, (number, _) in enumerate(table.in_use())}
    pairs = pairing(distances, len(predicted))
    for row, column, distance in pairs:
        gt_id, partner = truth[row], predicted[column]
        if gt_id in places:
            switched = is_switch(table.places[places[gt_id]][1], partner)
            table.places[places[gt_id]] = gt_id, partner
        else:
            switched = False
            places[gt_id] = table.used
            table.append((gt_id, partner))
        log.append(Event(frame, SWITCH if switched else MATCH, gt_id, partner, distance))
    append_unpaired(log, frame, truth, predicted, pairs)
    return State(log, table)


def metrics_words(state):
    """compute_metrics: the number, then MOTMetrics in the protocol's order."""
    if not is_sound(state):
        return " ".join([str(UNSOUND), *"00000", *[float_word(0.0)] * 5, *"000"])
    counts, total = events.counts(state.log), summed(state.log, lambda distance: distance)
    floats = total, counts.mota(), quotient(total, counts.found()), counts.precision(), counts.recall()
    # no event is a fragmentation, and the three classes stay 0
    return " ".join(map(str, (DONE, counts.found(), counts.misses, counts.false_positives, counts.switches, 0,
                              *(float_word(computed(x)) for x in floats), 0, 0, 0)))


def _read_state(request):
    log, used = read_log(request), request.whole()
    return State(log, Table(used, request.run_of(lambda: (request.int(), read_partner(request)), MOST_MATCHES),
                            MOST_MATCHES, (0, None)))


def _read_frame(request):
    return request.int(), request.ids(), request.ids(), request.run()


def _frame_words(state):
    return "%d %d" % (state.log.used, state.last_match.used)


def _end_words(state):
    return " ".join((metrics_words(state), state.log.words(event_words),
                     state.last_match.words(lambda pair: "%d %s" % (pair[0], partner_words(pair[1])))))


def _answer(request):
    return play(request, _read_state(request), _read_frame, update, _frame_words, _end_words)


ANSWERS = {"mot": _answer}
