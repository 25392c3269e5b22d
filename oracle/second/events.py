"""What the accumulators of modules 3 and 4 share: events, their log, and the pairs taken while both ends are free."""

from typing import NamedTuple, Optional

from frames import Table
from words import float_word, kept

MOST_EVENTS = 1024
MATCH, SWITCH, MISS, FALSE_POSITIVE = range(4)


class Event(NamedTuple):
    frame: int
    case: int
    truth: Optional[int] = None
    predicted: Optional[int] = None
    distance: Optional[float] = None


def taken(pairs):
    """Of pairs (row, column, distance) those whose ends are both free when their turn comes."""
    rows, columns, some = set(), set(), []
    for pair in pairs:
        row, column, _ = pair
        if row not in rows and column not in columns:
            rows.add(row)
            columns.add(column)
            some.append(pair)
    return some


def is_switch(last, predicted):
    """Whether a match goes to another id than the last one, which may be none."""
    return last is not None and last != predicted


class Counts(NamedTuple):
    matches: int
    switches: int
    misses: int
    false_positives: int

    def found(self):
        return self.matches + self.switches

    def mota(self):
        # as settled, the truth is the events that hold a truth id
        return 1.0 - self.wrong() / self.truth() if self.truth() else 0.0

    def truth(self):
        return self.found() + self.misses

    def wrong(self):
        return self.misses + self.false_positives + self.switches

    def precision(self):
        return quotient(self.found(), self.found() + self.false_positives)

    def recall(self):
        return quotient(self.found(), self.truth())


def quotient(x, y):
    return x / y if y else 0.0


def counts(log):
    cases = [event.case for event in log.in_use()]
    return Counts(*map(cases.count, (MATCH, SWITCH, MISS, FALSE_POSITIVE)))


def summed(log, value):
    """The sum over matches and switches, in the log's order, from 0.0."""
    total = 0.0
    for event in log.in_use():
        if event.case in (MATCH, SWITCH):
            total += value(event.distance)
    return total


def append_unpaired(log, frame, truth, predicted, pairs):
    """Misses by row, then false positives by column."""
    rows, columns = {row for row, _, _ in pairs}, {column for _, column, _ in pairs}
    for row, number in enumerate(truth):
        if row not in rows:
            log.append(Event(frame, MISS, truth=number))
    for column, number in enumerate(predicted):
        if column not in columns:
            log.append(Event(frame, FALSE_POSITIVE, predicted=number))


def _read_event(request):
    frame, case = request.int(), request.int(MATCH, FALSE_POSITIVE)
    if case == MISS:
        return Event(frame, case, truth=request.int())
    if case == FALSE_POSITIVE:
        return Event(frame, case, predicted=request.int())
    return Event(frame, case, request.int(), request.int(), request.floats(1)[0])


def event_words(event):
    if event.case == MISS:
        return "%d %d %d" % (event.frame, event.case, event.truth)
    if event.case == FALSE_POSITIVE:
        return "%d %d %d" % (event.frame, event.case, event.predicted)
    return "%d %d %d %d %s" % (*event[:4], float_word(kept(event.distance)))


def read_log(request):
    # a new log's places are misses of id 0 in frame 0
    return Table(request.whole(), request.run_of(lambda: _read_event(request), MOST_EVENTS), MOST_EVENTS,
                 Event(0, MISS, truth=0))
