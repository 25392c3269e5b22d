"""Smaller requests than a given one, for naming a difference by a smallest input."""

import re

from made.words import run, value, word
from requests import CALLS
from sequences import PLACES, SHAPES, taken_apart

# up to so many words are made simpler one by one, more of them an argument or a part at a time
FEW = 200
SIMPLE = [word(x) for x in (0.0, 1.0, 2.0, 3.0)]
PLAIN_BOX = [SIMPLE[0], SIMPLE[0], SIMPLE[1], SIMPLE[1]]
QUIET_NAN = "7ff8000000000000"
RUNS = "run", "boxes", "matrix"


def smaller(line):
    """Yields requests with less in them, then requests with simpler floats; the boldest first."""
    words = line.split(" ")
    sequence = taken_apart(line)
    if sequence is not None:
        yield from (less.line() for less in _smaller_sequences(sequence))
        return
    arguments = _arguments(words)
    if arguments is None:
        for i in range(len(words)):
            yield " ".join(words[:i] + words[i + 1:])
        return
    name, kinds = words[0], CALLS[words[0]].arguments.split()

    def with_argument(i, *new):
        """The request with new arguments from the i-th on."""
        parts = [run(f) if kind in RUNS else " ".join(f)
                 for kind, f in zip(kinds, arguments[:i] + list(new) + arguments[i + len(new):])]
        return " ".join([name, *parts])

    for i, kind in enumerate(kinds):
        if kind == "matrix":
            # the two arguments before a matrix are its sides
            for rows, columns, entries in _less_of_matrix(*arguments[i - 2:i + 1]):
                yield with_argument(i - 2, [str(rows)], [str(columns)], entries)
        elif kind in RUNS:
            for floats in _shorter(arguments[i], 4 if kind == "boxes" else 1):
                yield with_argument(i, floats)
    many = sum(map(len, arguments)) > FEW
    for i, (kind, floats) in enumerate(zip(kinds, arguments)):
        if kind == "whole":
            continue
        if kind == "int":
            for simple in _simpler_int(floats[0]):
                yield with_argument(i, [simple])
            continue
        if many:
            plain = (PLAIN_BOX if kind == "boxes" else SIMPLE[:1]) * len(floats)
            if floats != plain[:len(floats)]:
                yield with_argument(i, plain[:len(floats)])
            continue
        for place, text in enumerate(floats):
            for simple in _simpler(text):
                yield with_argument(i, floats[:place] + [simple] + floats[place + 1:])


def _arguments(words):
    """The words of each argument, or None where the line says no request."""
    call = CALLS.get(words[0])
    if call is None or words[0] in SHAPES:
        return None
    at, arguments = 1, []
    for kind in call.arguments.split():
        count = {"float": 1, "box": 4, "whole": 1, "int": 1}.get(kind)
        if count is None:
            if at >= len(words) or not words[at].isdigit():
                return None
            count, at = int(words[at]), at + 1
        arguments.append(words[at:at + count])
        at += count
    def good(kind, said):
        form = {"whole": "[0-9]+", "int": "-?[0-9]+"}.get(kind, "[0-9a-f]{16}")
        return all(re.fullmatch(form, w) for w in said)
    right = at == len(words) and all(map(good, call.arguments.split(), arguments))
    return arguments if right else None


def _shorter(floats, unit):
    """The run without a block of it; single units only where they are few."""
    units = len(floats) // unit
    if len(floats) % unit:
        yield floats[:units * unit]
    block = units
    while block and (units <= 64 or block >= units // 16):
        for start in range(0, units, block):
            yield floats[:start * unit] + floats[(start + block) * unit:]
        block //= 2


def _less_of_matrix(rows, columns, entries):
    """The matrix without a block of its rows or of its columns; one of the wrong length gets shorter as a run."""
    rows, columns = int(rows[0]), int(columns[0])
    if rows * columns != len(entries) or not entries:
        for side in (0, 1, 2, 64, 65):
            if side < rows:
                yield side, columns, entries
            if side < columns:
                yield rows, side, entries
        for shorter in _shorter(entries, 1):
            yield rows, columns, shorter
        return
    lines = [entries[i * columns:(i + 1) * columns] for i in range(rows)]
    for kept in _shorter(list(range(rows)), 1):
        yield len(kept), columns, [x for i in kept for x in lines[i]]
    for kept in _shorter(list(range(columns)), 1):
        yield rows, len(kept), [line[j] for line in lines for j in kept]


# ---- sequences of frames

# the words of a place that are ids; of an event the last word is the distance
IDS = {"ids": (0,), "slots": (0, 8), "events": (2, 3), "matches": (0, 2), "seen": (0, 2), "hypotheses": (0,)}


def _smaller_sequences(sequence):
    """Fewer frames, fewer places, fewer ids with what belongs to them; then simpler ids, numbers and floats."""
    shape = SHAPES[sequence.name]
    state_kinds, frame_kinds = shape.state.split(), shape.frame.split()
    for frames in _shorter(sequence.frames, 1):
        yield sequence._replace(frames=frames)
    for _, count, table in sequence.tables():
        for used, places in _less_of_table(sequence.state[count], sequence.state[table]):
            yield sequence._replace(state=_with(sequence.state, {count: used, table: places}))
    for at, frame in enumerate(sequence.frames):
        for less in _less_of_frame(frame_kinds, frame):
            yield sequence._replace(frames=_with(sequence.frames, {at: less}))
    yield from _renamed(sequence, state_kinds, frame_kinds)
    for state in _simpler_parts(state_kinds, sequence.state):
        yield sequence._replace(state=state)
    for at, frame in enumerate(sequence.frames):
        for simpler in _simpler_parts(frame_kinds, frame):
            yield sequence._replace(frames=_with(sequence.frames, {at: simpler}))


def _with(parts, new):
    return [new.get(i, part) for i, part in enumerate(parts)]


def _less_of_table(used, places):
    used = int(used[0])
    for kept in _shorter(list(range(len(places))), 1):
        less = [places[i] for i in kept]
        yield [str(used - sum(i < used for i in range(len(places)) if i not in kept))], less
        yield [str(used)], less
    for count in (0, len(places), used - 1):
        if 0 <= count < used:
            yield [str(count)], places


def _less_of_frame(kinds, frame):
    """The frame without some ids and what belongs to them; where the lengths don't fit each other, part by part."""
    first, other = (i for i, kind in enumerate(kinds) if kind == "ids")
    runs = [i for i, kind in enumerate(kinds) if kind in ("boxes", "distances")]
    rows, columns = list(range(len(frame[first]))), list(range(len(frame[other])))

    def picked(part, places):
        return [frame[part][i] for i in places]
    if "distances" in kinds:
        fits = len(frame[runs[0]]) == len(rows) * len(columns)
        for kept in _shorter(rows, 1) if fits else ():
            entries = [i * len(columns) + j for i in kept for j in columns]
            yield _with(frame, {first: picked(first, kept), runs[0]: picked(runs[0], entries)})
        for kept in _shorter(columns, 1) if fits else ():
            entries = [i * len(columns) + j for i in rows for j in kept]
            yield _with(frame, {other: picked(other, kept), runs[0]: picked(runs[0], entries)})
    else:
        fits = all(len(frame[run]) == 4 * len(frame[ids]) for ids, run in zip((first, other), runs))
        for ids, run, places in zip((first, other), runs, (rows, columns)) if fits else ():
            for kept in _shorter(places, 1):
                yield _with(frame, {ids: picked(ids, kept),
                                    run: picked(run, [4 * i + corner for i in kept for corner in range(4)])})
    if not fits:
        for part in (first, other, *runs):
            for less in _shorter(frame[part], 1):
                yield _with(frame, {part: less})


def _id_words(kinds, parts):
    return [place[i] for kind, part in zip(kinds, parts) for place in part for i in IDS.get(kind, ()) if i < len(place)]


def _renamed(sequence, state_kinds, frame_kinds):
    """The sequence with one id smaller, wherever it stands."""
    said = set(_id_words(state_kinds, sequence.state))
    for frame in sequence.frames:
        said.update(_id_words(frame_kinds, frame))
    free = [str(n) for n in range(len(said) + 1) if str(n) not in said]

    def parts(kinds, before, old, new):
        return [[[new if word == old and i in IDS.get(kind, ()) else word for i, word in enumerate(place)]
                 for place in part] if kind in PLACES else part for kind, part in zip(kinds, before)]
    for old in sorted(said, key=int, reverse=True):
        for new in free[:1]:
            if _int_weight(new) < _int_weight(old):
                yield sequence._replace(state=parts(state_kinds, sequence.state, old, new),
                                        frames=[parts(frame_kinds, frame, old, new) for frame in sequence.frames])


def _simpler_parts(kinds, parts):
    """The parts with one word simpler; where they are many, with all floats of a part plain."""
    for at, (kind, part) in enumerate(zip(kinds, parts)):
        if kind not in PLACES:
            for simple in (_simpler if kind == "float" else _simpler_int)(part[0]):
                yield _with(parts, {at: [simple]})
        elif len(part) > FEW:
            if kind == "boxes":
                plain = [[PLAIN_BOX[i % 4]] for i in range(len(part))]
                if part != plain:
                    yield _with(parts, {at: plain})
        elif kind != "ids":
            for place, words in enumerate(part):
                for i, text in enumerate(words):
                    if i in IDS.get(kind, ()):
                        continue
                    for simple in (_simpler if len(text) == 16 else _simpler_int)(text):
                        yield _with(parts, {at: _with(part, {place: _with(words, {i: simple})})})


# ---- simpler words

def _int_weight(text):
    return abs(int(text)), int(text) < 0


def _simpler_int(text):
    n = int(text)
    tries = [str(x) for x in (0, 1, 2, n // 2, n - 1, -n)]
    return [t for t in tries if _int_weight(t) < _int_weight(text)]


def _simpler(text):
    x = value(text)
    tries = list(SIMPLE)
    if x != x:
        tries.append(QUIET_NAN)
    else:
        tries.append(text[:3] + "0" * 13)
        if abs(x) < 2.0 ** 53:
            tries += [word(float(int(x))), word(float(int(x / 10)))]
    return [t for t in tries if _weight(t) < _weight(text)]


def _weight(text):
    if text in SIMPLE:
        return SIMPLE.index(text), 0.0
    x = value(text)
    if text == QUIET_NAN:
        return 4, 0.0
    if abs(x) < 2.0 ** 53 and x == int(x):
        return 5, abs(x)
    return 6 if text.endswith("0" * 13) else 7, 0.0


def as_numbers(line):
    """The line with its floats in decimal, for reading."""
    return re.sub(r"\b[0-9a-f]{16}\b", lambda found: repr(value(found.group())), line)
