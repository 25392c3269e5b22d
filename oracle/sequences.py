"""Requests with frames and their answers, taken apart into words and put together again."""

from typing import NamedTuple

from made.words import run


class Shape(NamedTuple):
    """The parts of a state and of a frame; the words of an answer for each frame, and those of the getters."""
    state: str
    frame: str
    said: int
    getters: int


SHAPES = {
    "extended": Shape("used int int int int int int float slots", "ids boxes ids boxes float", 9, 5),
    "mot": Shape("used events used matches", "int ids ids distances", 3, 14),
    "metrics": Shape("used events used seen used hypotheses", "int ids ids boxes boxes float", 4, 30),
}
# how many words a place of a table has, which may hang on the words themselves
PLACES = {
    "slots": lambda words: 8 + (int(words[7]) == 1),
    "events": lambda words: 5 if int(words[1]) in (0, 1) else 3,
    "matches": lambda words: 2 + (int(words[1]) == 1),
    "seen": lambda words: 2 + (int(words[1]) == 1),
    "hypotheses": lambda words: 1,
    "ids": lambda words: 1,
    "boxes": lambda words: 1,
    "distances": lambda words: 1,
}
TABLES = "slots", "events", "matches", "seen", "hypotheses"


class Sequence(NamedTuple):
    """A part is the list of its words, or of its places, each a list of words."""
    name: str
    state: list
    frames: list

    def line(self):
        shape = SHAPES[self.name]
        said = [_part_words(kind, part) for kind, part in zip(shape.state.split(), self.state)]
        said.append(str(len(self.frames)))
        for frame in self.frames:
            said += [_part_words(kind, part) for kind, part in zip(shape.frame.split(), frame)]
        return " ".join([self.name, *said])

    def fits_rust(self):
        """Whether the Rust can hold the state: it has no object with no last match in its map of last matches."""
        return all(int(self.state[count][0]) <= len(self.state[at]) and all(place[1] == "1" for place in self.state[at])
                   for kind, count, at in self.tables() if kind == "matches")

    def tables(self):
        """The kind of each table, with the places in the state of its used count and of itself."""
        kinds = SHAPES[self.name].state.split()
        counts = [i for i, kind in enumerate(kinds) if kind == "used"]
        return list(zip([kind for kind in kinds if kind in TABLES], counts,
                        [i for i, kind in enumerate(kinds) if kind in TABLES]))


def _part_words(kind, part):
    return run([" ".join(place) for place in part]) if kind in PLACES else part[0]


class _Words:
    def __init__(self, words):
        self.words, self.at = words, 0

    def take(self, count):
        self.at += count
        if self.at > len(self.words):
            raise ValueError
        return self.words[self.at - count:self.at]

    def part(self, kind):
        if kind not in PLACES:
            return self.take(1)
        return [self.take(PLACES[kind](self.words[self.at:self.at + 8])) for _ in range(int(self.take(1)[0]))]

    def parts(self, kinds):
        return [self.part(kind) for kind in kinds.split()]


def taken_apart(line):
    """The sequence that a line says, or None; what single words say is not looked at."""
    name, *words = line.split(" ")
    if name not in SHAPES:
        return None
    shape, words = SHAPES[name], _Words(words)
    try:
        state = words.parts(shape.state)
        frames = [words.parts(shape.frame) for _ in range(int(words.take(1)[0]))]
    except (ValueError, IndexError):
        return None
    return Sequence(name, state, frames) if words.at == len(words.words) else None


class Answer:
    """The answer to a sequence: the numbers of the frames, the getters, the tables as they are at the end."""

    def __init__(self, sequence, answer):
        shape, words = SHAPES[sequence.name], _Words(answer.split(" "))
        frames = [words.take(shape.said) for _ in sequence.frames]
        self.getters = words.take(shape.getters)
        self.numbers = [said[0] for said in frames]
        self.before_tables = words.words[:words.at]
        self.tables = []
        for i, (kind, count, _) in enumerate(sequence.tables()):
            used = frames[-1][1 + i] if frames else sequence.state[count][0]
            self.tables.append((kind, int(used), words.part(kind)))

    def in_rust_order(self):
        """Used places alone; a table that is a hash map in the Rust by rising id."""
        said = list(self.before_tables)
        for kind, used, places in self.tables:
            places = places[:used]
            if kind != "events":
                places.sort(key=lambda place: int(place[0]))
            said.append(_part_words(kind, places))
        return " ".join(said)
