"""The words of the protocol: reading a request's and writing an answer's."""

import re
import struct

NAN = struct.unpack(">d", bytes.fromhex("7ff8000000000000"))[0]
LONGEST_RUN = 8192
MOST_IDS = 128
LARGEST_WHOLE = 2 ** 64 - 1
# whole numbers with a sign have 32 bits
LEAST_INT, LARGEST_INT = -2 ** 31, 2 ** 31 - 1

_NAME = re.compile("[a-z_0-9]+")
# a word ends where a space or the line's end follows
_COUNT = re.compile(" 0*([0-9]+)(?![^ ])")
_INT = re.compile(" (-?)0*([0-9]+)(?![^ ])")
_FLOATS = re.compile("(?: [0-9a-f]{16})*")


class Fault(Exception):
    """The line does not say a request."""


class Request:
    """A line, read word by word from the left."""

    def __init__(self, line):
        name = _NAME.match(line)
        if name is None:
            raise Fault
        self.line = line
        self.name = name.group()
        self.at = name.end()

    def floats(self, count):
        end = self.at + 17 * count
        text = self.line[self.at:end]
        if len(text) != 17 * count or self.line[end:end + 1].strip(" ") or _FLOATS.fullmatch(text) is None:
            raise Fault
        self.at = end
        return struct.unpack(">%dd" % count, bytes.fromhex(text))

    def whole(self, most=LARGEST_WHOLE):
        found = _COUNT.match(self.line, self.at)
        # the length first: a word may have any number of digits
        if found is None or len(found.group(1)) > 20 or int(found.group(1)) > most:
            raise Fault
        self.at = found.end()
        return int(found.group(1))

    def int(self, least=LEAST_INT, most=LARGEST_INT):
        found = _INT.match(self.line, self.at)
        if found is None or len(found.group(2)) > 10:
            raise Fault
        n = int(found.group(1) + found.group(2))
        if not least <= n <= most:
            raise Fault
        self.at = found.end()
        return n

    def run(self):
        return self.floats(self.whole(LONGEST_RUN))

    def run_of(self, read, most):
        return [read() for _ in range(self.whole(most))]

    def ids(self, most=MOST_IDS):
        return self.run_of(self.int, most)

    def end(self):
        if self.at != len(self.line):
            raise Fault


def computed(x):
    """A computed float as it is written: one NaN, and a zero without its sign."""
    return 0.0 + x if x == x else NAN


def kept(x):
    """A float that a call left alone: one NaN, a zero with its sign."""
    return x if x == x else NAN


def float_word(x):
    return struct.pack(">d", x).hex()


def run_words(floats):
    if not floats:
        return "0"
    packed = struct.pack(">%dd" % len(floats), *floats)
    return "%d %s" % (len(floats), packed.hex(" ", 8))


def whole_run_words(numbers):
    return " ".join(map(str, [len(numbers), *numbers]))
