"""Document 01's rules on single floats: minimum, maximum and the zero test."""

from words import computed, float_word

INFINITY = float("inf")


def minimum(a, b):
    if a != a:
        return b
    if b != b:
        return a
    return a if a < b else b


def maximum(a, b):
    if a != a:
        return b
    if b != b:
        return a
    return a if a > b else b


def is_finite(x):
    return -INFINITY < x < INFINITY


def is_zero(x):
    return abs(x) < 1e-10


def _of_two(rule):
    def answer(request):
        a, b = request.floats(2)
        request.end()
        return float_word(computed(rule(a, b)))
    return answer


def _of_one(rule):
    def answer(request):
        x, = request.floats(1)
        request.end()
        return float_word(computed(rule(x)))
    return answer


def _test(rule):
    def answer(request):
        x, = request.floats(1)
        request.end()
        return "1" if rule(x) else "0"
    return answer


ANSWERS = {
    "min": _of_two(minimum),
    "max": _of_two(maximum),
    "abs": _of_one(abs),
    "is_finite": _test(is_finite),
    "is_zero": _test(is_zero),
}
