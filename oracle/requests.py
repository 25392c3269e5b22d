"""Requests for the comparison, made from a seed: on every limit, adversarial, and random.

A module is a file of made/ and an entry of MODULES. Its `limits(rng)` gives its fixed cases and `one(rng)` a random
request; CALLS says how each request is put together, and whether its answer begins with document 01's number.
"""

import random
from collections import namedtuple

from made import boxes, floats, lifecycles, metrics, mot, search, updates

Call = namedtuple("Call", "arguments numbered")

CALLS = {
    "min": Call("float float", False),
    "max": Call("float float", False),
    "abs": Call("float", False),
    "is_finite": Call("float", False),
    "is_zero": Call("float", False),
    "iou_distance": Call("box box", True),
    "iou_share": Call("box box", False),
    "compute_iou_distance_matrix": Call("boxes boxes run", True),
    "iou_matrix": Call("boxes boxes run", True),
    "linear_sum_assignment": Call("whole whole matrix float", True),
    "lifecycle_new": Call("int int", False),
    "update_matched": Call("int int int int int int int int", True),
    "update_missed": Call("int int int int int int int int", True),
    "coverage": Call("int int int int int int int", True),
    # requests with frames: sequences.py knows their parts
    "extended": Call("", True),
    "mot": Call("", True),
    "metrics": Call("", True),
}
MODULES = {"floats": floats, "boxes": boxes, "search": search, "lifecycles": lifecycles, "updates": updates,
           "mot": mot, "metrics": metrics}
# how often each is asked where several are
SHARES = {"floats": 1, "boxes": 9, "search": 5, "lifecycles": 1, "updates": 5, "mot": 5, "metrics": 5}


def generate(seed, count, names):
    """Yields `count` requests of the named modules; the limits come first."""
    rngs = {name: random.Random("%s %s" % (seed, name)) for name in names}
    made = 0
    for name in names:
        for line in MODULES[name].limits(rngs[name]):
            if made == count:
                return
            made += 1
            yield line
    turn = random.Random("%s turn" % seed)
    shares = [SHARES[name] for name in names]
    while made < count:
        name, = turn.choices(names, shares)
        made += 1
        yield MODULES[name].one(rngs[name])
