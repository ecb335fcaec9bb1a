"""Lists of calls of a refiner and of a smoother as the program calls reads them, by kind and seed."""
import random

from . import bad_calls, refiner_kinds, sample, smoother_kinds, smoother_states
from .writing import List

KINDS = smoother_kinds.KINDS + smoother_states.KINDS + refiner_kinds.KINDS + bad_calls.KINDS
ALL_KINDS = KINDS + [sample.sample]


def make(name, seed, oracle):
    """The list of a kind; the same words give the same bytes."""
    out = List(random.Random(f"{name} {seed}"), seed, oracle)
    next(f for f in ALL_KINDS if f.__name__ == name)(out)
    return out.bytes()
