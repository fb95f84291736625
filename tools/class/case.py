"""The case of the class, by the second implementation: one control unit, three slots, two stored codes. docs/CLASS.md tells it."""

import sys
from pathlib import Path

sys.path.insert(0, str(Path(__file__).resolve().parent.parent / "reference"))

import fold
import ring
import sizes
from sizes import Sizes

# Two readings in each of three slots: 1 and 2, 0 and 1, 2 and 1.
READINGS = [[1, 2], [0, 1], [2, 1]]

# The same sums from readings that are too large.
TOO_LONG = [[6, 2], [0, 1], [-3, 1]]

# Another target bound for the same opening.
ROOMY = 120

# A low digit of z, and what is added to it so that it is wide; its high digit takes it back.
WIDE_PLACE, WIDE_BY = 1, -4

# For the exercises: other challenges, and readings with the same sums that are shorter.
OTHER_C = [[0, 1], [1, 0], [1, 0]]
SHORTER = [[1, 1], [1, 1], [1, 2]]

SIZES = Sizes(
    d=2, n=1, r=3, K=0, L=2, w=2, kappa=1, kappa1=1, kappa2=1, b=4, b1=4, b2=4, t1=2, t2=2, nu=1, mu=2,
    beta_squared=sum(x * x for slot in READINGS for x in slot), target_beta_squared=sizes.LARGEST_BOUND,
)


def constraint(phi, b):
    """A sum of readings: no a_ij, one element φ for each slot, the code b."""
    return [0] * (sizes.pair_count(SIZES.r) * SIZES.d) + phi * SIZES.r + [b]


def codes(readings):
    """The two stored codes: all first readings together, all second readings together."""
    return [sum(slot[0] for slot in readings), sum(slot[1] for slot in readings)]


def lists(readings):
    """All that is known or drawn, and the readings. 1 takes the first reading of a slot, -X the second."""
    first, second = codes(READINGS)
    return {
        "a_matrix": [1, 1],
        "b_matrix": [1, 0, 0, 1] * 3,
        "c_matrix": [0, 1, 1, 0] * 6,
        "d_matrix": [1, 0, 1, 1] * 6,
        "whole": [],
        "constant_terms": constraint([1, 0], first) + constraint([0, -1], second),
        "projections": [1, 0, -1, 0, 0, 1, 0, 1, 0, 0, -1, 0],
        "psi": [1, 0, 0, 1, 0, 0, 0, 0, 1, 1],
        "omega": [0, 0, 0, 0, 1, 0, 0, 1, 1, 0],
        "alpha": [],
        "delta": [2, 0, 0, 0, 0, 2, 0, 0, 2, 0],
        "c": [1, 0, 0, 1, -1, 0],
        "witness": [x for slot in readings for x in slot],
    }


def honest(readings=READINGS):
    """Sizes and lists of the honest run; the target is the length of its digits."""
    x = lists(readings)
    y = fold.honest(SIZES, x)
    s = SIZES._replace(target_beta_squared=ring.squared_norm(fold.honest(SIZES, lists(READINGS))["opening"]))
    return s, x, y


def wide():
    """Sizes and lists with a wide low digit in z: the value is the same, and all nine checks hold under the target ROOMY."""
    s, _, y = honest()
    opening = list(y["opening"])
    opening[WIDE_PLACE] += WIDE_BY
    opening[WIDE_PLACE + s.n * s.d] -= WIDE_BY // s.b
    return s._replace(target_beta_squared=ROOMY), y | {"opening": opening}


def pair(e):
    """An element as a mechanic writes it: 1 + 2X, -3 - X, 4, X, 0."""
    a, b = e
    x = {1: "X", -1: "-X"}.get(b, f"{b}X")
    if b == 0:
        return str(a)
    if a == 0:
        return x
    return f"{a} + {x}" if b > 0 else f"{a} - {x[1:]}"
