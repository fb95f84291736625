"""Cases of the bare level for its tests and its stored cases: random and honest ones, and changes to them.

`s` is a BareSizes, `x` the lists of a prover by name, `y` those of the verifier. The order in which a function draws from `rng` is part of the stored cases.
"""

from fractions import Fraction

import bare
import fold
import ring
import sizes
from bare import LENGTHS
from fixtures import accepted, bounded, challenges, coefficients, failed, moved, uniform, with_constraints
from sizes import LARGEST_BOUND, BareSizes

# The smallest sizes of a statement with a constraint; neither bound is met by short numbers.
SMALL = BareSizes(d=2, n=1, r=1, K=1, L=0, w=0, kappa=1, beta_squared=LARGEST_BOUND, z_bound=LARGEST_BOUND)

# Sizes apart from one another, every list with numbers.
APART = SMALL._replace(n=3, r=4, K=1, L=2, w=2, kappa=2)


def random_sizes(rng):
    """Small sizes, none refused; now and then without constraints of a kind, or without projection rows."""
    return SMALL._replace(
        d=rng.choice((2, 2, 4, 8)), n=rng.choice((1, 2, 3, 5)), r=rng.choice((1, 2, 3, 4, 5)), K=rng.randint(0, 2), L=rng.randint(0, 2), w=rng.randint(0, 3),
        kappa=rng.randint(1, 3),
    )


# Lists of a prover

def diagonal(s, function):
    """a and φ of a constraint with zero for each a_ij with i < j: "Such a level cannot take mixed products". """
    a = [function[k * s.d : (k + 1) * s.d] if i == j else ring.zero(s.d) for k, (i, j) in enumerate(sizes.pairs(s.r))]
    return fold.flat(a) + function[len(a) * s.d :]


def drawn_lists(rng, s, draw, witness):
    """Lists of which `draw(count)` gives the numbers, with constraints that the witness meets."""
    x = {name: draw(LENGTHS[name](s)) for name in "a_matrix psi omega alpha delta".split()}
    x["projections"] = uniform(rng, 1, LENGTHS["projections"](s))
    x["c"] = challenges(rng, s)
    x["witness"] = witness
    return with_constraints(s, x, lambda count: diagonal(s, draw(count)))


def random_lists(rng, s, short_witness):
    """Lists of any coefficients."""
    witness = uniform(rng, 2 if short_witness else ring.LARGEST, LENGTHS["witness"](s))
    return drawn_lists(rng, s, lambda count: coefficients(rng, count), witness)


def short_lists(rng, s):
    """Lists of short numbers."""
    return drawn_lists(rng, s, lambda count: uniform(rng, 9, count), uniform(rng, 9, LENGTHS["witness"](s)))


# Bounds

def least_bounds(s, y):
    """The sizes with the least bounds under which checks 1 and 7 hold."""
    least = sizes.rounded_up(2 * ring.squared_norm(y["p"]), s.w) if s.w else 0
    return s._replace(beta_squared=bounded(least), z_bound=bounded(bare.z_squared_norm(s, y)))


def expected(s, y):
    """The verdict on an honest run: "failed 1 exactly when 2·|p|² is above w·β²; otherwise failed 7 exactly when |z|² is above the bound on z; otherwise
    accepted, with that bound minus |z|² as margin."
    """
    length = bare.z_squared_norm(s, y)
    if s.w and Fraction(2 * ring.squared_norm(y["p"]), s.w) > s.beta_squared:
        return failed(1)
    return failed(7) if length > s.z_bound else accepted(s.z_bound - length)


def honest_case(rng, **given):
    """Sizes with bounds near those that decide, the prover's lists, the verifier's lists; `given` sizes stand in their place."""
    s = random_sizes(rng)._replace(**given)
    x = random_lists(rng, s, rng.random() < 0.7)
    y = bare.honest(s, x)
    least = least_bounds(s, y)
    s = s._replace(
        beta_squared=bounded(rng.choice((least.beta_squared - 1, least.beta_squared, least.beta_squared, LARGEST_BOUND))),
        z_bound=bounded(least.z_bound + rng.choice((-1, 0, 0, 1, LARGEST_BOUND))),
    )
    return s, x, y


# Changes

def places(s):
    """Where z and turn 1 start in the bare opening."""
    z = s.r * s.kappa * s.d
    return z, z + s.n * s.d


def turn_place(s, turn, name):
    """Where an element of a turn starts in the bare opening."""
    return places(s)[1] + ((turn - 1) * bare.GARBAGE + bare.Turn._fields.index(name)) * s.d


def check_faults(rng, **given):
    """Sizes and lists that are accepted with the margin 0, and for each check a change by which it fails alone: a function of sizes and lists. Changes can
    be made one after the other. `given` sizes stand in the sizes' place.
    """
    s = SMALL._replace(d=4, n=3, r=3, K=1, L=1, w=2, kappa=2)._replace(**given)
    x = short_lists(rng, s)
    one, none = ring.one(s.d), ring.zero(s.d)
    # p_1 enters no b'', b''_1 enters no aggregate: else 1 would not fail without 2, nor 2 without 6
    x |= {"omega": [0, 1] * 5, "alpha": one, "delta": none + one * 4, "c": fold.flat([one, [0] * (s.d - 1) + [1], [2] + [0] * (s.d - 1)][: s.r])}
    y = bare.honest(s, x)
    s = least_bounds(s, y)

    def move(name, place):
        return lambda s, y: (s, moved(y, name, place))

    return s, y, {
        1: lambda s, y: (s, y | {"p": [ring.LARGEST] + y["p"][1:]}),
        2: move("second_b", 0),
        3: move("bare_opening", 0),
        4: move("bare_opening", turn_place(s, s.r, "mixed_z")),
        5: move("bare_opening", turn_place(s, s.r, "mixed_phi")),
        6: move("whole", -1),
        7: lambda s, y: (s._replace(z_bound=s.z_bound - 1), y),
    }


def with_mixed(s, y, kind, constraint, pair, coefficient=0, number=1):
    """The lists with a number at a coefficient of a_ij in a constraint of a kind, "whole" or "constant_terms"; all count from 0."""
    length = {"whole": sizes.whole_constraint_length, "constant_terms": sizes.constant_term_constraint_length}[kind](s.d, s.n, s.r)
    numbers = list(y[kind])
    numbers[constraint * length + sizes.pairs(s.r).index(pair) * s.d + coefficient] = number
    return y | {kind: numbers}


def mixed_pairs(s):
    """The pairs i < j."""
    return [(i, j) for i, j in sizes.pairs(s.r) if i < j]
