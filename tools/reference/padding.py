"""Why a chain cuts z into full chunks, SPECIFICATION 8.12: a statement that no witness solves, and a next witness that solves its next instance.

At d = 2, n = r = 1 the constraint is <s,s> = -35-130X, which is no square modulo q. But it is the sum of the squares of s = -7+9X and y = 1-2X. The
prover commits to g_11 = -35-130X and is honest with s in all else. Check 6 asks for <z,z> = g_11 c² and fails. The next instance asks it of the padded
chunks of z; with the digits of c·y as padding of z they meet it, and all other constraints have φ = 0 there.
"""

import fold
import ring
import sizes
from fixtures import SMALL, least_bounds, with_commitments
from next_fixtures import second_draws, second_sizes

PART, PADDING = [-7, 9], [1, -2]
VALUE = [-35, -130]

# One element of z in one chunk, the six others in one: n' = 6, so that five elements of a z chunk are padding.
FIRST = SMALL._replace(b=4, b1=16, b2=16, beta_squared=200, target_beta_squared=1000)

SHAPES = {"two z digits": FIRST, "one z digit": FIRST._replace(b=0, tz=1)}


def first_fold(s):
    """The verifier's lists of the first fold, whose opening says that g_11 is VALUE."""
    c = [1, 1]
    x = {name: list(range(1, sizes.LENGTHS[name](s) + 1)) for name in ("a_matrix", "b_matrix", "c_matrix", "d_matrix")}
    x |= {"whole": ring.one(s.d) + ring.zero(s.d) + VALUE, "witness": PART, "c": c, "alpha": ring.one(s.d), "delta": ring.zero(s.d) * sizes.AGGREGATES}
    x |= {name: [] for name in ("constant_terms", "projections", "psi", "omega")}
    y = fold.honest(s, x)
    o = fold.read_opening(s, y)
    g = ring.element_digits(s.b2, s.t2, VALUE)
    return with_commitments(s, y | {"opening": fold.flat(o.z_low + o.z_high + o.t_digits + g + o.h_digits)})


def next_witness(s, y):
    """The parts of the padded opening, with the digits of c·y in place of the first padding of the chunks of z."""
    parts = fold.next_witness(s, y)
    z = ring.multiply(y["c"], PADDING)
    for part, digit in zip(parts, ring.element_digits(s.b, s.tz, z) if s.tz == 2 else [z]):
        assert part[s.n] == ring.zero(s.d)
        part[s.n] = digit
    return parts


def second_fold(rng, s, y):
    """Sizes and the verifier's lists of a fold of the next instance with this witness."""
    following = second_sizes(s, b=65536, b1=65536, b2=65536, w=2)
    lists = second_draws(rng, following) | {"constant_terms": [], "psi": []}
    lists["whole"] = fold.answer("next_instance", s, y)[1]["next_whole"]
    z = fold.honest(following, lists | {"witness": fold.flat(fold.flat(next_witness(s, y)))})
    return following._replace(target_beta_squared=least_bounds(following, z).target_beta_squared), z


def chains(rng):
    """By the number of z digits: sizes and lists of the first fold, and of the second."""
    for name, shape in SHAPES.items():
        y = first_fold(shape)
        yield name, shape, y, *second_fold(rng, shape, y)
