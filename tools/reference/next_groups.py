"""The cases of next_cases.py: kind, and then what its function there takes."""

import fold
import ring
import sizes
import low_digits
import padding
from fixtures import SMALL, least_beta_squared, moved, replaced, short_lists, sides_of_challenges, whole_case
from next_fixtures import FIRST, honest_lists, one_digit_folds, two_folds
from sizes import CALLS, LENGTHS


# Cases of kind 1

def whole_case_cut(rng):
    """The whole case cut in several ways."""
    s, x = whole_case()
    for nu, mu in ((1, 1), (2, 1), (1, 2), (4, 8), (7, 2), (7, 1), (1, 14), (3, 5)):
        yield (1, s._replace(nu=nu, mu=mu), x)


def every_degree(rng):
    """Sizes apart from one another at every degree; n and m are multiples of ν and μ or not."""
    for d, n, r, nu, mu in (
        (2, 3, 2, 2, 3), (2, 4, 2, 3, 2), (2, 1, 1, 4, 1), (2, 7, 1, 7, 2), (2, 2, 3, 5, 5), (4, 3, 2, 2, 2), (4, 4, 1, 3, 4),
        (8, 2, 2, 1, 3), (2, 9, 1, 1, 2), (4, 8, 1, 1, 5), (16, 2, 1, 2, 1), (32, 1, 1, 1, 2), (64, 1, 1, 1, 1),
    ):
        s = FIRST._replace(
            d=d, n=n, r=r, L=1, w=1, b=rng.choice((2, 3, 16, 65535)), b1=rng.choice((3, 256, 65536)),
            b2=rng.choice((2, 255, 65536)), t2=rng.choice((2, 3)), nu=nu, mu=mu,
        )
        if d < 16:
            s = s._replace(
                K=rng.randint(0, 2), L=rng.randint(0, 2), w=rng.randint(0, 2), kappa=rng.randint(1, 3), kappa1=rng.randint(1, 2),
                kappa2=rng.randint(1, 3),
            )
        yield (1, s, honest_lists(rng, s))


def bases(rng):
    """Powers of the bases modulo q; 65536² is 99."""
    for b, b1, b2, t1, t2 in ((65536, 65536, 65536, 8, 8), (65535, 65536, 2, 8, 2), (2, 3, 65535, 2, 8), (46341, 255, 1626, 3, 5)):
        s = FIRST._replace(n=2, r=2, b=b, b1=b1, b2=b2, t1=t1, t2=t2, nu=2, mu=3)
        yield (1, s, honest_lists(rng, s))


# n' = 256 by n, by m in one chunk, by m in two; n' = 257
LARGE = {
    "n = 256": FIRST._replace(n=256),
    "n = 256 in two": FIRST._replace(n=256, nu=2),
    "m = 256": FIRST._replace(n=2, r=4, kappa=3, t1=8, t2=8),
    "m = 512 in two": FIRST._replace(r=8, kappa=7, t1=4, t2=4, mu=2),
}
TOO_LARGE = FIRST._replace(r=9, kappa=6, t1=2, t2=7, mu=2)


def sides(rng):
    """n' at 256 and 257; 11 comes after the other rows and before checks 1 and 2."""
    for s in LARGE.values():
        assert sizes.next_rank(s) in (128, 256)
        yield (1, s, honest_lists(rng, s, small=True))
    assert sizes.next_rank(TOO_LARGE) == 257
    s = TOO_LARGE._replace(w=1)
    y = honest_lists(rng, s, small=True)
    for changes in (
        {}, {"p": [ring.LARGEST]}, {"second_b": [1] + y["second_b"][1:]}, {"c": [3] + y["c"][1:]}, {"u2": [ring.LARGEST + 1, 0]},
    ):
        yield (1, s, y | changes)
    yield (1, s, y, 0)
    yield (1, s, y, LENGTHS["next_whole"](s) - 1)
    yield (1, s._replace(nu=8), y, 0)
    yield (1, s._replace(mu=3), y)


def judged(rng):
    """Failed 1 and failed 2, the list untouched; faults of the other checks do not matter, nor does a target bound that is too small."""
    s = FIRST._replace(n=2, r=2, L=1, w=2, nu=1, mu=2)
    y = honest_lists(rng, s)
    least = least_beta_squared(s, y)
    for changed in (
        y, moved(y, "constant_terms", -1), moved(y, "second_b", 4 * s.d), moved(y, "second_b", 1), y | {"u1": [5, 5], "u2": [7, 7]},
        y | {"p": [0, 0]}, y | {"p": [ring.LARGEST] * 2},
    ):
        for beta_squared in (least, least - 1):
            yield (1, s._replace(beta_squared=beta_squared, target_beta_squared=rng.choice((0, 10, 10**14))), changed)


def refused(rng):
    """Rows 1 to 10, alone and two at once."""
    s = FIRST._replace(n=1, r=2, L=1, w=1, nu=2, mu=1)
    y = honest_lists(rng, s)
    room = LENGTHS["next_whole"](s)
    big = 2**64 - 1
    for fault in (
        {"d": 3}, {"d": 0}, {"d": 128}, {"d": 2**32 + 2}, {"n": 0}, {"n": 257}, {"r": 0}, {"r": 17}, {"K": 33}, {"L": 33},
        {"w": 257}, {"w": big},
        {"kappa": 0}, {"kappa": 9}, {"kappa1": 0}, {"kappa2": 9}, {"kappa1": big}, {"b": 1}, {"b": 65537}, {"b1": 0},
        {"b2": 65537}, {"b": big}, {"t1": 1}, {"t1": 9},
        {"t2": 9}, {"nu": 0}, {"mu": 0}, {"nu": 8, "mu": 1}, {"nu": 7, "mu": 3}, {"nu": 1, "mu": 15}, {"nu": big}, {"mu": big},
        {"nu": 2**63, "mu": 1},
        {"nu": 2**63, "mu": 0}, {"nu": big, "mu": 3}, {"nu": 2**63 - 1, "mu": 3}, {"beta_squared": 10**15},
        {"target_beta_squared": 10**15},
        {"beta_squared": 2**63 - 1}, {"target_beta_squared": 2**63 - 1}, {"d": 3, "n": 0}, {"n": 0, "kappa": 0},
        {"kappa": 0, "b1": 1}, {"b": 1, "nu": 0},
        {"nu": 0, "beta_squared": 10**15}, {"t1": 9, "target_beta_squared": 10**15},
    ):
        yield (1, s._replace(**fault), y, room)
    for name in CALLS["next_instance"].reads:
        yield (1, s, y | {name: y[name] + [0]})
        yield (1, s, y | {name: y[name][:-1]})
        yield (1, s, replaced(y, name, 0, ring.LARGEST + 1))
        yield (1, s, replaced(y, name, -1, -ring.LARGEST - 1))
    for length in (0, room - 1, room + 1, room // 2):
        yield (1, s, y, length)
    yield (1, s, replaced(y, "c", 0, 3), room + 1)
    yield (1, s, replaced(y, "projections", 0, 2))
    yield (1, s, replaced(y, "projections", -1, -2))
    yield (1, s, replaced(y, "c", -1, 3))
    yield (1, s, replaced(y, "c", 0, -3))
    yield (1, s, replaced(replaced(y, "projections", -1, 2), "c", 0, 3))
    yield (1, s, replaced(replaced(y, "projections", -1, 2), "u2", -1, ring.LARGEST + 1))
    yield (1, s, replaced(y, "c", -1, 3) | {"p": [ring.LARGEST]})
    yield (1, s._replace(nu=8), y | {"c": y["c"] + [3]}, room)


def challenge_sides(rng):
    """Both sides of the rule for challenges at degrees 64 and 32; at 64, 8 and 9 come before 10."""
    lists = {}
    for _, shape, _, c in sides_of_challenges(rng):
        s = FIRST._replace(K=0, **shape)
        if (s.d, s.r) not in lists:
            lists[s.d, s.r] = fold.honest(s, short_lists(rng, s))
        yield (1, s, lists[s.d, s.r] | {"c": c})
    s = FIRST._replace(d=64, K=0, w=1)
    y = {name: [0] * LENGTHS[name](s) for name in CALLS["next_instance"].reads}
    yield (1, s, y)
    yield (1, s, replaced(y, "projections", -1, 2))
    yield (1, s, replaced(y, "u1", 0, -ring.LARGEST - 1))


def wide_statements(rng):
    """Statements of openings with wide low digits, which the next instance does not take: written; failed 1 and 2 as without them."""
    odd, even = (low_digits.FREE._replace(**bases) for bases in (low_digits.ODD, low_digits.EVEN))
    yield (1, odd, low_digits.wide(odd, low_digits.at_half(odd)))
    for check, (s, y) in low_digits.check_faults(even).items():
        if check in (1, 2, 5, 8):
            yield (1, s, low_digits.wide(s, y))
    for _, _, s, y in low_digits.recomposed(rng, SMALL, ((0, 1),)):
        yield (1, s, y)


# Cases of kind 2

def places(s):
    """An opening whose numbers show where they stand."""
    return [1000 + k for k in range(LENGTHS["opening"](s))]


def all_parts(rng):
    """Every part, and those outside."""
    for changes in (
        {}, {"n": 4, "nu": 3}, {"n": 1, "nu": 4}, {"nu": 7, "mu": 2}, {"n": 15, "nu": 7, "mu": 2}, {"mu": 14}, {"n": 9, "mu": 2},
        {"n": 9, "nu": 2, "mu": 4}, {"n": 5, "r": 3, "kappa": 2, "t2": 3, "nu": 4, "mu": 3}, {"d": 4, "n": 3, "r": 2, "nu": 2, "mu": 5},
        {"d": 8, "n": 2, "nu": 2, "mu": 1}, {"d": 64, "mu": 3}, {"n": 256, "nu": 1}, {"n": 256, "nu": 3},
        TOO_LARGE._asdict(),
    ):
        s = FIRST._replace(**changes)
        opening = places(s)
        count = sizes.next_multiplicity(s)
        wanted = range(count + 2) if len(opening) < 200 else (0, 1, s.nu, s.nu + 1, 2 * s.nu, 2 * s.nu + 1, count, count + 1)
        for i in wanted:
            yield (2, s, i, opening)


def refused_parts(rng):
    """Rows 1 to 5 and 7; sizes that are not taken and numbers are not looked at; r' as a whole number."""
    s = FIRST._replace(n=3, r=2, nu=2, mu=2)
    opening = places(s)
    big = 2**64 - 1
    for fault in (
        {"d": 3}, {"d": 0}, {"d": big}, {"d": 2**32 + 2}, {"n": 0}, {"n": 257}, {"n": big}, {"r": 0}, {"r": 17},
        {"r": 2**32 + 2}, {"kappa": 0}, {"kappa": 9}, {"kappa": big},
        {"t1": 1}, {"t1": 9}, {"t2": 1}, {"t2": big}, {"nu": 0}, {"mu": 0}, {"nu": 8, "mu": 1}, {"nu": 1, "mu": 15},
        {"nu": 7, "mu": 3},
        {"n": 4}, {"r": 3}, {"d": 4}, {"t1": 3}, {"kappa": 2}, {"d": 3, "n": 0}, {"n": 0, "kappa": 0}, {"kappa": 0, "t1": 1},
        {"t2": 9, "nu": 0},
    ):
        yield (2, s._replace(**fault), 1, opening)
    for changed in ([], opening[:-1], opening + [0]):
        for i in (0, 1, 6, 7):
            yield (2, s, i, changed)
    bad = s._replace(K=99, L=99, w=999, kappa1=0, kappa2=9, b=0, b1=1, b2=65537, beta_squared=10**15, target_beta_squared=2**63 - 1)
    yield (2, bad, 3, opening)
    yield (2, bad, 6, [2147483647] * 10 + [-2147483648] * (len(opening) - 10))
    for nu, mu, parts in (
        (8, 1, (0, 17, 18)), (0, 0, (0, 1)), (0, 3, (3, 4)), (3, 0, (6, 7)), (big, big, (0, 1, 2, 16, big)),
        (big, 3, (0, 1, 2, big)), (1, big, (0, 1, 2, big)), (big, 1, (1, big)),
        (2**63, 1, (0, 1, 2, big)), (2**63, 0, (0, 1, big)), (2**63 - 1, 2, (1, big)), (2**63 - 1, 3, (2, big)),
        (2**62, 2**63, (1, big)), (2, 2, (big, 2**63, 2**32 + 1)),
        (2**32 + 2, 2, (1, 7)), (2, 2**32 + 2, (1, 7)),
    ):
        for i in parts:
            yield (2, s._replace(nu=nu, mu=mu), i, opening)


def wide_parts(rng):
    """Every part of an opening with wide low digits."""
    s = low_digits.FREE._replace(**low_digits.EVEN)
    for _, _, s, y in low_digits.far_low_digits(s):
        for i in range(1, sizes.next_multiplicity(s) + 1):
            yield (2, s, i, y["opening"])


# Cases of kind 3

def folded_twice(rng):
    for case in two_folds(rng).values():
        yield (3, *case)


# Those whose challenges of degree 64 are kept ones (kept_draws), those on both sides of the rule for challenges, and those of wide openings.
KEPT_GROUPS = (whole_case_cut, every_degree, bases, sides, judged, refused, all_parts, refused_parts, folded_twice)
GROUPS = (challenge_sides,)
WIDE_GROUPS = (wide_statements, wide_parts)


# Cases with z in one digit

BIG = 2**64 - 1

# Bases that row 4 would refuse with two digits, and one that it would take.
NO_BASES = (0, 1, 65537, BIG, 4)

ONE = FIRST._replace(b=0, tz=1)


def one_digit_cut(rng):
    """The whole case with z in one digit, cut in several ways: ν+μ up to 16."""
    s, x = whole_case()
    for nu, mu in ((1, 1), (2, 1), (1, 2), (4, 8), (9, 7), (15, 1), (1, 15), (8, 8)):
        yield (1, s._replace(nu=nu, mu=mu, b=rng.choice(NO_BASES), tz=1), x)


def one_digit_degrees(rng):
    """Sizes apart from one another at every degree; n and m are multiples of ν and μ or not; full chunks; every base b."""
    for d, n, r, nu, mu in (
        (2, 3, 2, 2, 3), (2, 5, 3, 3, 4), (2, 1, 1, 5, 1), (2, 7, 1, 9, 2), (2, 12, 1, 2, 3), (4, 3, 2, 2, 3), (4, 5, 1, 3, 7), (8, 3, 2, 2, 3), (16, 3, 1, 2, 4),
        (32, 2, 1, 3, 2), (64, 2, 1, 3, 2),
    ):
        s = ONE._replace(
            d=d, n=n, r=r, L=1, w=1, b=rng.choice(NO_BASES), b1=rng.choice((3, 256, 65536)), b2=rng.choice((2, 255, 65536)), t1=rng.choice((2, 3)),
            t2=rng.choice((2, 3)), nu=nu, mu=mu,
        )
        if d < 16:
            s = s._replace(t1=3, t2=4, K=rng.randint(0, 2), L=rng.randint(0, 2), kappa=rng.randint(1, 3), kappa1=rng.randint(1, 2), kappa2=rng.randint(1, 3))
        yield (1, s, honest_lists(rng, s, small=d > 2))


def one_digit_sides(rng):
    """ν+μ at 16 and 17 with one digit, 2ν+μ with two; huge ν and μ; b is not looked at, and so not refused before 5."""
    s = ONE._replace(n=3, r=2, K=0, t1=3, kappa=1)
    y = honest_lists(rng, s, small=True)
    for nu, mu in ((9, 7), (7, 9), (15, 1), (1, 15)):
        yield (1, s._replace(nu=nu, mu=mu), y)
        two = s._replace(nu=nu, mu=mu, b=4, tz=2)
        yield (1, two, honest_lists(rng, two, small=True), 0)
    for nu, mu in (
        (16, 1), (9, 8), (1, 16), (17, 0), (0, 16), (0, 0), (1, 0), (BIG, 1), (1, BIG), (BIG, BIG), (BIG, 2), (2**63, 2**63), (2**63, 1), (2**63 - 1, 3), (2**32 + 2, 1),
        (1, 2**32 + 1),
    ):
        yield (1, s._replace(nu=nu, mu=mu, b=rng.choice(NO_BASES)), y, 0)
    yield (1, s._replace(nu=16, b1=1), y, 0)
    yield (1, s._replace(nu=16, beta_squared=10**15), y, 0)


def one_digit_too_large(rng):
    """n' at 256 and 257; 11 comes after the other rows and before checks 1 and 2."""
    for changes in ({"n": 256}, {"n": 256, "nu": 3, "mu": 2}, {"r": 8, "kappa": 7, "t1": 4, "t2": 4, "mu": 2}):
        s = ONE._replace(**changes)
        assert sizes.next_rank(s) in (86, 256)
        yield (1, s, honest_lists(rng, s, small=True))
    s = TOO_LARGE._replace(w=1, b=0, tz=1)
    assert sizes.next_rank(s) == 257
    y = honest_lists(rng, s, small=True)
    for changes in ({}, {"p": [ring.LARGEST]}, {"second_b": [1] + y["second_b"][1:]}, {"c": [3] + y["c"][1:]}):
        yield (1, s, y | changes)
    yield (1, s, y, LENGTHS["next_whole"](s._replace(tz=2)))
    yield (1, s._replace(nu=15), y, 0)


def one_digit_judged(rng):
    """Failed 1 and failed 2, the list untouched; faults of the other checks do not matter."""
    s = ONE._replace(n=3, r=2, L=1, w=2, nu=2, mu=3)
    y = honest_lists(rng, s)
    least = least_beta_squared(s, y)
    for changed in (y, moved(y, "constant_terms", -1), moved(y, "second_b", 1), y | {"u1": [5, 5], "u2": [7, 7]}, y | {"p": [ring.LARGEST] * 2}):
        for beta_squared in (least, least - 1):
            yield (1, s._replace(beta_squared=beta_squared, target_beta_squared=rng.choice((0, 10, 10**14))), changed)


def one_digit_refused(rng):
    """Rows 1 to 10; no b is refused."""
    s = ONE._replace(n=1, r=2, L=1, w=1, nu=2, mu=3)
    y = honest_lists(rng, s)
    room = LENGTHS["next_whole"](s)
    for b in NO_BASES:
        yield (1, s._replace(b=b), y)
    for fault in (
        {"d": 3}, {"d": 128}, {"n": 0}, {"n": 257}, {"r": 17}, {"K": 33}, {"L": 33}, {"w": 257}, {"kappa": 0}, {"kappa1": 9}, {"kappa2": 0}, {"b1": 1}, {"b1": 65537},
        {"b2": 0}, {"b2": BIG}, {"t1": 1}, {"t1": 9}, {"t2": 1}, {"t2": 9}, {"beta_squared": 10**15}, {"target_beta_squared": 10**15}, {"d": 3, "n": 0}, {"kappa": 0, "b1": 1},
        {"b1": 1, "nu": 0}, {"nu": 16, "target_beta_squared": 10**15},
    ):
        yield (1, s._replace(**fault), y, room)
    for name in CALLS["next_instance"].reads:
        yield (1, s, y | {name: y[name] + [0]})
        yield (1, s, replaced(y, name, -1, -ring.LARGEST - 1))
    for length in (0, room - 1, room + 1, LENGTHS["next_whole"](s._replace(tz=2))):
        yield (1, s, y, length)
    yield (1, s, replaced(y, "projections", -1, 2))
    yield (1, s, replaced(y, "c", -1, 3))
    yield (1, s, replaced(replaced(y, "projections", -1, 2), "c", 0, 3))
    yield (1, s, replaced(y, "c", -1, 3) | {"p": [ring.LARGEST]})


def one_digit_parts(rng):
    """Every part, and the numbers beside; ν = 9 and μ = 7."""
    for changes in (
        {}, {"nu": 3, "mu": 2}, {"n": 4, "nu": 3}, {"n": 7, "r": 2, "t1": 3, "nu": 9, "mu": 7}, {"n": 5, "r": 3, "kappa": 2, "t2": 3, "nu": 4, "mu": 3},
        {"d": 4, "n": 3, "r": 2, "nu": 2, "mu": 5}, {"d": 64, "n": 2, "nu": 2, "mu": 3}, {"n": 256, "nu": 3}, {"n": 256, "nu": 15}, {**TOO_LARGE._asdict(), "tz": 1},
    ):
        s = ONE._replace(**changes)
        opening = places(s)
        count = sizes.next_multiplicity(s)
        wanted = range(count + 2) if len(opening) < 200 else sorted({0, 1, s.nu, s.nu + 1, count, count + 1})
        for i in wanted:
            yield (2, s, i, opening)


def one_digit_refused_parts(rng):
    """Rows 1 to 5 and 7; row 2 against ν+μ, also where row 5 refuses; the length of two z digits is refused."""
    s = ONE._replace(n=3, r=2, t1=3, nu=2, mu=2)
    opening = places(s)
    for fault in (
        {"d": 3}, {"n": 0}, {"n": 257}, {"r": 17}, {"kappa": 0}, {"kappa": 9}, {"t1": 1}, {"t2": 9}, {"nu": 0}, {"mu": 0}, {"nu": 16, "mu": 1}, {"nu": 9, "mu": 8}, {"n": 4}, {"t1": 2},
        {"d": 3, "n": 0}, {"kappa": 0, "t1": 1}, {"t2": 9, "nu": 0}, {"b": 1}, {"b": 65537},
    ):
        yield (2, s._replace(**fault), 1, opening)
    two = places(s._replace(tz=2))
    for changed in ([], opening[:-1], opening + [0], two):
        for i in (0, 1, 4, 5):
            yield (2, s, i, changed)
    yield (2, s._replace(b=4, tz=2), 1, opening)
    bad = s._replace(K=99, L=99, w=999, kappa1=0, kappa2=9, b=0, b1=1, b2=65537, beta_squared=10**15, target_beta_squared=2**63 - 1)
    yield (2, bad, 3, opening)
    for nu, mu, parts in (
        (8, 1, (0, 1, 8, 9, 10, 17)), (9, 7, (16, 17)), (16, 1, (1, 17, 18)), (9, 8, (17, 18)), (0, 0, (0, 1)), (0, 3, (3, 4)), (3, 0, (3, 4)), (BIG, BIG, (0, 1, 2, 16, BIG)),
        (BIG, 1, (0, 1, BIG)), (1, BIG, (0, 1, BIG)), (2**63, 2**63, (0, 1, 2, BIG)), (2**63 - 1, 2**63 - 1, (1, BIG)), (2**32 + 2, 2, (1, 5)), (2, 2**32 + 2, (1, 5)),
        (2, 2, (BIG, 2**63, 2**32 + 1)),
    ):
        for i in parts:
            yield (2, s._replace(nu=nu, mu=mu), i, opening)


def one_digit_folded_twice(rng):
    for case in one_digit_folds(rng).values():
        yield (3, *case)


def padded_chains(rng):
    """padding.py: the next instance of a statement that no witness solves is written."""
    for _, s, y, *_ in padding.chains(rng):
        yield (1, s, y)


ONE_DIGIT_GROUPS = (
    one_digit_cut, one_digit_degrees, one_digit_sides, one_digit_too_large, one_digit_judged, one_digit_refused, one_digit_parts, one_digit_refused_parts,
    one_digit_folded_twice, padded_chains,
)
