"""Cases of fold_cases.py with z in one digit, SPECIFICATION 3.6: the number of the call there, sizes, lists; some with the lengths of lists that are written
that differ, and the answer. b stands in each line and is not looked at: it is in turn a base, and one that two digits would not take.
"""

from itertools import combinations, cycle

import fold
import low_digits
import padding
import ring
from fixtures import (
    SEVERAL_PARTS, SMALL, accepted, check_faults, failed, honest_case, least_bounds, margin_sides, moved, random_lists, refused, replaced, short_lists,
    sides_of_challenges, uniform,
)
from sizes import CALLS, LARGEST_BOUND, LENGTHS

AMORTIZE, VERIFY = 7, 8
TWO_DIGITS = {AMORTIZE: 5, VERIFY: 6}

# Bases, of which row 4 would refuse all but the last: "b = 1".
NO_BASES = (0, 1, 65537, 2**63 - 1, 4)

# Sizes apart from one another; three digits or more.
APART = SMALL._replace(n=3, r=4, K=1, L=2, w=1, kappa=2, kappa1=3, kappa2=1, b=0, b1=255, b2=16, t1=3, t2=4, nu=2, mu=3, tz=1)


def every_degree(rng):
    """Honest runs: message 5, accepted with the margin 0, and failed 9 by one; a witness of any coefficients, whose z has any."""
    bases = cycle(NO_BASES)
    for d, changes in (
        (2, {}), (4, {"n": 5, "r": 3}), (8, {"n": 3, "r": 2, "L": 0}), (16, {"n": 2, "r": 3, "K": 0, "L": 0, "b1": 65536, "t1": 2, "t2": 3}),
        (32, {"n": 2, "r": 1, "L": 0, "kappa1": 1, "b1": 65536, "t1": 2, "t2": 3}), (64, {"n": 2, "r": 1, "K": 0, "L": 0, "kappa1": 1, "b1": 65536, "t1": 2, "t2": 3}),
    ):
        s = APART._replace(d=d, b=next(bases), **changes)
        x = short_lists(rng, s)
        y = fold.honest(s, x)
        yield AMORTIZE, s, x
        s = least_bounds(s, y)
        yield VERIFY, s, y, {}, accepted(0)
        yield VERIFY, s._replace(b=next(bases), target_beta_squared=s.target_beta_squared - 1), y, {}, failed(9)
        if d < 16:
            yield AMORTIZE, s, x | {"witness": uniform(rng, ring.LARGEST, LENGTHS["witness"](s))}


def near_bounds(rng):
    """Honest runs whose bounds just hold or just fail."""
    for _, b in zip(range(8), cycle(NO_BASES)):
        s, _, y = honest_case(rng, tz=1, b=b)
        yield VERIFY, s, y


def failing_checks(rng):
    """Each check fails alone, and every two at once."""
    s, y, faults = check_faults(rng, d=2, n=3, b=0, t1=3, b1=1626, tz=1)
    too_long = s._replace(target_beta_squared=0)
    yield VERIFY, s, y, {}, accepted(LARGEST_BOUND - ring.squared_norm(y["opening"]))
    yield VERIFY, too_long, y, {}, failed(9)
    for check, fault in faults.items():
        yield VERIFY, s, y | fault, {}, failed(check)
        yield VERIFY, too_long, y | fault, {}, failed(check)
    for (check, fault), (_, other) in combinations(faults.items(), 2):
        if not fault.keys() & other.keys():
            yield VERIFY, s, y | fault | other, {}, failed(check)
    # z itself moved, in its first and its last number
    for place in (0, LENGTHS["z_digits"](s) - 1):
        yield VERIFY, s, moved(y, "opening", place), {}, failed(5)


def corrupted_numbers(rng):
    """One number of any list of the verifier changed, in range."""
    for _ in range(12):
        s, _, y = honest_case(rng, tz=1, b=rng.choice(NO_BASES))
        name = rng.choice([name for name in y if y[name] and name not in ("projections", "c")] + ["opening"] * 4)
        yield VERIFY, s, moved(y, name, rng.randrange(len(y[name])), rng.choice((1, -1, 2, 65536)))


SIZE_FAULTS = (
    {"d": 3}, {"d": 0}, {"d": 128}, {"n": 0}, {"n": 257}, {"r": 0}, {"r": 17}, {"K": 33}, {"L": 33}, {"w": 257}, {"kappa": 0}, {"kappa": 9}, {"kappa1": 0},
    {"kappa2": 9}, {"b1": 0}, {"b1": 65537}, {"b2": 1}, {"b2": 65537}, {"t1": 1}, {"t1": 9}, {"t2": 1}, {"t2": 9}, {"beta_squared": LARGEST_BOUND + 1},
    {"target_beta_squared": LARGEST_BOUND + 1}, {"d": 3, "n": 0}, {"n": 0, "kappa": 0}, {"kappa": 0, "b1": 1}, {"t1": 1, "beta_squared": LARGEST_BOUND + 1},
)


def refusals(rng):
    """Rows 1 to 10, alone and two at once; no b is refused. Outputs stay as they were."""
    s = SMALL._replace(r=2, L=1, w=1, b=1, b1=256, t1=3, tz=1)
    x = random_lists(rng, s, True)
    y = x | fold.honest(s, x)
    for number, two in TWO_DIGITS.items():
        taken, reads, writes = CALLS[{5: "message_5", 6: "verify"}[two]]
        lengths = {name: LENGTHS[name](s) for name in writes}
        for b in NO_BASES:
            yield number, s._replace(b=b), y
            yield number, s._replace(b=b), replaced(y, "c", 0, 3), {}, refused(10)
        for fault in SIZE_FAULTS:
            if fault.keys() & set(taken):
                yield number, s._replace(**fault), y, lengths, None
        for name in reads:
            yield number, s, y | {name: y[name] + [0]}, {}, refused(7)
            yield number, s, replaced(y, name, 0, ring.LARGEST + 1), {}, refused(8)
            yield number, s, replaced(y, name, -1, -ring.LARGEST - 1), {}, refused(8)
        yield number, s, replaced(y, "c", -1, -3), {}, refused(10)
        yield number, s, replaced(y, "c", -1, -3) | {reads[-1]: y[reads[-1]] + [1]}, {}, refused(7)
    for row in (2, -2):
        yield VERIFY, s, replaced(y, "projections", -1, row), {}, refused(9)
    yield VERIFY, s, replaced(replaced(y, "projections", 0, 2), "c", 0, 3), {}, refused(9)
    yield VERIFY, s, replaced(replaced(y, "projections", 0, 2), "opening", 0, ring.LARGEST + 1), {}, refused(8)


def lengths_of_z(rng):
    """The lengths of two z digits with one, and the other way round."""
    s = APART._replace(r=2, L=0, b=4)
    x = short_lists(rng, s)
    one, two = (fold.honest(s._replace(tz=tz), x) for tz in (1, 2))
    short = s.n * s.d
    assert len(two["opening"]) == len(one["opening"]) + short
    for own, other, number in ((one, two, VERIFY), (two, one, TWO_DIGITS[VERIFY])):
        sized = s._replace(tz=1 if own is one else 2)
        yield number, sized, own, {}, accepted(LARGEST_BOUND - ring.squared_norm(own["opening"]))
        yield number, sized, other, {}, refused(7)
        for length in (0, len(own["opening"]) - 1, len(own["opening"]) - s.d):
            yield number, sized, own | {"opening": own["opening"][:length]}, {}, refused(7)
    # z high of zeros does not fill up, nor does it fall away
    yield VERIFY, s, one | {"opening": one["opening"][:short] + [0] * short + one["opening"][short:]}, {}, refused(7)
    for number, tz in ((AMORTIZE, 1), (TWO_DIGITS[AMORTIZE], 2)):
        for length in (0, short - 1, short, short + 1, 2 * short - 1, 2 * short, 2 * short + 1):
            yield number, s._replace(tz=tz), x, {"z_digits": length}, None


def challenges(rng):
    """Both sides of the rule for challenges at degrees 64 and 32; 8 before 10."""
    for _, shape, taken, c in sides_of_challenges(rng, few=True):
        s = SMALL._replace(K=0, b=0, tz=1, **shape)
        x = {"witness": uniform(rng, 2, s.r * s.d), "c": c}
        yield AMORTIZE, s, x, {}, None if taken else refused(10)
    s = SMALL._replace(d=64, b=65537, tz=1)
    yield AMORTIZE, s, {"witness": [ring.LARGEST + 1] + [0] * 63, "c": ring.zero(64)}, {}, refused(8)


def margins(rng):
    """Target bounds on both sides of the squared length."""
    for _, answer, s, y in margin_sides(rng, SEVERAL_PARTS._replace(b=1, t1=3, tz=1)):
        yield VERIFY, s, y, {}, answer


def digit_widths(rng):
    """Row 15: z is free in its one digit, the low digits of t, g and h are tested as with two; other rows and failing checks beside it."""
    three = {"kappa": 3, "t1": 3, "t2": 4, "tz": 1}
    odd, even = (low_digits.FREE._replace(**bases, **three) for bases in (low_digits.ODD, low_digits.EVEN))
    few = low_digits.FREE._replace(**low_digits.ODD, tz=1)
    groups = (
        low_digits.sides(odd._replace(b=2), ((0, 1), (-1, -1))), low_digits.sides(even._replace(b=0), ((0, -1), (-1, 1))), low_digits.far_low_digits(few),
        low_digits.wide_tops(odd._replace(b=2)), low_digits.with_rows(few._replace(b=1)), low_digits.with_checks(few), low_digits.failing_checks(few._replace(b=0)),
        low_digits.recomposed(rng, SMALL._replace(n=2, t1=3, tz=1), ((0, 1), (-1, 2))),
        low_digits.halves(rng, SMALL._replace(n=2, r=2, b=4, b1=6, b2=2, t2=3, tz=1)),
    )
    for _, answer, s, y in (case for group in groups for case in group):
        yield VERIFY, s, y, {}, answer


def padded_chains(rng):
    """padding.py: of a statement that no witness solves the opening fails 6; the fold of its next instance, with nonzero padding, is accepted."""
    for _, s, y, following, z in padding.chains(rng):
        yield VERIFY if s.tz == 1 else TWO_DIGITS[VERIFY], s, y, {}, failed(6)
        yield TWO_DIGITS[VERIFY], following, z, {}, accepted(0)


GROUPS = (every_degree, near_bounds, failing_checks, corrupted_numbers, refusals, lengths_of_z, challenges, margins, digit_widths)
