"""Judged sheets for sheet_cases.py: honest ones at many sizes, and every check failing. Each is (name, answer, text or sizes and lists); the
answer is None where the script does not state it.
"""

from itertools import combinations

import fold
import padding
import ring
import sheet
from fixtures import (
    OPEN, SMALL, accepted, block_starts, bounded, challenge, failed, honest, least_bounds, margin_sides, moved, random_lists, refused, replaced,
    uniform, whole_case_text, with_commitments, with_constraints,
)
from sizes import LARGEST_BOUND, Sizes, constant_term_constraint_length, whole_constraint_length

# Bases and counts of digits that leave no large last digit, whatever the value.
FULL_BASES = ((65536, 2), (65535, 2), (1626, 3), (256, 4), (255, 4), (85, 5), (41, 6), (24, 7), (16, 8))


def some_sizes(rng, d, most_bytes):
    """Sizes whose honest sheets can be accepted and have at most so many bytes; ν and μ are any that are not refused."""
    while True:
        (b1, t1), (b2, t2) = rng.choice(FULL_BASES), rng.choice(FULL_BASES)
        nu = rng.randint(1, 7)
        s = Sizes(
            d=d, n=rng.randint(1, 5), r=rng.randint(1, 4), K=rng.randint(0, 3), L=rng.randint(0, 2), w=rng.randint(0, 3),
            kappa=rng.randint(1, 3), kappa1=rng.randint(1, 3), kappa2=rng.randint(1, 3), b=rng.choice((2, 3, 4, 16, 255, 65536)),
            b1=b1, b2=b2, t1=t1, t2=t2, nu=nu, mu=rng.randint(1, 16 - 2 * nu), **OPEN,
        )
        if sheet.text_length(s) <= most_bytes:
            return s


def whole_case(rng):
    yield "as printed", accepted(0), whole_case_text()
    yield "β'² = 12", failed(9), whole_case_text(target_beta_squared=12)


def every_degree(rng):
    for d, count, most_bytes in ((2, 7, 3600), (4, 4, 5000), (8, 2, 8000), (16, 1, 11000), (32, 1, 18000)):
        for k in range(count):
            s, y = honest(rng, some_sizes(rng, d, most_bytes))
            yield f"d = {d}, honest {k}", accepted(0), (s, y)
            if d < 8 and s.beta_squared:
                yield f"d = {d}, honest {k}, β² one less", failed(1), (s._replace(beta_squared=s.beta_squared - 1), y)
            elif d < 16:
                less = s._replace(target_beta_squared=s.target_beta_squared - 1)
                yield f"d = {d}, honest {k}, β'² one less", failed(9), (less, y)


def largest_sizes(rng):
    for changes in (
        {"n": 256, "nu": 7, "mu": 2}, {"w": 256}, {"K": 32, "L": 32}, {"kappa": 8, "kappa1": 3, "kappa2": 2, "t1": 8, "b1": 16},
        {"kappa": 3, "kappa1": 2, "kappa2": 8, "t2": 8, "b2": 2}, {"kappa": 2, "kappa1": 8, "kappa2": 3}, {"K": 0}, {"K": 0, "L": 1},
        {"K": 0, "w": 1},
    ):
        name = ", ".join(f"{size} = {value}" for size, value in changes.items())
        s, y = honest(rng, SMALL._replace(**changes))
        yield name, accepted(0), (s, y)


def long_witness(rng):
    for d, n, r in ((2, 1, 1), (2, 2, 2), (4, 1, 2)):
        for b in (65536, 65535):
            s = SMALL._replace(d=d, n=n, r=r, L=1, b=b, b1=65536, b2=65535, nu=2, mu=3)
            y = fold.honest(s, random_lists(rng, s, False))
            s = least_bounds(s, y)
            yield f"d = {d}, n = {n}, r = {r}, b = {b}", accepted(0), (s, y)


# Faults of the checks

def with_faults(s, y, checks):
    """The honest lists with faults by which exactly these checks fail. r is 2, and a_12 is zero in every constraint."""
    t, g, h = block_starts(s)
    if 5 in checks:
        y = with_commitments(s, moved(y, "opening", t))
    if 6 in checks:
        y = with_commitments(s, moved(y, "opening", g + s.t2 * s.d))
    if 7 in checks:
        y = with_commitments(s, moved(y, "opening", h + s.t1 * s.d))
    if 8 in checks:
        y = moved(y, "whole", -1)
    if 4 in checks:
        y = moved(y, "u2", s.d - 1)
    if 3 in checks:
        y = moved(y, "u1", 0)
    if 2 in checks:
        y = moved(y, "constant_terms", -1)
    s = least_bounds(s, y)
    s = s._replace(beta_squared=s.beta_squared - (1 in checks), target_beta_squared=s.target_beta_squared - (9 in checks))
    failing = [number for number, check in enumerate(fold.CHECKS, start=1) if not check(s, y)]
    assert failing == list(checks), (failing, checks)
    return s, y


def without_mixed_a(rng, s):
    """Random lists of a prover whose constraints have a_12 = 0."""
    x = random_lists(rng, s, True)
    blocks = fold.cut(x["whole"], whole_constraint_length(s.d, s.n, s.r))
    blocks += fold.cut(x["constant_terms"], constant_term_constraint_length(s.d, s.n, s.r))
    functions = iter([block[: s.d] + ring.zero(s.d) + block[2 * s.d :] for block in blocks])
    return with_constraints(s, x, lambda count: next(functions)[:count])


def failing_checks(rng):
    for d, n, counts in ((2, 1, (0, 1, 2, 3)), (4, 1, (1,))):
        s = SMALL._replace(d=d, n=n, r=2, L=1, w=d // 2, b2=256, nu=2, mu=2)
        x = without_mixed_a(rng, s)
        y = fold.honest(s, x | {"projections": [rng.choice((-1, 1)) for _ in x["projections"]]})
        assert any(y["p"])
        for count in counts:
            subsets = list(combinations(range(1, 10), count))
            for checks in subsets if count < 3 else rng.sample(subsets, 6):
                answer = failed(checks[0]) if checks else accepted(0)
                yield f"d = {d}, checks {checks}", answer, with_faults(s, y, checks)


def last_rows(rng):
    """Faults in the last row of a matrix or the last entry of a message only."""
    s, y = honest(rng, SMALL._replace(r=2, L=1, w=2, kappa=2, kappa1=2, kappa2=2, nu=1, mu=3))
    s = s._replace(beta_squared=LARGEST_BOUND, target_beta_squared=LARGEST_BOUND)
    yield "honest", accepted(LARGEST_BOUND - ring.squared_norm(y["opening"])), (s, y)
    yield "last row of u1", failed(3), (s, moved(y, "u1", -1))
    yield "last row of u2", failed(4), (s, moved(y, "u2", -1))
    yield "last row of A", failed(5), (s, moved(y, "a_matrix", -1))
    _, g, _ = block_starts(s)
    yield "last row of t's high digit", failed(5), (s, with_commitments(s, moved(y, "opening", g - 1)))
    for k in range(5):
        yield f"constant term of b''_{k + 1}", failed(2), (s, moved(y, "second_b", k * s.d))
        yield f"another coefficient of b''_{k + 1}", failed(8), (s, moved(y, "second_b", k * s.d + 1))
    yield "last p", failed(2), (s, moved(y, "p", -1))


def fifth_aggregate(rng):
    s = SMALL._replace(n=2, r=2, L=1, w=1, nu=1, mu=2)
    x = random_lists(rng, s, True)
    x |= {"psi": [0] * 4 + [1], "omega": [0] * 4 + [1], "delta": [0] * 8 + [2, 1]}
    y = fold.honest(s, x)
    s = least_bounds(s, y)
    yield "honest", accepted(0), (s, y)
    yield "constant term of b''_5 moved", failed(2), (s, moved(y, "second_b", 8))
    yield "another coefficient of b''_5 moved", failed(8), (s, moved(y, "second_b", 9))
    yield "ψ_5 moved", None, (s, moved(y, "psi", 4))
    yield "ω_5 moved", None, (s, moved(y, "omega", 4))
    yield "δ_5 moved", None, (s, moved(y, "delta", 9))


def carried(s, y, places, base, by):
    """`by` bases moved from each of the places to the digit after it, `gap` numbers on; the values recomposed are the same."""
    numbers = list(y["opening"])
    for place, gap in places:
        numbers[place] += by * base
        numbers[place + gap] -= by
    return with_commitments(s, y | {"opening": numbers})


def wide_digits(rng):
    for d, n, r, b, b1, b2, bases in ((2, 1, 1, 4, 65536, 4, (1, -2, 50)), (2, 1, 2, 7, 255, 16, (-1,)), (4, 1, 1, 16, 256, 5, (3,))):
        s = SMALL._replace(d=d, n=n, r=r, kappa=2 // r, b=b, b1=b1, b2=b2, t1=2 if b1 == 65536 else 4, t2=3, nu=1, mu=2)
        y = fold.honest(s, random_lists(rng, s, True))
        t, g, h = block_starts(s)
        for by in bases:
            blocks = (("z", n * d - 1, n * d, b), ("t", t, s.kappa * d, b1), ("g", g, d, b2), ("h", h + d - 1, d, b1))
            for block, place, gap, base in blocks:
                wide = carried(s, y, [(place, gap)], base, by)
                yield f"d = {d}, {by} bases of a low digit of {block}", refused(15), (least_bounds(s, wide), wide)
        far = carried(s, y, [(place, d * n) for place in range(n * d)], b, 99999)
        yield f"d = {d}, 99999 bases of all of z", refused(15), (least_bounds(s, far), far)
        bounds = least_bounds(s, far)
        bounds = bounds._replace(target_beta_squared=bounds.target_beta_squared - 1)
        yield f"d = {d}, 99999 bases of all of z, β'² one less", refused(15), (bounds, far)
        wrong = carried(s, far, [(t, s.kappa * d)], b1, 1) | {"u1": far["u1"]}
        yield f"d = {d}, 99999 bases of all of z, u1 kept, t low digit too", refused(15), (bounds, wrong)
    # the same value modulo q only: 65437 + 65535·65536 = q
    s = SMALL._replace(b=65536, b1=65536)
    y = fold.honest(s, random_lists(rng, s, True))
    numbers = list(y["opening"])
    numbers[0] += 65437
    numbers[2] += 65535
    wide = y | {"opening": numbers}
    yield "z greater by q", refused(15), (least_bounds(s, wide), wide)
    numbers = list(y["opening"])
    numbers[4] -= 65437
    numbers[6] -= 65535
    wide = with_commitments(s, y | {"opening": numbers})
    yield "t less by q", refused(15), (least_bounds(s, wide), wide)


def wrapped_lengths(rng):
    """For sums modulo 2^64 these bounds would hold; modulo 2^63 and 2^32 alike. Each also with the checks' sums right."""
    for bits in (64, 63, 32):
        # check 1: ω is zero, so that p is free
        s = SMALL._replace(n=2, w=8)
        x = random_lists(rng, s, True) | {"omega": [0] * 40}
        y = fold.honest(s, x)
        while True:
            p = uniform(rng, ring.LARGEST, 8)
            if 2 * ring.squared_norm(p) % 2**bits <= 8 * LARGEST_BOUND:
                break
        bounds = s._replace(beta_squared=LARGEST_BOUND, target_beta_squared=bounded(ring.squared_norm(y["opening"])))
        yield f"2|p|² modulo 2^{bits}", failed(1), (bounds, y | {"p": p})
        # check 9: low is set so that z is the same modulo q
        s = SMALL._replace(n=4, b=65536)
        y = fold.honest(s, random_lists(rng, s, True))
        while True:
            numbers = list(y["opening"])
            for place in range(8):
                by = rng.randint(-ring.LARGEST, ring.LARGEST)
                numbers[8 + place] = ring.centred(numbers[8 + place] + by)
                numbers[place] = ring.centred(numbers[place] - s.b * by)
            if ring.squared_norm(numbers) % 2**bits <= LARGEST_BOUND:
                break
        wide = y | {"opening": numbers}
        yield f"squared length of the digits modulo 2^{bits}", refused(15), (s, wide)
    p = [ring.LARGEST] * 8
    s = SMALL._replace(n=2, w=8)
    y = fold.honest(s, random_lists(rng, s, True) | {"omega": [0] * 40})
    yield "p at the end of the range", failed(1), (s, y | {"p": p})
    p = [22360679, 22360679, 22360679, 22360679, 0, 0, 0, 0]
    large = y | {"p": p}
    yield "p large, its bound just holds", accepted(0), (least_bounds(s, large), large)


def changed_numbers(rng):
    for k in range(20):
        s, y = honest(rng, some_sizes(rng, 2 if k % 4 else 4, 3000 if k % 4 else 4000))
        s = s._replace(target_beta_squared=LARGEST_BOUND)
        name = rng.choice([name for name in y if y[name] and name not in ("projections", "c")] + ["opening"] * 8)
        place = rng.randrange(len(y[name]))
        by = rng.choice((1, -1, 2, 65536))
        yield f"{k}: {name}[{place}] moved by {by}", None, (s, moved(y, name, place, by))
    s, y = honest(rng, SMALL._replace(n=2, r=2, w=1, L=1, nu=2, mu=1))
    for name, values in (("projections", (-1, 0, 1)), ("c", (-2, 0, 2))):
        for value in values:
            if y[name][1] != value:
                yield f"{name}[1] = {value}", None, (s, replaced(y, name, 1, value))


# Halves

def half_lists(rng, s):
    """A prover's lists for d = n = r = 2. c_1 s_11 in z, A s_2 in t, <s_1,s_2> in g and <φ_2,s_2> in h are B/2 + (3B/2)X, each with its
    own base.
    """

    def halves(base):
        return [base // 2, 3 * base // 2]

    x = random_lists(rng, s, True) | {"alpha": ring.one(s.d), "c": ring.one(s.d) + challenge(rng, s.d)}
    x["witness"] = halves(s.b) + halves(s.b2) + ring.zero(s.d) + ring.one(s.d)
    x["a_matrix"] = ring.zero(s.d) + halves(s.b1)
    return with_constraints(s, x, lambda count: [0] * (count - s.d) + halves(s.b1))


def even_halves(rng):
    """Openings of one witness by the rule and by the older one: they differ in z, t, g and h, which recompose to the same."""
    for b, b1, b2, t1, t2 in ((2, 4, 65536, 3, 2), (4, 6, 2, 3, 3), (6, 256, 4, 2, 3), (256, 65536, 6, 2, 3), (65536, 2, 256, 3, 2)):
        s = SMALL._replace(n=2, r=2, b=b, b1=b1, b2=b2, t1=t1, t2=t2, mu=2)
        x = half_lists(rng, s)
        even = fold.honest(s, x)
        with ring.kept_rule():
            kept = fold.honest(s, x)
        assert all(digits != older for digits, older in zip(fold.read_opening(s, even), fold.read_opening(s, kept), strict=True))
        for recomposed in (fold.recomposed_z, fold.recomposed_t, fold.recomposed_g, fold.recomposed_h):
            assert recomposed(s, even) == recomposed(s, kept)
        for rule, y in (("", even), (", the older rule", kept)):
            name = f"b = {b}, b1 = {b1}, b2 = {b2}{rule}"
            bounds = least_bounds(s, y)
            yield name, accepted(0), (bounds, y)
            if b == 2:
                yield f"{name}, β'² one less", failed(9), (bounds._replace(target_beta_squared=bounds.target_beta_squared - 1), y)


def margins(rng):
    """Target bounds on both sides of the squared length."""
    for name, answer, s, y in margin_sides(rng):
        yield name, answer, (s, y)


def padded_chains(rng):
    """padding.py: a statement that no witness solves fails 6; the fold of its next instance, with nonzero padding in a chunk of z, is accepted. The sheet of
    a fold with one z digit does not exist, that of the fold after it does.
    """
    for name, s, y, following, z in padding.chains(rng):
        if s.tz == 2:
            yield f"{name}, the first fold", failed(6), (s, y)
        yield f"{name}, the fold of the next instance", accepted(0), (following, z)


GROUPS = (
    whole_case, every_degree, largest_sizes, long_witness, failing_checks, last_rows, fifth_aggregate, wide_digits, wrapped_lengths,
    changed_numbers,
)
