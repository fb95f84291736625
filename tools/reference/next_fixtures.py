"""Sizes and lists for next_cases.py: honest runs, and pairs of folds in which the second is of the first's next instance."""

import fold
import ring
import sizes
from fixtures import SMALL, challenges, coefficients, least_beta_squared, moved, random_lists, uniform
from sizes import LARGEST_BOUND, LENGTHS

FIRST = SMALL._replace(b=16, b2=256)

WRITTEN = [3, 0]


def accepted(s, y):
    """The two numbers of accepted: "otherwise accepted, with the target bound minus that length as margin". """
    return [0, s.target_beta_squared - ring.squared_norm(y["opening"])]


def honest_lists(rng, s, small=False):
    """The verifier's lists of an honest run. `small` matrices and constraints keep a long line short."""
    x = random_lists(rng, s, True)
    if small:
        for name in "a_matrix b_matrix c_matrix d_matrix whole".split():
            x[name] = uniform(rng, 9, len(x[name]))
    return fold.honest(s, x)


# Two folds

def second_sizes(s, **free):
    """The sizes of the next instance, with the sizes of its fold that are free; its fold has two z digits."""
    return s._replace(
        n=sizes.next_rank(s), r=sizes.next_multiplicity(s), K=sizes.next_constraint_count(s), L=0, beta_squared=s.target_beta_squared,
        target_beta_squared=LARGEST_BOUND, tz=2,
    )._replace(**free)


def second_draws(rng, following):
    """The matrices and draws of the second fold."""
    names = "a_matrix b_matrix c_matrix d_matrix omega alpha delta".split()
    x = {name: coefficients(rng, LENGTHS[name](following)) for name in names}
    x["projections"] = [rng.choice((0, 0, 0, 0, 0, 0, 0, 1, -1)) for _ in range(LENGTHS["projections"](following))]
    x["c"] = challenges(rng, following)
    return x


def second_witness(s, y):
    """The padded opening."""
    return fold.flat(fold.flat(fold.next_witness(s, y)))


def second_lists(s, y, whole, draws):
    """The lists of the second fold's prover: the constraints as they stand, the padded opening as witness."""
    return draws | {"whole": whole, "constant_terms": [], "psi": [], "witness": second_witness(s, y)}


def second_fold(s, x, following, draws):
    """The verifier's lists of the second fold, where the next instance is written."""
    y = fold.honest(s, x)
    kind, written = fold.answer("next_instance", s, y)
    assert kind == "written" and fold.solves(fold.next_statement(s, y), fold.next_witness(s, y))
    return fold.honest(following, second_lists(s, y, written["next_whole"], draws))


def tight(s, x, following, draws):
    """Both folds with the least target bounds under which check 9 holds, the first's no less than the second's check 1 needs."""
    y = fold.honest(s, x)
    s = s._replace(beta_squared=least_beta_squared(s, y), target_beta_squared=LARGEST_BOUND)
    z = second_fold(s, x, following, draws)
    s = s._replace(target_beta_squared=max(ring.squared_norm(y["opening"]), least_beta_squared(following, z)))
    return s, following._replace(beta_squared=s.target_beta_squared, target_beta_squared=ring.squared_norm(z["opening"]))


def tight_case(rng, s, **free):
    """A case of two folds, both accepted under the bounds of `tight`."""
    x = random_lists(rng, s, True)
    following = second_sizes(s, **free)
    draws = second_draws(rng, following)
    s, following = tight(s, x, following, draws)
    second = second_fold(s, x, following, draws)
    return s, x, following, draws, (accepted(s, fold.honest(s, x)), WRITTEN, accepted(following, second))


def two_folds(rng):
    """By name: first sizes, first lists, second sizes, second draws, and the three answers: verdict, next instance, verdict."""
    cases = {}
    for name, changes, free in (
        ("d = 2, no rows", {"n": 2, "r": 2, "mu": 2}, {"b": 65536, "b2": 65536, "kappa1": 2}),
        ("d = 2, rows", {"n": 3, "r": 2, "L": 1, "w": 2, "nu": 2}, {"w": 2, "b": 4096, "b2": 65535, "kappa": 2}),
        ("n = 4 in 3", {"n": 4, "r": 1, "kappa": 2, "nu": 3, "mu": 2}, {"w": 1, "b": 255, "b1": 256, "t1": 4, "b2": 65536, "kappa2": 2}),
        ("n = 1 in 4", {"L": 2, "nu": 4, "mu": 3}, {"b": 65536, "b2": 65536}),
        ("n = 6, six in 4", {"n": 6, "mu": 4}, {"b": 65536, "b2": 65536, "kappa1": 2}),
        ("six in 14", {"K": 0, "w": 1, "mu": 14}, {"b": 65536, "b2": 65536, "w": 1}),
        ("d = 4", {"d": 4, "n": 2, "r": 2, "K": 2, "L": 1, "w": 3, "mu": 3}, {"w": 2, "b": 65536, "b2": 65536, "kappa": 2, "kappa1": 3}),
        ("d = 8", {"d": 8, "n": 2, "r": 2, "K": 1, "w": 1, "kappa1": 2, "mu": 2}, {"b": 65536, "b2": 65536, "kappa2": 2}),
    ):
        cases[name] = tight_case(rng, FIRST._replace(**changes), **free)

    s, x, following, draws, (first, *_) = cases["d = 2, rows"]
    less = following._replace(target_beta_squared=following.target_beta_squared - 1)
    cases["second too long"] = (s, x, less, draws, (first, WRITTEN, [1, 9]))
    signs = [(number > 0) - (number < 0) for number in second_witness(s, fold.honest(s, x))]
    cases["second projection too long"] = (s, x, following, draws | {"projections": signs * following.w}, (first, WRITTEN, [1, 1]))
    cases["witness misses a constraint"] = (s, moved(x, "whole", -1), following, draws, ([1, 8], WRITTEN, [1, 8]))
    shorter = s._replace(beta_squared=s.beta_squared - 1)
    cases["first projection too long, nothing written"] = (shorter, x, following, draws, ([1, 1], [1, 1], [1, 8]))

    s, x, following, draws, (*_, second) = cases["d = 2, no rows"]
    norm = ring.squared_norm(fold.honest(s, x)["opening"])
    less = s._replace(target_beta_squared=norm - 1)
    cases["first too long"] = (less, x, following._replace(beta_squared=norm - 1), draws, ([1, 9], WRITTEN, second))
    return cases


def one_digit_folds(rng):
    """The same with z in one digit in the first fold; the first case cuts z into full chunks. Bases that two digits would not take stand in some."""
    cases = {}
    for name, changes, free in (
        ("d = 2, full chunks", {"n": 12, "r": 2, "b": 1, "nu": 2, "mu": 3}, {"b2": 65536, "kappa1": 2}),
        ("d = 2, rows", {"n": 5, "r": 2, "L": 1, "w": 2, "b": 0, "t1": 3, "nu": 2, "mu": 3}, {"w": 2, "b2": 65535, "kappa": 2}),
        ("n = 5 in 4", {"n": 5, "r": 1, "kappa": 2, "b": 65537, "nu": 4, "mu": 3}, {"w": 1, "b1": 256, "t1": 4, "b2": 65536, "kappa2": 2}),
        ("n = 1 in 9", {"L": 2, "nu": 9, "mu": 2}, {"b2": 65536}),
        ("d = 4", {"d": 4, "n": 3, "r": 2, "K": 2, "L": 1, "w": 1, "b": 2**63 - 1, "nu": 2, "mu": 4}, {"w": 2, "b2": 65536, "kappa": 2, "kappa1": 3}),
        ("d = 8", {"d": 8, "n": 3, "r": 2, "K": 1, "w": 1, "kappa1": 2, "b": 0, "nu": 2, "mu": 3}, {"b2": 65536, "kappa2": 2}),
        ("d = 64", {"d": 64, "n": 2, "K": 0, "b": 1}, {"b2": 65536}),
    ):
        cases[name] = tight_case(rng, FIRST._replace(tz=1, **changes), b=65536, **free)
    assert sizes.next_rank(cases["d = 2, full chunks"][0]) == 6

    s, x, following, draws, (first, *_) = cases["d = 2, rows"]
    less = following._replace(target_beta_squared=following.target_beta_squared - 1)
    cases["second too long"] = (s, x, less, draws, (first, WRITTEN, [1, 9]))
    cases["witness misses a constraint"] = (s, moved(x, "whole", -1), following, draws, ([1, 8], WRITTEN, [1, 8]))
    shorter = s._replace(beta_squared=s.beta_squared - 1)
    cases["first projection too long, nothing written"] = (shorter, x, following, draws, ([1, 1], [1, 1], [1, 8]))
    return cases
