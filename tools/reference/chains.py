"""A chain of folds that ends with the bare level, SPECIFICATION 8.12 and 14.11: two folds with two z digits, one with one, then the bare level.

All bounds are tight: the target bound of a fold is the squared length of its digits and the β² of the next level, the bound on z is |z|². Each fold cuts z
into full chunks, ν·n' = n.

Check 1 of a level is 2·|p|² ≤ w·β² with β² = |s|². Rows as the paper draws them, half of the entries 0, make p² about half of |s|², so that check 1 holds
for about every second draw: rows are drawn again until it does.
"""

from collections import namedtuple

import bare
import fold
import ring
import sizes
from fixtures import SMALL, challenges, coefficients, random_lists, uniform
from sizes import LARGEST_BOUND, BareSizes

# A fold: its sizes and the verifier's lists.
Fold = namedtuple("Fold", "sizes lists")

THREE_DIGITS = {"b1": 1626, "t1": 3, "b2": 1626, "t2": 3}

# The folds of a chain: the first's own sizes, and what each cuts and keeps. n and r of the later ones follow.
LONG = (
    {"n": 54, "r": 2, "K": 1, "L": 1, "w": 2, "b": 16, "b2": 256, "nu": 1, "mu": 1},
    {"w": 3, "b": 512, "kappa": 2, "nu": 1, "mu": 1, **THREE_DIGITS},
    {"w": 2, "b": 0, "kappa": 1, "kappa1": 2, "nu": 3, "mu": 2, "tz": 1, "b1": 65536, "t1": 2, "b2": 65536, "t2": 2},
)
# One of fewer products, for degree 64.
SHORT = (
    {"n": 24, "r": 1, "K": 1, "L": 1, "w": 2, "b": 16, "b2": 256, "nu": 1, "mu": 1},
    {"w": 2, "b": 512, "nu": 1, "mu": 2, **THREE_DIGITS},
    {"w": 2, "b": 0, "nu": 2, "mu": 4, "tz": 1, "b1": 65536, "t1": 2, "b2": 65536, "t2": 2},
)
# One fold, so that the lines of its bare level are short at degree 64.
ONE_FOLD = ({"n": 6, "r": 1, "K": 1, "L": 1, "w": 2, "b": 0, "b2": 256, "nu": 1, "mu": 1, "tz": 1},)


def rows(rng, s, witness):
    """Projection rows under which check 1 holds for a β² of |s|²."""
    while True:
        entries = [rng.choice((-1, 0, 0, 1)) for _ in range(s.w * len(witness))]
        p = [sum(a * b for a, b in zip(row, witness, strict=True)) for row in fold.cut(entries, len(witness))]
        if 2 * ring.squared_norm(p) <= s.w * ring.squared_norm(witness):
            return entries


def draws(rng, s, lengths, matrices, witness, draw):
    """The matrices and draws of a level."""
    names = matrices + "psi omega alpha delta".split()
    return {name: draw(rng, lengths[name](s)) for name in names} | {"projections": rows(rng, s, witness), "c": challenges(rng, s)}


def has_full_chunks(s):
    """ "ν divides n, and m/μ, rounded up, is at most n/ν." """
    return s.n % s.nu == 0 and sizes.tail_chunk(s) <= s.n // s.nu


def folds(rng, d, shapes, draw):
    """The folds of a chain, each with the witness of the next: (Fold, padded opening)."""
    statement = {}
    s = SMALL._replace(d=d, beta_squared=0)
    for level, shape in enumerate(shapes):
        s = s._replace(**shape)
        if level == 0:
            x = random_lists(rng, s, True)
            x["projections"] = rows(rng, s, x["witness"])
            s = s._replace(beta_squared=ring.squared_norm(x["witness"]))
        else:
            x = draws(rng, s, sizes.LENGTHS, "a_matrix b_matrix c_matrix d_matrix".split(), statement["witness"], draw) | statement
        assert has_full_chunks(s)
        y = fold.honest(s, x)
        s = s._replace(target_beta_squared=ring.squared_norm(y["opening"]))
        assert s.target_beta_squared <= LARGEST_BOUND
        witness = fold.flat(fold.flat(fold.next_witness(s, y)))
        yield Fold(s, y), witness
        kind, written = fold.answer("next_instance", s, y)
        assert kind == "written"
        statement = {"whole": written["next_whole"], "constant_terms": [], "witness": witness}
        s = s._replace(
            n=sizes.next_rank(s), r=sizes.next_multiplicity(s), K=sizes.next_constraint_count(s), L=0, beta_squared=s.target_beta_squared, tz=2
        )


def bare_level(rng, last, witness, draw, kappa=1, w=2):
    """The bare level of the next instance of the last fold, with κ rows of A and w projection rows: sizes, the prover's lists, the verifier's lists."""
    f, y = last
    s = BareSizes(f.d, sizes.next_rank(f), sizes.next_multiplicity(f), sizes.next_constraint_count(f), 0, w, kappa, f.target_beta_squared, 0)
    x = draws(rng, s, bare.LENGTHS, ["a_matrix"], witness, draw)
    x |= {"whole": fold.answer("next_instance", f, y)[1]["next_whole"], "constant_terms": [], "witness": witness}
    y = bare.honest(s, x)
    return s._replace(z_bound=bare.z_squared_norm(s, y)), x, y


def short(rng, count):
    """Short numbers, which keep a stored line short."""
    return uniform(rng, 9, count)


def chain(rng, d, shapes, draw=coefficients):
    """The folds with their next witnesses, and the bare level."""
    levels = list(folds(rng, d, shapes, draw))
    return levels, bare_level(rng, *levels[-1], draw)
