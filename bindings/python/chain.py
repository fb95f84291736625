#!/usr/bin/env python3
"""A chain of proofs, level by level: python3 bindings/python/chain.py [DEGREE], after bindings/python/build. The degree is 2 if none is named; real use takes 64.

Readings are proved in a fold. Instead of sending its opening the prover folds the next instance, of which the opening is a witness, and so on; the third
fold keeps z in one digit, and its next instance is sent bare. A line a level: its parts, the elements of a part, the numbers of its witness, the numbers of
its opening, the verdict. Only the last opening is sent.

All bounds are tight: the target bound of a fold is the squared length of its opening, and that is the next bound on the witness.
"""

import random
import sys

import lizkarg

LEVELS = (
    {"b": 16, "nu": 1, "mu": 4},
    {"b": 128, "nu": 1, "mu": 1},
    {"b": None, "nu": 4, "mu": 1},
)

FIRST = lizkarg.Sizes(
    d=2, n=256, r=16, k=0, l=2, w=4, kappa=2, kappa1=1, kappa2=1, b=16, b1=1626, b2=1626, t1=3, t2=3, bound=0, target=999999999999999,
)


def squared_length(numbers):
    return sum(x * x for x in numbers)


def drawn(rng, length):
    """Numbers from the whole range."""
    return [rng.randint(-2147483598, 2147483598) for _ in range(length)]


def rows(rng, sizes, witness):
    """Projection rows, drawn until p is short enough for the tight bound; about every second draw is."""
    while True:
        entries = rng.choices((-1, 0, 0, 1), k=sizes.w * len(witness))
        if 2 * squared_length(lizkarg.project(sizes, entries, witness)) <= sizes.w * sizes.bound:
            return entries


def challenges(rng, sizes):
    """At degree 64 23 coefficients 0, 31 of ±1 and 10 of ±2; at a smaller one some of these."""
    values = ([0] * 23 + [1] * 31 + [2] * 10)[-sizes.d:]
    return [rng.choice((-1, 1)) * value for _ in range(sizes.r) for value in rng.sample(values, sizes.d)]


def draws(rng, sizes, witness, known):
    """All that is drawn at a level, and its matrices."""
    names = [name for name in ("a_matrix", "b_matrix", "c_matrix", "d_matrix", "psi", "omega", "alpha", "delta") if name in known]
    return {**{name: drawn(rng, known[name]) for name in names}, "projections": rows(rng, sizes, witness), "c": challenges(rng, sizes)}


def readings(rng, sizes):
    """The statement and its witness: readings from 0 to 9, and two sums of them, of all first readings of an element and of all second ones. No products."""
    witness = [rng.randint(0, 9) for _ in range(sizes.r * sizes.n * sizes.d)]
    first, second = [1] + [0] * (sizes.d - 1), [0] * (sizes.d - 1) + [-1]
    products = [0] * (sizes.r * (sizes.r + 1) // 2 * sizes.d)
    sums = (sum(witness[0::sizes.d]), sum(witness[1::sizes.d]))
    constraints = [products + phi * (sizes.r * sizes.n) + [b] for phi, b in zip((first, second), sums)]
    return {"whole": [], "constant_terms": constraints[0] + constraints[1]}, witness


def chain(d, seed=1):
    """The levels: sizes, proof, verdict of each; the last is the bare one."""
    rng = random.Random(seed)
    sizes = FIRST._replace(d=d)
    statement, witness = readings(rng, sizes)
    for level in LEVELS:
        nu, mu = level["nu"], level["mu"]
        sizes = sizes._replace(b=level["b"], bound=squared_length(witness))
        # with other chunks the end of the chain would say nothing of the readings
        assert lizkarg.has_full_chunks(sizes, nu, mu)
        proof = lizkarg.prove(sizes, witness, **statement, **draws(rng, sizes, witness, lizkarg.lengths(sizes)))
        sizes = sizes._replace(target=squared_length(proof.opening))
        yield sizes, proof, lizkarg.verify(sizes, proof)
        statement = {"whole": lizkarg.next_instance(sizes, nu, mu, proof), "constant_terms": []}
        witness = lizkarg.next_witness(sizes, nu, mu, proof.opening)
        after = lizkarg.next_sizes(sizes, nu, mu)
        sizes = sizes._replace(n=after.n, r=after.r, k=after.k, l=0)
    bare = lizkarg.BareSizes(d, sizes.n, sizes.r, sizes.k, 0, sizes.w, sizes.kappa, bound=squared_length(witness), z_bound=0)
    proof = lizkarg.prove_bare(bare, witness, **statement, **draws(rng, bare, witness, lizkarg.bare_lengths(bare)))
    z = proof.opening[bare.r * bare.kappa * d:][:bare.n * d]
    bare = bare._replace(z_bound=squared_length(z))
    yield bare, proof, lizkarg.bare_verify(bare, proof)


HEAD = "level  parts  elements  witness  opening  verdict"


def line(level, sizes, opening, verdict):
    return f"{level:>5}  {sizes.r:>5}  {sizes.n:>8}  {sizes.r * sizes.n * sizes.d:>7}  {opening:>7}  {verdict}"


def main():
    print(HEAD)
    for number, (sizes, proof, verdict) in enumerate(chain(int(sys.argv[1]) if len(sys.argv) > 1 else 2), start=1):
        level = number if number <= len(LEVELS) else "bare"
        print(line(level, sizes, len(proof.opening), verdict))


if __name__ == "__main__":
    main()
