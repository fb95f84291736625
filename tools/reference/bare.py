"""The bare level: SPECIFICATION 14; the paper, section 5.6.

`s` is a BareSizes, `x` a dictionary of flat lists by name (LENGTHS names them). Indexes count from 0, turns from 1. Quotations are from
docs/SPECIFICATION.md.
"""

from collections import namedtuple

import sizes
from prover import aggregate, aggregate_constant, message_2, message_3
from relation import cut, elements, flat, matrix, matrix_product, parts, statement
from ring import add, add_all, inner_product, multiply, scale, squared_norm
from sizes import Call
from verifier import check_1, check_2

# "It is four elements".
GARBAGE = 4

# The count of numbers of each list. "c before the turn" is named apart from c, the bare opening apart from an opening.
LENGTHS = {name: sizes.LENGTHS[name] for name in "a_matrix whole constant_terms projections p psi omega second_b alpha delta c witness".split()}
LENGTHS |= {
    "t": lambda s: s.r * s.kappa * s.d,
    "phi": lambda s: s.r * s.n * s.d,
    "earlier_c": lambda s: (s.turn - 1) * s.d,
    "garbage": lambda s: GARBAGE * s.d,
    "bare_opening": lambda s: (s.r * s.kappa + s.n + GARBAGE * s.r) * s.d,
}

# What each call takes, as sizes.CALLS.
CALLS = {
    "bare_commit": Call("d n r kappa".split(), "a_matrix witness".split(), ["t"]),
    "bare_phi": Call("d n r K L w".split(), "whole constant_terms projections psi omega alpha delta".split(), ["phi"]),
    "bare_turn": Call("d n r turn".split(), "phi earlier_c witness".split(), ["garbage"]),
    "bare_verify": Call(
        "d n r K L w kappa beta_squared z_bound".split(),
        "a_matrix whole constant_terms projections p psi omega second_b alpha delta c bare_opening".split(),
        [],
    ),
}

VERIFIER_LISTS = CALLS["bare_verify"].reads


# Refusals

def has_mixed_products(s, x):
    """Row 14: "both kinds of constraints, and .. each of their a_ij with i < j, whatever α, ψ and δ are: nonzero says that some of its d numbers is not
    0."
    """
    both = statement(s, x)
    return any(any(a_ij) for f, _ in both.whole + both.constant_terms for (i, j), a_ij in f.a.items() if i < j)


def refusal(call, s, lists):
    """The number of the row by which the call is refused, 0 if by none. A list that the call writes may be left out of `lists`."""
    taken = CALLS[call]
    number = sizes.size_refusal(taken.sizes, s)
    if number:
        return number
    # 7: "a slice's length is not what the sizes give"
    for name in taken.reads + [name for name in taken.lengths_only if name in lists]:
        if len(lists[name]) != LENGTHS[name](s):
            return 7
    number = sizes.number_refusal(s, {name: lists[name] for name in taken.reads})
    if number:
        return number
    # 14: "some constraint has a nonzero a_ij with i < j (bare level only)"; "The row counts after 10".
    if "whole" in taken.reads and has_mixed_products(s, lists):
        return 14
    return 0


# Messages

# "the mixed φ, the own φ, the mixed z and the own z of turn i."
Turn = namedtuple("Turn", "mixed_phi own_phi mixed_z own_z")


def bare_commit(s, x):
    """ "t_i = A s_i. Written by `bare_commit`: r·κ elements, by part, then row." """
    a_matrix = matrix(s, x["a_matrix"], s.kappa)
    return {"t": flat(flat(matrix_product(s.d, a_matrix, s_i) for s_i in parts(s, x["witness"])))}


def bare_phi(s, x):
    """ "φ_1..φ_r of the aggregate, n elements each, are written by `bare_phi`, by part". """
    return {"phi": flat(flat(aggregate(s, x).phi))}


def bare_turn(s, x):
    """ "the sum over j < i of (<φ_j,s_i> + <φ_i,s_j>)c_j; <φ_i,s_i>; 2·(the sum over j < i of <s_i,s_j>c_j); <s_i,s_i>." """
    i = s.turn - 1
    phi, witness_parts, c = parts(s, x["phi"]), parts(s, x["witness"]), elements(s.d, x["earlier_c"])

    def product(u, v):
        return inner_product(s.d, u, v)

    phi_i, s_i = phi[i], witness_parts[i]
    turn = Turn(
        mixed_phi=add_all(s.d, [multiply(add(product(phi[j], s_i), product(phi_i, witness_parts[j])), c[j]) for j in range(i)]),
        own_phi=product(phi_i, s_i),
        mixed_z=scale(2, add_all(s.d, [multiply(product(s_i, witness_parts[j]), c[j]) for j in range(i)])),
        own_z=product(s_i, s_i),
    )
    return {"garbage": flat(turn)}


def amortized(s, x):
    """ "z = Σ c_i s_i, whole". """
    c, witness_parts = elements(s.d, x["c"]), parts(s, x["witness"])
    return [add_all(s.d, [multiply(c_i, s_i[k]) for c_i, s_i in zip(c, witness_parts, strict=True)]) for k in range(s.n)]


def bare_opening(t, z, turns):
    """ "The bare opening is t, z, then these four by turn". """
    return t + z + turns


def honest(s, x):
    """All lists of the verifier: "p is message 2 (4.2) and b'' message 3 (4.3)"; "Turn i .. is made from c_1..c_(i-1) alone". """
    x = x | message_2(s, x) | message_3(s, x) | bare_phi(s, x)
    turns = []
    for turn in range(1, s.r + 1):
        turns += bare_turn(s._replace(turn=turn), x | {"earlier_c": x["c"][: (turn - 1) * s.d]})["garbage"]
    x["bare_opening"] = bare_opening(bare_commit(s, x)["t"], flat(amortized(s, x)), turns)
    return {name: x[name] for name in VERIFIER_LISTS}


# Verdict

# t: one vector of κ elements for each part; z: n elements; turns: one Turn for each part.
Opening = namedtuple("Opening", "t z turns")


def read_opening(s, x):
    """ "The bare opening is t, z, then these four by turn". """
    entries = elements(s.d, x["bare_opening"])
    t, rest = entries[: s.r * s.kappa], entries[s.r * s.kappa :]
    return Opening(cut(t, s.kappa), rest[: s.n], [Turn(*turn) for turn in cut(rest[s.n :], GARBAGE)])


def in_turn(s, x, mixed, own):
    """ "the sum over all turns of (mixed)·c_i + (own)·c_i²". """
    c = elements(s.d, x["c"])
    return add_all(s.d, [add(multiply(mixed[i], c[i]), multiply(own[i], multiply(c[i], c[i]))) for i in range(s.r)])


def check_3(s, x):
    """ "A z = Σ c_i t_i". """
    c, o = elements(s.d, x["c"]), read_opening(s, x)
    right = [add_all(s.d, [multiply(c[i], o.t[i][k]) for i in range(s.r)]) for k in range(s.kappa)]
    return matrix_product(s.d, matrix(s, x["a_matrix"], s.kappa), o.z) == right


def check_4(s, x):
    """ "<z,z> = the sum over all turns of (mixed z)·c_i + (own z)·c_i²". """
    o = read_opening(s, x)
    return inner_product(s.d, o.z, o.z) == in_turn(s, x, [turn.mixed_z for turn in o.turns], [turn.own_z for turn in o.turns])


def check_5(s, x):
    """ "Σ<φ_i,z>c_i = the sum over all turns of (mixed φ)·c_i + (own φ)·c_i²". """
    c, o, phi = elements(s.d, x["c"]), read_opening(s, x), aggregate(s, x).phi
    left = add_all(s.d, [multiply(inner_product(s.d, phi[i], o.z), c[i]) for i in range(s.r)])
    return left == in_turn(s, x, [turn.mixed_phi for turn in o.turns], [turn.own_phi for turn in o.turns])


def check_6(s, x):
    """ "Σ a_ii·(own z of turn i) + Σ (own φ of turn i) = b". """
    a, turns = aggregate(s, x).a, read_opening(s, x).turns
    summands = [add(multiply(a[i, i], turn.own_z), turn.own_phi) for i, turn in enumerate(turns)]
    return add_all(s.d, summands) == aggregate_constant(s, x)


def z_squared_norm(s, x):
    """|z|², a whole number."""
    return squared_norm(flat(read_opening(s, x).z))


def check_7(s, x):
    """ "|z|² ≤ the bound on z". """
    return z_squared_norm(s, x) <= s.z_bound


# "Checks 1 and 2 are 6.1 and 6.2."
CHECKS = (check_1, check_2, check_3, check_4, check_5, check_6, check_7)


def bare_verify(s, x):
    """ "the first that fails is named"; "Accepted carries the margin of check 7: the bound on z minus |z|²." """
    for number, check in enumerate(CHECKS, start=1):
        if not check(s, x):
            return ("failed", number)
    return ("accepted", s.z_bound - z_squared_norm(s, x))


DEFINITIONS = {"bare_commit": bare_commit, "bare_phi": bare_phi, "bare_turn": bare_turn, "bare_verify": bare_verify}


def answer(call, s, x):
    """The answer of a call, refusals first, as fold.answer."""
    number = refusal(call, s, x)
    if number:
        return ("refused", number)
    result = DEFINITIONS[call](s, x)
    return ("written", result) if isinstance(result, dict) else result
