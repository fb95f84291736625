"""The bare level and chains that end with it: SPECIFICATION 14 and 8.12."""

import random
from contextlib import contextmanager

import bare
import bare_cases
import chains
import fold
import ring
import sizes
from bare import LENGTHS
from bare_fixtures import (
    APART, SMALL, check_faults, expected, honest_case, mixed_pairs, random_lists, random_sizes, short_lists, turn_place, with_mixed,
)
from fixtures import accepted, challenge, failed, moved, refused, replaced
from sizes import LARGEST_BOUND


def test_a_bare_level_by_hand():
    """d = 2, n = 1, r = 2: s_1 = 1+2X, s_2 = 3, c = (X, 1-X), A = (1+X); φ_1 = 1, φ_2 = X, a_11 = 2, so that b = 2·(-3+4X) + (1+2X) + 3X = -5+13X."""
    s = SMALL._replace(r=2)
    x = {name: [] for name in ("constant_terms", "projections", "psi", "omega")}
    x |= {"a_matrix": [1, 1], "witness": [1, 2, 3, 0], "c": [0, 1, 1, -1], "alpha": [1, 0], "delta": [0] * 10}
    x["whole"] = [2, 0] + [0, 0] + [0, 0] + [1, 0] + [0, 1] + [-5, 13]
    assert fold.meets(fold.statement(s, x), fold.parts(s, x["witness"]))
    # t_1 = (1+X)(1+2X) = -1+3X, t_2 = 3+3X
    assert bare.bare_commit(s, x) == {"t": [-1, 3, 3, 3]}
    assert bare.bare_phi(s, x) == {"phi": [1, 0, 0, 1]}
    phi = {"phi": [1, 0, 0, 1]}
    # turn 1: nothing before it; <φ_1,s_1> = 1+2X, <s_1,s_1> = -3+4X
    assert bare.bare_turn(s, x | phi | {"earlier_c": []}) == {"garbage": [0, 0, 1, 2, 0, 0, -3, 4]}
    # turn 2: (<φ_1,s_2> + <φ_2,s_1>)c_1 = (3 + X - 2)X = -1+X; <φ_2,s_2> = 3X; 2·(3+6X)X = -12+6X; <s_2,s_2> = 9
    assert bare.bare_turn(s._replace(turn=2), x | phi | {"earlier_c": [0, 1]}) == {"garbage": [-1, 1, 0, 3, -12, 6, 9, 0]}
    # z = X(1+2X) + 3(1-X) = 1-2X
    y = bare.honest(s, x)
    assert y["bare_opening"] == [-1, 3, 3, 3] + [1, -2] + [0, 0, 1, 2, 0, 0, -3, 4] + [-1, 1, 0, 3, -12, 6, 9, 0]
    for bound, answer in ((4, failed(7)), (5, accepted(0)), (12, accepted(7)), (LARGEST_BOUND, accepted(LARGEST_BOUND - 5))):
        assert bare.answer("bare_verify", s._replace(z_bound=bound), y) == answer
    assert bare.answer("bare_verify", s, moved(y, "whole", -1)) == failed(6)


def test_lengths():
    """ "(r·κ + n + 4·r) elements", "in exactly this number". """
    s = APART._replace(d=8, turn=3)
    assert [LENGTHS[name](s) // s.d for name in ("t", "phi", "earlier_c", "garbage", "bare_opening")] == [8, 12, 2, 4, 8 + 3 + 16]


def test_honest_runs():
    """Failed 1, failed 7 or accepted by p and |z|² alone; no call refuses what it is lent."""
    rng = random.Random(60)
    seen = set()
    for _ in range(150):
        s, x, y = honest_case(rng)
        answer = bare.answer("bare_verify", s, y)
        assert answer == expected(s, y)
        seen.add(answer if answer[0] == "failed" else ("accepted", answer[1] == 0))
        for call in ("bare_commit", "bare_phi"):
            assert bare.answer(call, s, x)[0] == "written"
        x |= bare.bare_phi(s, x)
        for turn in range(1, s.r + 1):
            assert bare.answer("bare_turn", s._replace(turn=turn), x | {"earlier_c": x["c"][: (turn - 1) * s.d]})[0] == "written"
    assert seen == {failed(1), failed(7), ("accepted", True), ("accepted", False)}


def test_messages_of_any_witness():
    """ "The messages are defined for every witness and all draws." Only checks 2 and 6 see whether it meets the constraints."""
    rng = random.Random(61)
    seen = set()
    for _ in range(60):
        s, x, _ = honest_case(rng)
        y = bare.honest(s, x | {"witness": [ring.centred(number + 1) for number in x["witness"]]})
        assert all(check(s, y) for check in bare.CHECKS[2:5])
        seen.add(all(check(s, y) for check in (bare.CHECKS[1], bare.CHECKS[5])))
    assert seen == {True, False}


def test_z_is_message_5_with_one_digit():
    """ "z = Σ c_i s_i, whole: message 5 with one digit (4.5)". """
    rng = random.Random(62)
    for _ in range(20):
        s = random_sizes(rng)
        x = random_lists(rng, s, False)
        assert fold.message_5(s, x)["z_digits"] == fold.flat(bare.amortized(s, x)) == fold.flat(bare.read_opening(s, bare.honest(s, x)).z)


def test_first_failing_check():
    """Each check fails alone, and of two the first is named."""
    s, y, faults = check_faults(random.Random(63))
    assert bare.answer("bare_verify", s, y) == accepted(0) and list(faults) == list(range(1, 8))
    for first, fault in faults.items():
        changed = fault(s, y)
        assert [number for number, check in enumerate(bare.CHECKS, start=1) if not check(*changed)] == [first]
        assert bare.answer("bare_verify", *changed) == failed(first)
        for second, other in faults.items():
            assert bare.answer("bare_verify", *other(*changed)) == failed(min(first, second))


def test_margin():
    """ "the bound on z minus |z|²", not that of the whole opening nor of β². """
    s, y, _ = check_faults(random.Random(64))
    length = bare.z_squared_norm(s, y)
    assert length not in (ring.squared_norm(y["bare_opening"]), s.beta_squared)
    for more in (0, 1, 17, LARGEST_BOUND - length):
        assert bare.answer("bare_verify", s._replace(z_bound=length + more), y) == accepted(more)
    assert bare.answer("bare_verify", s._replace(z_bound=length - 1), y) == failed(7)


def test_two_openings():
    """ "A(z - z') = (c_i - c'_i) t_i, and the squared length of z - z' is at most 4 times the bound on z." """
    rng = random.Random(65)
    accepted_pairs = 0
    for _ in range(60):
        s = random_sizes(rng)
        x = random_lists(rng, s, True)
        i, c = rng.randrange(s.r), fold.cut(x["c"], s.d)
        c[i] = challenge(rng, s.d)
        # "whatever else came with them": other draws, too
        other = x | {name: ring_numbers(rng, len(x[name])) for name in ("psi", "omega", "alpha", "delta")} | {"c": fold.flat(c)}
        first, second = bare.honest(s, x), bare.honest(s, other)
        s = s._replace(z_bound=min(LARGEST_BOUND, max(bare.z_squared_norm(s, y) for y in (first, second))))
        if any(bare.answer("bare_verify", s, y)[0] != "accepted" for y in (first, second)):
            continue
        accepted_pairs += 1
        o, o2 = bare.read_opening(s, first), bare.read_opening(s, second)
        assert o.t == o2.t
        z = [ring.subtract(a, b) for a, b in zip(o.z, o2.z, strict=True)]
        difference = ring.subtract(*(fold.elements(s.d, y["c"])[i] for y in (first, second)))
        left = fold.matrix_product(s.d, fold.matrix(s, first["a_matrix"], s.kappa), z)
        assert left == [ring.multiply(difference, t_k) for t_k in o.t[i]]
        assert ring.squared_norm(fold.flat(z)) <= 4 * s.z_bound
    assert accepted_pairs > 40


def ring_numbers(rng, count):
    return [rng.randint(-ring.LARGEST, ring.LARGEST) for _ in range(count)]


def test_turns_use_no_later_challenge():
    """ "made from c_1..c_(i-1) alone, in exactly this number": the garbage of a turn is the same whatever comes after it."""
    rng = random.Random(66)
    s = random_sizes(rng)._replace(r=4)
    x = random_lists(rng, s, True)
    y = bare.honest(s, x)
    for turn in range(1, s.r + 1):
        c = x["c"][: (turn - 1) * s.d] + fold.flat(challenge(rng, s.d) for _ in range(s.r - turn + 1))
        other = bare.honest(s, x | {"c": c})
        end = turn_place(s, turn, "own_z") + s.d
        assert y["bare_opening"][turn_place(s, 1, "mixed_phi") : end] == other["bare_opening"][turn_place(s, 1, "mixed_phi") : end]


def test_row_14():
    """Both kinds of constraints, every a_ij with i < j, each of its numbers, whatever its weight; no a_ii."""
    rng = random.Random(67)
    s = SMALL._replace(n=2, r=4, K=2, L=2, w=1)
    x = short_lists(rng, s)
    y = bare.honest(s, x)
    for kind in ("whole", "constant_terms"):
        for constraint in range(2):
            for i, j in sizes.pairs(s.r):
                for coefficient in range(s.d):
                    changed = with_mixed(s, y, kind, constraint, (i, j), coefficient, rng.choice((1, -1, ring.LARGEST)))
                    weightless = changed | {name: [0] * len(y[name]) for name in ("alpha", "psi", "delta")}
                    for lists in (changed, weightless):
                        for call in ("bare_phi", "bare_verify"):
                            assert (bare.answer(call, s, lists) == refused(14)) == (i < j)
    # "The row counts after 10"
    mixed = with_mixed(s, y, "constant_terms", 1, mixed_pairs(s)[-1], s.d - 1)
    for row, changed in ((10, replaced(mixed, "c", -1, 3)), (9, replaced(mixed, "projections", 0, 2)), (8, replaced(mixed, "delta", 0, ring.LARGEST + 1))):
        assert bare.answer("bare_verify", s, changed) == refused(row)
    assert bare.answer("bare_verify", s._replace(beta_squared=0, z_bound=0), mixed) == refused(14)
    # "a call tests only what it takes"
    assert bare.answer("bare_commit", s, mixed | {"witness": x["witness"]})[0] == "written"


def test_row_2_of_a_turn():
    """ "Turn i, from 1 to r". """
    s = SMALL._replace(r=3)
    x = {name: [0] * LENGTHS[name](s) for name in ("phi", "witness")}
    for turn, number in ((-1, 2), (0, 2), (1, 0), (3, 0), (4, 2), (2**64, 2)):
        lists = x | {"earlier_c": [0] * (max(0, min(turn - 1, 3)) * s.d)}
        assert bare.refusal("bare_turn", s._replace(turn=turn), lists) == number


# Chains

def check_chain(d, shapes):
    """Every level is accepted with the margin 0, each next witness solves the next instance, and the bare level ends the chain."""
    levels, (s, x, y) = chains.chain(random.Random(68), d, shapes)
    for level, ((f, lists), witness) in enumerate(levels):
        assert f.nu * sizes.next_rank(f) == f.n and chains.has_full_chunks(f)
        assert f.tz == (1 if level == len(levels) - 1 else 2)
        assert fold.answer("verify", f, lists) == accepted(0)
        assert ring.squared_norm(witness) == f.target_beta_squared
        following = levels[level + 1][0].sizes if level + 1 < len(levels) else s
        assert following.beta_squared == f.target_beta_squared and (following.n, following.r) == (sizes.next_rank(f), sizes.next_multiplicity(f))
    assert fold.solves(fold.statement(s, x), fold.parts(s, x["witness"]))
    assert not bare.has_mixed_products(s, x)
    # the instances of two z digits before it cannot be sent bare
    f, lists = levels[-1][0]
    assert len(levels) == 1 or bare.has_mixed_products(f, lists)
    assert bare.answer("bare_verify", s, y) == accepted(0)
    assert bare.answer("bare_verify", s._replace(z_bound=s.z_bound - 1), y) == failed(7)


def test_chains():
    """d = 2, 8, 64: two folds with two z digits, one with one, then the bare level, under tight bounds and with full chunks."""
    for d, shapes in ((2, chains.LONG), (2, chains.SHORT), (8, chains.LONG), (64, chains.SHORT), (64, chains.ONE_FOLD)):
        check_chain(d, shapes)


# Wrong versions

@contextmanager
def in_place(**wrong):
    """Within it the reference has these functions in place of its own."""
    own = {name: getattr(bare, name) for name in wrong}
    definitions, checks = dict(bare.DEFINITIONS), bare.CHECKS
    for name, function in wrong.items():
        setattr(bare, name, function)
        if name in bare.DEFINITIONS:
            bare.DEFINITIONS[name] = function
    bare.CHECKS = checks[:2] + tuple(getattr(bare, f"check_{number}") for number in range(3, 8))
    try:
        yield
    finally:
        bare.CHECKS = checks
        bare.DEFINITIONS.update(definitions)
        for name, function in own.items():
            setattr(bare, name, function)


def turn_with(change):
    """bare_turn with another Turn: `change(s, i, phi, parts, c, turn)`."""
    own = bare.bare_turn

    def changed(s, x):
        turn = bare.Turn(*fold.elements(s.d, own(s, x)["garbage"]))
        i, product = s.turn - 1, lambda u, v: ring.inner_product(s.d, u, v)
        return {"garbage": fold.flat(change(s, i, fold.parts(s, x["phi"]), fold.parts(s, x["witness"]), fold.elements(s.d, x["earlier_c"]), turn, product))}

    return changed


def one_sided(s, i, phi, parts, c, turn, product):
    return turn._replace(mixed_phi=ring.add_all(s.d, [ring.multiply(product(phi[i], parts[j]), c[j]) for j in range(i)]))


def up_to_i(s, i, phi, parts, c, turn, product):
    return turn._replace(mixed_z=ring.add(turn.mixed_z, ring.scale(2, turn.own_z)))


def other_order(turns_first):
    """read_opening with z, or the turns, before t."""

    def changed(s, x):
        entries = fold.elements(s.d, x["bare_opening"])
        count = s.r * s.kappa
        if turns_first:
            turns, rest = entries[: 4 * s.r], entries[4 * s.r :]
            return bare.Opening(fold.cut(rest[:count], s.kappa), rest[count:], [bare.Turn(*turn) for turn in fold.cut(turns, 4)])
        z, rest = entries[: s.n], entries[s.n :]
        return bare.Opening(fold.cut(rest[:count], s.kappa), z, [bare.Turn(*turn) for turn in fold.cut(rest[count:], 4)])

    return changed


def mixed_in(*kinds):
    """Row 14 that looks at these kinds of constraints only."""

    def changed(s, x):
        both = fold.statement(s, x)
        return any(any(a_ij) for kind in kinds for f, _ in getattr(both, kind) for (i, j), a_ij in f.a.items() if i < j)

    return changed


def weighted_mixed(s, x):
    """Row 14 of the aggregate: constraints of weight zero do not count."""
    return any(any(a_ij) for (i, j), a_ij in fold.aggregate(s, x).a.items() if i < j)


def early_14(*rows):
    """Row 14 before these rows."""
    own = bare.refusal

    def changed(call, s, lists):
        number = own(call, s, lists)
        return 14 if number in rows and "whole" in bare.CALLS[call].reads and bare.has_mixed_products(s, lists) else number

    return changed


def first_places(s, x):
    """Check 6 with the first r elements of a in place of the a_ii."""
    a, turns = list(fold.aggregate(s, x).a.values()), bare.read_opening(s, x).turns
    summands = [ring.add(ring.multiply(a[i], turn.own_z), turn.own_phi) for i, turn in enumerate(turns)]
    return ring.add_all(s.d, summands) == fold.aggregate_constant(s, x)


def in_turn_without_square(s, x, mixed, own):
    c = fold.elements(s.d, x["c"])
    return ring.add_all(s.d, [ring.multiply(ring.add(mixed[i], own[i]), c[i]) for i in range(s.r)])


def in_turn_with_two(s, x, mixed, own):
    c = fold.elements(s.d, x["c"])
    return ring.add_all(s.d, [ring.add(ring.scale(2, ring.multiply(mixed[i], c[i])), ring.multiply(own[i], ring.multiply(c[i], c[i]))) for i in range(s.r)])


def another_margin(s, x, own=bare.bare_verify):
    """The margin of β²."""
    kind, number = own(s, x)
    return (kind, s.beta_squared - bare.z_squared_norm(s, x)) if kind == "accepted" else (kind, number)


def without_constant_terms(s, x, own=bare.bare_phi):
    """φ of the whole constraints alone."""
    return own(s, x | {"delta": [0] * len(x["delta"])})


def t_by_row(s, x):
    """t by row, then part."""
    t = [fold.matrix_product(s.d, fold.matrix(s, x["a_matrix"], s.kappa), s_i) for s_i in fold.parts(s, x["witness"])]
    return {"t": fold.flat(fold.flat(zip(*t, strict=True)))}


WRONG = {
    "mixed z without the 2": {"bare_turn": turn_with(lambda s, i, phi, parts, c, turn, product: turn._replace(mixed_z=ring.half(turn.mixed_z)))},
    "mixed φ with a 2": {"bare_turn": turn_with(lambda s, i, phi, parts, c, turn, product: turn._replace(mixed_phi=ring.scale(2, turn.mixed_phi)))},
    "mixed φ one-sided": {"bare_turn": turn_with(one_sided)},
    "sums over j ≤ i": {"bare_turn": turn_with(up_to_i)},
    "own φ as <φ_i,φ_i>": {"bare_turn": turn_with(lambda s, i, phi, parts, c, turn, product: turn._replace(own_phi=product(phi[i], phi[i])))},
    "z before φ": {"bare_turn": turn_with(lambda s, i, phi, parts, c, turn, product: turn[2:] + turn[:2])},
    "own before mixed": {"bare_turn": turn_with(lambda s, i, phi, parts, c, turn, product: (turn[1], turn[0], turn[3], turn[2]))},
    "t after z": {"read_opening": other_order(False)},
    "turns before t": {"read_opening": other_order(True)},
    "t by row": {"bare_commit": t_by_row},
    "φ of the whole constraints alone": {"bare_phi": without_constant_terms},
    "14 on whole constraints only": {"has_mixed_products": mixed_in("whole")},
    "14 on constant-term constraints only": {"has_mixed_products": mixed_in("constant_terms")},
    "14 by the aggregate": {"has_mixed_products": weighted_mixed},
    "14 before 10": {"refusal": early_14(10)},
    "14 before 9": {"refusal": early_14(9)},
    "14 before 8": {"refusal": early_14(8)},
    "aggregate over the first pairs": {"check_6": first_places},
    "c_i in place of c_i²": {"in_turn": in_turn_without_square},
    "mixed terms twice": {"in_turn": in_turn_with_two},
    "|z|² below the bound": {"check_7": lambda s, x: bare.z_squared_norm(s, x) < s.z_bound},
    "all of the opening against the bound": {"check_7": lambda s, x: ring.squared_norm(x["bare_opening"]) <= s.z_bound},
    "|z|² modulo 2^64": {"z_squared_norm": lambda s, x: ring.squared_norm(fold.flat(bare.read_opening(s, x).z)) % 2**64},
    "the margin of β²": {"bare_verify": another_margin},
    "4 and 5 exchanged": {"check_4": bare.check_5, "check_5": bare.check_4},
    "5 and 6 exchanged": {"check_5": bare.check_6, "check_6": bare.check_5},
    "no check 3": {"check_3": lambda s, x: True},
    "no check 4": {"check_4": lambda s, x: True},
    "no check 5": {"check_5": lambda s, x: True},
    "no check 6": {"check_6": lambda s, x: True},
}


def test_wrong_versions_are_seen():
    """For each a stored line of crates/bare_cases differs."""
    lines = [(given, bare_cases.case(*given)[1]) for given in bare_cases.cases()]
    # short lines first; the order does not matter to what is seen
    lines.sort(key=lambda line: (line[0][1].d, len(line[1])))
    for name, wrong in WRONG.items():
        with in_place(**wrong):
            assert any(bare_cases.case(*given)[1] != stored for given, stored in lines), name
    assert all(bare_cases.case(*given)[1] == stored for given, stored in lines[:200])
