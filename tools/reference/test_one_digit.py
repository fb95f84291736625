"""z in one digit, and padding in a chain: SPECIFICATION 3.6, 8.9 and 8.12."""

import random

import fold
import padding
import ring
import sizes
from fixtures import (
    SMALL, accepted, challenge, check_faults, failed, honest_case, margin_sides, moved, random_lists, random_sizes, refused, replaced, whole_case,
)
from next_fixtures import FIRST, second_draws, second_fold, second_sizes
from one_digit import NO_BASES
from sizes import LARGEST_BOUND, LENGTHS


def one_digit_case(rng):
    """honest_case with z in one digit, b any number."""
    return honest_case(rng, tz=1, b=rng.choice(NO_BASES))


def test_lengths_of_one_digit():
    """ "with one digit n elements, z"; "with one z digit n + m elements"; "r' = ν+μ". """
    s, _ = whole_case()
    one = s._replace(tz=1)
    assert [LENGTHS[name](one) for name in ("z_digits", "opening")] == [2, 14] and [LENGTHS[name](s) for name in ("z_digits", "opening")] == [4, 16]
    assert sizes.next_multiplicity(one) == 2 and sizes.next_rank(one) == 6
    assert all(LENGTHS[name](one) == LENGTHS[name](s) for name in sizes.SHEET_LISTS if name != "opening")
    wide = s._replace(n=5, nu=2, mu=3, tz=1)
    assert (sizes.next_multiplicity(wide), sizes.next_rank(wide), LENGTHS["opening"](wide)) == (5, 3, 22)


def test_whole_case_in_one_digit():
    """z = -2+X as it is; its squared length with the other digits is 13 again, since the high digit of z is 0."""
    s, y = whole_case()
    for b in NO_BASES:
        one = s._replace(b=b, tz=1)
        opening = y["opening"][:2] + y["opening"][4:]
        assert fold.message_5(one, y | {"witness": [1, 2]}) == {"z_digits": [-2, 1]}
        assert fold.honest(one, y | {"witness": [1, 2]}) == y | {"opening": opening}
        assert fold.answer("verify", one, y | {"opening": opening}) == accepted(0)
        assert fold.answer("verify", one, y) == refused(7)
    assert fold.answer("verify", s, y | {"opening": opening}) == refused(7)


def test_z_is_not_split():
    """ "then z itself, centred, is its only digit": the low and the high digit of two recompose to it."""
    rng = random.Random(50)
    for _ in range(40):
        s = random_sizes(rng)
        x = random_lists(rng, s, rng.random() < 0.5)
        one = s._replace(tz=1, b=rng.choice(NO_BASES))
        z = fold.message_5(one, x)["z_digits"]
        assert fold.flat(fold.recomposed_z(s, fold.honest(s, x))) == z == fold.flat(fold.recomposed_z(one, fold.honest(one, x)))
        assert len(z) == s.n * s.d and ring.in_range(z)


def test_base_is_not_looked_at():
    """ "With one, b is neither taken nor tested": the same answers whatever it is."""
    rng = random.Random(51)
    for _ in range(20):
        s, x, y = one_digit_case(rng)
        x |= y
        for call in ("message_5", "verify", "next_instance"):
            answers = [fold.answer(call, s._replace(b=b), x) for b in NO_BASES]
            assert all(answer == answers[0] for answer in answers) and answers[0][0] != "refused"
            assert fold.answer(call, s._replace(b=1, tz=2), x) == refused(4)
        for call in ("message_1", "message_2", "message_3", "message_4"):
            assert fold.answer(call, s, x) == fold.answer(call, s._replace(tz=2), x)


def test_row_5_of_one_digit():
    """ "with one z digit ν+μ above 16"; "ν = 16, μ = 1". ν and μ below 1 are refused as with two."""
    s, _ = whole_case()
    for nu, mu, one, two in (
        (9, 7, 0, 5), (15, 1, 0, 5), (1, 15, 0, 5), (1, 14, 0, 0), (7, 2, 0, 0), (8, 8, 0, 5), (16, 1, 5, 5), (9, 8, 5, 5), (1, 16, 5, 5), (0, 16, 5, 5), (16, 0, 5, 5), (0, 0, 5, 5),
        (2**64, 1, 5, 5), (1, 2**64, 5, 5), (2**63, 2**63, 5, 5),
    ):
        for tz, number in ((1, one), (2, two)):
            sized = s._replace(nu=nu, mu=mu, tz=tz)
            assert sizes.size_refusal(sizes.HEADER, sized) == number
            lists = {name: [0] * LENGTHS[name](s._replace(tz=tz)) for name in sizes.SHEET_LISTS}
            assert sizes.refusal("next_instance", sized, lists) == number and sizes.refusal("verify", sized, lists) == 0


def test_parts_of_one_digit():
    """ "with one z digit part 9 is taken and part 10 is 2", for ν = 8 and μ = 1; chunks of z, then of the rest."""
    s, _ = whole_case()
    opening = {"opening": list(range(14))}
    eight = s._replace(nu=8, mu=1, tz=1)
    assert fold.answer_next_part(eight, opening, 9) == (0, list(range(2, 14))) and fold.answer_next_part(eight, opening, 10) == (2, [])
    assert [fold.answer_next_part(eight, opening, part) for part in (0, 1, 2, 8)] == [(2, []), (0, [0, 1]), (0, []), (0, [])]
    many = s._replace(nu=16, mu=1, tz=1)
    assert [fold.answer_next_part(many, opening, part)[0] for part in (1, 17, 18)] == [5, 5, 2]
    assert fold.answer_next_part(eight, {"opening": list(range(16))}, 1) == (7, [])
    four = s._replace(n=4, nu=3, b=0, tz=1)
    expected = [[0, 1, 2, 3], [4, 5, 6, 7], [], list(range(8, 20))]
    assert [fold.answer_next_part(four, {"opening": list(range(20))}, part) for part in range(1, 5)] == [(0, chunk) for chunk in expected]
    assert fold.answer_next_part(s._replace(nu=2**62, mu=2**62, tz=1), opening, 1) == (5, [])


def test_next_instance_of_the_whole_case_in_one_digit():
    """Written out by hand: check 5, 6, 7, 8, 3, 4, each as a by i, then j (three elements), φ by part (two of six), b."""
    none, rest = [0, 0], [0, 0] * 5
    tail = {
        5: [0, -1, 0, -8] + none * 4,
        6: none * 2 + [1, 0, 4, 0] + none * 2,
        7: none * 4 + [1, 0, 8, 0],
        8: none * 2 + [1, 0, 4, 0] + [1, 0, 8, 0],
        3: [1, 0] + none + [1, 0] + none * 3,
        4: none * 4 + [1, 0, 1, 0],
    }
    a = {6: [1, 0] + none * 2}
    z = {5: [1, 0] + rest}
    b = {8: [-3, 4], 3: [2, 2]}
    expected = [number for check in tail for number in a.get(check, none * 3) + z.get(check, none * 6) + tail[check] + b.get(check, none)]
    s, x = whole_case()
    assert fold.answer("next_instance", s._replace(b=0, tz=1), x) == ("written", {"next_whole": expected})


def test_no_mixed_products():
    """ "So the next instance of a fold with one z digit has no mixed products: no a_ij with i < j is other than zero." """
    rng = random.Random(52)
    mixed = 0
    for _ in range(40):
        s, _, y = one_digit_case(rng)
        statement = fold.next_statement(s, y)
        for place, ((a, _), _) in enumerate(statement.whole):
            nonzero = {pair: a_ij for pair, a_ij in a.items() if any(a_ij)}
            assert nonzero == ({(k, k): ring.one(s.d) for k in range(s.nu)} if place == s.kappa else {})
        two = fold.next_statement(s._replace(b=4, tz=2), y)
        mixed += any(any(a_ij) for (a, _), _ in two.whole for (i, j), a_ij in a.items() if i < j)
    assert mixed == 40


def test_honest_runs_in_one_digit():
    """Demand 3: failed 1, failed 9 or accepted by p and the squared length alone."""
    rng = random.Random(53)
    seen = set()
    for _ in range(120):
        s, x, y = one_digit_case(rng)
        length = ring.squared_norm(y["opening"])
        expected = failed(1) if 2 * ring.squared_norm(y["p"]) > s.w * s.beta_squared else failed(9) if length > s.target_beta_squared else accepted(s.target_beta_squared - length)
        assert fold.answer("verify", s, y) == expected and fold.answer("message_5", s, x)[0] == "written"
        seen.add(expected if expected[0] == "failed" else "accepted")
    assert seen == {failed(1), failed(9), "accepted"}
    for _, answer, s, y in margin_sides(rng, SMALL._replace(n=2, r=3, L=1, w=2, kappa=2, b=1, tz=1)):
        assert fold.answer("verify", s, y) == answer


def test_first_failing_check_in_one_digit():
    """The first check that fails is named."""
    s, y, faults = check_faults(random.Random(54), n=3, b=0, tz=1)
    for first, fault in faults.items():
        assert fold.answer("verify", s, y | fault) == failed(first)
        for second, other in faults.items():
            if not fault.keys() & other.keys():
                assert fold.answer("verify", s, y | fault | other) == failed(min(first, second))
    assert fold.answer("verify", s._replace(target_beta_squared=0), y) == failed(9)


def test_row_15_with_one_digit():
    """ "Where z has one digit, that is its top digit": it is free; low digits of t, g and h are not."""
    rng = random.Random(55)
    for _ in range(60):
        s, _, y = one_digit_case(rng)
        places = sizes.digit_places(s)
        assert places["z"] == ([], list(range(s.n * s.d))) and not sizes.is_wide(s, y["opening"])
        assert sorted(place for block in places.values() for place in block[0] + block[1]) == list(range(LENGTHS["opening"](s)))
        for number in (ring.LARGEST, -ring.LARGEST, 3):
            changed = replaced(y, "opening", rng.choice(places["z"][1]), number)
            assert not sizes.is_wide(s, changed["opening"]) and fold.answer("verify", s, changed) == fold.verdict(s, changed)
        for name in "tgh":
            base = sizes.digit_blocks(s)[name].base
            for number, wide in ((base // 2, False), (base // 2 + 1, True), (-(base // 2) - 1, True)):
                changed = replaced(y, "opening", rng.choice(places[name][0]), number)
                assert sizes.is_wide(s, changed["opening"]) == wide
                assert fold.answer("verify", s, changed) == (refused(15) if wide else fold.verdict(s, changed))


def test_accepted_exactly_if_the_next_instance_is_solved_in_one_digit():
    """Demand 2 with one z digit."""
    rng = random.Random(56)
    seen = set()
    for _ in range(120):
        s, _, honest = one_digit_case(rng)
        if rng.random() < 0.3:
            honest |= {name: [0] * len(honest[name]) for name in ("b_matrix", "c_matrix", "d_matrix", "u1", "u2")}
        name = "opening" if rng.random() < 0.6 else rng.choice([name for name in sizes.SHEET_LISTS if honest[name] and name not in ("projections", "c", "p")])
        changed = moved(honest, name, rng.randrange(len(honest[name])), rng.choice((1, -1, rng.randint(1, ring.LARGEST))))
        for y in (honest, changed):
            answer, wide = fold.answer("verify", s, y), sizes.is_wide(s, y["opening"])
            kind, content = fold.answer("next_instance", s, y)
            if kind == "failed":
                assert answer in ((kind, content), refused(15))
                continue
            statement, witness = fold.next_statement(s, y), fold.next_witness(s, y)
            assert len(content["next_whole"]) == LENGTHS["next_whole"](s) and fold.whole_constraints(s.d, statement.n, statement.r, content["next_whole"]) == statement.whole
            assert len(witness) == statement.r == s.nu + s.mu and all(len(part) == statement.n for part in witness)
            solved = fold.solves(statement, witness)
            assert (solved and not wide) == (answer[0] == "accepted") and solved == (fold.verdict(s, y)[0] == "accepted")
            assert fold.flat(fold.answer_next_part(s, y, part)[1] for part in range(1, statement.r + 1)) == y["opening"]
            seen.add(answer[1] if answer[0] != "accepted" else "accepted")
    assert seen >= {"accepted", 3, 4, 5, 6, 7, 8, 9, 15}, seen


def test_two_openings_in_one_digit():
    """ "if these digits are all equal, A(z - z') = (c_i - c'_i) t_i, and the squared length of z - z' is at most .. 4 times" the target bound."""
    rng = random.Random(57)
    for _ in range(40):
        s = random_sizes(rng)._replace(b1=65536, t1=2, tz=1, b=rng.choice(NO_BASES))
        x = random_lists(rng, s, True)
        i, c = rng.randrange(s.r), fold.cut(x["c"], s.d)
        c[i] = challenge(rng, s.d)
        first, second = fold.honest(s, x), fold.honest(s, x | {"c": fold.flat(c)})
        s = s._replace(target_beta_squared=min(LARGEST_BOUND, max(ring.squared_norm(y["opening"]) for y in (first, second))))
        if any(fold.answer("verify", s, y)[0] != "accepted" for y in (first, second)):
            continue
        z = [ring.subtract(a, b) for a, b in zip(fold.recomposed_z(s, first), fold.recomposed_z(s, second), strict=True)]
        c_i, other = (fold.elements(s.d, y["c"])[i] for y in (first, second))
        left = fold.matrix_product(s.d, fold.matrix(s, first["a_matrix"], s.kappa), z)
        assert left == [ring.multiply(ring.subtract(c_i, other), t_k) for t_k in fold.recomposed_t(s, first)[i]]
        assert ring.squared_norm(fold.flat(z)) <= 4 * s.target_beta_squared


def test_two_folds_of_one_digit():
    """The next instance of a fold with one z digit is folded in its turn, with one digit again or with two."""
    rng = random.Random(58)
    s = FIRST._replace(n=12, r=2, b=0, nu=2, mu=3, tz=1)
    x = random_lists(rng, s, True)
    for tz in (1, 2):
        following = second_sizes(s, b=65536, b2=65536)._replace(tz=tz)
        second = second_fold(s, x, following, second_draws(rng, following))
        assert fold.answer("verify", following, second)[0] == "accepted"


# Padding

def residue_of_minus_one():
    """A square root of -1 modulo q, which is 1 modulo 4."""
    assert ring.Q % 4 == 1
    root = next(root for root in (pow(g, (ring.Q - 1) // 4, ring.Q) for g in range(2, 100)) if root * root % ring.Q == ring.Q - 1)
    return root


def test_no_witness_solves_the_statement():
    """At d = 2, X goes to either square root of -1: the ring is a product of two fields, and a square is a square in both. -35-130X is one in neither. So
    no s has <s,s> = -35-130X, however long it may be."""
    root = residue_of_minus_one()
    for at in (root, -root):
        value = (padding.VALUE[0] + padding.VALUE[1] * at) % ring.Q
        assert value and pow(value, (ring.Q - 1) // 2, ring.Q) == ring.Q - 1
    for part in ([3, 4], [-7, 9], [ring.LARGEST, 5]):
        square = ring.multiply(part, part)
        assert all(pow((square[0] + square[1] * at) % ring.Q, (ring.Q - 1) // 2, ring.Q) == 1 for at in (root, -root))
    assert ring.add(ring.multiply(padding.PART, padding.PART), ring.multiply(padding.PADDING, padding.PADDING)) == padding.VALUE


def test_padding_carries_a_false_statement():
    """Failed 6; the next instance is written; the next witness with nonzero padding in a chunk of z solves it, that with zeros does not; its fold is accepted."""
    seen = []
    for name, s, y, following, z in padding.chains(random.Random(59)):
        assert sizes.z_chunk(s) < sizes.next_rank(s) and s.nu * sizes.next_rank(s) != s.n
        assert fold.statement(s, y).whole[0] == (fold.Function({(0, 0): ring.one(2)}, [[ring.zero(2)]]), padding.VALUE)
        assert [number for number, check in enumerate(fold.CHECKS, start=1) if not check(s, y)] == [6] and fold.answer("verify", s, y) == failed(6)
        kind, written = fold.answer("next_instance", s, y)
        statement, witness = fold.next_statement(s, y), padding.next_witness(s, y)
        assert kind == "written" and z["whole"] == written["next_whole"]
        assert fold.solves(statement, witness) and not fold.meets(statement, fold.next_witness(s, y))
        # it is the padding alone that differs
        assert [part[k] for part, chunk in zip(witness, fold.chunks(s, *fold.opening_sections(s, y)), strict=True) for k in range(len(chunk))] == fold.elements(s.d, y["opening"])
        assert following.beta_squared == s.target_beta_squared and fold.answer("verify", following, z) == accepted(0)
        seen.append(name)
    assert seen == ["two z digits", "one z digit"]


def test_full_chunks():
    """ "Where the z chunks are full, ν·n' = n, the same holds of every solution, whatever its padding: z then has none, and that of the other chunks enters no
    constraint." """
    rng = random.Random(60)
    for changes in ({"n": 12, "r": 2, "nu": 2, "mu": 3}, {"n": 8, "r": 1, "nu": 1, "mu": 2}, {"d": 4, "n": 10, "r": 2, "nu": 2, "mu": 5, "kappa": 2}):
        for tz in (1, 2):
            s = FIRST._replace(w=1, tz=tz, **changes)
            rank = sizes.next_rank(s)
            assert s.nu * rank == s.n and sizes.tail_chunk(s) <= rank
            y = fold.honest(s, random_lists(rng, s, True))
            statement, witness = fold.next_statement(s, y), fold.next_witness(s, y)
            cut = [len(chunk) for chunk in fold.chunks(s, *fold.opening_sections(s, y))]
            assert cut[: tz * s.nu] == [rank] * (tz * s.nu) and sum(cut) < rank * len(cut)
            other = [part[:length] + [[rng.randint(-ring.LARGEST, ring.LARGEST) for _ in range(s.d)] for _ in part[length:]] for part, length in zip(witness, cut, strict=True)]
            assert other != witness and all(fold.value(s.d, f, other) == fold.value(s.d, f, witness) == b for f, b in statement.whole)
            # of a chunk of z that is not full, padding enters check 6
            short = s._replace(mu=1)
            statement, witness = fold.next_statement(short, y), fold.next_witness(short, y)
            if sizes.z_chunk(short) < sizes.next_rank(short):
                witness[0][-1] = ring.one(s.d)
                assert [fold.value(s.d, f, witness) == b for f, b in statement.whole].count(False) == 1
