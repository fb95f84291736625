"""The next instance: SPECIFICATION 8, and demand 2 on fixed random cases."""

import random

import fold
import low_digits
import ring
import sizes
from fixtures import accepted, counted, honest_case, moved, random_lists, refused, sides_of_challenges, whole_case
from next_fixtures import FIRST, second_draws, second_fold, second_sizes


def test_refusals_of_a_part():
    s, x = whole_case()
    assert fold.answer_next_part(s, x, 1) == (0, [-2, 1])
    assert fold.answer_next_part(s, x, 2) == (0, [0, 0])
    assert fold.answer_next_part(s, x, 3) == (0, x["opening"][4:])
    for part in (-1, 0, 4):
        assert fold.answer_next_part(s, x, part) == (2, [])
    assert fold.answer_next_part(s._replace(nu=8, mu=1), x, 17) == (5, [])
    assert fold.answer_next_part(s._replace(nu=8, mu=1), x, 18) == (2, [])
    assert fold.answer_next_part(s._replace(nu=2**62, mu=2**62), x, 1) == (5, [])
    assert fold.answer_next_part(s, x | {"opening": [0] * 17}, 1) == (7, [])
    # Numbers are not looked at, and sizes that are not taken neither.
    assert fold.answer_next_part(s._replace(K=99, b=0, beta_squared=-1), x | {"opening": [2**31 - 1] * 16}, 1)[0] == 0
    # n = 4, ν = 3: two elements, two, none.
    four = s._replace(n=4, nu=3)
    places = {"opening": list(range(28))}
    expected = [[0, 1, 2, 3], [4, 5, 6, 7], [], [8, 9, 10, 11], [12, 13, 14, 15], [], list(range(16, 28))]
    assert [fold.answer_next_part(four, places, part) for part in range(1, 8)] == [(0, chunk) for chunk in expected]


def corrupted(rng, s, y):
    """One list of the verifier with one number changed, or the opening with digits that are not the honest ones: wide ones, mostly, of the same z."""
    way = rng.random()
    if way < 0.2:
        low = rng.randrange(s.n * s.d)
        return moved(moved(y, "opening", low, s.b), "opening", low + s.n * s.d, -1)
    names = [name for name in sizes.SHEET_LISTS if y[name] and name not in ("projections", "c", "p")]
    name = "opening" if way < 0.6 else rng.choice(names)
    return moved(y, name, rng.randrange(len(y[name])), rng.choice((1, -1, rng.randint(1, ring.LARGEST))))


def test_accepted_exactly_if_the_next_instance_is_solved():
    """Demand 2: "an opening that gets past row 15 is accepted exactly if, padded, it solves the next instance. An opening with a wide low digit is not
    accepted, though padded it may solve the next instance, which does not test digits." And back: "A solution of the next instance whose padding is zero
    is, with the padding cut off, an accepted opening if its digits are narrow too".
    """
    rng = random.Random(6)
    seen = set()
    for _ in range(120):
        s, _, honest = honest_case(rng)
        if rng.random() < 0.3:
            honest |= {name: [0] * len(honest[name]) for name in ("b_matrix", "c_matrix", "d_matrix", "u1", "u2")}
        for y in (honest, corrupted(rng, s, honest)):
            answer, wide = fold.answer("verify", s, y), sizes.is_wide(s, y["opening"])
            assert (answer == refused(15)) == wide
            kind, content = fold.answer("next_instance", s, y)
            if not (fold.check_1(s, y) and fold.check_2(s, y)):
                assert (kind, content) == fold.verdict(s, y) and answer in ((kind, content), refused(15))
                continue
            statement = fold.next_statement(s, y)
            written = content["next_whole"]
            assert kind == "written" and len(written) == sizes.LENGTHS["next_whole"](s) and ring.in_range(written)
            assert fold.whole_constraints(s.d, statement.n, statement.r, written) == statement.whole
            assert len(statement.whole) == sizes.next_constraint_count(s)
            witness = fold.next_witness(s, y)
            assert len(witness) == statement.r and all(len(part) == statement.n for part in witness)
            solved = fold.solves(statement, witness)
            assert (solved and not wide) == (answer[0] == "accepted") and solved == (fold.verdict(s, y)[0] == "accepted")
            if answer[0] == "accepted":
                assert answer[1] == statement.beta_squared - ring.squared_norm(fold.flat(fold.flat(witness)))
            joined = fold.flat(fold.answer_next_part(s, y, part)[1] for part in range(1, statement.r + 1))
            assert joined == y["opening"]
            seen.add((answer[1], solved) if answer == refused(15) else answer[1] if answer[0] == "failed" else "accepted")
    assert seen == {"accepted", 3, 4, 5, 6, 7, 8, 9, (15, True), (15, False)}, seen


def test_wide_solutions_of_the_next_instance():
    """A padded opening with one wide low digit, in each block, solves the next instance and is refused by 15; the honest one, of the same values, is accepted."""
    rng = random.Random(10)
    for s in (FIRST, FIRST._replace(n=3, r=2, L=1, w=1, b=3, b1=255, b2=5, t1=4, t2=4, nu=2, mu=3)):
        for name, answer, sized, y in low_digits.recomposed(rng, s):
            kind, content = fold.answer("next_instance", sized, y)
            statement, witness = fold.next_statement(sized, y), fold.next_witness(sized, y)
            assert kind == "written" and fold.whole_constraints(s.d, statement.n, statement.r, content["next_whole"]) == statement.whole
            assert fold.solves(statement, witness) and fold.answer("verify", sized, y) == answer, name
            # read back: the chunks without their padding are the opening
            joined = fold.flat(fold.answer_next_part(sized, y, part)[1] for part in range(1, statement.r + 1))
            assert joined == y["opening"] and (answer == refused(15)) == sizes.is_wide(sized, joined) == (name != "honest")


def test_next_instance_of_the_whole_case():
    """Written out by hand: check 5, 6, 7, 8, 3, 4, each as a by i, then j (six elements), φ by part (three of six), b."""
    none, rest = [0, 0], [0, 0] * 5
    tail = {
        5: [0, -1, 0, -8] + none * 4,
        6: none * 2 + [1, 0, 4, 0] + none * 2,
        7: none * 4 + [1, 0, 8, 0],
        8: none * 2 + [1, 0, 4, 0] + [1, 0, 8, 0],
        3: [1, 0] + none + [1, 0] + none * 3,
        4: none * 4 + [1, 0, 1, 0],
    }
    a = {6: [1, 0, 8, 0] + none + [16, 0] + none * 2}
    z = {5: [1, 0] + rest + [4, 0] + rest}
    b = {8: [-3, 4], 3: [2, 2]}
    expected = [number for check in tail for number in a.get(check, none * 6) + z.get(check, none * 12) + tail[check] + b.get(check, none)]
    s, x = whole_case()
    assert fold.answer("next_instance", s, x) == ("written", {"next_whole": expected})


def test_sizes_of_the_next_instance():
    s, x = whole_case()
    # n' is the larger of the two, both rounded up.
    assert sizes.next_rank(s._replace(n=7, nu=1, mu=4)) == 7
    assert sizes.next_rank(s._replace(n=7, nu=2, mu=4)) == 4
    assert sizes.next_rank(s._replace(n=7, nu=4, mu=4)) == 2
    # "an empty chunk has the same a in check 6 as a full one"; b = 65536 makes b² 99.
    wide = s._replace(nu=2, b=65536)
    kind, written = fold.answer("next_instance", wide, x)
    a = fold.whole_constraints(2, 6, 5, written["next_whole"])[1].function.a
    assert kind == "written"
    assert {pair: a_ij for pair, a_ij in a.items() if any(a_ij)} == {
        (0, 0): [1, 0], (1, 1): [1, 0], (0, 2): [131072, 0], (1, 3): [131072, 0], (2, 2): [99, 0], (3, 3): [99, 0]
    }


def test_the_next_instance_is_folded_in_turn():
    """A written next instance and the padded opening are a statement and a witness of the prover as they are."""
    rng = random.Random(7)
    s = FIRST._replace(n=2, r=2, K=2, L=1, w=2, mu=2)
    x = random_lists(rng, s, True)
    s = s._replace(target_beta_squared=ring.squared_norm(fold.honest(s, x)["opening"]))
    following = second_sizes(s, w=0, b=65536)
    second = second_fold(s, x, following, second_draws(rng, following))
    assert fold.answer("verify", following, second) == accepted(following.target_beta_squared - ring.squared_norm(second["opening"]))


def test_two_folds_at_degree_64():
    """Both folds with challenges as they are drawn; each is refused where one of its challenges has other counts."""
    rng = random.Random(8)
    s = FIRST._replace(d=64, K=0, b=1000)
    x = random_lists(rng, s, True)
    s = s._replace(target_beta_squared=ring.squared_norm(fold.honest(s, x)["opening"]))
    following = second_sizes(s, b=65536, b2=65536)
    draws = second_draws(rng, following)
    second = second_fold(s, x, following, draws)
    assert fold.answer("verify", following, second) == accepted(following.target_beta_squared - ring.squared_norm(second["opening"]))
    other = counted(rng, 64, 9, 35)
    for place in range(following.r):
        c = second["c"][: 64 * place] + other + second["c"][64 * place + 64 :]
        assert fold.answer("verify", following, second | {"c": c}) == refused(10)
    y = fold.honest(s, x | {"c": other})
    assert fold.answer("next_instance", s, y) == refused(10)


def test_next_instance_on_both_sides_of_the_rule():
    """Written exactly where the rule takes each challenge, and then the padded opening solves it."""
    rng = random.Random(9)
    for name, shape, taken, c in sides_of_challenges(rng, few=True):
        s = FIRST._replace(K=0, **shape)
        y = fold.honest(s, random_lists(rng, s, True) | {"c": c})
        kind, content = fold.answer("next_instance", s, y)
        assert (kind == "written") == taken and (taken or content == 10), name
        if taken:
            assert fold.solves(fold.next_statement(s, y), fold.next_witness(s, y))
