"""The fold: the worked values of SPECIFICATION 12, refusals, and demand 3 on fixed random cases."""

import random

import fold
import low_digits
import ring
import sheet
import sizes
from fixtures import (
    BASES, SEVERAL_PARTS, SMALL, accepted, block_starts, bounded, challenge, check_faults, counted, failed, honest, honest_case, margin_sides, moved, random_lists,
    random_sizes, refused, replaced, short_lists, sides_of_challenges, sides_of_the_target, whole_case, whole_case_text, with_commitments,
)
from sizes import LARGEST_BOUND, Sizes


def test_bench_values_of_the_whole_case():
    s, x = whole_case()
    assert sheet.output_line(sheet.judge(whole_case_text())) == b"               0               0\n"
    assert sheet.judge(whole_case_text()) == accepted(0)
    # "with β'² = 12, failed 9." "Its margin is 0; with β'² = 20 it is 7."
    assert sheet.judge(whole_case_text(target_beta_squared=12)) == failed(9)
    assert sheet.judge(whole_case_text(target_beta_squared=20)) == accepted(7)
    assert sheet.output_line(sheet.judge(whole_case_text(target_beta_squared=20))) == b"               0               7\n"
    assert fold.recomposed_z(s, x) == [[-2, 1]]
    assert ring.squared_norm(x["opening"]) == 13
    assert sizes.tail_rank(s) == 6
    assert sizes.next_rank(s) == 6
    assert sizes.next_multiplicity(s) == 3
    assert sizes.next_constraint_count(s) == 6
    # "Its witness is 1+2X."
    assert fold.honest(s, x | {"witness": [1, 2]}) == x
    assert sheet.write_sheet(s, x) == whole_case_text()
    assert fold.solves(fold.statement(s, x), [[[1, 2]]])
    kind, written = fold.answer("next_instance", s, x)
    assert kind == "written" and len(written["next_whole"]) == 6 * (6 + 3 * 6 + 1) * 2


def test_bench_values_at_the_sides():
    s, x = whole_case()
    assert sizes.size_refusal(sizes.HEADER, s._replace(r=16)) == 0
    assert sizes.size_refusal(sizes.HEADER, s._replace(r=17)) == 2
    assert sizes.size_refusal(sizes.HEADER, s._replace(beta_squared=999999999999999)) == 0
    assert sizes.size_refusal(sizes.HEADER, s._replace(beta_squared=1000000000000000)) == 6
    c71 = [2] * 17 + [1] * 3 + [0] * 12
    c72 = [2] * 18 + [0] * 14
    assert ring.squared_norm(c71) == 71 and ring.is_challenge(c71)
    assert ring.squared_norm(c72) == 72 and not ring.is_challenge(c72)
    # "At degree 64, 23 zeros, 31 of ±1 and 10 of ±2 are taken; with one count one more and another one less c is refused, and so is a c of
    # squared length 71 with other counts: 20, 35 and 9; 26, 27 and 11; 32, 19 and 13."
    assert 31 + 10 * 4 == 71
    for zeros, ones, twos in ((23, 31, 10), (24, 30, 10), (22, 31, 11), (23, 32, 9), (20, 35, 9), (26, 27, 11), (32, 19, 13)):
        assert ring.is_challenge([0] * zeros + [-1] * ones + [2] * twos) == ((zeros, ones) == (23, 31))
    fits = s._replace(r=8, kappa=7, t1=4, t2=4, mu=2)
    above = s._replace(r=9, kappa=6, t1=2, t2=7, mu=2)
    largest = s._replace(r=16, kappa=8, t1=8, t2=8)
    assert sizes.next_rank(fits) == 256 and sizes.next_rank(above) == 257 and sizes.tail_rank(largest) == 3200
    for sized, number in ((fits, 0), (above, 11), (largest, 11)):
        lists = {name: [0] * sizes.LENGTHS[name](sized) for name in sizes.SHEET_LISTS}
        assert sizes.refusal("next_instance", sized, lists) == number
        assert sizes.refusal("verify", sized, lists) == 0


def test_refusals_in_order():
    s, x = whole_case()
    sized = [
        (1, {"d": 3}), (1, {"d": 128}), (2, {"n": 0}), (2, {"n": 257}), (2, {"r": 0}), (2, {"r": 17}), (2, {"K": -1}), (2, {"K": 33}),
        (2, {"L": 33}), (2, {"w": 257}), (3, {"kappa": 0}), (3, {"kappa1": 9}), (3, {"kappa2": 0}), (4, {"b": 1}), (4, {"b1": 65537}),
        (4, {"b2": 0}), (4, {"t1": 1}), (4, {"t2": 9}), (6, {"beta_squared": -1}), (6, {"target_beta_squared": 10**15}),
    ]
    for number, changed in sized:
        for later, also in sized:
            both = s._replace(**(also | changed))
            expected = number if changed.keys() & also.keys() else min(number, later)
            assert sizes.refusal("verify", both, x) == expected
    # The verifier takes no ν, μ; message 2 takes d, n, r, w and the rows only.
    assert sizes.refusal("verify", s._replace(nu=0, mu=-5), x) == 0
    assert sizes.refusal("next_instance", s._replace(nu=8, mu=1), x) == 5
    assert sizes.refusal("message_2", s._replace(K=99, b=0, kappa=0, nu=0, beta_squared=-1), x | {"witness": [1, 2]}) == 0
    # "d = 2, n = r = 1, witness of 3 numbers"
    assert sizes.refusal("message_2", s, x | {"witness": [1, 2, 3]}) == 7
    assert sizes.refusal("message_1", s, x | {"witness": [1, 2], "u1": [0] * 3}) == 7
    # Over the whole input and not by position: a number of the opening out of range comes before a challenge.
    outside = x["opening"][:-1] + [2147483599]
    assert sizes.refusal("verify", s, x | {"opening": outside}) == 8
    assert sizes.refusal("verify", s, x | {"opening": outside, "c": [3, 0]}) == 8
    assert sizes.refusal("verify", s, x | {"c": [3, 0]}) == 10
    one_row = s._replace(w=1)
    lists = x | {"p": [0], "omega": [0] * 5}
    assert sizes.refusal("verify", one_row, lists | {"projections": [2, 0], "c": [3, 0]}) == 9
    assert sizes.refusal("verify", one_row, lists | {"projections": [2, 2147483599], "c": [3, 0]}) == 8
    assert sizes.refusal("verify", one_row, lists | {"projections": [1, -1]}) == 0
    assert fold.answer("verify", s, x | {"c": [0, 0], "opening": outside[:-1]}) == refused(7)
    # A low digit of z, to base 4: the verifier alone looks at it, after the challenges.
    wide = [3] + x["opening"][1:]
    assert sizes.refusal("verify", s, x | {"opening": wide}) == 15 and sizes.refusal("verify", s, x | {"opening": [2] + wide[1:]}) == 0
    assert sizes.refusal("verify", s, x | {"opening": wide, "c": [3, 0]}) == 10
    assert all(sizes.refusal(call, s, x | {"opening": wide, "witness": [1, 2]}) == 0 for call in sizes.CALLS if call not in ("verify", "next_part"))
    assert sizes.refusal("next_part", s, x | {"opening": wide}, 1) == 0


def test_honest_runs():
    """Demand 3: failed 1 exactly when 2|p|² is above wβ²; otherwise failed 9 exactly when the digits' squared length is above
    the target bound; otherwise accepted, with the target bound minus that length as margin.
    """
    rng = random.Random(3)
    seen = {}
    for _ in range(250):
        s, x, y = honest_case(rng)
        if 2 * ring.squared_norm(y["p"]) > s.w * s.beta_squared:
            expected = failed(1)
        elif ring.squared_norm(y["opening"]) > s.target_beta_squared:
            expected = failed(9)
        else:
            expected = accepted(s.target_beta_squared - ring.squared_norm(y["opening"]))
        assert fold.answer("verify", s, y) == expected
        for call in ("message_1", "message_2", "message_3", "message_4", "message_5"):
            assert sizes.refusal(call, s, x) == 0
        kind, number = expected
        case = (kind, number if kind == "failed" else number > 0)
        seen[case] = seen.get(case, 0) + 1
    assert len(seen) == 4 and min(seen.values()) >= 20, seen


def test_margin_sides():
    """ "β'² at the squared length of all digits, one more and 999999999999999: accepted with the margins 0, 1 and 999999999999999 minus that length." """
    rng = random.Random(13)
    for name, answer, s, y in margin_sides(rng):
        assert fold.answer("verify", s, y) == answer, name
    for changes in ({}, {"n": 3, "r": 2, "L": 1, "w": 2}, {"d": 8, "K": 0}, {"d": 64, "r": 2}):
        s = SMALL._replace(**changes)
        y = fold.honest(s, random_lists(rng, s, True))
        length = sum(number**2 for number in y["opening"])
        answers = [fold.answer("verify", sized, y) for _, sized in sides_of_the_target(s, y)]
        assert answers == [failed(9), accepted(0), accepted(1), accepted(LARGEST_BOUND - length)]
        assert [answer for answer, _ in sides_of_the_target(s, y)] == answers


def test_margin_of_every_block():
    """ "the bound minus the squared length, β'² minus that of all digits." A digit of z low, z high, t, g or h moves it; so does a base that is moved from
    a digit to the next, by which no other check is touched.
    """
    s = SEVERAL_PARTS
    y = fold.honest(s, short_lists(random.Random(14), s))
    t, g, h = block_starts(s)
    half = s.n * s.d
    before = fold.margin(s, y)
    assert before == LARGEST_BOUND - ring.squared_norm(y["opening"])
    for place in (0, half - 1, half, t - 1, t, g - 1, g, h - 1, h, len(y["opening"]) - 1):
        digit = y["opening"][place]
        for by in (1, -1, 1000):
            assert fold.margin(s, moved(y, "opening", place, by)) == before + digit**2 - (digit + by) ** 2
    for place, gap, base in ((1, half, s.b), (t, s.kappa * s.d, s.b1), (g + 1, s.d, s.b2), (h, s.d, s.b1)):
        low, high = y["opening"][place], y["opening"][place + gap]
        wide = with_commitments(s, moved(moved(y, "opening", place, base), "opening", place + gap, -1))
        moved_by = low**2 + high**2 - (low + base) ** 2 - (high - 1) ** 2
        assert moved_by and fold.verdict(s, wide) == accepted(before + moved_by)
        assert fold.answer("verify", s, wide) == (refused(15) if 2 * abs(low + base) > base else accepted(before + moved_by))


def test_margin_past_64_bits():
    """ "It can pass 2^64 and still must be compared rightly". """
    s = SMALL._replace(n=4, b=65536)
    y = fold.honest(s, random_lists(random.Random(15), s, True))
    numbers = list(y["opening"])
    for place in range(8):
        by = ring.LARGEST - numbers[8 + place]
        numbers[8 + place] += by
        numbers[place] = ring.centred(numbers[place] - s.b * by)
    assert ring.squared_norm(numbers) > 2**64 and fold.margin(s, {"opening": numbers}) < 0
    assert fold.verdict(s, y | {"opening": numbers}) == failed(9) and fold.answer("verify", s, y | {"opening": numbers}) == refused(15)
    # narrow: with c = 0 the digits of t are free
    s = SMALL._replace(kappa=4)
    y = fold.honest(s, random_lists(random.Random(15), s, True) | {"c": ring.zero(s.d)})
    numbers = list(y["opening"])
    for place in sizes.digit_places(s)["t"][1]:
        numbers[place] = ring.LARGEST
    assert ring.squared_norm(numbers) > 2**64
    assert fold.answer("verify", s, with_commitments(s, y | {"opening": numbers})) == failed(9)


def test_degree_64():
    rng = random.Random(4)
    s = random_sizes(rng)._replace(
        d=64, n=1, r=1, K=1, L=1, w=1, kappa=1, kappa1=1, kappa2=1, b=1000, b1=65536, t1=2, b2=256, t2=2, nu=1, mu=1
    )
    y = fold.honest(s, random_lists(rng, s, True))
    s = s._replace(target_beta_squared=ring.squared_norm(y["opening"]))
    assert fold.answer("verify", s, y) == accepted(0)
    assert fold.solves(fold.next_statement(s, y), fold.next_witness(s, y))
    s = s._replace(target_beta_squared=s.target_beta_squared - 1)
    assert fold.answer("verify", s, y) == failed(9)


def test_sides_of_challenges():
    """Message 5, the verifier and the next instance on both sides of the rule for challenges; honest but for them. 8 and 9 come before 10."""
    rng = random.Random(11)
    for name, shape, taken, c in sides_of_challenges(rng):
        s = SMALL._replace(K=0, **shape)
        x = random_lists(rng, s, True) | {"c": c}
        y = fold.honest(s, x)
        assert fold.answer("message_5", s, x)[0] == ("written" if taken else "refused"), name
        holds = accepted(LARGEST_BOUND - ring.squared_norm(y["opening"]))
        assert fold.answer("verify", s, y) == (holds if taken else refused(10)), name
        # the checks hold whatever the challenges are
        assert fold.verdict(s, y) == holds
        for call in ("message_5", "next_instance"):
            assert sizes.refusal(call, s, x | y) == (0 if taken else 10), (name, call)
        for call in ("message_1", "message_2", "message_3", "message_4"):
            assert sizes.refusal(call, s, x | y) == 0
    s, y = honest(rng, SMALL._replace(d=64, w=1), c=ring.zero(64))
    assert fold.answer("verify", s, y) == refused(10)
    assert fold.answer("verify", s, replaced(y, "projections", -1, 2)) == refused(9)
    assert fold.answer("verify", s, replaced(y, "opening", -1, ring.LARGEST + 1)) == refused(8)
    assert fold.answer("verify", s, replaced(y, "c", 0, ring.LARGEST)) == refused(10)
    assert fold.answer("verify", s, replaced(y, "c", 0, ring.LARGEST + 1)) == refused(8)


def test_honest_runs_at_degree_64():
    """Demand 3 with challenges as they are drawn; with a kept one the verifier refuses what was accepted."""
    rng = random.Random(12)
    for changes in ({}, {"n": 2, "L": 1}, {"r": 2, "w": 2}, {"r": 3, "K": 2, "b": 2}):
        s = SMALL._replace(d=64, **changes)
        x = random_lists(rng, s, True)
        y = fold.honest(s, x)
        p, length = 2 * ring.squared_norm(y["p"]), ring.squared_norm(y["opening"])
        for s, expected in (
            (s, accepted(LARGEST_BOUND - length)), (s._replace(target_beta_squared=length), accepted(0)),
            (s._replace(target_beta_squared=length - 1), failed(9)),
            (s._replace(beta_squared=0, target_beta_squared=0), failed(1) if p else failed(9)),
        ):
            assert fold.answer("verify", s, y) == expected
    s = SMALL._replace(d=64)
    for twos, ones in ((17, 3), (9, 35), (8, 37), (0, 0)):
        kept = counted(rng, 64, twos, ones)
        y = fold.honest(s, random_lists(rng, s, True) | {"c": kept})
        assert ring.is_short_challenge(kept) and fold.verdict(s, y)[0] == "accepted" and fold.answer("verify", s, y) == refused(10)


def test_first_failing_check():
    """Each check fails alone, is named, and hides those after it."""
    s, y, faults = check_faults(random.Random(5))
    too_long = s._replace(target_beta_squared=0)
    assert fold.answer("verify", s, y)[0] == "accepted"
    assert fold.answer("verify", too_long, y) == failed(9)
    for first, fault in faults.items():
        assert fold.answer("verify", s, y | fault) == failed(first)
        assert fold.answer("verify", too_long, y | fault) == failed(first)
        for second, other in faults.items():
            if not fault.keys() & other.keys():
                assert fold.answer("verify", s, y | fault | other) == failed(min(first, second))
    for first in (1, 2):
        assert fold.answer("next_instance", s, y | faults[first]) == failed(first)
    assert fold.answer("next_instance", s, y | faults[3] | faults[8])[0] == "written"


def narrow_sizes(rng):
    """Random sizes, bases and counts of digits."""
    return random_sizes(rng)._replace(t1=rng.choice((2, 3, 4)), t2=rng.choice((2, 3, 4)))


def wide_low_digits(s, y):
    """How many low digits are wide, by the opening as it is read: "the absolute value of a low digit is more than half its base". """
    o = fold.read_opening(s, y)
    t = [fold.flat(part[: (s.t1 - 1) * s.kappa]) for part in fold.cut(o.t_digits, s.t1 * s.kappa)]
    g, h = ([fold.flat(value[:-1]) for value in fold.cut(digits, count)] for digits, count in ((o.g_digits, s.t2), (o.h_digits, s.t1)))
    blocks = ((s.b, [fold.flat(o.z_low)]), (s.b1, t), (s.b2, g), (s.b1, h))
    return sum(abs(x) > base / 2 for base, values in blocks for value in values for x in value)


def test_low_digits():
    """Row 15 exactly where a low digit is wide, whatever the top digits are; after it the verdict is as without the row."""
    rng = random.Random(16)
    seen = {}
    for _ in range(150):
        s = narrow_sizes(rng)
        y = fold.honest(s, random_lists(rng, s, rng.random() < 0.5))
        assert not wide_low_digits(s, y) and not sizes.is_wide(s, y["opening"])
        for _ in range(4):
            name = rng.choice("ztgh")
            base, places = sizes.digit_blocks(s)[name].base, sizes.digit_places(s)[name]
            low = rng.random() < 0.7
            number = rng.choice((1, -1)) * rng.choice((base // 2, base // 2 + 1, (base + 1) // 2, base, ring.LARGEST, 2**30))
            changed = replaced(y, "opening", rng.choice(places[0 if low else 1]), number)
            wide = wide_low_digits(s, changed)
            assert wide == (1 if low and 2 * abs(number) > base else 0) and sizes.is_wide(s, changed["opening"]) == (wide > 0)
            assert fold.answer("verify", s, changed) == (refused(15) if wide else fold.verdict(s, changed))
            case = (name, low, wide, base % 2)
            seen[case] = seen.get(case, 0) + 1
    assert len(seen) == 4 * 3 * 2 and min(seen.values()) >= 3, seen


def test_digit_places():
    """Each place of the opening once, by block; the blocks are those of the opening as it is read."""
    rng = random.Random(17)
    for _ in range(30):
        s = narrow_sizes(rng)
        places = sizes.digit_places(s)
        assert sorted(place for block in places.values() for place in block[0] + block[1]) == list(range(sizes.LENGTHS["opening"](s)))
        o = fold.read_opening(s, {"opening": list(range(sizes.LENGTHS["opening"](s)))})
        for name, elements in zip("ztgh", (o.z_low + o.z_high, o.t_digits, o.g_digits, o.h_digits), strict=True):
            assert sorted(places[name][0] + places[name][1]) == fold.flat(elements)
        assert places["z"] == (fold.flat(o.z_low), fold.flat(o.z_high))


def test_sides_of_low_digits():
    """ "A low digit of 2 or -2 to base 4, 1 or -1 to base 3 is taken, one more in absolute value refused; a top digit of 2147483598 is taken." Beside
    other rows and failing checks; digits that recompose to the right values; halves by both rules.
    """
    rng = random.Random(18)
    assert [[ring.is_narrow(base, x) for x in range(4)] for base in (3, 4, 5)] == [[1, 1, 0, 0], [1, 1, 1, 0], [1, 1, 1, 0]]
    assert all(ring.is_narrow(base, x) == ring.is_narrow(base, -x) == (abs(x) <= base / 2) for base in BASES for x in range(base + 2))
    counts = {}
    for bases in (low_digits.ODD, low_digits.EVEN, low_digits.OTHER_ODD, low_digits.OTHER_EVEN, {"b": 4, "b1": 3, "b2": 4}):
        for changes in ({}, {"t1": 4, "t2": 3, "kappa": 2}):
            s = low_digits.FREE._replace(**bases, **changes)
            groups = (
                low_digits.sides(s), low_digits.far_low_digits(s), low_digits.wide_tops(s), low_digits.with_rows(s), low_digits.with_checks(s),
                low_digits.failing_checks(s),
            )
            for name, answer, sized, y in (case for group in groups for case in group):
                assert fold.answer("verify", sized, y) == answer, (s, name)
                counts[answer[0] if answer[0] == "accepted" else answer] = True
                # what the next instance answers does not depend on the opening
                if answer == refused(15):
                    assert sizes.refusal("next_instance", sized, y) == 0 and fold.answer_next_part(sized, y, 1)[0] == 0
    assert set(counts) == {"accepted", *map(failed, range(1, 10)), *map(refused, (7, 8, 9, 10, 15))}
    for s in (SMALL, SMALL._replace(n=2, r=2, L=1, w=1, b=3, b1=255, b2=5, t1=4, t2=4), SMALL._replace(d=64, b=16)):
        for name, answer, sized, y in low_digits.recomposed(rng, s):
            assert fold.answer("verify", sized, y) == answer, (s, name)
    for bases in ({"b": 4, "b1": 6, "b2": 2}, {"b": 2, "b1": 4, "b2": 65536}, {"b": 256, "b1": 2, "b2": 8}):
        for name, answer, sized, y in low_digits.halves(rng, SMALL._replace(n=2, r=2, t1=3, t2=3, **bases)):
            assert fold.answer("verify", sized, y) == answer, (bases, name)


def other_digits(rng, base, digit_elements):
    """Other narrow digits of the same value modulo q: a half with its other sign and the next digit moved, or the digits of the value plus or minus q."""
    result = [list(element) for element in digit_elements]
    halves = [(e, k) for e, element in enumerate(result[:-1]) for k, x in enumerate(element) if 2 * abs(x) == base]
    if halves and rng.random() < 0.7:
        e, k = rng.choice(halves)
        result[e + 1][k] += 1 if result[e][k] > 0 else -1
        result[e][k] = -result[e][k]
    else:
        k = rng.randrange(len(result[0]))
        value = sum(element[k] * base**e for e, element in enumerate(result)) + rng.choice((-ring.Q, ring.Q))
        for element, digit in zip(result, ring.digits(base, len(result), value), strict=True):
            element[k] = digit
    narrow = all(ring.is_narrow(base, x) for x in fold.flat(result[:-1]))
    return result if narrow and ring.in_range(fold.flat(result)) else digit_elements


def gadget_columns(s, x):
    """Make B and C such that other digits of the same value modulo q leave u1 as it is."""
    for name, count, base, gap in (("b_matrix", s.t1, s.b1, s.kappa), ("c_matrix", s.t2, s.b2, 1)):
        rows = fold.matrix(s, x[name], s.kappa1)
        for row in rows:
            for group in range(0, len(row), count * gap):
                for place in range(group + gap, group + count * gap):
                    row[place] = ring.scale(base, row[place - gap])
        x[name] = fold.flat(fold.flat(rows))


def test_two_openings():
    """Demand 3, second half: differences of t and g digits, and of z, within 4 and 4(1+b²) times the target bound."""
    rng = random.Random(8)
    seen = {"digits differ": 0, "digits equal": 0}
    for _ in range(120):
        s = random_sizes(rng)
        x = random_lists(rng, s, True)
        gadget_columns(s, x)
        i = rng.randrange(s.r)
        c = fold.cut(x["c"], s.d)
        c[i] = challenge(rng, s.d)
        first, second = fold.honest(s, x), fold.honest(s, x | {"c": fold.flat(c)})
        if rng.random() < 0.5:
            o = fold.read_opening(s, second)
            g = fold.cut(o.g_digits, s.t2)
            k = rng.randrange(len(g))
            g[k] = other_digits(rng, s.b2, g[k])
            t_place = rng.randrange(s.r * s.kappa)
            part, row = divmod(t_place, s.kappa)
            places = [(part * s.t1 + e) * s.kappa + row for e in range(s.t1)]
            t = list(o.t_digits)
            for place, element in zip(places, other_digits(rng, s.b1, [t[place] for place in places]), strict=True):
                t[place] = element
            second["opening"] = fold.flat(o.z_low + o.z_high + t + fold.flat(g) + o.h_digits)
        bound = max(ring.squared_norm(y["opening"]) for y in (first, second))
        s = s._replace(target_beta_squared=bounded(bound))
        answers = [fold.answer("verify", s, y) for y in (first, second)]
        if [kind for kind, _ in answers] != ["accepted"] * 2:
            assert bound > LARGEST_BOUND and failed(9) in answers
            continue
        assert first["u1"] == second["u1"]
        o, p = fold.read_opening(s, first), fold.read_opening(s, second)
        t = [ring.subtract(a, b) for a, b in zip(o.t_digits, p.t_digits, strict=True)]
        g = [ring.subtract(a, b) for a, b in zip(o.g_digits, p.g_digits, strict=True)]
        if any(fold.flat(t + g)):
            assert not any(fold.flat(fold.first_outer_commitment(s, first, t, g)))
            assert ring.squared_norm(fold.flat(t + g)) <= 4 * s.target_beta_squared
            seen["digits differ"] += 1
        else:
            z = [ring.subtract(a, b) for a, b in zip(fold.recomposed_z(s, first), fold.recomposed_z(s, second), strict=True)]
            c_i, c_i_other = (fold.elements(s.d, y["c"])[i] for y in (first, second))
            left = fold.matrix_product(s.d, fold.matrix(s, first["a_matrix"], s.kappa), z)
            assert left == [ring.multiply(ring.subtract(c_i, c_i_other), t_k) for t_k in fold.recomposed_t(s, first)[i]]
            assert ring.squared_norm(fold.flat(z)) <= 4 * (1 + s.b**2) * s.target_beta_squared
            seen["digits equal"] += 1
    assert min(seen.values()) >= 10, seen
