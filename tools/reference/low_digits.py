"""Low digits on both sides of half their base, and top digits of any width: SPECIFICATION 7.i. Each case is (name, answer, sizes, lists).

In a free statement all lists but the opening are zero, c too. t, g and h_12 are free then; z_2 = X·z_1 makes <z,z> zero, and h_22 = -h_11 makes the
sum of h_11 and h_22 zero, so that all checks hold but check 9, which the target bound decides. Where z has one digit it has no low digit.
"""

import fold
import ring
from fixtures import SMALL, accepted, failed, least_bounds, moved, refused, replaced, short_lists
from sizes import LENGTHS, SHEET_LISTS, digit_blocks, digit_places

FREE = SMALL._replace(d=2, n=2, r=2, K=0, beta_squared=0, mu=2)

# Bases: odd ones, even ones, and two more of each.
ODD, EVEN = {"b": 3, "b1": 5, "b2": 65535}, {"b": 65536, "b1": 4, "b2": 8}
OTHER_ODD, OTHER_EVEN = {"b": 65535, "b1": 7, "b2": 3}, {"b": 4, "b1": 65536, "b2": 2}

# Where one more than half is tried: the first or the last low digit of a block, and the sign.
ALL_SIDES = ((0, 1), (0, -1), (-1, 1), (-1, -1))


def half(base):
    """The largest narrow digit: B/2, "not rounded: to base 3 a low digit is -1, 0 or 1, to base 4 it is -2 to 2, both halves included". """
    return base // 2


def free_lists(s, low, top):
    """A free statement's lists. `low(k, base)` and `top(k)` give the k-th digit of a block; of z those of z_1, of h all but those of h_22."""
    blocks, opening = digit_blocks(s), [0] * LENGTHS["opening"](s)
    for name, (lows, tops) in digit_places(s).items():
        for k, place in enumerate(lows):
            opening[place] = low(k, blocks[name].base)
        for k, place in enumerate(tops):
            opening[place] = top(k)
    for start in range(0, LENGTHS["z_digits"](s), s.n * s.d):
        a, b = opening[start : start + s.d]
        opening[start + s.d : start + 2 * s.d] = [-b, a]
    value = s.t1 * s.d
    opening[-value:] = [-x for x in opening[-3 * value : -2 * value]]
    return {name: [0] * LENGTHS[name](s) for name in SHEET_LISTS} | {"opening": opening}


def by_turns(number, k):
    return number if k % 2 == 0 else -number


def at_half(s, sign=1):
    """A free statement's lists; all low digits are plus or minus half their base by turns, the first of each block with this sign."""
    return free_lists(s, lambda k, base: sign * by_turns(half(base), k), lambda k: k - 2)


def margin_of(s, y):
    return accepted(s.target_beta_squared - ring.squared_norm(y["opening"]))


def sides(s, tried=ALL_SIDES):
    """All low digits at half their base, with both signs; then one more in one of them, in each block where `tried` says."""
    for sign in (1, -1):
        y = at_half(s, sign)
        yield f"low digits at half, sign {sign}", margin_of(s, y), s, y
    y = at_half(s)
    for name, (low, _) in digit_places(s).items():
        for at, sign in tried if low else ():
            number = sign * (half(digit_blocks(s)[name].base) + 1)
            yield f"{name} low[{at}] = {number}", refused(15), s, replaced(y, "opening", low[at], number)


def far_low_digits(s):
    """Numbers whose double wraps in 32 bits: 2·2147483598 is -100 there, 2·1073741824 is -2147483648."""
    y = at_half(s)
    for (name, (low, _)), number in zip(digit_places(s).items(), (ring.LARGEST, -ring.LARGEST, 2**30, -(2**30)), strict=True):
        if not low:
            continue
        yield f"{name} low[-1] = {number}", refused(15), s, replaced(y, "opening", low[-1], number)


def wide_tops(s, signs=(1, -1)):
    """Top digits beyond their base: accepted within the target bound; at the end of the range failed 9, in each block."""
    y = free_lists(s, lambda k, base: by_turns(half(base), k), lambda k: by_turns(5000000, k))
    yield "all top digits 5000000 and -5000000", margin_of(s, y), s, y
    y, value = at_half(s), s.t1 * s.d
    places = {name: top for name, (_, top) in digit_places(s).items()}
    for sign in signs:
        end = sign * ring.LARGEST
        z = places["z"][0]
        in_z = replaced(replaced(y, "opening", z, end), "opening", z + 1, 0)
        in_z = replaced(replaced(in_z, "opening", z + s.d, 0), "opening", z + s.d + 1, end)
        in_h = replaced(replaced(y, "opening", places["h"][0], end), "opening", places["h"][0] + 2 * value, -end)
        yield f"{'z high' if s.tz == 2 else 'z'} = {end}", failed(9), s, in_z
        yield f"t top[-1] = {end}", failed(9), s, replaced(y, "opening", places["t"][-1], end)
        yield f"g top[0] = {end}", failed(9), s, replaced(y, "opening", places["g"][0], end)
        yield f"h top[0] = {end}", failed(9), s, in_h


def wide(s, y):
    """The lists with the last low digit of t too wide by one."""
    low, _ = digit_places(s)["t"]
    return replaced(y, "opening", low[-1], half(s.b1) + 1)


def with_rows(s):
    """Row 15 with each of 7 to 10, of which the lower is given; low digits out of range are 8. w is 1."""
    s = s._replace(w=1)
    y = wide(s, at_half(s))
    yield "7, 15", refused(7), s, y | {"opening": y["opening"] + [0]}
    yield "8, 15", refused(8), s, replaced(y, "u2", -1, ring.LARGEST + 1)
    yield "9, 15", refused(9), s, replaced(y, "projections", -1, 2)
    yield "10, 15", refused(10), s, replaced(y, "c", 0, -3)
    first = "a low digit" if s.tz == 2 else "z"
    yield f"{first} of 2147483599", refused(8), s, replaced(y, "opening", 0, ring.LARGEST + 1)
    yield f"{first} of -2147483648", refused(8), s, replaced(y, "opening", 0, -(2**31))


def check_faults(s):
    """For each check the sizes and lists of which it fails alone, with narrow digits. w is 1."""
    s = s._replace(w=1)
    y = at_half(s)
    one = {"c": ring.one(s.d) + ring.zero(s.d)}
    t, g = (LENGTHS[name](s) for name in ("t_digits", "g_digits"))
    z = LENGTHS["z_digits"](s)
    # with c_1 = 1 and c_2 = 0 the checks ask for t_1 = 0, g_11 = 0 and h_11 = 0
    opening = list(y["opening"])
    opening[z : z + t // 2] = [0] * (t // 2)
    opening[z + t : z + t + g // 3] = [0] * (g // 3)
    faults = {
        1: (s, y | {"p": [1]}),
        2: (s, replaced(y, "second_b", 0, 1)),
        3: (s, replaced(y, "u1", -1, 1)),
        4: (s, replaced(y, "u2", 0, -1)),
        5: (s, replaced(y, "a_matrix", 0, 1)),
        6: (s, moved(y, "opening", z - 1)),
        7: (s, y | one | {"opening": opening}),
        8: (s, replaced(replaced(y, "delta", 0, 1), "second_b", 1, 1)),
        9: (s._replace(target_beta_squared=ring.squared_norm(y["opening"]) - 1), y),
    }
    for check, (sized, lists) in faults.items():
        assert [number for number, holds in enumerate(fold.CHECKS, start=1) if not holds(sized, lists)] == [check]
    return faults


def with_checks(s):
    """Each check failing, and a wide low digit beside it: refused by 15."""
    for check, (sized, y) in check_faults(s).items():
        yield f"check {check} fails, 15", refused(15), sized, wide(sized, y)


def failing_checks(s):
    """Each check failing alone, low digits at half their base."""
    for check, (sized, y) in check_faults(s).items():
        yield f"check {check} fails, low digits at half", failed(check), sized, y


def carried(s, y, name, at, by):
    """`by` bases, with the digit's sign, moved to a low digit from the next one: the value is the same, the commitments are formed anew."""
    base, _, _, width = digit_blocks(s)[name]
    place = digit_places(s)[name][0][at]
    numbers = list(y["opening"])
    by = by if numbers[place] >= 0 else -by
    numbers[place] += by * base
    numbers[place + width] -= by
    y = y | {"opening": numbers}
    o = fold.read_opening(s, y)
    u1, u2 = fold.first_outer_commitment(s, y, o.t_digits, o.g_digits), fold.second_outer_commitment(s, y, o.h_digits)
    return y | {"u1": fold.flat(u1), "u2": fold.flat(u2)}


def recomposed(rng, s, moves=((0, 1), (-1, 2))):
    """An honest run; then with bases moved to a low digit of each block from the next one: all checks hold, and it is refused."""
    y = fold.honest(s, short_lists(rng, s))
    yield "honest", margin_of(s, y), s, y
    for name, (low, _) in digit_places(s).items():
        for at, by in moves if low else ():
            other = carried(s, y, name, at, by)
            assert fold.verdict(s, other) == margin_of(s, other)
            yield f"{by} bases to {name} low[{at}]", refused(15), s, other


def halves(rng, s):
    """An honest run of even bases by the rule and by the older one, z, t, g and h each with digits of half their base; the openings differ and are accepted."""
    x = short_lists(rng, s)
    x |= {"alpha": ring.one(s.d), "c": ring.one(s.d) + ring.zero(s.d)}

    def split(base):
        return [base // 2, 3 * base // 2]

    x["witness"] = split(s.b) + split(s.b2) + ring.zero(s.d) + ring.one(s.d)
    x["a_matrix"] = ring.zero(s.d) + split(s.b1)
    parts = fold.parts(s, x["witness"])
    function = [0] * (LENGTHS["whole"](s) - 2 * s.d) + split(s.b1)
    x["whole"] = function + fold.value(s.d, fold.read_function(s.d, s.n, s.r, function), parts)
    even = fold.honest(s, x)
    with ring.kept_rule():
        kept = fold.honest(s, x)
    differ = [digits != older for digits, older in zip(fold.read_opening(s, even), fold.read_opening(s, kept), strict=True)]
    assert differ == [s.tz == 2] * 2 + [True] * 3
    for rule, y in (("the rule", even), ("the older rule", kept)):
        for name, (low, _) in digit_places(s).items():
            assert not low or any(2 * abs(y["opening"][place]) == digit_blocks(s)[name].base for place in low), (rule, name)
        yield f"digits of half their base by {rule}", accepted(0), least_bounds(s, y), y
