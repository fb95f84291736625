"""Sheets for sheet_cases.py whose numbers are refused by 8, 9 or 10, or just not, and texts of 65536 and 65537 bytes. Each is (name,
answer, text or sizes and lists).
"""

import fold
import ring
import sheet
import sheet_faults
from fixtures import OPEN, SMALL, accepted, honest, moved, refused, replaced, sides_of_challenges
from sizes import SHEET_LISTS, Sizes


def number_base(rng, n, r):
    """An honest sheet of which no list is empty."""
    return honest(rng, SMALL._replace(n=n, r=r, L=1, w=1, nu=1, mu=2))


def ends_of_the_range(rng):
    s, y = number_base(rng, 2, 1)
    inside = {"projections": refused(9), "c": refused(10), "opening": refused(15)}
    for k, name in enumerate(SHEET_LISTS):
        first, last = (0, -1) if k % 2 else (-1, 0)
        yield f"{name}[{first}] = 2147483599", refused(8), (s, replaced(y, name, first, 2147483599))
        yield f"{name}[{last}] = -2147483599", refused(8), (s, replaced(y, name, last, -2147483599))
        number = ring.LARGEST * (-1) ** k
        answer = sheet.judge(sheet.write_sheet(s, replaced(y, name, last, number)))
        assert answer == inside[name] if name in inside else answer[0] in ("accepted", "failed")
        yield f"{name}[{last}] = {number}", answer, (s, replaced(y, name, last, number))
    for name, place in (("a_matrix", 1), ("p", 0), ("u1", -1), ("projections", 3), ("c", 1), ("opening", -1)):
        value = y[name][place]
        for number in (value + 2**32, value - 2**32, value + ring.Q):
            yield f"{name}[{place}] = {number} for {value}", refused(8), (s, replaced(y, name, place, number))
    for number in (2147483647, 2147483648, -2147483648, -2147483649, 4294967296, 9999999999999999, -999999999999999):
        yield f"b_matrix[3] = {number}", refused(8), (s, replaced(y, "b_matrix", 3, number))
    full = replaced(replaced(y, "d_matrix", 2, 9999999999999999), "d_matrix", 3, 9999999999999999)
    yield "two numbers of 16 digits side by side", refused(8), (s, full)
    full = replaced(replaced(y, "alpha", 0, -999999999999999), "alpha", 1, 1000000000000000)
    yield "two fields without a blank", refused(8), (s, full)


def order_of_numbers(rng):
    s, y = number_base(rng, 1, 2)
    last_8 = replaced(y, "opening", -1, ring.LARGEST + 1)
    first_8 = replaced(y, "a_matrix", 0, -ring.LARGEST - 1)
    for name, numbers in (("early", first_8), ("late", last_8)):
        yield f"8 {name}, 9", refused(8), (s, replaced(numbers, "projections", 0, 2))
        yield f"8 {name}, 10", refused(8), (s, replaced(numbers, "c", 0, 3))
        yield f"8 {name}, 9, 10", refused(8), (s, replaced(replaced(numbers, "projections", -1, -2), "c", -1, -3))
    yield "9, 10", refused(9), (s, replaced(replaced(y, "projections", -1, 2), "c", 0, 3))
    yield "10 at the first part", refused(10), (s, replaced(y, "c", 0, 3))
    yield "10 at the last part", refused(10), (s, replaced(y, "c", -1, -3))
    for value in (2, -2, 3, 255, 65537, ring.LARGEST, -ring.LARGEST):
        place = rng.randrange(len(y["projections"]))
        yield f"projection entry {value}", refused(9), (s, replaced(y, "projections", place, value))
    for name, numbers in (("8", first_8), ("9", replaced(y, "projections", 0, 2)), ("10", replaced(y, "c", 0, 3))):
        text = sheet.write_sheet(s, numbers)
        yield f"{name}, then a broken field", refused(12), text[:-2] + b"a\n"
        yield f"{name}, last line feed missing", refused(12), text[:-1]
        yield f"{name}, a byte more", refused(12), text + b" "
        yield f"{name}, and check 3 fails", refused(int(name)), (s, moved(numbers, "u1", 0))
        less = s._replace(beta_squared=0, target_beta_squared=0)
        yield f"{name}, and checks 1 and 9 fail", refused(int(name)), (less, numbers)


def challenges(rng):
    s, y = number_base(rng, 1, 2)
    for value in (3, -3, 4, 255, 258, -254, 65538, 1000000000, ring.LARGEST, -ring.LARGEST):
        yield f"coefficient {value}", refused(10), (s, replaced(y, "c", 1, value))
    s = SMALL._replace(r=2)
    for c in ([0, 0, 0, 0], [2, -2, -2, 2], [0, 0, 1, 0], [-2, 0, 0, -2]):
        bounds, y = honest(rng, s, c=c)
        yield f"c = {c}", accepted(0), (bounds, y)
    c71 = [2, -2] * 8 + [2, 1, -1, 1] + [0] * 12
    c72 = [-2, 2] * 9 + [0] * 14
    bounds, y = honest(rng, SMALL._replace(d=32), c=c71)
    yield "d = 32, squared length 71", accepted(0), (bounds, y)
    yield "d = 32, squared length 72", refused(10), (bounds, y | {"c": c72})
    bounds, y = honest(rng, SMALL._replace(d=64, K=0), c=[2, 1, 0, -1] * 10 + [1, 0, -2, 0] * 2 + [1] + [0] * 15)
    assert ring.squared_norm(y["c"]) == 71
    yield "d = 64, squared length 71 by other counts", refused(10), (bounds, y)
    yield "d = 64, squared length 72", refused(10), (bounds, moved(y, "c", -1))


def challenge_sides(rng):
    """Honest sheets but for their challenges; those of degree 64 whose counts are others could be kept ones."""
    for name, shape, taken, c in sides_of_challenges(rng, few=True):
        yield name, accepted(0) if taken else refused(10), honest(rng, SMALL._replace(K=0, **shape), c=c)
    s, y = honest(rng, SMALL._replace(d=64, K=0, w=1), c=ring.zero(64))
    yield "d = 64, 9, 10", refused(9), (s, replaced(y, "projections", -1, 2))
    yield "d = 64, 8 late, 10", refused(8), (s, replaced(y, "opening", -1, ring.LARGEST + 1))


# Long texts

EXACT = Sizes(
    d=2, n=5, r=16, K=0, L=1, w=1, kappa=4, kappa1=1, kappa2=2, b=16, b1=65536, b2=16, t1=2, t2=2, nu=2, mu=3, **OPEN
)
ONE_MORE = EXACT._replace(d=4, n=10, r=3, K=4, L=5, w=14, kappa=3, kappa1=1, kappa2=2, t1=3, b1=1626, t2=4)


def longest_texts(rng):
    s, y = honest(rng, EXACT)
    text = sheet.write_sheet(s, y)
    assert len(text) == sheet.LARGEST_TEXT
    yield "a sheet of 65536 bytes", accepted(0), text
    yield "a refused header over 65537 bytes", refused(12), sheet_faults.header_with(d=3)[0].ljust(65537)
    s, y = honest(rng, ONE_MORE)
    text = sheet.write_sheet(s, y)
    assert len(text) == sheet.LARGEST_TEXT + 1 and fold.answer("verify", s, y) == accepted(0)
    yield "a sheet of 65537 bytes", refused(12), text


GROUPS = (ends_of_the_range, order_of_numbers, challenges, longest_texts)
