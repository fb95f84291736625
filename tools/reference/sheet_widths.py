"""Judged sheets for sheet_cases.py on both sides of row 15, and narrow ones of what wide digits cannot show. Each is (name, answer, text or sizes
and lists).
"""

import fold
import ring
import sheet
import low_digits
from fixtures import (
    SMALL, accepted, block_starts, failed, honest, least_bounds, moved, random_lists, refused, replaced, whole_case, with_commitments,
)
from sheet_faults import ROWS
from sizes import LARGEST_BOUND, digit_blocks, digit_places, header_numbers


def with_another_q(s, y, values, times):
    """The opening with q, so many times, added to the values whose lowest digits stand at these places of a block; low digits stay narrow, and the
    commitments are formed anew.
    """
    numbers = list(y["opening"])
    for name, place in values:
        base, _, count, width = digit_blocks(s)[name]
        places = range(place, place + count * width, width)
        value = sum(numbers[at] * base**k for k, at in enumerate(places)) + times * ring.Q
        for at, digit in zip(places, ring.digits(base, count, value), strict=True):
            numbers[at] = digit
    return with_commitments(s, y | {"opening": numbers})


def other_values_modulo_q(rng):
    """Values that are greater or less by q, low digits narrow: accepted, since recomposition is modulo q; failed 9 by one; failed 3 where u1 is not theirs."""
    for d, r, b, b1, b2, times in ((2, 1, 65536, 65536, 16, 1), (2, 2, 65535, 255, 20, -1), (4, 1, 40000, 256, 13, 1)):
        s = SMALL._replace(d=d, n=1, r=r, kappa=2 // r, b=b, b1=b1, b2=b2, t1=2 if b1 == 65536 else 4, t2=3, nu=1, mu=2)
        y = fold.honest(s, random_lists(rng, s, True))
        t, g, h = block_starts(s)
        for name, place in (("z", d - 1), ("t", t), ("g", g), ("h", h + d - 1)):
            other = with_another_q(s, y, [(name, place)], times)
            assert other["opening"] != y["opening"]
            yield f"d = {d}, q {times} times more in {name}", accepted(0), (least_bounds(s, other), other)
        far = with_another_q(s, y, [("z", place) for place in range(d)], -times)
        bounds = least_bounds(s, far)
        yield f"d = {d}, q {-times} times more in all of z", accepted(0), (bounds, far)
        yield f"d = {d}, q {-times} times more in all of z, β'² one less", failed(9), (bounds._replace(target_beta_squared=bounds.target_beta_squared - 1), far)
        wrong = with_another_q(s, far, [("t", t)], 1) | {"u1": far["u1"]}
        yield f"d = {d}, q more in t too, u1 kept", failed(3), (least_bounds(s, wrong), wrong)


def wrapped_top_digits(rng):
    """Squared lengths whose sums modulo 2^64, 2^63 or 2^32 would hold; all low digits narrow. With c = 0 the digits of t are free."""
    s = SMALL._replace(kappa=4)
    y = fold.honest(s, random_lists(rng, s, True) | {"c": ring.zero(s.d)})
    _, (_, top), *_ = digit_places(s).values()
    for bits in (64, 63, 32):
        while True:
            numbers = list(y["opening"])
            for place in top:
                numbers[place] = rng.randint(-ring.LARGEST, ring.LARGEST)
            if ring.squared_norm(numbers) % 2**bits <= LARGEST_BOUND:
                break
        yield f"squared length of the digits modulo 2^{bits}", failed(9), (s, with_commitments(s, y | {"opening": numbers}))


def one_digit_moved(rng):
    """One digit of an honest opening moved, a low one toward 0 or a top one to the end of the range: the first check that sees it fails."""
    s, y = honest(rng, SMALL._replace(n=2, r=2, b=16, b2=256, nu=1, mu=2))
    s = s._replace(target_beta_squared=LARGEST_BOUND)
    failing = {"z": (5, 5), "t": (3, 5), "g": (3, 6), "h": (4, 7)}
    for name, (low, top) in digit_places(s).items():
        place = next(place for place in reversed(low) if y["opening"][place])
        by = -1 if y["opening"][place] > 0 else 1
        kept, anew = failing[name]
        changed = moved(y, "opening", place, by)
        yield f"a low digit of {name} moved by {by}", failed(kept), (s, changed)
        yield f"a low digit of {name} moved by {by}, commitments of it", failed(anew), (s, with_commitments(s, changed))
        end = by * ring.LARGEST
        yield f"a top digit of {name} = {end}", failed(kept), (s, replaced(y, "opening", top[0], end))
    # the whole case's witness to bases of 2
    for changes in ({"b": 2}, {"b1": 2}, {"b2": 2}, {"b": 2, "b1": 2, "b2": 2}):
        s, y = whole_case()
        s = s._replace(**changes)
        y = fold.honest(s, y | {"witness": [1, 2]})
        yield f"whole case, {', '.join(f'{name} = {value}' for name, value in changes.items())}", accepted(0), (least_bounds(s, y), y)


def digit_widths(rng):
    """Row 15 and what stands beside it."""
    odd, even = (low_digits.FREE._replace(**bases) for bases in (low_digits.OTHER_ODD, low_digits.OTHER_EVEN))
    three = {"t1": 3, "t2": 3}
    for group in (
        low_digits.sides(odd._replace(**three), ((0, -1), (-1, 1))), low_digits.sides(even._replace(**three), ((0, 1), (-1, -1))),
        low_digits.far_low_digits(odd), low_digits.wide_tops(even), low_digits.with_checks(even),
        low_digits.recomposed(rng, SMALL._replace(r=2, w=1, b=3, b1=1626, t1=3, b2=255, t2=3), ((-1, 2),)),
        low_digits.halves(rng, SMALL._replace(n=2, r=2, b=2, b1=8, b2=4, t1=3)),
    ):
        for name, answer, s, y in group:
            yield f"b = {s.b}, {name}", answer, (s, y)
    for name, answer, s, y in low_digits.with_rows(odd):
        # a text has as many numbers as its header says
        if answer != refused(7):
            yield name, answer, (s, y)
    body = sheet.write_sheet(odd, low_digits.wide(odd, low_digits.at_half(odd)))[289:]
    for number, fault in ROWS.items():
        yield f"{number}, 15", refused(number), sheet.line_text(header_numbers(odd._replace(**fault))) + body
    yield "15, a byte more", refused(12), sheet.line_text(header_numbers(odd)) + body + b" "


GROUPS = (other_values_modulo_q, wrapped_top_digits, one_digit_moved, digit_widths)
