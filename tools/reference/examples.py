"""The sheets of examples/ and their verdicts.

With the argument `limits` it prints the table of docs/SHEET.md: the largest n whose sheet has at most 65536 bytes.
"""

import random
import sys

import fold
import ring
import sheet
import stored
from fixtures import (
    OPEN, SMALL, accepted, block_starts, challenges, counted, failed, least_bounds, moved, refused, replaced, uniform, whole_case_text,
    with_commitments, with_constraints,
)
from sizes import LENGTHS, Sizes

# Three parts of two elements; one whole constraint, two of the constant-term kind, three projection rows.
PARTS = Sizes(
    d=4, n=2, r=3, K=1, L=2, w=3, kappa=2, kappa1=1, kappa2=1, b=8, b1=65536, b2=16, t1=2, t2=2, nu=1, mu=3, **OPEN
)


# Two parts of one element, one whole constraint, one projection row, at degree 64.
DEGREE_64 = SMALL._replace(d=64, r=2, w=1, b=8)


def small_run(s, c=None):
    """Sizes and lists of an honest run; its numbers are small, that it may be read. `c` are other challenges than those that are drawn."""
    rng = random.Random(3)
    names = "a_matrix b_matrix c_matrix d_matrix psi omega alpha delta witness".split()
    x = {name: uniform(rng, 2, LENGTHS[name](s)) for name in names}
    x["c"] = challenges(rng, s)
    x["projections"] = uniform(rng, 1, LENGTHS["projections"](s))
    x = with_constraints(s, x, lambda count: uniform(rng, 2, count))
    y = fold.honest(s, x | {"c": c or x["c"]})
    return least_bounds(s, y), y


def kept_challenges(y):
    """The challenges with another in place of the last, which passes the rule of the smaller degrees: of squared length 71, by other counts."""
    c = y["c"][:64] + counted(random.Random(4), 64, 9, 35)
    assert ring.squared_norm(c[64:]) == 71 and ring.is_short_challenge(c[64:])
    return c


def carried_z(s, y):
    """The opening with a base moved from each low digit of z to its high digit."""
    numbers = list(y["opening"])
    for place in range(s.n * s.d):
        numbers[place] += s.b
        numbers[place + s.n * s.d] -= 1
    return y | {"opening": numbers}


def examples():
    """Name, verdict and text of each."""
    whole = whole_case_text()
    yield "whole-case", accepted(0), whole
    yield "whole-case-margin", accepted(7), whole_case_text(target_beta_squared=20)
    yield "whole-case-too-long", failed(9), whole_case_text(target_beta_squared=12)
    s, y = small_run(PARTS)
    yield "parts", accepted(0), sheet.write_sheet(s, y)
    yield "parts-wide-digits", refused(15), sheet.write_sheet(least_bounds(s, carried_z(s, y)), carried_z(s, y))
    yield "projection-too-long", failed(1), sheet.write_sheet(s._replace(beta_squared=s.beta_squared - 1), y)
    _, g, _ = block_starts(s)
    garbage = with_commitments(s, moved(y, "opening", g + s.t2 * s.d))
    yield "wrong-garbage", failed(6), sheet.write_sheet(s, garbage)
    yield "wrong-challenge", refused(10), sheet.write_sheet(s, replaced(y, "c", 5, 3))
    yield "number-out-of-range", refused(8), sheet.write_sheet(s, replaced(y, "u2", 0, ring.LARGEST + 1))
    yield "broken-field", refused(12), whole.replace(sheet.line_text([2, 2]), sheet.line_text([2, 2]).replace(b" 2\n", b"2a\n"))
    s, y = small_run(DEGREE_64)
    yield "degree-64", accepted(0), sheet.write_sheet(s, y)
    kept_bounds, kept = small_run(DEGREE_64, kept_challenges(y))
    assert kept_bounds.target_beta_squared <= s.target_beta_squared
    yield "kept-challenge", refused(10), sheet.write_sheet(s, kept)


def largest_rank(d, r):
    """The largest n whose sheet fits, all other sizes least but K = 1; 0 if there is none."""
    fits = [n for n in range(1, 257) if sheet.text_length(SMALL._replace(d=d, n=n, r=r)) <= sheet.LARGEST_TEXT]
    return max(fits, default=0)


def print_limits():
    counts = (1, 2, 3, 4, 6, 8, 12, 16)
    print("| d | " + " | ".join(f"r = {r}" for r in counts) + " |")
    print("|" + "---|" * (len(counts) + 1))
    for d in ring.DEGREES:
        print(f"| {d} | " + " | ".join(str(largest_rank(d, r) or "none") for r in counts) + " |")


def files():
    for name, verdict, text in examples():
        assert sheet.judge(text) == verdict, (name, sheet.judge(text))
        yield f"examples/{name}.sheet", text
        yield f"examples/{name}.verdict", sheet.output_line(verdict)


if __name__ == "__main__":
    print_limits() if sys.argv[1:] == ["limits"] else stored.write(files)
