"""Stored cases of the tests of the bindings, in bindings/c/tests. For each case

    NAME.sheet      an honest sheet under the least bounds: the lists that a prover takes and those that its messages write
    NAME.more       numbers parted by blanks: the witness; the start and the length of each part of the next witness; the next instance
    NAME.one        the same fold with z in one digit, all numbers of the sheet but these: its least β'²; z; the start and the length of each part of the next
                    witness, cut by the same ν and μ; the next instance

In `alike` the lists that stand beside each other have the same lengths (L = w, κ = κ1 = κ2, t1 = t2), so that only
their numbers tell them apart. No two sizes are equal both in `alike` and in `apart`. In `empty` K, L and w are 0.
"""

import random

import fold
import sheet
import sizes
import stored
from fixtures import OPEN, accepted, least_bounds, short_lists
from sizes import LENGTHS, Sizes

CASES = {
    "alike": Sizes(d=4, n=3, r=2, K=1, L=2, w=2, kappa=1, kappa1=1, kappa2=1, b=7, b1=300, b2=90, t1=3, t2=3, nu=3, mu=4, **OPEN),
    "apart": Sizes(d=2, n=2, r=3, K=2, L=1, w=2, kappa=1, kappa1=3, kappa2=4, b=9, b1=250, b2=30, t1=3, t2=4, nu=1, mu=1, **OPEN),
    "empty": Sizes(d=2, n=2, r=2, K=0, L=0, w=0, kappa=1, kappa1=2, kappa2=1, b=5, b1=200, b2=20, t1=2, t2=3, nu=1, mu=3, **OPEN),
}


def places(s, y):
    """The start and the length of each part of the next witness in the opening."""
    start = 0
    for part in range(1, sizes.next_multiplicity(s) + 1):
        length = len(fold.next_part(s, y, part))
        yield [start, length]
        start += length


def next_constraints(s, y):
    """The next instance, a list for each constraint."""
    kind, written = fold.answer("next_instance", s, y)
    assert kind == "written"
    return fold.cut(written["next_whole"], LENGTHS["next_whole"](s) // sizes.next_constraint_count(s))


def one_digit_lines(s, x):
    """The lines of NAME.one."""
    y = fold.honest(s, x)
    s = least_bounds(s, y)
    assert fold.answer("verify", s, y) == accepted(0)
    z = y["opening"][: LENGTHS["z_digits"](s)]
    return [[s.target_beta_squared], z, fold.flat(places(s, y))] + next_constraints(s, y)


def files():
    assert len(set(zip(sizes.header_numbers(CASES["alike"])[:-2], sizes.header_numbers(CASES["apart"])[:-2]))) == len(sizes.HEADER) - 2
    rng = random.Random(13)
    for name, s in CASES.items():
        x = short_lists(rng, s)
        y = fold.honest(s, x)
        s = least_bounds(s, y)
        assert fold.answer("verify", s, y) == accepted(0)
        constraints = next_constraints(s, y)
        yield f"bindings/c/tests/{name}.one", stored.numbers_text(one_digit_lines(s._replace(b=0, tz=1), x))
        yield f"bindings/c/tests/{name}.sheet", sheet.write_sheet(s, y)
        yield f"bindings/c/tests/{name}.more", stored.numbers_text([x["witness"], fold.flat(places(s, y))] + constraints)


if __name__ == "__main__":
    stored.write(files)
