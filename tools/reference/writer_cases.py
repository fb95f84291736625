"""The cases of the writer's call: reader_cases.py puts their input and output behind those of the reader's.

Input: a line with the count of cases, then two lines for each case. Every number stands in a field of 16 columns, as on a sheet.

    header count room        the header's 18 numbers in the sheet's order, the count of numbers after it, the length of the buffer
    numbers                  the numbers after the header, in the sheet's order; no field where there are none

Output, for each case:

    bytes kind number length summed(X)    how many bytes the text of these sizes has; the writer's answer (kind 2 refused, 3 written), the
                                          length that it answers (0 where it refuses), and the buffer X afterwards, of which each byte is FILL
                                          before the call; summed(X) as in stored.py
    X                                     these bytes as they are, where they are at most SHOWN_BYTES, else none; then a line feed

The script prints a line for each case: its number, its answer, its length, its count of numbers, its room, its group
and name; last the count of cases by answer.
"""

import random
from collections import Counter

import ring
import sheet
import low_digits
from fixtures import OPEN, SMALL, challenges, counted, sides_of_challenges, uniform, whole_case
from sheet_faults import SIZE_SIDES
from sheet_numbers import ONE_MORE
from sizes import HEADER, LARGEST_BOUND, LENGTHS, SHEET_LISTS, Sizes, header_numbers
from stored import FILL, answer_numbers, numbers_text, summed

# Longer buffers are shown by their sum only.
SHOWN_BYTES = 4096

# What the program has room for.
MOST_CASES = 1000
MOST_NUMBERS = 8192
MOST_BYTES = 140000


# Numbers of a sheet

def any_width(rng):
    """A number of the range, those of few digits as often as those of many."""
    return rng.choice((-1, 1)) * rng.randrange(min(10 ** rng.randint(1, 10), ring.LARGEST + 1))


def drawn(rng, s):
    """Numbers that the reader takes, but at degree 64, where c is a kept one; no check is asked of them."""
    y = {name: [any_width(rng) for _ in range(LENGTHS[name](s))] for name in SHEET_LISTS}
    y["projections"] = uniform(rng, 1, LENGTHS["projections"](s))
    # squared length 71 where the degree allows it
    y["c"] = challenges(rng, s) if s.d < 32 else [number for _ in range(s.r) for number in counted(rng, s.d, 16, 7)]
    return sheet.flat_numbers(y)


def whole_numbers():
    """Sizes and numbers of the whole case."""
    s, y = whole_case()
    return s, sheet.flat_numbers(y)


def list_place(s, name, place):
    """Where a place of a list, counted from its end where it is negative, stands among the numbers."""
    start = sum(LENGTHS[before](s) for before in SHEET_LISTS[: SHEET_LISTS.index(name)])
    return start + place % LENGTHS[name](s)


def with_number(s, numbers, name, place, number):
    """The numbers with another one at a place of a list."""
    at = list_place(s, name, place)
    return numbers[:at] + [number] + numbers[at + 1 :]


def said(changes):
    return ", ".join(f"{size} = {value}" for size, value in changes.items())


# Groups: each case is (name, sizes, numbers, room)

def in_rooms(name, s, numbers, more=(-1, 0, 5)):
    """The buffer one byte too short, just long enough, and longer."""
    for by in more:
        yield f"{name}, room {by:+}" if by else name, s, numbers, sheet.text_length(s) + by


def good_numbers(rng):
    """The whole case; every degree, 64 with a kept challenge, which is refused; lists of every kind and none of it, so that lines of one number
    stand before and after each kind of list.
    """
    yield from in_rooms("whole case", *whole_numbers())
    for d in ring.DEGREES:
        s = SMALL._replace(d=d, K=0)
        yield from in_rooms(f"d = {d}", s, drawn(rng, s), (-1, 0, 5) if d < 32 else (-1, 0))
    for changes in (
        {"K": 2}, {"K": 0, "L": 1}, {"K": 0, "L": 2}, {"K": 0, "w": 1}, {"K": 0, "w": 3}, {"L": 1, "w": 1},
        {"d": 4, "K": 1, "L": 2, "w": 2, "nu": 7, "mu": 2}, {"n": 3, "r": 2, "K": 0, "L": 1, "w": 2, "kappa": 2}, {"r": 3, "kappa1": 2, "t2": 3},
        {"n": 2, "kappa2": 3, "t1": 4},
    ):
        s = SMALL._replace(**changes)
        yield from in_rooms(said(changes), s, drawn(rng, s))


def buffers(rng):
    """Buffers of many lengths; those of 4096 bytes and of one more are printed in two ways."""
    s, numbers = whole_numbers()
    for room in (0, 1, 16, 288, 289, 290, 322, sheet.text_length(s) - 17, SHOWN_BYTES, SHOWN_BYTES + 1):
        yield f"room {room}", s, numbers, room


def widths(rng):
    """Every width of a field, positive and negative: both ends of each, in either field of a line; the header's bounds of 1 to 15 digits."""
    s, numbers = whole_numbers()
    ends = [end for k in range(10) for end in (10**k - 1, 10**k, 10**k + 1)]
    ends += [1234567890, 1023456789, 1999999999, 2100000000, ring.LARGEST - 1, ring.LARGEST]
    wide = [sign * end for sign in (1, -1) for end in ends]
    at = list_place(s, "c", 0)
    for name, some in (("first", wide), ("shifted", wide[1:])):
        for k in range(0, len(some), at):
            part = some[k : k + at]
            yield f"ends of widths, {name}, from {k}", s, part + numbers[len(part) :], sheet.text_length(s)
    for number in (0, 9, -9, 10, -1, ring.LARGEST, -ring.LARGEST):
        filled = [number] * at + numbers[at : at + s.d] + [number] * (len(numbers) - at - s.d)
        yield f"all {number}", s, filled, sheet.text_length(s)
    for k in range(0, 15, 2):
        bounds = {"beta_squared": 10**k, "target_beta_squared": min(10 ** (k + 2) - 1, LARGEST_BOUND)}
        sizes = {"b1": 10 ** (k % 4 + 1), "b2": 10 ** (k % 4 + 2) - 1} | bounds
        yield said(sizes), s._replace(**sizes), numbers, sheet.text_length(s)
    yield "bases 65535 and 65536", s._replace(b=65536, b1=65535, b2=65536, **OPEN), numbers, sheet.text_length(s)


# Sizes of texts of 65537 bytes, 75133 and more than 100000.
LONG = (
    ONE_MORE,
    SMALL._replace(n=256, r=16, K=0, kappa=2, nu=3, mu=10, b=65536, b1=65535),
    SMALL._replace(n=2, r=3, K=2, L=21, w=256, kappa=5, kappa1=3, kappa2=2, t1=3, t2=4),
)


def long_texts(rng):
    """Texts that the program refuses for their length and the reader takes."""
    for s in LONG:
        assert sheet.text_length(s) > sheet.LARGEST_TEXT
        yield from in_rooms(f"d = {s.d}, {sheet.text_length(s)} bytes", s, drawn(rng, s), (-1, 0))


def header_sides(rng):
    """Each size on both sides of its limits. Where it is good there are as many numbers as the sizes give, where it is refused none. The whole case
    has the least value of most sizes; every good degree is in good_numbers, n = 256, r = 16 and w = 256 in long_texts.
    """
    whole, _ = whole_numbers()
    for name, sides in SIZE_SIDES.items():
        good = {min(sides[0] + (getattr(whole, name),)), max(sides[0])} - {getattr(whole, name)}
        for value in () if name in ("d", "n", "r", "w") else sorted(good):
            s = whole._replace(**{name: value})
            yield f"{name} = {value}", s, drawn(rng, s), sheet.text_length(s)
        for value in (value for value in sides[max(sides)] if value >= 0 and (value != LARGEST_BOUND + 1 or 6 in sides)):
            yield f"{name} = {value}", whole._replace(**{name: value}), [], rng.choice((0, 16, 33))
    for nu, mu in ((7, 2), (6, 4), (7, 3), (0, 16), (8, 0)):
        yield f"ν = {nu}, μ = {mu}", whole._replace(nu=nu, mu=mu), drawn(rng, whole), sheet.text_length(whole)


def huge_sizes(rng):
    """Sizes of 16 digits, together: no length is formed of them."""
    huge = 9999999999999999
    whole, numbers = whole_numbers()
    yield "all sizes huge", Sizes(*[huge] * len(HEADER)), [], 300
    yield "all sizes huge but d", Sizes(2, *[huge] * (len(HEADER) - 1)), numbers, sheet.text_length(whole)
    yield "n, r, K, L, w huge", whole._replace(n=huge, r=huge, K=huge, L=huge, w=huge), numbers, sheet.text_length(whole)
    yield "ν and μ huge", whole._replace(nu=huge, mu=huge), numbers, sheet.text_length(whole)
    yield "both bounds huge", whole._replace(beta_squared=huge, target_beta_squared=huge), numbers, sheet.text_length(whole)
    yield "all sizes 0", Sizes(*[0] * len(HEADER)), [], 0


# The smallest sizes of which no list is empty.
MIXED = SMALL._replace(L=1, w=1)


def counts(rng):
    """7: one number less, one more, none, as many as other sizes give."""
    s, numbers = whole_numbers()
    for name, other, given in (
        ("one less", s, numbers[:-1]), ("one more", s, numbers + [0]), ("none", s, []), ("one", s, [0]), ("twice", s, numbers * 2),
        ("one less, L = w = 1", MIXED, drawn(rng, MIXED)[:-1]), ("one more, L = w = 1", MIXED, drawn(rng, MIXED) + [0]),
        ("numbers of d = 2 for d = 4", s._replace(d=4), numbers), ("numbers of L = 0 for L = 1", s._replace(L=1), numbers),
    ):
        yield name, other, given, sheet.text_length(other)


def refused_numbers(rng):
    """8 at both ends of the range and of 32 bits, in the first and last place, and in every list, then with a short buffer too; 9 and 10; challenges
    that just pass.
    """
    s, numbers = whole_numbers()
    for number in (ring.LARGEST + 1, -ring.LARGEST - 1, 2147483647, -2147483648):
        yield f"first number {number}", s, [number] + numbers[1:], sheet.text_length(s)
        yield f"last number {number}", s, numbers[:-1] + [number], sheet.text_length(s)
    s, room = MIXED, 33
    numbers = drawn(rng, s)
    for k, name in enumerate(SHEET_LISTS):
        number = (ring.LARGEST + 1) * (-1) ** k
        yield f"{name}[{-(k % 2)}] = {number}", s, with_number(s, numbers, name, -(k % 2), number), room
    s = SMALL._replace(r=2, K=0, w=2)
    numbers, room = drawn(rng, s), sheet.text_length(s)
    for place, entry in ((0, 2), (-1, -2), (0, -ring.LARGEST), (-1, ring.LARGEST), (3, 255)):
        yield f"projections[{place}] = {entry}", s, with_number(s, numbers, "projections", place, entry), room
    for place, number in ((0, 3), (-1, -3), (1, ring.LARGEST), (-2, -254)):
        yield f"c[{place}] = {number}", s, with_number(s, numbers, "c", place, number), room
    for c in ([2, -2, -2, 2], [0, 0, 0, 0]):
        at = list_place(s, "c", 0)
        yield f"c = {c}", s, numbers[:at] + c + numbers[at + len(c) :], room
    s = SMALL._replace(d=32, K=0)
    numbers, at = drawn(rng, s), list_place(s, "c", 0)
    yield "d = 32, c of squared length 72", s, numbers[:at] + counted(rng, 32, 16, 8) + numbers[at + 32 :], sheet.text_length(s)


def challenge_sides(rng):
    """Both sides of the rule for challenges at degrees 64 and 32; 8 before 10, and 10 before 13."""

    def with_c(s, numbers, c):
        at = list_place(s, "c", 0)
        return numbers[:at] + c + numbers[at + len(c) :]

    for name, shape, _, c in sides_of_challenges(rng, few=True):
        s = SMALL._replace(K=0, **shape)
        yield name, s, with_c(s, drawn(rng, s), c), sheet.text_length(s)
    s = SMALL._replace(d=64, K=0)
    numbers = with_c(s, drawn(rng, s), ring.zero(64))
    yield "d = 64, rows 8 and 10", s, with_number(s, numbers, "opening", -1, ring.LARGEST + 1), sheet.text_length(s)
    yield "d = 64, rows 10 and 13", s, numbers, sheet.text_length(s) - 1


def wide_digits(rng):
    """A wide low digit in each block is written, also at the end of the range; 8, 9, 10 and 13 come as without it."""
    odd, even = (low_digits.FREE._replace(**bases) for bases in (low_digits.ODD, low_digits.EVEN))
    for group in (low_digits.sides(odd, ((-1, 1),)), low_digits.far_low_digits(even), low_digits.with_rows(odd), low_digits.recomposed(rng, SMALL, ((0, 1),))):
        for name, _, s, y in group:
            yield name, s, sheet.flat_numbers(y), sheet.text_length(s)
    yield "rows 13 and 15", s, sheet.flat_numbers(y), sheet.text_length(s) - 1


# One fault for each row, in sizes, numbers or room.
FAULTS = {
    1: lambda s, numbers, room: (s._replace(d=3), numbers, room),
    2: lambda s, numbers, room: (s._replace(r=17), numbers, room),
    3: lambda s, numbers, room: (s._replace(kappa=0), numbers, room),
    4: lambda s, numbers, room: (s._replace(b=1), numbers, room),
    5: lambda s, numbers, room: (s._replace(nu=8), numbers, room),
    6: lambda s, numbers, room: (s._replace(beta_squared=LARGEST_BOUND + 1), numbers, room),
    7: lambda s, numbers, room: (s, numbers + [0], room),
    8: lambda s, numbers, room: (s, with_number(MIXED, numbers, "a_matrix", 0, ring.LARGEST + 1), room),
    9: lambda s, numbers, room: (s, with_number(MIXED, numbers, "projections", -1, 2), room),
    10: lambda s, numbers, room: (s, with_number(MIXED, numbers, "c", 0, 3), room),
    13: lambda s, numbers, room: (s, numbers, room - 1),
}


def with_faults(rows, numbers):
    """Sizes, numbers and room of a sheet of sizes MIXED, with the faults of the rows."""
    given = MIXED, numbers, sheet.text_length(MIXED)
    for row in rows:
        given = FAULTS[row](*given)
    return given


def order(rng):
    """Each row alone; two at once, of which the lower is named; all at once. 1 to 6 are paired with 7 too where there are no numbers."""
    numbers = drawn(rng, MIXED)
    for row in FAULTS:
        yield f"row {row}", *with_faults((row,), numbers)
    for first in FAULTS:
        for second in (row for row in FAULTS if first < row):
            s, given, room = with_faults((first, second), numbers)
            if second <= 6:
                yield f"rows {first} and {second}, no numbers", s, [], 33
            elif first > 6 or second in (8, 13):
                yield f"rows {first} and {second}", s, given, room
    yield "rows 7 to 13", *with_faults((7, 8, 9, 10, 13), numbers)
    yield "all rows", *with_faults(FAULTS, numbers)


GROUPS = (good_numbers, buffers, widths, long_texts, header_sides, huge_sizes, counts, refused_numbers, order)


# The files

def all_cases():
    """The cases as (group, name, sizes, numbers, room)."""
    groups = zip(GROUPS + (challenge_sides, wide_digits), [random.Random(15)] * len(GROUPS) + [random.Random(16), random.Random(26)])
    return [(group.__name__, *case) for group, rng in groups for case in group(rng)]


def input_text(s, numbers, room):
    """The two lines of a case."""
    assert len(numbers) <= MOST_NUMBERS and room <= MOST_BYTES and min(s) >= 0
    assert all(-(2**31) <= number < 2**31 for number in numbers)
    return sheet.line_text([*header_numbers(s), len(numbers), room]) + sheet.line_text(numbers)


def output_text(s, numbers, room):
    """The output of a case."""
    answer, length, buffer = sheet.write_into(s, numbers, bytes([FILL]) * room)
    line = [sheet.sheet_bytes(s)] + answer_numbers(answer) + [length] + summed(buffer)
    return numbers_text([line]) + (buffer if len(buffer) <= SHOWN_BYTES else b"") + b"\n"


def stored_texts():
    """Input and output of all cases."""
    cases = [case for _, _, *case in all_cases()]
    assert len(cases) <= MOST_CASES
    return sheet.line_text([len(cases)]) + b"".join(input_text(*case) for case in cases), b"".join(output_text(*case) for case in cases)


def print_names():
    seen = Counter()
    for at, (group, name, s, numbers, room) in enumerate(all_cases(), start=1):
        answer, length, _ = sheet.write_into(s, numbers, bytes(room))
        seen[answer] += 1
        print(at, *answer, length, len(numbers), room, f"{group}: {name}")
    for (kind, number), count in sorted(seen.items()):
        print(f"{count} {kind} {number}")


if __name__ == "__main__":
    print_names()
