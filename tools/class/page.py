#!/usr/bin/env python3
"""The class's page and sheets: python3 tools/class/page.py ROOT writes ROOT/docs/CLASS.md, ROOT/docs/pictures/class.svg, ROOT/docs/pictures/chain.svg and
ROOT/examples/class*. python3 tools/class/page.py --library compares the class's case with the proved library (bindings/python/build builds it).

Every number of the page is computed here, by the second implementation, so that the page cannot go stale: tools/all writes it anew and compares.
"""

import sys

import case
import levels
from case import pair
from picture import picture

import fold
import ring
import sheet
import sizes
import stored
import verifier
from sizes import pairs


# ---- how numbers are written

def table(head, rows):
    lines = [head, ["---"] * len(head), *rows]
    return "\n".join("| " + " | ".join(str(cell) for cell in line) + " |" for line in lines)


def name(letter, i, j):
    return f"{letter}{i + 1}{j + 1}"


def factor(e):
    """A pair as it stands in a product: in brackets where it has a sign or two places."""
    return pair(e) if pair(e).isalnum() else f"({pair(e)})"


def digits(base, count, e):
    return "; ".join(pair(digit) for digit in ring.element_digits(base, count, e))


def both_ways(base, number):
    """How a number half a base from two multiples is cut, and how not."""
    low, high = ring.digits(base, 2, number)
    assert 2 * abs(low) == base and high % 2 == 0, "the page says that the high digit is even"
    return f"{low} + {high}·{base} and not {-low} + {(number + low) // base}·{base}"


# ---- the sheets

def sheets():
    """Name, verdict and text of each sheet of the class."""
    s, _, y = case.honest()
    yield "class", ("accepted", 0), sheet.write_sheet(s, y)
    roomy = s._replace(target_beta_squared=case.ROOMY)
    yield "class-margin", ("accepted", case.ROOMY - s.target_beta_squared), sheet.write_sheet(roomy, y)
    changed = list(y["opening"])
    changed[0] += 1
    yield "class-changed-digit", ("failed", 5), sheet.write_sheet(s, y | {"opening": changed})
    long_s, _, long_y = case.honest(case.TOO_LONG)
    yield "class-too-long", ("failed", 1), sheet.write_sheet(long_s, long_y)
    yield "class-wide-digit", ("refused", 15), sheet.write_sheet(*case.wide())


# ---- the page

def page(chain_levels):
    s, x, y = case.honest()
    slots = fold.parts(s, x["witness"])
    s1, s2, s3 = (slot[0] for slot in slots)
    a = x["a_matrix"]
    c = fold.elements(s.d, x["c"])
    t = [row[0] for row in verifier.recomposed_t(s, y)]
    g, h = verifier.recomposed_g(s, y), verifier.recomposed_h(s, y)
    z = verifier.recomposed_z(s, y)[0]
    two, six = g[1, 2][1], h[0, 0][0]
    phi = [row[0] for row in fold.aggregate(s, x).phi]
    second_b = fold.elements(s.d, y["second_b"])
    second_phi = [[row[0] for row in f.phi] for f in fold.second_functions(s, x)]
    delta = fold.elements(s.d, x["delta"])
    rows = fold.projection_rows(s, x)
    first_code, second_code = case.codes(case.READINGS)
    minus_x = [0, -1]
    times = ring.multiply
    parts = verifier.read_opening(s, y)
    lengths = [("z", parts.z_low + parts.z_high), ("t", parts.t_digits), ("g", parts.g_digits), ("h", parts.h_digits)]

    def add(*elements):
        return ring.add_all(s.d, list(elements))

    def mixed(garbage):
        return verifier.garbage_sum(s, y, garbage)

    def summed(digit_elements, count, at):
        """The sum of the digits at place `at` of each number, each number having `count`."""
        return add(*digit_elements[at::count])

    def total(block):
        """How many digits a block has."""
        return next(len(fold.flat(entries)) for known, entries in lengths if known == block)

    def weighted(row, values, count):
        """A row of a fingerprint's matrix times the digits: what each place counts, the sum of the digits there, the product."""
        return [(row[at], summed(values, count, at), times(row[at], summed(values, count, at))) for at in range(count)]

    b_row, c_row, d_row = (fold.elements(s.d, x[matrix]) for matrix in ("b_matrix", "c_matrix", "d_matrix"))
    for row, count in ((b_row, s.t1), (c_row, s.t2), (d_row, s.t1)):
        assert all(e == row[at % count] for at, e in enumerate(row)), "the page says that a digit counts by its place only"
    first_print = weighted(b_row, parts.t_digits, s.t1) + weighted(c_row, parts.g_digits, s.t2)
    second_print = weighted(d_row, parts.h_digits, s.t1)
    assert add(*(e for *_, e in first_print)) == y["u1"] and add(*(e for *_, e in second_print)) == y["u2"]

    checks = [
        ("the projection is short", f"2·({' + '.join(f'{k}²' for k in y['p'])}) = {2 * ring.squared_norm(y['p'])}", f"at most {s.w}·{s.beta_squared} = {s.w * s.beta_squared}"),
        ("the five sums begin as they must", ", ".join(str(e[0]) for e in second_b), "the codes and p, added up by ψ and ω: " + ", ".join(str(k) for k in expected(s, x, y))),
        ("u1 belongs to the t and g digits", pair(fold.first_outer_commitment(s, x, parts.t_digits, parts.g_digits)[0]), pair(y["u1"])),
        ("u2 belongs to the h digits", pair(fold.second_outer_commitment(s, x, parts.h_digits)[0]), pair(y["u2"])),
        ("A·z = c1·t1 + c2·t2 + c3·t3", pair(times(a, z)), pair(add(*(times(c[i], t[i]) for i in range(3))))),
        ("z·z from the g", pair(times(z, z)), pair(mixed(g))),
        ("φ1·z·c1 + φ2·z·c2 + φ3·z·c3 from the h", pair(add(*(times(times(phi[i], z), c[i]) for i in range(3)))), pair(mixed(h))),
        ("h11 + h22 + h33 = b", pair(add(*(h[i, i] for i in range(3)))), pair(fold.aggregate_constant(s, y))),
        ("all digits together are short", " + ".join(str(ring.squared_norm(fold.flat(block))) for _, block in lengths) + f" = {ring.squared_norm(y['opening'])}", f"at most {s.target_beta_squared}"),
    ]
    margins = [size_row(block, fold.flat(entries)) for block, entries in lengths]
    length = ring.squared_norm(y["opening"])
    assert length == s.target_beta_squared == sum(row[-1] for row in margins), "the page says that nothing is left"
    assert fold.verdict(s._replace(target_beta_squared=length - 1), y) == ("failed", 9)
    named = {}
    for place in range(len(y["opening"])):
        moved = list(y["opening"])
        moved[place] += 1
        kind, number = fold.answer("verify", s, y | {"opening": moved})
        block = next(block for block, end in blocks(s) if place < end)
        named.setdefault((block, kind, number), 0)
        named[block, kind, number] += 1
    widened = sum(count for (_, kind, _), count in named.items() if kind == "refused")
    low = [y["opening"][place] for block in sizes.digit_places(s).values() for place in block[0]]
    assert widened == low.count(2) > 0 and all(number == 15 for _, kind, number in named if kind == "refused"), "the page says that these were 2"
    long_s, long_x, long_y = case.honest(case.TOO_LONG)
    other_z = add(*(times(e, slot[0]) for e, slot in zip(case.OTHER_C, slots)))
    assert times(a, other_z) == add(*(times(case.OTHER_C[i], t[i]) for i in range(3))) and times(other_z, other_z) == verifier.garbage_sum(s, y | {"c": fold.flat(case.OTHER_C)}, g)
    assert fold.message_1(s, case.lists(case.READINGS[::-1]))["u1"] == y["u1"]
    assert case.codes(case.SHORTER) == case.codes(case.READINGS)
    wide_s, wide_y = case.wide()
    wide_low, wide_high = (wide_y["opening"][case.WIDE_PLACE + at] for at in (0, s.n * s.d))
    wide_value = wide_low + wide_high * s.b
    assert wide_value == z[case.WIDE_PLACE] == y["opening"][case.WIDE_PLACE] and 2 * abs(wide_low) > s.b and not y["opening"][case.WIDE_PLACE + s.n * s.d]
    assert fold.verdict(wide_s, wide_y) == ("accepted", 10), "the page says that all nine checks hold"
    top = max(x for block in sizes.digit_places(s).values() for x in (y["opening"][place] for place in block[1]))
    assert [top, 0] == ring.element_digits(s.b1, s.t1, h[2, 2])[1] and 2 * top > s.b1, "the page says that h33 has it"

    return f"""# A class with one control unit

For people who know cars. You need to add, to multiply small numbers, and half an hour. Every number on this page was computed by a program
(tools/class/page.py), every message, verdict and sheet by the proved library too, and every step can be checked with a pencil.

![One control unit, three slots, two stored codes](pictures/class.svg)

## The unit

One control unit has three slots. The handheld reads two numbers in each, and the unit stores two codes.

{table(["", "first reading", "second reading"], [[f"slot {i + 1}", *slot] for i, slot in enumerate(case.READINGS)] + [["**stored code**", f"**{first_code}**", f"**{second_code}**"]])}

The service schedule asks three things:

- the first readings add up to the first code: {" + ".join(str(slot[0]) for slot in case.READINGS)} = {first_code};
- the second readings add up to the second code: {" + ".join(str(slot[1]) for slot in case.READINGS)} = {second_code};
- no reading is wild: the squares of all six add up to at most {s.beta_squared}: {" + ".join(f"{k}²" for slot in case.READINGS for k in slot)} = {s.beta_squared}.

After a year the six readings are deleted. What is kept is a sheet of other numbers. Thirty years later a program reads the sheet and says whether
the readings met the schedule. This page makes that sheet.

## Two numbers as one

The two readings of a slot are written as one *pair*, with X for "second place":

    s1 = {pair(s1)}        s2 = {pair(s2)}        s3 = {pair(s3)}

Pairs are added place by place. They are multiplied like sums in brackets, each piece of the left with each piece of the right, with one rule more: **X·X = -1**. So a product of two pairs is a
pair again.

    (1 + X)·({pair(s1)}) = 1·1 + 1·2X + X·1 + X·2X = 1 + 2X + X + 2·(X·X) = 1 + 3X - 2 = {pair(times([1, 1], s1))}

In a real unit a slot has up to 256 such things, of 64 readings each instead of two, and numbers start again when they are too large, as an odometer does, after q = 4294967197 of them. Here
they are too small for that.

## The codes as sums of products

Multiply a slot by 1, and its first reading stands first. Multiply it by -X, and its *second* reading stands first:

    -X·({pair(s1)}) = -X·1 - X·2X = -X - 2·(X·X) = -X + 2 = {pair(times(minus_x, s1))}

So each code is a sum of products, of which only the first place counts:

    1·s1 + 1·s2 + 1·s3 = {pair(add(s1, s2, s3))}            first place {first_code}: the first code
    -X·s1 - X·s2 - X·s3 = {pair(add(*(times(minus_x, e) for e in (s1, s2, s3))))}        first place {second_code}: the second code

These are the two *dot-product constraints* of the sheet: what must hold between the slots. What stands before the slots, here 1 and -X, is called φ (a Greek letter, say "fi").

## Five messages

Whoever has the readings, the *maker*, now makes five messages. Between them numbers are drawn that nobody could know before; in class, roll dice. Here they are
given, and small. The order is the trick: what is drawn late decides how the numbers that were fixed before are mixed, so nobody can choose them to suit.

### 1. Commit

Everybody knows A = {pair(a)}. The maker forms t = A·s for each slot (t1 is the product above), and g, every slot times every slot: g12 is s1·s2 =
{factor(s1)}·{factor(s2)} = {pair(times(s1, s2))}.

{table(["", *(f"slot {i + 1}" for i in range(3))], [["t = A·s", *(pair(e) for e in t)]])}

{table([name("g", i, j) for i, j in pairs(3)], [[pair(g[p]) for p in pairs(3)]])}

Numbers are cut into two digits, to base {s.b1}. The low digit is the one of -2, -1, 0, 1 and 2 that, taken away, leaves a multiple of {s.b1}; the high digit says how many fours are left. So 3 is
-1 + 1·{s.b1}: low digit -1, high digit 1. Where both 2 and -2 would do, take the one with an even high digit (0 is even): {two}, as in g23, is {both_ways(s.b1, two)};
{six}, as in h11 below, is {both_ways(s.b1, six)}. Each place of a pair is cut for itself: t1 = {pair(t[0])} has the low digits {pair(ring.element_digits(s.b1, s.t1, t[0])[0])} and the high digits {pair(ring.element_digits(s.b1, s.t1, t[0])[1])}. All t and g as digits, low; high:

{table([f"t{i + 1}" for i in range(3)] + [name("g", i, j) for i, j in pairs(3)], [[digits(s.b1, s.t1, e) for e in t] + [digits(s.b2, s.t2, g[p]) for p in pairs(3)]])}

The first message is one pair only, a fingerprint of all these digits. Everybody knows how often each digit counts (the sheet has these numbers as B and C):

{table(["digits", "added up", "count", "gives"], [[what, pair(total), pair(factor) + " times" if factor != [1, 0] else "once", pair(e)] for what, (factor, total, e) in zip(("t, low", "t, high", "g, low", "g, high"), first_print)])}

Together: **u1 = {pair(y["u1"])}**. The digits stay with the maker for now. With numbers as small as these one can find other digits with the same fingerprint; in a real unit nobody
knows how, and so they are fixed from here on.

### 2. Project

Two rows of -1, 0 and 1 are drawn, a number for each reading: two for slot 1, two for slot 2, two for slot 3. Each is multiplied with its reading, and all is added up. The readings are
{", ".join(str(k) for k in x["witness"])}:

{table(["drawn row", "times the readings", "p"], [[", ".join(str(k) for k in row), " ".join(("+ " if k > 0 else "- ") + str(value) for k, value in zip(row, x["witness"]) if k).removeprefix("+ "), p] for row, p in zip(rows, y["p"])])}

The second message is **p = {", ".join(str(k) for k in y["p"])}**. Wild readings would make p large: a sum with random signs is rarely small. About half of the numbers of a row are 0, so the square of
each p is about half of the squares of all readings together.

### 3. Add up five times

There are four things to hold to now: two codes and two values p. A row of message 2 can be written with φ like the codes, too: where a, b was drawn for a slot, a - bX stands before it, for
the first place of (a - bX) times a slot is a times its first reading plus b times its second. The first row gives

    1·s1 - 1·s2 - X·s3 = ({pair(s1)}) + ({pair(times([-1, 0], s2))}) + ({pair(times(minus_x, s3))}) = {pair(second_b[2])}        first place {y["p"][0]}: the first p

Five times numbers are drawn that say how often each code (ψ) and each row (ω) counts, and all is added up accordingly. In a real unit up to 32 codes and 256 rows become five sums in this way:

{table(["sum", "ψ: codes", "ω: rows", "before s1", "before s2", "before s3", "gives b''"], [[k + 1, ", ".join(str(v) for v in x["psi"][k * s.L : (k + 1) * s.L]), ", ".join(str(v) for v in x["omega"][k * s.w : (k + 1) * s.w]), *(pair(e) for e in second_phi[k]), pair(second_b[k])] for k in range(5)])}

Sum 5, for one, counts both codes and the first row once: ({pair(second_b[0])}) + ({pair(second_b[1])}) + ({pair(second_b[2])}) = {pair(second_b[4])}. The third message is the five values b'', both places.

### 4. One sum of all

Five more pairs δ are drawn, {", ".join(pair(e) for e in delta)}, and the five sums become one: δ times each, added. Before the slots stands now

    φ1 = {pair(phi[0])}        φ2 = {pair(phi[1])}        φ3 = {pair(phi[2])}

(φ1, down its column: {" + ".join(f"{factor(d)}·{factor(e[0])}" for d, e in zip(delta, second_phi) if any(d))} = {pair(phi[0])}), and the sum must give b, from the b'' in the same way:

    b = {" + ".join(f"{factor(d)}·{factor(e)}" for d, e in zip(delta, second_b) if any(d))} = {pair(fold.aggregate_constant(s, y))}

h holds what φ and the slots give: h11 = φ1·s1, and for two slots the half of both ways, h12 = (φ1·s2 + φ2·s1)/2. Below it its digits, low; high:

{table([name("h", i, j) for i, j in pairs(3)], [[pair(h[p]) for p in pairs(3)], [digits(s.b1, s.t1, h[p]) for p in pairs(3)]])}

The fourth message is the fingerprint of the h digits (the sheet has its numbers as D): the low ones, {pair(second_print[0][1])} together, count once, the high ones, {pair(second_print[1][1])} together, count
{pair(second_print[1][0])} times: ({pair(second_print[0][2])}) + ({pair(second_print[1][2])}), so **u2 = {pair(y["u2"])}**.

### 5. Fold

Last, one pair for each slot is drawn: c1 = {pair(c[0])}, c2 = {pair(c[1])}, c3 = {pair(c[2])}. The three slots are folded into one:

    z = c1·s1 + c2·s2 + c3·s3 = ({pair(times(c[0], s1))}) + ({pair(times(c[1], s2))}) + ({pair(times(c[2], s3))}) = {pair(z)}

The fifth message, the *opening*, is z, t, g and h in digits: {sizes.LENGTHS["opening"](s) // s.d} pairs, {sizes.LENGTHS["opening"](s)} numbers. z in digits: {digits(s.b, 2, z)}.

The sheet is not made to hide the readings: here one could work back from t to s. It is made to be short and hard to fake. A real unit has thousands of readings, and
its opening is far smaller than they are.

## The verdict

The verifier has the codes, all that was drawn, and the five messages. No readings. It makes nine checks, left side against right side, and names the first that fails:

{table(["check", "what", "left", "right"], [[k + 1, *cells] for k, cells in enumerate(checks)])}

(In check 6, "from the g" means g11·c1·c1 + g22·c2·c2 + g33·c3·c3 + 2·(g12·c1·c2 + g13·c1·c3 + g23·c2·c3); in check 7 the same with h.)

Why do they hold? z is c1·s1 + c2·s2 + c3·s3. So A·z is c1·A·s1 + c2·A·s2 + c3·A·s3, and A·s is t: that is check 5. Likewise z·z is every slot times every slot, with the c before it: check 6.
Whoever has no such readings would have to make up t, g and h before c is drawn, and z after it.

    ./verdict --words examples/class.sheet
{program_line("class")}

## How much was left

Check 9 is a budget. The squares of all {len(y["opening"])} digits may add up to at most the bound that stands on the sheet, here {s.target_beta_squared}. What they leave of it is the *margin*, the second number of an accepted sheet's line. With a
pencil: count in each block how many digits are 1 or -1, 2 or -2, and so on, and add up the squares.

{table(["digits", "how many", *(f"±{size}" if size else "0" for size in SIZES), "squares, added up"], margins + [["**all**", len(y["opening"]), *(sum(row[at] for row in margins) for at in range(2, 2 + len(SIZES))), f"**{length}**"]])}

    margin = {s.target_beta_squared} - ({" + ".join(str(row[-1]) for row in margins)}) = {s.target_beta_squared} - {length} = {s.target_beta_squared - length}

Nothing is left: this sheet's bound was set to just what its digits need. With a bound of {case.ROOMY} the same digits leave {case.ROOMY} - {length} = {case.ROOMY - length}:

    ./verdict --words examples/class-margin.sheet
{program_line("class-margin")}

Read it as you read a tread gauge: it says how much was left before the wear limit.

- A tyre just at the limit passes, and so does a margin of 0. Accepted is accepted; a small margin is not "nearly wrong". With one less than the digits need, a bound of {length - 1}, check 9 fails.
- The bound belongs to what is claimed. Whoever writes the schedule sets it, and a loose bound gives a large margin without making the readings any better. So compare margins under one bound only.
- It speaks of the length of the digits, not of the readings, and of no other check. The equations, checks 2 to 8, hold or they do not: there is no "nearly" in them.

## One changed digit

Somebody adds one to one digit in the archive. What does the program say?

{table(["changed", "verdict", "for so many digits"], [[f"a {block} digit", f"{kind} {number}", f"{count} of {total(block)}"] for (block, kind, number), count in named.items()])}

    ./verdict --words examples/class-changed-digit.sheet
{program_line("class-changed-digit")}

Those that are refused, {widened} of them, are low digits of 2, which become 3. The next section tells why.

## A digit that is too wide

A wheel of an odometer shows 0 to 9. One that shows 14 can still be read, as 4 and one carried; but nobody would write it. Here the wheels have signs: to base {s.b} a low digit goes from -2 to 2, from minus
half of the base to plus half. Both halves are allowed. To base 3 it goes from -1 to 1, since half of 3 is one and a half.

The top wheel, the high digit, is free: there is no wheel beyond it to carry to, so it shows whatever is left. The high digit of h33 is {top}, and that is right.

The second place of z is {wide_value}, which is {wide_value} + 0·{s.b}. A tool could also send {wide_low} + {wide_high}·{s.b}: it is {wide_value} again, and all nine checks hold. With the bound of {case.ROOMY} the margin would be {fold.verdict(wide_s, wide_y)[1]}. But the low digit {wide_low}
is beyond half of {s.b}, and the program turns the sheet away before it makes any check:

    ./verdict --words examples/class-wide-digit.sheet
{program_line("class-wide-digit")}

2 says refused, 15 says why: a low digit is more than half its base. It does not say that the readings were wrong; the garage wants one habit of writing digits, so that sheets can be read side by side.
Whoever still has the readings can make the sheet anew. Sheets from the archive are turned away alike.

## Readings that are too large

Now slot 1 reads {", ".join(str(k) for k in case.TOO_LONG[0])} and slot 3 reads {", ".join(str(k) for k in case.TOO_LONG[2])}. Both codes are still met: {" + ".join(f"({slot[0]})" if slot[0] < 0 else str(slot[0]) for slot in case.TOO_LONG)} = {case.codes(case.TOO_LONG)[0]} and {" + ".join(str(slot[1]) for slot in case.TOO_LONG)} = {case.codes(case.TOO_LONG)[1]}. But the squares add up to {ring.squared_norm(long_x["witness"])}, not {s.beta_squared}. The projection tells:
the rows give p = {", ".join(str(k) for k in long_y["p"])}, and 2·({" + ".join(f"{k}²" for k in long_y["p"])}) = {2 * ring.squared_norm(long_y["p"])} is above {s.w * s.beta_squared}. Check 1 fails.

    ./verdict --words examples/class-too-long.sheet
{program_line("class-too-long")}

{chain_section(chain_levels)}

## To try

1. Make z from other drawn pairs, say {", ".join(f"c{i + 1} = {pair(e)}" for i, e in enumerate(case.OTHER_C))}, and make checks 5 and 6 by hand.
2. Exchange the readings of slots 1 and 3. Both codes are met. Does u1 stay?
3. Find three slots that meet both codes, with squares that add up to less than {s.beta_squared}.
4. Open examples/class.sheet in an editor (docs/SHEET.md says where each list stands), change one number, and say before the program does which check will fail, or why it is refused.
5. In the same sheet, make the last number of the first line 150, keeping it in its columns. Which line will the program print? And with {length - 1}?
6. Which of these can be a low and a high digit to base {s.b}: 2 and 7, or -3 and 0, or -2 and -9? What number is each pair?
7. In the chain, the opening of level 1 has {chain_levels[0][2]} numbers, but level 2 folds {witness_numbers(chain_levels[1])}. What are the other {witness_numbers(chain_levels[1]) - chain_levels[0][2]}?

Answers. 1: z = {pair(other_z)}; check 5 has {pair(times(a, other_z))} on both sides, check 6 {pair(times(other_z, other_z))}. 2: It does, since on this page a digit counts alike
for all slots; in a real unit each digit has a number of its own. 3: For one,
{", ".join(f"{slot[0]} and {slot[1]}" for slot in case.SHORTER)}: the squares add up to {sum(k * k for slot in case.SHORTER for k in slot)}. 5: 0 {150 - length}, since 150 - {length} = {150 - length}; and 1 9. 6: The first, {recomposed(s.b, 2, 7)}, and the last, {recomposed(s.b, -2, -9)}; -3 and 0 are -3, but the low digit is too wide: 1 and -1 are the same number. 7: Zeros, which fill the slots of the t, g and h digits up to {chain_levels[1][1].n} pairs.
"""


def witness_numbers(level):
    """How many numbers a level folds."""
    _, s, _, _ = level
    return s.r * s.n * s.d


def chain_section(found):
    """The chain: what each level folds and what is sent in the end."""
    (_, first, opening, _), *_, (_, last, sent, _) = found
    rest = opening - 2 * first.n * first.d
    said = "\n".join("    " + line for line in levels.lines(found))
    return f"""## Fold the proof again

Six readings made a sheet of many more numbers: for so few, folding does not pay. With thousands it does. Here are {witness_numbers(found[0])} readings, in {first.r} slots (*parts*) of {first.n} pairs (*elements*) each. They become
z, one slot of {first.n} pairs, and with the digits of z, t, g and h the opening has {opening} numbers: {2 * first.n * first.d} for z low and z high, {rest} for the rest.

An opening is a heap of small numbers, and the checks ask for sums of them. That is what was folded in the first place. So the maker keeps the opening to himself, cuts it into slots and folds it as
if it were readings; and the next opening again. At each level he sends a few fingerprints, p and b''. Only the last opening is sent.

![How a proof shrinks level by level](pictures/chain.svg)

    python3 bindings/python/chain.py
{said}

The last level is sent *bare*: without fingerprints and without digits. t stands there as it is, z whole, and the products come in {last.r} turns, one slot at a time, each before the next c is drawn, so that
none depends on what is drawn later. It has seven checks, and its margin says how far z is below its bound. In the end an opening of {sent} numbers,
with what each level sends, stands for {witness_numbers(found[0])} readings: longer numbers than readings are, but far fewer. How much that proves is the paper's argument (docs/CALLS.md).

Two things to look at in the table. The margin is 0 everywhere, since each bound was set to just what is needed. And {first.n} is always cut without a rest, into one slot of {first.n} or {first.n // last.n} of {last.n}: z must fill its slots. Where a slot of z is filled up with zeros a cheat could put
other numbers there, and nobody would see it, since that opening is never sent (docs/CALLS.md).

In a real unit an element has 64 numbers: `python3 bindings/python/chain.py 64`. The programs need the library; bindings/python/README.md says how it is built."""


# The sizes of digits that occur on the page.
SIZES = range(5)


def size_row(block, numbers):
    """A block's name, how many digits it has, how many of each size, and the sum of their squares."""
    counts = [sum(abs(number) == size for number in numbers) for size in SIZES]
    assert sum(counts) == len(numbers)
    return [block, len(numbers), *counts, ring.squared_norm(numbers)]


def expected(s, x, y):
    """What the first places of the five sums must be: Σψ b' + Σω p."""
    constants = [b for _, b in fold.statement(s, x).constant_terms]
    return [
        sum(a * b for a, b in zip(x["psi"][k * s.L : (k + 1) * s.L], constants)) + sum(a * b for a, b in zip(x["omega"][k * s.w : (k + 1) * s.w], y["p"]))
        for k in range(5)
    ]


def recomposed(base, low, high):
    """The number of two digits, of which the low one is narrow."""
    assert ring.is_narrow(base, low)
    return ring.recompose(base, [low, high])


def blocks(s):
    """The opening's blocks with the place after each."""
    end = 0
    for block in ("z_digits", "t_digits", "g_digits", "h_digits"):
        end += sizes.LENGTHS[block](s)
        yield block[0], end


def program_line(wanted):
    """What ./verdict --words prints, without the sentence's end, from the second implementation's verdict."""
    for known, (kind, number), text in sheets():
        if known == wanted:
            assert sheet.judge(text) == (kind, number), (known, sheet.judge(text))
            found = {1: "the projection p is too long", 5: "A z is not the sum of the c_i t_i", 15: "a low digit is more than half its base"}
            said = {
                "accepted": f"accepted: all nine checks hold, margin {number}", "failed": f"failed: check {number}, {found.get(number)}",
                "refused": f"refused: {number}, {found.get(number)}",
            }[kind]
            return "    " + sheet.output_line((kind, number)).decode().rstrip("\n") + "  " + said
    raise KeyError(wanted)


def files():
    found = levels.named()
    yield "docs/CLASS.md", page(found).encode()
    yield "docs/pictures/class.svg", picture().svg().encode()
    yield "docs/pictures/chain.svg", levels.picture(found).svg().encode()
    for known, verdict, text in sheets():
        assert sheet.judge(text) == verdict, (known, sheet.judge(text))
        yield f"examples/{known}.sheet", text
        yield f"examples/{known}.verdict", sheet.output_line(verdict)


if __name__ == "__main__":
    if sys.argv[1:] == ["--library"]:
        import library

        library.compare(sheets())
    else:
        stored.write(files)
