"""The sizes of a fold and of the bare level, the lengths of a fold's lists, and where a call stops: SPECIFICATION 7.

Every list is flat: numbers one after another in the order of the sheet. Quotations are from docs/SPECIFICATION.md.
"""

from collections import namedtuple

from ring import DEGREES, are_projection_entries, in_range, is_challenge, is_narrow

# "Header: d n r K L w κ κ1 κ2 b b1 b2 t1 t2 ν μ β² β'²." And tz, the number of z digits: "z has two, or one (3.6)". "With one, b is neither taken nor
# tested", so any b may stand there.
Sizes = namedtuple(
    "Sizes",
    "d n r K L w kappa kappa1 kappa2 b b1 b2 t1 t2 nu mu beta_squared target_beta_squared tz",
    defaults=(2,),
)

HEADER = Sizes._fields[: Sizes._fields.index("tz")]


def header_numbers(s):
    """The numbers of the header. "The sheet keeps two digits (10)", so that tz is none of them."""
    return [getattr(s, name) for name in HEADER]



class BareSizes(namedtuple("BareSizes", "d n r K L w kappa beta_squared z_bound turn", defaults=(1,))):
    """The sizes of the bare level, and the number of a turn: "There are no κ1, κ2, bases or digit counts .. and no target bound." """

    # "z whole": no call of the bare level takes a base of z
    tz = 1


# "Five is the count, since q^4 < 2^128."
AGGREGATES = 5

# Row 6: "β², β'² or the bound on z negative or above 999999999999999".
LARGEST_BOUND = 999999999999999

# Row 11: "n' above 256 (next instance only)".
LARGEST_RANK = 256


def pairs(r):
    """The pairs i <= j, by i, then j (from 0): "a_ij for i ≤ j (each pair counted once)"."""
    return [(i, j) for i in range(r) for j in range(i, r)]


def pair_count(r):
    """The number of pairs i <= j: "(r²+r)/2"."""
    return (r * r + r) // 2


def rounded_up(x, y):
    """x/y, "rounded up"."""
    return (x + y - 1) // y


# The next instance's sizes

def tail_rank(s):
    """ "m = rκt1 + (r²+r)/2 · (t1+t2)." """
    return s.r * s.kappa * s.t1 + pair_count(s.r) * (s.t1 + s.t2)


def z_chunk(s):
    """ "z low and z high are cut into ν chunks each of n/ν elements", rounded up. "With one z digit z is cut so, into ν chunks." """
    return rounded_up(s.n, s.nu)


def tail_chunk(s):
    """ "the rest into μ chunks of m/μ elements", rounded up."""
    return rounded_up(tail_rank(s), s.mu)


def next_rank(s):
    """ "n' is the larger of the two". """
    return max(z_chunk(s), tail_chunk(s))


def next_multiplicity(s):
    """ "r' = 2ν+μ, with one z digit r' = ν+μ". """
    return s.tz * s.nu + s.mu


def next_constraint_count(s):
    """ "K' = κ+κ1+κ2+3". """
    return s.kappa + s.kappa1 + s.kappa2 + 3


# Lengths

def function_length(d, n, r):
    """ "a (by i, then j), φ (by part)". """
    return (pair_count(r) + r * n) * d


def whole_constraint_length(d, n, r):
    """ "each whole constraint as a (by i, then j), φ (by part), b". """
    return function_length(d, n, r) + d


def constant_term_constraint_length(d, n, r):
    """ "each constant-term one likewise, its b a line of one field". """
    return function_length(d, n, r) + 1


# The count of numbers of each list. The lists of the sheet stand first, in its order: "A, B, C, D by rows; each whole
# constraint ..; each constant-term one ..; u1; projection rows (by row, then part); p, ψ, ω ..; b''; α; δ; u2; c; the opening."
LENGTHS = {
    "a_matrix": lambda s: s.kappa * s.n * s.d,
    "b_matrix": lambda s: s.kappa1 * LENGTHS["t_digits"](s),
    "c_matrix": lambda s: s.kappa1 * LENGTHS["g_digits"](s),
    "d_matrix": lambda s: s.kappa2 * LENGTHS["h_digits"](s),
    "whole": lambda s: s.K * whole_constraint_length(s.d, s.n, s.r),
    "constant_terms": lambda s: s.L * constant_term_constraint_length(s.d, s.n, s.r),
    "u1": lambda s: s.kappa1 * s.d,
    "projections": lambda s: s.w * s.r * s.n * s.d,
    "p": lambda s: s.w,
    "psi": lambda s: AGGREGATES * s.L,
    "omega": lambda s: AGGREGATES * s.w,
    "second_b": lambda s: AGGREGATES * s.d,
    "alpha": lambda s: s.K * s.d,
    "delta": lambda s: AGGREGATES * s.d,
    "u2": lambda s: s.kappa2 * s.d,
    "c": lambda s: s.r * s.d,
    "opening": lambda s: LENGTHS["z_digits"](s) + tail_rank(s) * s.d,
    "witness": lambda s: s.r * s.n * s.d,
    "z_digits": lambda s: s.tz * s.n * s.d,
    "t_digits": lambda s: s.r * s.t1 * s.kappa * s.d,
    "g_digits": lambda s: pair_count(s.r) * s.t2 * s.d,
    "h_digits": lambda s: pair_count(s.r) * s.t1 * s.d,
    "next_whole": lambda s: next_constraint_count(s)
    * whole_constraint_length(s.d, next_rank(s), next_multiplicity(s)),
}

SHEET_LISTS = tuple(LENGTHS)[: tuple(LENGTHS).index("opening") + 1]


# The digits of the opening

# A block of it: its base, how many values it has, how many digits a value has, and how many numbers a digit of a value has.
Block = namedtuple("Block", "base values digits width")


def digit_blocks(s):
    """ "z low, z high, with one digit z; t by part, then digit, then row; g and h by i, then j, then digit." "B is b for z low, b1 for the t and h
    digits, b2 for the g digits." The blocks by name, in the opening's order.
    """
    P = pair_count(s.r)
    return {
        "z": Block(s.b, 1, s.tz, s.n * s.d), "t": Block(s.b1, s.r, s.t1, s.kappa * s.d), "g": Block(s.b2, P, s.t2, s.d), "h": Block(s.b1, P, s.t1, s.d),
    }


def digit_places(s):
    """For each block its places in the opening as two lists: those of low digits, and those of top digits, "The top digit of each value (z high; the
    last of the t1 digits of t and of h, the last of the t2 digits of g)". "Where z has one digit, that is its top digit."
    """
    places, start = {}, 0
    for name, (_, values, digits, width) in digit_blocks(s).items():
        low, top = [], []
        for _ in range(values):
            low += range(start, start + (digits - 1) * width)
            top += range(start + (digits - 1) * width, start + digits * width)
            start += digits * width
        places[name] = (low, top)
    return places


# Refusals

# What each call takes: sizes; lists whose numbers it reads, in the order of the library's arguments; lists of which only the length
# counts (those it writes, and the opening in the question of a part). "a call tests only what it takes".
Call = namedtuple("Call", "sizes reads lengths_only")

CALLS = {
    "message_1": Call(
        "d n r kappa kappa1 b1 b2 t1 t2".split(),
        "a_matrix b_matrix c_matrix witness".split(),
        "t_digits g_digits u1".split(),
    ),
    "message_2": Call("d n r w".split(), "projections witness".split(), ["p"]),
    "message_3": Call(
        "d n r L w".split(),
        "constant_terms projections psi omega witness".split(),
        ["second_b"],
    ),
    "message_4": Call(
        "d n r K L w kappa2 b1 t1".split(),
        "whole constant_terms projections psi omega alpha delta d_matrix witness".split(),
        "h_digits u2".split(),
    ),
    "message_5": Call("d n r b".split(), "c witness".split(), ["z_digits"]),
    "verify": Call(
        [name for name in HEADER if name not in ("nu", "mu")],
        list(SHEET_LISTS),
        [],
    ),
    "next_instance": Call(
        list(HEADER),
        [name for name in SHEET_LISTS if name != "opening"],
        ["next_whole"],
    ),
    "next_part": Call("d n r kappa t1 t2 nu mu".split(), [], ["opening"]),
}


def size_refusal(taken, s, part=None):
    """Rows 1 to 6, over the sizes named in `taken` and, if one is asked for, the part; 0 if none applies."""

    def outside(names, low, high):
        return any(not low <= getattr(s, name) <= high for name in names.split() if name in taken)

    # 1: "d not listed"
    if "d" in taken and s.d not in DEGREES:
        return 1
    # 2: "n not 1..256, r not 1..16, K or L not 0..32, w not 0..256, a part or turn number outside its range"
    if outside("n", 1, 256) or outside("r", 1, 16) or outside("K L", 0, 32) or outside("w", 0, 256):
        return 2
    # "Turn i, from 1 to r"
    if "turn" in taken and not 1 <= s.turn <= s.r:
        return 2
    # "(2 for a part outside 1..r')"
    if part is not None and not 1 <= part <= next_multiplicity(s):
        return 2
    # 3: "κ, κ1 or κ2 not 1..8"
    if outside("kappa kappa1 kappa2", 1, 8):
        return 3
    # 4: "b, b1, b2 not 2..65536; t1, t2 not 2..8"; with one z digit "row 4 tests b1, b2, t1 and t2 alone"
    if outside("b b1 b2" if s.tz == 2 else "b1 b2", 2, 65536) or outside("t1 t2", 2, 8):
        return 4
    # 5: "ν or μ below 1, 2ν+μ above 16; with one z digit ν+μ above 16"
    if "nu" in taken and (s.nu < 1 or s.mu < 1 or next_multiplicity(s) > 16):
        return 5
    # 6: "β², β'² or the bound on z negative or above 999999999999999"
    if outside("beta_squared target_beta_squared z_bound", 0, LARGEST_BOUND):
        return 6
    return 0


def number_refusal(s, lists):
    """Rows 8 to 10, over the given lists of numbers; 0 if none applies."""
    # 8: "coefficient, or other number modulo q, out of range"
    if not all(in_range(numbers) for numbers in lists.values()):
        return 8
    # 9: "projection entry not -1, 0, 1"
    if "projections" in lists and not are_projection_entries(lists["projections"]):
        return 9
    # 10: "challenge outside the rule (5.1)"
    challenges = lists.get("c", []) + lists.get("earlier_c", [])
    if not all(is_challenge(challenges[k : k + s.d]) for k in range(0, len(challenges), s.d)):
        return 10
    return 0


def is_wide(s, opening):
    """Row 15: "the absolute value of a low digit is more than half its base (verifier only)"."""
    blocks = digit_blocks(s)
    return not all(is_narrow(blocks[name].base, opening[place]) for name, (low, _) in digit_places(s).items() for place in low)


def refusal(call, s, lists, part=None):
    """The number of the row by which the call is refused, 0 if by none: "Lowest number first; a call tests only what it takes."

    `lists` holds lists by name. A list that the call writes may be left out; then its length is taken to be right.
    """
    taken = CALLS[call]
    number = size_refusal(taken.sizes, s, part)
    if number:
        return number
    # 7: "a slice's length is not what the sizes give"
    for name in taken.reads + [name for name in taken.lengths_only if name in lists]:
        if len(lists[name]) != LENGTHS[name](s):
            return 7
    number = number_refusal(s, {name: lists[name] for name in taken.reads})
    if number:
        return number
    # 11: "n' above 256 (next instance only)"
    if call == "next_instance" and next_rank(s) > LARGEST_RANK:
        return 11
    # 15: "the absolute value of a low digit is more than half its base (verifier only)"; "The row counts after 10 and before every check."
    if call == "verify" and is_wide(s, lists["opening"]):
        return 15
    return 0
