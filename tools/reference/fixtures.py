"""Cases for the tests and for the writers of stored cases: the whole case of SPECIFICATION 12.4, random and honest ones, and changes to them.

`s` is a Sizes, `x` the lists of a prover by name, `y` those of a verifier. The order in which a function draws from `rng` is part of the
stored cases.
"""

from contextlib import contextmanager

import fold
import ring
import sheet
import sizes
from sizes import LARGEST_BOUND, LENGTHS, Sizes

# Answers

def accepted(margin):
    return ("accepted", margin)


def failed(check):
    return ("failed", check)


def refused(number):
    return ("refused", number)


# Sizes

# The largest bounds: neither check 1 nor check 9 fails on short numbers.
OPEN = {"beta_squared": LARGEST_BOUND, "target_beta_squared": LARGEST_BOUND}

# The smallest sizes of a statement with a constraint.
SMALL = Sizes(d=2, n=1, r=1, K=1, L=0, w=0, kappa=1, kappa1=1, kappa2=1, b=4, b1=65536, b2=16, t1=2, t2=2, nu=1, mu=1, **OPEN)

BASES = (2, 3, 4, 5, 7, 16, 255, 256, 65535, 65536)


# The whole case of SPECIFICATION 12.4

WHOLE_CASE = (
    "2 1 1 1 0 0 1 1 1 4 8 4 2 2 1 1 5 13 / 1 0 / 1 0 / 0 0 / 1 0 / 0 0 / 1 0 / 1 0 / 1 0 / 0 0 / -3 4 / 2 2 / "
    "five lines 0 0 / 1 0 / five lines 0 0 / 0 0 / 0 1 / -2 1 / 0 0 / 1 2 / 0 0 / 1 0 / -1 1 / 0 0 / 0 0"
)


def whole_case_text(target_beta_squared=13):
    """The whole case as a sheet."""
    lines = []
    for line in WHOLE_CASE.split(" / "):
        times = 5 if line.startswith("five lines") else 1
        lines += [[int(word) for word in line.removeprefix("five lines ").split()]] * times
    lines[0] = lines[0][:-1] + [target_beta_squared]
    return b"".join(sheet.line_text(line) for line in lines)


def whole_case():
    """The whole case, read."""
    kind, (s, y) = sheet.read_sheet(whole_case_text())
    assert kind == "read"
    return s, y


# Draws

def random_sizes(rng):
    """Small sizes, none refused, every size at its least value now and then."""
    return Sizes(
        d=rng.choice((2, 2, 4, 8)), n=rng.choice((1, 2, 3, 4, 7)), r=rng.randint(1, 3), K=rng.randint(0, 2), L=rng.randint(0, 2),
        w=rng.randint(0, 3), kappa=rng.randint(1, 2), kappa1=rng.randint(1, 2), kappa2=rng.randint(1, 2),
        b=rng.choice(BASES), b1=rng.choice(BASES), b2=rng.choice(BASES), t1=rng.choice((2, 2, 3, 8)), t2=rng.choice((2, 2, 3, 8)),
        nu=rng.randint(1, 4), mu=rng.randint(1, 5), **OPEN,
    )


def uniform(rng, most, count):
    """Numbers from -most to most."""
    return [rng.randint(-most, most) for _ in range(count)]


def coefficient(rng):
    """Any coefficient; the ends of the range and small ones more often."""
    return rng.choice(
        (rng.randint(-ring.LARGEST, ring.LARGEST), rng.randint(-3, 3), rng.choice((-ring.LARGEST, ring.LARGEST)))
    )


def coefficients(rng, count):
    return [coefficient(rng) for _ in range(count)]


def counted(rng, d, twos, ones):
    """So many coefficients ±2 and ±1 of d, the rest 0, in random order."""
    c = [rng.choice((-2, 2)) for _ in range(twos)] + [rng.choice((-1, 1)) for _ in range(ones)] + [0] * (d - twos - ones)
    rng.shuffle(c)
    return c


def counted_challenge(rng, d):
    """A challenge of degree 64: the right counts, shuffled."""
    return counted(rng, d, ring.CHALLENGE_TWOS, ring.CHALLENGE_ONES)


def short_challenge(rng, d):
    """A challenge by the rule of the smaller degrees, drawn again until it passes."""
    while True:
        c = uniform(rng, ring.CHALLENGE_COEFFICIENT, d)
        if ring.is_short_challenge(c):
            return c


# How `challenge` draws at degree 64.
draw_at_64 = counted_challenge


@contextmanager
def kept_draws():
    """Within it challenges of degree 64 are drawn by the rule of the smaller degrees, as they were for the stored cases that are kept, so
    that these stay byte for byte.
    """
    global draw_at_64
    outside, draw_at_64 = draw_at_64, short_challenge
    try:
        yield
    finally:
        draw_at_64 = outside


def challenge(rng, d):
    """A challenge by the rule of SPECIFICATION 5.1."""
    return draw_at_64(rng, d) if d == ring.COUNTED_DEGREE else short_challenge(rng, d)


def challenges(rng, s):
    """c_1..c_r."""
    return fold.flat(challenge(rng, s.d) for _ in range(s.r))


# Both sides of the rule for challenges

# Zeros, ones and twos at degree 64: one more of one of them and one less of another; squared length 71 by other counts.
MOVED_COUNTS = ((24, 30, 10), (22, 32, 10), (24, 31, 9), (22, 31, 11), (23, 32, 9), (23, 30, 11))
COUNTS_OF_71 = ((20, 35, 9), (26, 27, 11), (32, 19, 13), (44, 3, 17))
FEW_COUNTS = ((22, 32, 10), (23, 30, 11), (20, 35, 9), (44, 3, 17))


def in_place_of(c, size, number):
    """The list with another number in place of its first of this absolute value."""
    place = [abs(x) for x in c].index(size)
    return c[:place] + [number] + c[place + 1 :]


def sides_at_64(rng, few):
    """Lists of 64 numbers: name, whether it is a challenge, the list."""
    c = challenge(rng, 64)
    yield "drawn", True, c
    yield "c = 0", False, ring.zero(64)
    for zeros, ones, twos in FEW_COUNTS if few else MOVED_COUNTS + COUNTS_OF_71:
        yield f"{zeros} zeros, {ones} ones, {twos} twos", False, counted(rng, 64, twos, ones)
    for size, number in ((2, 3),) if few else ((2, 3), (2, -3), (1, 3), (0, -3)):
        yield f"{number} in place of a {size}", False, in_place_of(c, size, number)
    if not few:
        yield "only +1 and +2", True, [abs(x) for x in c]
        yield "only -1 and -2", True, [-abs(x) for x in c]


def two_at_64(rng):
    """The same for two lists, one after the other: both drawn; the first or the last with other counts, by which it passes the rule of the smaller
    degrees.
    """
    first, last = challenge(rng, 64), challenge(rng, 64)
    yield "both drawn", True, first + last
    yield "the first with 24 zeros, 30 ones", False, counted(rng, 64, 10, 30) + last
    yield "the last with 32 ones, 9 twos", False, first + counted(rng, 64, 9, 32)


def sides_at_32(rng):
    """The same for lists of 32 numbers."""
    yield "squared length 71", True, counted(rng, 32, 17, 3)
    yield "squared length 72", False, counted(rng, 32, 18, 0)
    yield "c = 0", True, ring.zero(32)
    yield "32 ones", True, counted(rng, 32, 0, 32)


def sides_of_challenges(rng, few=False):
    """Both sides of SPECIFICATION 5.1: name, d and r, whether the rule takes c, and c; `few` of them where a case is long."""
    for shape, sides in (
        ({"d": 64, "r": 1}, sides_at_64(rng, few)), ({"d": 64, "r": 2}, two_at_64(rng)), ({"d": 32, "r": 1}, sides_at_32(rng)),
    ):
        for name, taken, c in sides:
            yield f"d = {shape['d']}, {name}", shape, taken, c


# Lists of a prover

def with_constraints(s, x, draw):
    """The lists with constraints that the witness meets: `draw(count)` gives the numbers of a and φ, the constant is their value."""
    x = dict(x)
    parts = fold.parts(s, x["witness"])
    for name, count, constants in (("whole", s.K, s.d), ("constant_terms", s.L, 1)):
        x[name] = []
        for _ in range(count):
            function = draw(sizes.function_length(s.d, s.n, s.r))
            x[name] += function + fold.value(s.d, fold.read_function(s.d, s.n, s.r, function), parts)[:constants]
    assert fold.meets(fold.statement(s, x), parts)
    return x


def random_lists(rng, s, short_witness):
    """Random lists: matrices, draws, a witness, and constraints that it meets."""
    names = "a_matrix b_matrix c_matrix d_matrix psi omega alpha delta".split()
    x = {name: coefficients(rng, LENGTHS[name](s)) for name in names}
    x["projections"] = uniform(rng, 1, LENGTHS["projections"](s))
    x["c"] = challenges(rng, s)
    x["witness"] = uniform(rng, 2 if short_witness else ring.LARGEST, LENGTHS["witness"](s))
    return with_constraints(s, x, lambda count: coefficients(rng, count))


def short_lists(rng, s):
    """A prover's lists of short numbers."""
    names = "a_matrix b_matrix c_matrix d_matrix psi omega alpha delta witness".split()
    x = {name: uniform(rng, 9, LENGTHS[name](s)) for name in names}
    x["projections"] = uniform(rng, 1, LENGTHS["projections"](s))
    x["c"] = challenges(rng, s)
    return with_constraints(s, x, lambda count: uniform(rng, 9, count))


# Bounds

def bounded(bound):
    """The bound, moved into row 6's limits."""
    return min(max(bound, 0), LARGEST_BOUND)


def least_beta_squared(s, y):
    """The least β² under which check 1 holds."""
    return sizes.rounded_up(2 * ring.squared_norm(y["p"]), s.w) if s.w else 0


def least_bounds(s, y):
    """The sizes with the least bounds under which checks 1 and 9 hold."""
    return s._replace(
        beta_squared=bounded(least_beta_squared(s, y)), target_beta_squared=bounded(ring.squared_norm(y["opening"]))
    )


# Both sides of the target bound

def sides_of_the_target(s, y):
    """The target bound one below the squared length of all digits, at it, one above it, and the largest: the answer to an honest opening, and the sizes."""
    length = ring.squared_norm(y["opening"])
    for bound in (length - 1, length, length + 1, LARGEST_BOUND):
        yield failed(9) if bound < length else accepted(bound - length), s._replace(target_beta_squared=bound)


# Honest runs

def honest(rng, s, **given):
    """Least bounds and the verifier's lists for a random short witness and random draws; `given` lists stand in their place."""
    y = fold.honest(s, random_lists(rng, s, True) | given)
    return least_bounds(s, y), y


def honest_case(rng, **given):
    """Sizes with bounds near those that decide, the prover's lists, the verifier's lists; `given` sizes stand in their place."""
    s = random_sizes(rng)._replace(**given)
    x = random_lists(rng, s, rng.random() < 0.7)
    y = fold.honest(s, x)
    least, length = least_beta_squared(s, y), ring.squared_norm(y["opening"])
    s = s._replace(
        beta_squared=bounded(rng.choice((least - 1, least, least, LARGEST_BOUND))),
        target_beta_squared=bounded(rng.choice((length - 1, length, length, LARGEST_BOUND))),
    )
    return s, x, y


# The whole case by its target bound: the worked values, and the widest margin of it.
WHOLE_CASE_SIDES = {12: failed(9), 13: accepted(0), 20: accepted(7), LARGEST_BOUND: accepted(999999999999986)}

# Three parts, every list with numbers.
SEVERAL_PARTS = SMALL._replace(n=2, r=3, L=1, w=2, kappa=2, nu=1, mu=3)


def margin_sides(rng, several=SEVERAL_PARTS):
    """The whole case and an honest run of several parts under target bounds on both sides of their squared length: name, answer, sizes, lists."""
    s, y = whole_case()
    if several.tz == 1:
        # its z has the high digit 0, so that the opening is the same without it
        y |= {"opening": y["opening"][:2] + y["opening"][4:]}
    for bound, answer in WHOLE_CASE_SIDES.items():
        yield f"whole case, β'² = {bound}", answer, s._replace(target_beta_squared=bound, tz=several.tz), y
    y = fold.honest(several, short_lists(rng, several))
    assert all(any(fold.flat(block)) for block in fold.read_opening(several, y) if block), "a block of zeros counts for nothing"
    for answer, s in sides_of_the_target(several, y):
        yield f"several parts, β'² = {s.target_beta_squared}", answer, s, y


# Changes

def replaced(y, name, place, number):
    """The lists with another number at a place of one of them."""
    numbers = list(y[name])
    numbers[place] = number
    return y | {name: numbers}


def moved(y, name, place, by=1):
    """The lists with `by` added at a place of one of them."""
    return replaced(y, name, place, ring.centred(y[name][place] + by))


def block_starts(s):
    """Where the digits of t, g and h start in the opening."""
    t = LENGTHS["z_digits"](s)
    g = t + LENGTHS["t_digits"](s)
    return t, g, g + LENGTHS["g_digits"](s)


def with_commitments(s, y):
    """The lists with u1 and u2 formed from the opening as it is."""
    o = fold.read_opening(s, y)
    u1 = fold.flat(fold.first_outer_commitment(s, y, o.t_digits, o.g_digits))
    return y | {"u1": u1, "u2": fold.flat(fold.second_outer_commitment(s, y, o.h_digits))}


def check_faults(rng, **given):
    """Sizes and lists that are accepted, and for checks 1 to 8 a change of one list by which it fails alone; `given` sizes stand in their place."""
    s = random_sizes(rng)._replace(
        d=4, n=2, r=2, K=1, L=1, w=1, kappa=1, kappa1=1, kappa2=1, b=16, b1=65536, t1=2, b2=16, t2=2, target_beta_squared=LARGEST_BOUND
    )._replace(**given)
    x = random_lists(rng, s, True)
    one = ring.one(s.d)
    x |= {"psi": [1] * 5, "omega": [1] * 5, "alpha": one, "delta": one * 5, "c": one * s.r}
    x |= {name: [0] * len(x[name]) for name in ("b_matrix", "c_matrix", "d_matrix")}
    y = fold.honest(s, x)
    t, g, h = block_starts(s)
    places = {2: ("second_b", 0), 3: ("u1", 0), 4: ("u2", 0), 5: ("opening", t), 6: ("opening", g), 7: ("opening", h), 8: ("whole", -1)}
    faults = {1: {"p": [ring.LARGEST]}}
    faults |= {check: {name: moved(y, name, place)[name]} for check, (name, place) in places.items()}
    return s._replace(beta_squared=2 * y["p"][0] ** 2), y, faults
