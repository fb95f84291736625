"""The stored input and output of the test program of the ring layer, crates/ring_cases.

Input: one case a line, decimal integers parted by single blanks, first the operation's number, then its arguments.
Output: one line a case, the results parted by single blanks. A result of yes or no is 1 or 0.
Elements given to operations 2 to 8 and 12 are any signed 32-bit numbers, and the results are those modulo q, centred.
Operation 19 is the product for C: `d x[64] y[64]`. Its results are the answer's kind (2 refused, 3 written) and number, and the sixty-four
numbers of the product, which are zero where it is refused: 1 where d is not listed, 8 where a number is out of range or not zero past d.
"""

import random

import ring
import stored
from fixtures import BASES, challenge, counted, sides_of_challenges, uniform
from relation import cut, elements, flat
from ring import DEGREES, LARGEST

COUNTS = range(2, 9)

LEAST_I32, LARGEST_I32 = -(2**31), 2**31 - 1
LEAST_I64, LARGEST_I64 = -(2**63), 2**63 - 1

# The program's room
LARGEST_INPUT_BYTES = 262144
LARGEST_LINE_NUMBERS = 2048
LARGEST_RESULTS = 512


# Operations: the results of one case from its arguments

def on_two_elements(operation):
    """`d a[d] b[d]`"""
    return lambda d, *numbers: operation(numbers[:d], numbers[d:])


def on_one_element(operation):
    """`d a[d]`"""
    return lambda d, *numbers: operation(numbers)


def inner_product(d, n, *numbers):
    """`d n u[n*d] v[n*d]`"""
    return ring.inner_product(d, elements(d, numbers[: n * d]), elements(d, numbers[n * d :]))


def element_digits(d, base, count, *a):
    """`d B t a[d]`, the lowest digit's d numbers first."""
    return flat(ring.element_digits(base, count, a))


ELEMENT = 64


def fits(d, x):
    """Sixty-four numbers are an element of degree d."""
    return ring.in_range(x) and ring.zero_past_degree(d, x)


def c_product(d, *numbers):
    """`d x[64] y[64]`"""
    x, y = cut(numbers, ELEMENT)
    refusal = 1 if d not in DEGREES else 0 if fits(d, x) and fits(d, y) else 8
    if refusal:
        return stored.answer_numbers(("refused", refusal)) + [0] * ELEMENT
    return stored.answer_numbers(("written", None)) + padded(ring.multiply(x[:d], y[:d]))


def padded(numbers):
    """An element's numbers, and zeros after them."""
    return list(numbers) + [0] * (ELEMENT - len(numbers))


OPERATIONS = {
    1: lambda x: [ring.centred(x)],
    2: on_two_elements(ring.add),
    3: on_two_elements(ring.subtract),
    4: on_one_element(ring.negate),
    5: on_two_elements(ring.multiply),
    6: on_one_element(ring.conjugate),
    7: lambda d, number, *a: ring.scale(number, a),
    8: on_one_element(ring.half),
    9: lambda base, count, x: ring.digits(base, count, x),
    10: element_digits,
    11: lambda base, count, *digits: [ring.recompose(base, digits)],
    12: inner_product,
    13: lambda n, *x: [int(ring.in_range(x))],
    14: lambda n, *x: [int(ring.are_projection_entries(x))],
    15: lambda d, *c: [int(ring.is_challenge(c))],
    16: lambda bound, n, *x: [int(ring.squared_norm(x) <= bound)],
    17: lambda bound, n, m, *xy: [int(ring.squared_norm(xy) <= bound)],
    18: lambda d, *a: [ring.constant_term(a)],
    19: c_product,
}


# Cases

def coefficients(rng, count):
    """Numbers in the coefficient range."""
    return uniform(rng, LARGEST, count)


def small(rng, count):
    """Numbers from -9 to 9."""
    return uniform(rng, 9, count)


def ends(rng, count):
    """Both ends of the coefficient range."""
    return [rng.choice((-LARGEST, LARGEST)) for _ in range(count)]


def any_numbers(rng, count):
    """Any signed 32-bit numbers, those just outside the coefficient range and the ends of the type more often."""
    edges = (LEAST_I32, LARGEST_I32, LARGEST + 1, -LARGEST - 1)
    return [rng.choice(edges) if rng.random() < 0.5 else rng.randint(LEAST_I32, LARGEST_I32) for _ in range(count)]


def constant(number):
    """The same number everywhere."""
    return lambda rng, count: [number] * count


def centring_cases(rng):
    """Operation 1."""
    q = ring.Q
    values = [0, 1, -1, LARGEST, LARGEST + 1, LARGEST + 2, -LARGEST, -LARGEST - 1, q, -q, 2 * q, 65536**2, 2**32, 2**31]
    values += [k * q + e for k in (-2147483694, -65536, -1, 1, 65536, 2147483694) for e in (LARGEST, LARGEST + 1, -1, 1)]
    values += [LEAST_I64, LEAST_I64 + 1, LARGEST_I64, LARGEST_I64 - 1, LARGEST**2, -(LARGEST**2), LEAST_I32, LARGEST_I32]
    values += [rng.randint(LEAST_I64, LARGEST_I64) for _ in range(40)]
    return [(1, x) for x in values]


def element_cases(rng):
    """Operations 2 to 8, over every degree."""
    cases = [(5, 2, 1, 2, 1, 2), (5, 2, 0, 1, 0, 1), (6, 4, 1, 2, 3, 4), (8, 2, 1, 0), (7, 2, 65536, 65536, 0)]
    kinds = (small, coefficients, ends, any_numbers, constant(LARGEST), constant(LEAST_I32))
    numbers = (LEAST_I32, LARGEST_I32, LARGEST + 1, 0, 1, -1, 2, 65536)
    for d in DEGREES:
        for kind in kinds:
            for operation in (2, 3, 5):
                if d < 64 or kind in (coefficients, any_numbers) or operation == 5:
                    cases.append((operation, d, *kind(rng, d), *kind(rng, d)))
        for kind in (coefficients, any_numbers):
            for operation in (4, 6, 8):
                cases.append((operation, d, *kind(rng, d)))
            cases.append((7, d, rng.randint(LEAST_I32, LARGEST_I32), *kind(rng, d)))
        power = [0] * d
        power[d - 1] = 1
        cases.append((5, d, *power, *power))
    for number in numbers:
        cases.append((7, 4, number, *coefficients(rng, 4)))
        cases.append((7, 2, number, *any_numbers(rng, 2)))
    for number in (0, 1, 2, -1, LARGEST, -LARGEST, LEAST_I32, LARGEST_I32, LARGEST + 1, -LARGEST - 1):
        for operation in (4, 6, 8):
            cases.append((operation, 2, number, number))
    return cases


def digit_cases(rng):
    """Operations 9, 10 and 11, over every base and count of digits."""
    cases = [(9, 4, 2, -3), (9, 4, 2, 2), (9, 4, 2, -2), (9, 4, 2, 6)]
    for base in BASES:
        halves = [base // 2, -(base // 2), base // 2 - 1, -(base // 2) - 1, (base + 1) // 2, base + base // 2, -base - base // 2]
        high_half = [sign * (base // 2) * base**k for sign in (1, -1) for k in range(1, 8)]
        values = halves + [x for x in high_half if ring.in_range([x])] + [base, -base, 0, 1, -1]
        for count in COUNTS:
            chosen = [LARGEST, -LARGEST] + rng.sample(values, 5) + coefficients(rng, 2)
            if count == 2:
                chosen += values
            cases += [(9, base, count, x) for x in chosen]
            cases.append((11, base, count, *coefficients(rng, count)))
            cases.append((11, base, count, *ring.digits(base, count, rng.choice((LARGEST, -LARGEST)))))
            cases.append((11, base, count, *ends(rng, count)))
    for d, base, count in zip(DEGREES, (2, 3, 255, 256, 65535, 65536), (8, 2, 5, 4, 3, 2), strict=True):
        cases.append((10, d, base, count, *coefficients(rng, d)))
        cases.append((10, d, base, count, *ends(rng, d - 1), base // 2))
    return cases


def half_cases():
    """Operations 9 and 10 on ±B/2, ±3B/2 and ±B²/2, for odd B rounded toward 0, and on both ends of the range."""
    cases = []
    for base in (2, 3, 4, 6, 255, 256, 65535, 65536):
        halves = [x for x in (base // 2, 3 * base // 2, base * base // 2, LARGEST) if ring.in_range([x])]
        values = [sign * x for x in halves for sign in (1, -1)]
        for count in COUNTS:
            if base % 2 == 0:
                cases += [(9, base, count, x) for x in values]
            cases.append((10, 8, base, count, *(values + [0, 0])[:8]))
    return cases


def inner_product_cases(rng):
    """Operation 12."""
    cases = []
    for d, n, kind in (
        (2, 1, small), (2, 8, any_numbers), (4, 3, coefficients), (8, 8, ends), (16, 5, coefficients), (32, 2, any_numbers),
        (64, 1, ends), (64, 8, coefficients), (64, 8, constant(LEAST_I32)),
    ):
        cases.append((12, d, n, *kind(rng, n * d), *kind(rng, n * d)))
    return cases


def predicate_cases(rng):
    """Operations 13, 14 and 15."""
    cases = []
    edges = (LARGEST, -LARGEST, LARGEST + 1, -LARGEST - 1, LARGEST_I32, LEAST_I32, 2, -2, 1, -1, 0)
    for operation in (13, 14):
        cases.append((operation, 0))
        for edge in edges:
            cases.append((operation, 1, edge))
            cases.append((operation, 4, 0, 1, -1, edge))
            cases.append((operation, 4, edge, 0, 1, -1))
        cases.append((operation, 64, *uniform(rng, 1, 64)))
        cases.append((operation, 64, *coefficients(rng, 64)))
    for d in (32, 64):
        for twos, ones in ((17, 3), (18, 0), (17, 4), (10, 31), (10, 32), (16, 7), (16, 8)):
            if twos + ones <= d:
                cases.append((15, d, *counted(rng, d, twos, ones)))
    for d in DEGREES:
        cases.append((15, d, *[0] * d))
        cases.append((15, d, *[2] * d))
    for d in (2, 4, 8):
        for wrong in (3, -3, 2, -2, 65536, LEAST_I32, LARGEST_I32, LARGEST):
            cases.append((15, d, *[1] * (d - 1), wrong))
            cases.append((15, d, wrong, *[0] * (d - 1)))
    return cases


def challenge_cases(rng):
    """Operation 15: drawn lists of every degree; at 64 and 32 both sides of the rule, four times; at 64 all counts of ones and twos near the right
    ones.
    """
    cases = [(15, d, *challenge(rng, d)) for d in DEGREES for _ in range(2)]
    for _ in range(4):
        for _, shape, _, c in sides_of_challenges(rng):
            if shape["r"] == 1:
                cases.append((15, shape["d"], *c))
    for ones in range(29, 34):
        for twos in range(8, 13):
            cases.append((15, 64, *counted(rng, 64, twos, ones)))
    return cases


def norm_cases(rng):
    """Operations 16 and 17: bounds just met and just missed, and sums that pass 2^63 and 2^64."""
    # Squares that add to 2^63 - 1.
    full = [LEAST_I32, LARGEST_I32, 65535, 362, 5]
    assert ring.squared_norm(full) == LARGEST_I64
    vectors = [[], [0], [1], [-3, 4], [LARGEST], [-LARGEST, LARGEST], [LEAST_I32], [LEAST_I32] * 2, full, full + [1]]
    vectors += [[LEAST_I32] * 4, [LEAST_I32] * 4 + [1], [LEAST_I32] * 8, [65536] * 4, [LARGEST_I32] * 4, [LARGEST] * 64]
    vectors += [[LEAST_I32] * 64, coefficients(rng, 64), small(rng, 20), any_numbers(rng, 1)]
    cases = []
    for x in vectors:
        norm = ring.squared_norm(x)
        bounds = {bound for bound in (norm - 1, norm, norm + 1, norm % 2**64, norm % 2**63) if 0 <= bound <= LARGEST_I64}
        bounds |= {0, LARGEST_I64} if len(x) < 20 else {LARGEST_I64}
        for bound in sorted(bounds):
            cases.append((16, bound, len(x), *x))
            n = rng.randint(0, len(x))
            cases.append((17, bound, n, len(x) - n, *x))
    return cases


def constant_term_cases(rng):
    """Operation 18."""
    return [(18, d, *coefficients(rng, d)) for d in DEGREES] + [(18, 2, LARGEST, 1), (18, 2, -LARGEST, 0)]


def c_product_cases(rng):
    """Operation 19: products at every degree, and rows 1 and 8, the lower number first."""
    cases = []
    for d in DEGREES:
        for kind in (small, coefficients, ends):
            cases.append((19, d, *padded(kind(rng, d)), *padded(kind(rng, d))))
        # both ends of the range, and one number past each, at the last place
        for number in (LARGEST, -LARGEST, LARGEST + 1, -LARGEST - 1):
            x, y = small(rng, d), small(rng, d)
            cases.append((19, d, *padded(x[:-1] + [number]), *padded(y)))
            cases.append((19, d, *padded(x), *padded(y[:-1] + [number])))
        # a number past d that is not zero
        if d < ELEMENT:
            for place in sorted({d, ELEMENT - 1}):
                x, y = padded(small(rng, d)), padded(small(rng, d))
                beyond = padded(small(rng, d))
                beyond[place] = rng.choice((1, -1, LARGEST))
                cases.append((19, d, *x, *beyond))
                cases.append((19, d, *beyond, *y))
    # a degree that is not listed, also where row 8 applies
    for d in (0, 1, 3, 5, 63, 65, 128, 2**32, LARGEST_I64):
        cases.append((19, d, *padded(small(rng, 2)), *padded(small(rng, 2))))
        cases.append((19, d, *coefficients(rng, ELEMENT), *padded([LARGEST + 1])))
    return cases


def all_cases():
    """Every case, in the order of the operations; last those on halves and on challenges that are not among them."""
    rng = random.Random(20)
    cases = []
    for group in (
        centring_cases, element_cases, digit_cases, inner_product_cases, predicate_cases, norm_cases, constant_term_cases,
        c_product_cases,
    ):
        cases += group(rng)
    for group in (half_cases(), challenge_cases(random.Random(21))):
        cases += [case for case in group if case not in cases]
    return cases


def files():
    cases = all_cases()
    results = [OPERATIONS[operation](*arguments) for operation, *arguments in cases]
    stdin = stored.numbers_text(cases)
    assert len(stdin) <= LARGEST_INPUT_BYTES, len(stdin)
    assert max(map(len, cases)) <= LARGEST_LINE_NUMBERS
    assert max(map(len, results)) <= LARGEST_RESULTS
    yield "crates/ring_cases/stdin", stdin
    yield "crates/ring_cases/stdout", stored.numbers_text(results)


if __name__ == "__main__":
    stored.write(files)
