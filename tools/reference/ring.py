"""The ring Z_q[X]/(X^d+1), digits and squared norms: SPECIFICATION 2.

An element is a list of d centred numbers, lowest power first; d is the length of the list.
Schoolbook arithmetic on whole numbers of any size; nothing is tuned. Quotations are from docs/SPECIFICATION.md.
"""

from contextlib import contextmanager

# "q = 4294967197 = 2^32 - 99."
Q = 4294967197

# "Degree d is 2, 4, 8, 16, 32 or 64".
DEGREES = (2, 4, 8, 16, 32, 64)

# "Coefficients are centred: -2147483598 to 2147483598."
LARGEST = 2147483598

# "Half of a value is its product with 2147483599 modulo q."
INVERSE_OF_TWO = 2147483599

# "at degree 64, exactly 23 coefficients are zero, 31 are +1 or -1, and 10 are +2 or -2."
COUNTED_DEGREE = 64
CHALLENGE_ZEROS = 23
CHALLENGE_ONES = 31
CHALLENGE_TWOS = 10

# "At each smaller degree, a challenge c has coefficients -2 to 2 and squared length at most 71."
CHALLENGE_COEFFICIENT = 2
CHALLENGE_SQUARED_NORM = 71


def centred(x):
    """ "Coefficients are centred: -2147483598 to 2147483598." """
    residue = x % Q
    return residue if residue <= LARGEST else residue - Q


# Elements

def zero(d):
    """ "The ring element names its own zero, one and X." """
    return [0] * d


def one(d):
    """ "The ring element names its own zero, one and X." """
    return [1] + [0] * (d - 1)


def indeterminate(d):
    """ "The ring element names its own zero, one and X." """
    return [0, 1] + [0] * (d - 2)


def add(a, b):
    """The sum, coefficient by coefficient, in the ring Z_q[X]/(X^d+1)."""
    return [centred(x + y) for x, y in zip(a, b, strict=True)]


def subtract(a, b):
    """The difference; "differences are taken modulo q and centred"."""
    return [centred(x - y) for x, y in zip(a, b, strict=True)]


def negate(a):
    """The negation, coefficient by coefficient."""
    return [centred(-x) for x in a]


def multiply(a, b):
    """ "X^d = -1." """
    d = len(a)
    coefficients = [0] * d
    for i in range(d):
        for j in range(d):
            if i + j < d:
                coefficients[i + j] += a[i] * b[j]
            else:
                coefficients[i + j - d] -= a[i] * b[j]
    return [centred(x) for x in coefficients]


def conjugate(a):
    """ "σ sends X to its inverse." The inverse of X^k is -X^(d-k), since X^d = -1."""
    d = len(a)
    result = [0] * d
    result[0] = centred(a[0])
    for k in range(1, d):
        result[d - k] = centred(-a[k])
    return result


def scale(number, a):
    """The product of an element with a number modulo q."""
    return [centred(number * x) for x in a]


def half(a):
    """ "Half of a value is its product with 2147483599 modulo q." """
    return scale(INVERSE_OF_TWO, a)


def constant_term(a):
    """The constant term: "The constant term of σ(u)·v is the dot product of their coefficients." """
    return centred(a[0])


def add_all(d, summands):
    """The sum of any number of elements; of none, zero."""
    result = zero(d)
    for summand in summands:
        result = add(result, summand)
    return result


def inner_product(d, u, v):
    """<u,v> of two vectors of elements: the sum of the products, entry by entry (nothing is conjugated)."""
    return add_all(d, [multiply(x, y) for x, y in zip(u, v, strict=True)])


# Digits

def low_digit(base, x):
    """ "each low digit is at least -B/2 and at most B/2 (integers, for odd B as well), congruent to the value modulo B";
    "When a value lies exactly half a base from two multiples, the low digit is the one of +B/2 and -B/2 that leaves an even
    quotient." "B/2 is not rounded: the low digit is an integer e with -B ≤ 2e ≤ B, so that only for an even B a value
    can lie halfway."
    """
    residue = x % base
    candidates = [e for e in (residue, residue - base) if -base <= 2 * e <= base]
    if len(candidates) == 2:
        candidates = [e for e in candidates if (x - e) // base % 2 == 0]
    [digit] = candidates
    return digit


def low_digit_of_kept(base, x):
    """The low digit by the "older rule, by which such a value always had the low digit -B/2". """
    residue = x % base
    return residue if 2 * residue < base else residue - base


# The rule that `digits` goes by.
digit_rule = low_digit


@contextmanager
def kept_rule():
    """Within it `digits` goes by the older rule, so that kept openings can be made: "Openings kept under an older rule, by
    which such a value always had the low digit -B/2, are judged as before, since the verifier recomposes digits, and both halves
    are narrow (7.i)."
    """
    global digit_rule
    outside, digit_rule = digit_rule, low_digit_of_kept
    try:
        yield
    finally:
        digit_rule = outside


def digits(base, count, x):
    """ "subtract it, divide by B, repeat. The last digit is what is left." """
    result = []
    for _ in range(count - 1):
        digit = digit_rule(base, x)
        result.append(digit)
        x = (x - digit) // base
    result.append(x)
    return result


def is_narrow(base, digit):
    """ "each low digit x of the opening, of a base B, has 2·|x| ≤ B." "B/2 is not rounded". """
    return 2 * abs(digit) <= base


def recompose(base, digits_of_x):
    """ "Recomposition is modulo q." """
    return centred(sum(digit * base**k for k, digit in enumerate(digits_of_x)))


def element_digits(base, count, a):
    """The digits of an element: `count` elements, the lowest digit first."""
    split = [digits(base, count, x) for x in a]
    return [[split[k][e] for k in range(len(a))] for e in range(count)]


def recompose_element(base, digit_elements):
    """An element from its digits, coefficient by coefficient; "Recomposition is modulo q." """
    return [recompose(base, column) for column in zip(*digit_elements, strict=True)]


# Squared norms and tests on numbers

def squared_norm(numbers):
    """ "Squared length is the whole-number sum of squared centred coefficients." """
    return sum(x * x for x in numbers)


def in_range(numbers):
    """Row 8: "coefficient, or other number modulo q, out of range"; true where none is."""
    return all(-LARGEST <= x <= LARGEST for x in numbers)


def zero_past_degree(d, numbers):
    """Row 8: "a ring element with a nonzero number past d"; true where an element by value has none."""
    return all(x == 0 for x in numbers[d:])


def are_projection_entries(numbers):
    """Row 9: "projection entry not -1, 0, 1"; true where every entry is one of them."""
    return all(x in (-1, 0, 1) for x in numbers)


def is_counted_challenge(c):
    """ "at degree 64, exactly 23 coefficients are zero, 31 are +1 or -1, and 10 are +2 or -2." """
    counts = [sum(abs(x) == size for x in c) for size in (0, 1, 2)]
    return counts == [CHALLENGE_ZEROS, CHALLENGE_ONES, CHALLENGE_TWOS]


def is_short_challenge(c):
    """ "At each smaller degree, a challenge c has coefficients -2 to 2 and squared length at most 71." Kept openings of degree 64 "were made
    under the rule of the smaller degrees".
    """
    return all(abs(x) <= CHALLENGE_COEFFICIENT for x in c) and squared_norm(c) <= CHALLENGE_SQUARED_NORM


def is_challenge(c):
    """Row 10: "challenge outside the rule (5.1)"; true where c, a list of d numbers, passes it."""
    return is_counted_challenge(c) if len(c) == COUNTED_DEGREE else is_short_challenge(c)
