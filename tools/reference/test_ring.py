"""The ring layer: the worked values of SPECIFICATION 12, laws of the ring, digits."""

import random

import ring
from fixtures import BASES, challenge, coefficients, counted, kept_draws, sides_of_challenges, uniform


def test_bench_values_of_the_ring():
    one_two = [1, 2]
    assert ring.multiply(one_two, one_two) == [-3, 4]
    assert ring.multiply(ring.indeterminate(2), ring.indeterminate(2)) == [-1, 0]
    assert ring.conjugate([1, 2, 3, 4]) == [1, -4, -3, -2]
    assert ring.centred(2147483598) == 2147483598
    assert ring.centred(2147483599) == -2147483598
    assert ring.half(ring.one(2)) == [-2147483598, 0]
    assert ring.digits(4, 2, -3) == [1, -1]
    assert ring.digits(4, 2, 2) == [2, 0]
    assert ring.digits(4, 2, -2) == [-2, 0]
    assert ring.digits(4, 2, 6) == [-2, 2]
    assert ring.centred(65536**2) == 99
    assert ring.Q == 2**32 - 99 and ring.Q**4 < 2**128


def test_ring_laws():
    rng = random.Random(1)
    for d in ring.DEGREES:
        for _ in range(3):
            u, v, w = (coefficients(rng, d) for _ in range(3))
            dot = ring.centred(sum(a * b for a, b in zip(u, v, strict=True)))
            assert ring.constant_term(ring.multiply(ring.conjugate(u), v)) == dot
            assert ring.multiply(u, v) == ring.multiply(v, u)
            assert ring.multiply(u, ring.add(v, w)) == ring.add(ring.multiply(u, v), ring.multiply(u, w))
            assert ring.conjugate(ring.multiply(u, v)) == ring.multiply(ring.conjugate(u), ring.conjugate(v))
            assert ring.add(ring.half(u), ring.half(u)) == u
            assert ring.subtract(u, v) == ring.add(u, ring.negate(v))
        power = ring.one(d)
        for _ in range(d):
            power = ring.multiply(power, ring.indeterminate(d))
        assert power == ring.negate(ring.one(d))


def split_rightly(base, count, x):
    """Low digits are in their range, each half leaves an even quotient, all together give x back; those of -x are opposite."""
    split = ring.digits(base, count, x)
    assert len(split) == count and ring.in_range(split)
    rest = x
    for digit in split[:-1]:
        rest = (rest - digit) // base
        assert -base <= 2 * digit <= base and (2 * abs(digit) < base or rest % 2 == 0)
    assert rest == split[-1]
    assert sum(digit * base**k for k, digit in enumerate(split)) == x
    assert ring.recompose(base, split) == x
    assert ring.digits(base, count, -x) == [-digit for digit in split]


def test_digits():
    rng = random.Random(2)
    for base in BASES:
        for count in range(2, 9):
            ends = [-ring.LARGEST, ring.LARGEST, 0, base // 2, -(base // 2), (base - 1) // 2, -((base + 1) // 2)]
            for x in ends + coefficients(rng, 50):
                split_rightly(base, count, x)


def test_low_digit():
    """The low digit is the only integer that is congruent, in range, and at a half leaves an even quotient."""
    for base in range(2, 41):
        for x in range(-3 * base * base, 3 * base * base + 1):
            found = [e for e in range(-base, base + 1) if (x - e) % base == 0 and 2 * abs(e) <= base]
            assert len(found) == (2 if 2 * (x % base) == base else 1)
            found = [e for e in found if 2 * abs(e) < base or (x - e) // base % 2 == 0]
            assert found == [ring.low_digit(base, x)]
            if base % 2:
                assert ring.low_digit_of_kept(base, x) == found[0]


def test_halves():
    """Multiples of half a base, and both ends of the range."""
    for base in (2, 3, 4, 6, 255, 256, 65535, 65536):
        halves = [x // 2 for x in (base, 3 * base, base * base) if x % 2 == 0]
        for x in [x for x in halves if ring.in_range([x])] + [ring.LARGEST]:
            for count in range(2, 9):
                split_rightly(base, count, x)
                split_rightly(base, count, -x)


def test_base_two():
    """ "For B = 2 no two low digits side by side are both other than 0." """
    for x in [-ring.LARGEST, ring.LARGEST, *range(-1000, 1001)]:
        low = ring.digits(2, 8, x)[:-1]
        assert not any(digit and following for digit, following in zip(low, low[1:]))


def test_kept_rule():
    """Under it each half is -B/2, and recomposition gives the value back; after it the rule is as before."""
    with ring.kept_rule():
        assert [ring.digits(4, 2, x) for x in (-3, 2, -2, 6)] == [[1, -1], [-2, 1], [-2, 0], [-2, 2]]
        for base in range(2, 41):
            for x in range(-3 * base * base, 3 * base * base + 1):
                split = ring.digits(base, 3, x)
                assert all(-base <= 2 * digit < base for digit in split[:-1]) and ring.recompose(base, split) == x
    assert ring.digits(4, 2, 2) == [2, 0]


def test_counts_of_challenges():
    """All counts of zeros, ones and twos: at degree 64 exactly one is taken, at each smaller degree those of squared length at most 71."""
    for d in ring.DEGREES:
        taken = []
        for twos in range(d + 1):
            for ones in range(d - twos + 1):
                c = [1, -1] * (ones // 2) + [1] * (ones % 2) + [-2] * twos + [0] * (d - ones - twos)
                assert ring.is_short_challenge(c) == (ones + 4 * twos <= 71)
                if ring.is_challenge(c):
                    taken.append((d - ones - twos, ones, twos))
                assert d == 64 or ring.is_challenge(c) == ring.is_short_challenge(c)
        assert d < 64 or taken == [(23, 31, 10)]
    assert 23 + 31 + 10 == 64 and 31 + 10 * 4 == 71


def laws_of_challenges(c):
    """ "At every degree no coefficient of a challenge has an absolute value above 2, and the absolute values sum to at most 71." "Every challenge
    of degree 64 passes the rule of the smaller degrees too". """
    assert ring.is_challenge(c) and ring.is_short_challenge(c)
    assert max(map(abs, c)) <= 2 and sum(map(abs, c)) <= 71 and ring.squared_norm(c) <= 71


def test_drawn_challenges():
    """They pass the rule and have its laws; at degree 64 the counts are right, and every number is seen at every place."""
    rng = random.Random(3)
    for d in ring.DEGREES:
        drawn = [challenge(rng, d) for _ in range(200)]
        for c in drawn:
            laws_of_challenges(c)
    for c in drawn:
        assert [sum(abs(x) == size for x in c) for size in (0, 1, 2)] == [23, 31, 10] and ring.squared_norm(c) == 71
    assert all({c[k] for c in drawn} == {-2, -1, 0, 1, 2} for k in range(64))


def test_kept_draws():
    """Within it challenges of degree 64 pass the rule of the smaller degrees, and their counts are any; those of smaller degrees are the same."""
    with kept_draws():
        kept = challenge(random.Random(4), 64)
        smaller = [challenge(random.Random(5), d) for d in ring.DEGREES[:-1]]
    assert ring.is_short_challenge(kept) and not ring.is_challenge(kept)
    assert smaller == [challenge(random.Random(5), d) for d in ring.DEGREES[:-1]]
    assert ring.is_challenge(challenge(random.Random(4), 64))


def test_sides_of_challenges():
    """Each list at the sides of the rule is taken or not as it says; a change of one coefficient of a challenge of degree 64 leaves it one only
    where the absolute value stays.
    """
    rng = random.Random(6)
    for few in (False, True):
        for name, shape, taken, c in sides_of_challenges(rng, few):
            lists = [c[k : k + shape["d"]] for k in range(0, len(c), shape["d"])]
            assert len(lists) == shape["r"] and all(map(ring.is_challenge, lists)) == taken, name
            if taken:
                for each in lists:
                    laws_of_challenges(each)
    c = challenge(rng, 64)
    for place in range(64):
        for number in (*range(-4, 5), 255, 258, 65537, ring.LARGEST, -ring.LARGEST, 2**31 - 1, -(2**31)):
            changed = c[:place] + [number] + c[place + 1 :]
            assert ring.is_challenge(changed) == (abs(number) == abs(c[place]))
    # lists of any small numbers: the counts decide
    for _ in range(300):
        c = uniform(rng, 2, 64)
        assert ring.is_challenge(c) == (sorted(map(abs, c)) == [0] * 23 + [1] * 31 + [2] * 10)
    assert ring.is_challenge(counted(rng, 64, 10, 31))
