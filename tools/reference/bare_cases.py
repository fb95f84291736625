"""Stored input and output of the test program for the calls of the bare level, crates/bare_cases.

Input: decimal numbers parted by single blanks, one case a line. A case is the number of a call (1 bare_commit, 2 bare_phi, 3 bare_turn, 4 bare_verify),
then the ten sizes
    d n r K L w κ β² z_bound turn
with the bound on z and the number of a turn at the end, and then the call's lists, each as its length and its numbers, in the order of bare.CALLS; of the
list that the call writes only the length is given, and the program fills it with FILL before the call.
Output: a line for each case: the answer's kind and number, and then the numbers of the list that the call wrote.
"""

import random
from itertools import combinations

import bare
import chains
import fold
import ring
import stored
from bare import CALLS, LENGTHS
from bare_fixtures import (
    APART, SMALL, check_faults, expected, honest_case, least_bounds, mixed_pairs, places, random_lists, random_sizes, short_lists, turn_place, with_mixed,
)
from fixtures import accepted, challenge, coefficients, counted, failed, moved, refused, replaced, sides_of_challenges, uniform
from sizes import LARGEST_BOUND

# the program's room
LARGEST_INPUT_BYTES = 1000000
LARGEST_LINE_NUMBERS = 16384
LARGEST_WRITTEN_NUMBERS = 8192

SIZES = "d n r K L w kappa beta_squared z_bound turn".split()

# the calls by their numbers in the input
NUMBERED = dict(enumerate(CALLS, start=1))
COMMIT, PHI, TURN, VERIFY = NUMBERED

# above every size, and within the numbers that the program reads
HUGE = 2**63 - 1


def case(number, s, x, lengths=None):
    """The input line and the output line of one call. `lengths` changes the length of the list that it writes."""
    call = NUMBERED[number]
    _, reads, writes = CALLS[call]
    room = {name: [stored.FILL] * (lengths or {}).get(name, LENGTHS[name](s)) for name in writes}
    line = [number] + [getattr(s, name) for name in SIZES]
    line += fold.flat([len(x[name])] + x[name] for name in reads) + [len(room[name]) for name in writes]
    answer = kind, content = bare.answer(call, s, x | room)
    written = room | (content if kind == "written" else {})
    return line, stored.answer_numbers(answer) + fold.flat(written[name] for name in writes)


# Each group gives cases: the number of the call, sizes, lists; some with the lengths of written lists that differ, and the answer.

def turn_lists(s, x, turn):
    """Sizes and lists of a turn."""
    return s._replace(turn=turn), x | {"earlier_c": x["c"][: (turn - 1) * s.d]}


def messages(s, x):
    """t, φ and every turn."""
    yield COMMIT, s, x
    yield PHI, s, x
    x = x | bare.bare_phi(s, x)
    for turn in range(1, s.r + 1):
        yield TURN, *turn_lists(s, x, turn)


def run(s, x):
    """The messages, and the verdict on the honest ones under tight bounds and with a bound on z that is one less."""
    yield from messages(s, x)
    y = bare.honest(s, x)
    tight = least_bounds(s, y)
    yield VERIFY, tight, y, {}, expected(tight, y)
    if s.d < 16 and 0 < bare.z_squared_norm(s, y) == tight.z_bound:
        yield VERIFY, tight._replace(z_bound=tight.z_bound - 1), y, {}, failed(7)


def every_degree(rng):
    """Honest runs at every degree: random sizes; both kinds of constraints, one of them, none; no projection rows."""
    for d, shapes in (
        (2, ({"r": 5, "n": 3}, {"K": 0, "L": 0}, {"w": 0, "r": 3}, {"K": 2, "L": 0, "r": 4}, {"K": 0, "L": 2, "r": 2}, {"K": 0, "L": 0, "w": 0}, {"r": 1})),
        (4, ({"r": 4, "n": 2}, {"K": 0, "L": 1, "w": 0, "r": 3}, {"K": 1, "L": 0})),
        (8, ({"r": 3, "n": 2, "K": 1, "L": 1}, {"n": 1, "r": 5, "K": 0})),
        (16, ({"n": 2, "r": 2, "K": 1, "L": 0, "w": 1}, {"n": 1, "r": 3, "K": 0, "L": 1, "w": 0})),
        (32, ({"n": 1, "r": 3, "K": 1, "L": 0, "w": 1},)),
    ):
        for shape in shapes:
            s = random_sizes(rng)._replace(d=d, **shape)
            yield from run(s, short_lists(rng, s) if d > 8 else random_lists(rng, s, rng.random() < 0.6))
    s = SMALL._replace(d=64, n=2, r=3, w=1)
    yield from run(s, short_lists(rng, s))
    s = SMALL._replace(d=64, r=2, K=0, L=1, kappa=2)
    yield from run(s, random_lists(rng, s, True))


def kept_challenges(rng):
    """A run of degree 64 with kept challenges, of other counts: the turns after the first and the verifier refuse it."""
    s = SMALL._replace(d=64, r=2, K=0)
    x = short_lists(rng, s) | {"c": counted(rng, 64, 9, 35) + counted(rng, 64, 11, 27)}
    assert all(map(ring.is_short_challenge, fold.elements(s.d, x["c"])))
    yield from messages(s, x)
    yield VERIFY, s, bare.honest(s, x), {}, refused(10)


def near_bounds(rng):
    """Honest runs whose bounds just hold or just fail; margins from 0 on."""
    for _ in range(24):
        s, _, y = honest_case(rng, d=rng.choice((2, 2, 4)))
        yield VERIFY, s, y, {}, expected(s, y)
    s = APART._replace(L=1)
    y = bare.honest(s, short_lists(rng, s))
    s = least_bounds(s, y)
    length = s.z_bound
    for bound in (0, length - 1, length, length + 1, length + 1000, LARGEST_BOUND):
        yield VERIFY, s._replace(z_bound=bound), y, {}, failed(7) if bound < length else accepted(bound - length)
    for beta_squared in (0, s.beta_squared - 1):
        for bound in (0, length, LARGEST_BOUND):
            yield VERIFY, s._replace(beta_squared=beta_squared, z_bound=bound), y, {}, failed(1)


# Four largest coefficients and one more: a squared length a little above 2^64.
ABOVE_2_64 = [ring.LARGEST] * 2 + [-ring.LARGEST] * 2 + [926820]


def long_sums(rng):
    """|z|² and 2·|p|² above 2^64 by less than the bound: "no sum may wrap before it is judged". """
    assert 0 <= ring.squared_norm(ABOVE_2_64) - 2**64 < LARGEST_BOUND
    s = SMALL._replace(d=8)
    x = short_lists(rng, s) | {"witness": ABOVE_2_64 + [0] * 3, "c": ring.one(8), "whole": [0] * 24}
    y = bare.honest(s, x)
    yield VERIFY, s, y, {}, failed(7)
    s = SMALL._replace(K=0, w=4)
    y = bare.honest(s, short_lists(rng, s) | {"omega": [0] * 20})
    yield VERIFY, s, y | {"p": [ring.LARGEST, -ring.LARGEST, 926820, 65536]}, {}, failed(1)


def any_witness(rng):
    """Witnesses that meet no constraint: the messages answer all the same."""
    for w, short_witness in ((2, False), (0, False), (2, True)):
        s = random_sizes(rng)._replace(d=2, K=2, L=1, w=w)
        x = random_lists(rng, s, short_witness)
        x["witness"] = [ring.centred(number + 1) for number in x["witness"]]
        yield from messages(s, x)
        yield VERIFY, s, bare.honest(s, x)


def failing_checks(rng):
    """Each check fails alone, and every two at once: the first is named. A change of z, of an own z and of an own φ."""
    for given in ({}, {"d": 2, "n": 2, "r": 2, "kappa": 1}):
        s, y, faults = check_faults(rng, **given)
        yield VERIFY, s, y, {}, accepted(0)
        for check, fault in faults.items():
            yield VERIFY, *fault(s, y), {}, failed(check)
        for (check, fault), (_, other) in combinations(faults.items(), 2):
            yield VERIFY, *other(*fault(s, y)), {}, failed(check)
        z, turns = places(s)
        for place in (z, turns - 1):
            yield VERIFY, s._replace(z_bound=LARGEST_BOUND), moved(y, "bare_opening", place), {}, failed(3)
        for turn in range(1, s.r + 1):
            for name, check in (("mixed_phi", 5), ("own_phi", 5), ("mixed_z", 4), ("own_z", 4)):
                for place in (0, s.d - 1):
                    yield VERIFY, s, moved(y, "bare_opening", turn_place(s, turn, name) + place), {}, failed(check)


def aggregate_fails(rng):
    """Check 6 alone: changes of own garbage that checks 4 and 5 do not see, since c_i·(own) + (mixed) stays."""
    s, y, _ = check_faults(rng)
    c = fold.elements(s.d, y["c"])
    for mixed, own in (("mixed_phi", "own_phi"), ("mixed_z", "own_z")):
        for turn in range(1, s.r + 1):
            z = moved(y, "bare_opening", turn_place(s, turn, own))
            for k, number in enumerate(c[turn - 1]):
                z = moved(z, "bare_opening", turn_place(s, turn, mixed) + k, -number)
            yield VERIFY, s, z
            assert all(check(s, z) for check in bare.CHECKS[2:5])


def corrupted_numbers(rng):
    """One number of any list of the verifier changed, in range."""
    for _ in range(30):
        s, _, y = honest_case(rng, d=rng.choice((2, 2, 4)))
        s = s._replace(beta_squared=LARGEST_BOUND, z_bound=LARGEST_BOUND)
        name = rng.choice([name for name in y if y[name] and name not in ("projections", "c")] + ["bare_opening"] * 4)
        yield VERIFY, s, moved(y, name, rng.randrange(len(y[name])), rng.choice((1, -1, 2, 65536)))
    for _ in range(4):
        s, _, y = honest_case(rng, d=2, r=3, w=2)
        yield VERIFY, s, y | {"c": fold.flat(challenge(rng, s.d) for _ in range(s.r))}
        place = rng.randrange(len(y["projections"]))
        yield VERIFY, s, replaced(y, "projections", place, rng.choice([entry for entry in (-1, 0, 1) if entry != y["projections"][place]]))


def exchanged_lists(rng):
    """Lists of equal length, and parts of the opening, in one another's place."""
    s = SMALL._replace(d=2, n=2, r=2, K=1, L=1, w=1, kappa=1)
    y = bare.honest(s, short_lists(rng, s))
    yield VERIFY, s, y
    yield VERIFY, s, y | {"second_b": y["delta"], "delta": y["second_b"]}
    yield VERIFY, s, y | {"psi": y["omega"], "omega": y["psi"]}
    o = fold.elements(s.d, y["bare_opening"])
    t, z, first, second = o[:2], o[2:4], o[4:8], o[8:]
    for order in (z + t + first + second, t + z + second + first, t + z + first[2:] + first[:2] + second[2:] + second[:2], t + z + fold.flat(zip(first, second))):
        yield VERIFY, s, y | {"bare_opening": fold.flat(order)}


# Refusals

def faults_of(s, y):
    """Faults by row: changes of sizes, or of lists."""
    last = {name: y[name][:-1] for name in y if y[name]}
    return {
        1: [{"d": 3}, {"d": 0}, {"d": 1}, {"d": 128}, {"d": HUGE}],
        2: [{"n": 0}, {"n": 257}, {"r": 0}, {"r": 17}, {"K": 33}, {"L": 33}, {"w": 257}, {"turn": 0}, {"turn": s.r + 1}, {"turn": HUGE}],
        3: [{"kappa": 0}, {"kappa": 9}],
        6: [{"beta_squared": LARGEST_BOUND + 1}, {"z_bound": LARGEST_BOUND + 1}, {"z_bound": HUGE}],
        7: [{name: y[name] + [0]} for name in y] + [{name: numbers} for name, numbers in last.items()],
        8: [{name: [ring.LARGEST + 1] + y[name][1:]} for name in y if y[name]] + [{name: numbers + [-ring.LARGEST - 1]} for name, numbers in last.items()],
        9: [{"projections": [2] + y["projections"][1:]}, {"projections": last["projections"] + [-2]}],
        10: [{name: y[name][:place] + [3] + y[name][place + 1 :]} for name in ("c", "earlier_c") for place in (0, len(y[name]) - 1)],
        14: [{"whole": with_mixed(s, y, "whole", 0, (0, 1))["whole"]}, {"constant_terms": with_mixed(s, y, "constant_terms", 0, (1, 2), s.d - 1, -1)["constant_terms"]}],
    }


def with_fault(s, y, fault):
    """Sizes and lists with a change."""
    sized = {name: number for name, number in fault.items() if name in SIZES}
    return s._replace(**sized), y | {name: numbers for name, numbers in fault.items() if name not in SIZES}


def refusals(rng):
    """Every row of every call alone, and two at once; outputs stay as they were. What a call does not take is not looked at."""
    s = SMALL._replace(n=2, r=3, L=1, w=1, turn=3, beta_squared=10000)
    x = short_lists(rng, s)
    y = bare.honest(s, x) | {"witness": x["witness"], "phi": bare.bare_phi(s, x)["phi"], "earlier_c": x["c"][: 2 * s.d]}
    for number, call in NUMBERED.items():
        taken, reads, writes = CALLS[call]
        lengths = {name: LENGTHS[name](s) for name in writes}
        rows = {row: [fault for fault in faults if fault.keys() & set(taken + reads)] for row, faults in faults_of(s, y).items()}
        if "whole" not in reads:
            rows.pop(14)
        for row, faults in rows.items():
            for fault in faults:
                yield number, *with_fault(s, y, fault), lengths, refused(row)
        for name in writes:
            for length in (0, lengths[name] - 1, lengths[name] + 1, lengths[name] + s.d):
                yield number, s, y, {name: length}, refused(7)
                for row in (8, 10):
                    for fault in rows[row][:1]:
                        yield number, *with_fault(s, y, fault), {name: length}, refused(7)
        for (row, faults), (_, others) in combinations(rows.items(), 2):
            for fault, other in ((faults[:1], others[-1:]), (faults[-1:], others[:1])):
                if fault and other and not fault[0].keys() & other[0].keys():
                    yield number, *with_fault(*with_fault(s, y, fault[0]), other[0]), lengths, refused(row)
        not_taken = {name: HUGE for name in SIZES if name not in taken}
        yield number, s._replace(**not_taken), y, lengths, None


def mixed_products(rng):
    """Row 14: each a_ij with i < j of each constraint of both kinds, in its first and its last coefficient; with no weight; beside rows 8 to 10."""
    s = SMALL._replace(n=1, r=3, K=2, L=2, w=1)
    x = short_lists(rng, s)
    y = bare.honest(s, x)
    for kind, count in (("whole", s.K), ("constant_terms", s.L)):
        for constraint in range(count):
            for pair in mixed_pairs(s):
                for coefficient, number in ((0, 1), (s.d - 1, ring.LARGEST)):
                    changed = with_mixed(s, y, kind, constraint, pair, coefficient, number)
                    yield PHI, s, changed, {}, refused(14)
                    yield VERIFY, s, changed, {}, refused(14)
            # the places beside: a_ii, the first φ, b
            for i in range(s.r):
                changed = with_mixed(s, y, kind, constraint, (i, i), 0, 5)
                yield PHI, s, changed
                yield VERIFY, s, changed
        changed = with_mixed(s, y, kind, count - 1, (1, 2), s.d - 1, -1)
        weightless = {"alpha": [0] * len(y["alpha"]), "psi": [0] * len(y["psi"]), "delta": [0] * len(y["delta"])}
        yield PHI, s, changed | weightless, {}, refused(14)
        yield VERIFY, s, changed | weightless, {}, refused(14)
        yield VERIFY, s, replaced(changed, "c", -1, 3), {}, refused(10)
        yield VERIFY, s, replaced(changed, "projections", 0, 2), {}, refused(9)
        yield PHI, s, replaced(changed, "projections", -1, -2), {}, refused(9)
        yield PHI, s, replaced(changed, "delta", -1, ring.LARGEST + 1), {}, refused(8)
        yield VERIFY, s, replaced(changed, "bare_opening", -1, ring.LARGEST + 1), {}, refused(8)
        yield VERIFY, s, changed | {"bare_opening": y["bare_opening"] + [0]}, {}, refused(7)
        yield PHI, s, changed, {"phi": 1}, refused(7)
        # a check that would fail: 14 before it
        yield VERIFY, s._replace(beta_squared=0, z_bound=0), changed, {}, refused(14)
        # t and the turns do not take the constraints
        yield COMMIT, s, changed | {"witness": x["witness"]}
        yield TURN, *turn_lists(s, changed | {"witness": x["witness"], "phi": bare.bare_phi(s, x)["phi"]}, s.r)
    # one part has no mixed products, whatever the numbers; no constraint has none
    for shape in ({"r": 1, "K": 2, "L": 2}, {"r": 3, "K": 0, "L": 0, "w": 1}):
        s = SMALL._replace(**shape)
        x = random_lists(rng, s, True)
        yield PHI, s, x
        yield VERIFY, s, bare.honest(s, x)
    # at degree 64, the last coefficient of the last pair of the last constraint
    s = SMALL._replace(d=64, r=2, K=2)
    x = {name: [0] * LENGTHS[name](s) for name in CALLS["bare_verify"].reads} | {"c": challenge(rng, 64) + challenge(rng, 64)}
    for kind, shape in (("whole", {}), ("constant_terms", {"K": 0, "L": 2})):
        sized = s._replace(**shape)
        y = x | {name: [0] * LENGTHS[name](sized) for name in ("whole", "constant_terms", "alpha", "psi")}
        changed = with_mixed(sized, y, kind, 1, (0, 1), 63)
        yield PHI, sized, changed, {}, refused(14)
        yield VERIFY, sized, changed, {}, refused(14)
        yield VERIFY, sized, y, {}, accepted(LARGEST_BOUND)


def turns(rng):
    """Turn numbers on both sides of their range, and challenges of another number than the turn's."""
    s = SMALL._replace(n=2, r=3)
    x = short_lists(rng, s)
    x["phi"] = bare.bare_phi(s, x)["phi"]
    for turn in (0, s.r + 1, s.r + 2, 16, 17, 2**31, 2**32, 2**32 + 1, 2**62, HUGE):
        for count in (0, s.r - 1, s.r):
            yield TURN, s._replace(turn=turn), x | {"earlier_c": x["c"][: count * s.d]}, {}, refused(2)
    for turn in range(1, s.r + 1):
        for count in range(s.r + 1):
            earlier = x["c"][: count * s.d]
            yield TURN, s._replace(turn=turn), x | {"earlier_c": earlier}, {}, None if count == turn - 1 else refused(7)
        earlier = x["c"][: (turn - 1) * s.d]
        for wrong in (earlier + [0], earlier[:-1] if earlier else [1]):
            yield TURN, s._replace(turn=turn), x | {"earlier_c": wrong}, {}, refused(7)
        for place in range(len(earlier)):
            for number in (3, -3):
                yield TURN, s._replace(turn=turn), replaced(x | {"earlier_c": earlier}, "earlier_c", place, number), {}, refused(10)
    # sixteen parts: the first and the last turn
    s = SMALL._replace(r=16, K=0)
    x = short_lists(rng, s) | {"phi": uniform(rng, ring.LARGEST, LENGTHS["phi"](s))}
    for turn in (1, 2, 15, 16):
        yield TURN, *turn_lists(s, x, turn)
    yield TURN, *turn_lists(s, x, 17), {}, refused(2)
    # any φ and any witness, with zero challenges and with drawn ones
    for d in (2, 4, 16):
        s = SMALL._replace(d=d, n=2, r=3)
        x = {"phi": uniform(rng, ring.LARGEST, LENGTHS["phi"](s)), "witness": uniform(rng, ring.LARGEST, LENGTHS["witness"](s))}
        for c in (ring.zero(d) * 3, fold.flat(challenge(rng, d) for _ in range(3))):
            yield TURN, *turn_lists(s, x | {"c": c}, 3)


def challenge_sides(rng):
    """Both sides of the rule for challenges at degrees 64 and 32, before a turn and in the verifier; 8 and 9 before 10."""
    for _, shape, taken, c in sides_of_challenges(rng, few=True):
        s = SMALL._replace(K=0, d=shape["d"], r=shape["r"] + 1, turn=shape["r"] + 1)
        x = {name: uniform(rng, 3, LENGTHS[name](s)) for name in ("phi", "witness")} | {"earlier_c": c}
        yield TURN, s, x, {}, None if taken else refused(10)
        s = SMALL._replace(K=0, **shape)
        x = {name: [0] * LENGTHS[name](s) for name in CALLS["bare_verify"].reads}
        x |= {"a_matrix": uniform(rng, 1, s.d), "witness": uniform(rng, 2, s.r * s.d), "c": c}
        y = bare.honest(s, x)
        yield VERIFY, s, y, {}, expected(s, y) if taken else refused(10)
    s = SMALL._replace(d=64, r=2, K=0, w=1, turn=2)
    x = {name: [0] * LENGTHS[name](s) for name in LENGTHS}
    yield TURN, s, replaced(x, "phi", -1, ring.LARGEST + 1), {}, refused(8)
    yield TURN, s, x, {}, refused(10)
    yield VERIFY, s, replaced(x, "projections", -1, 2), {}, refused(9)
    yield VERIFY, s, replaced(x, "bare_opening", 0, -ring.LARGEST - 1), {}, refused(8)


def largest_sizes(rng):
    """Sizes at their limits, each alone, with zeros."""
    for changes in ({"n": 256}, {"r": 16}, {"K": 32}, {"L": 32}, {"w": 256}, {"kappa": 8}, {"beta_squared": LARGEST_BOUND, "z_bound": 0}, {"beta_squared": 0, "z_bound": LARGEST_BOUND}):
        s = SMALL._replace(**changes)
        x = {name: [0] * LENGTHS[name](s) for name in "a_matrix whole constant_terms projections psi omega alpha delta c witness".split()}
        y = bare.honest(s, x)
        yield VERIFY, s, y, {}, accepted(s.z_bound)
        if changes.keys() & {"n", "r", "kappa"}:
            yield COMMIT, s, x
        if "kappa" not in changes:
            yield PHI, s, x


def ends_of_chains(rng):
    """The bare level after two folds and one with one z digit, d = 2 and 8, and after one such fold, d = 64: margin 0; one less, failed 7."""
    for d, shapes, draw in ((2, chains.LONG, coefficients), (8, chains.SHORT, chains.short), (64, chains.ONE_FOLD, chains.short)):
        levels, (s, x, y) = chains.chain(rng, d, shapes, draw)
        assert all(fold.answer("verify", f, lists) == accepted(0) for (f, lists), _ in levels)
        yield VERIFY, s, y, {}, accepted(0)
        if d == 2:
            yield from messages(s, x)
            yield VERIFY, s._replace(z_bound=s.z_bound - 1), y, {}, failed(7)
            yield VERIFY, s, moved(y, "bare_opening", -1), {}, failed(4)


GROUPS = (
    every_degree, kept_challenges, near_bounds, long_sums, any_witness, failing_checks, aggregate_fails, corrupted_numbers, exchanged_lists, refusals,
    mixed_products, turns, challenge_sides, largest_sizes, ends_of_chains,
)


def cases():
    """Every case: number, sizes, lists, lengths of written lists that differ."""
    for place, group in enumerate(GROUPS):
        for number, s, x, *more in group(random.Random(80 + place)):
            lengths, answer = more or ({}, None)
            assert answer is None or stored.answer_numbers(answer) == case(number, s, x, lengths)[1][:2], (group.__name__, answer)
            yield number, s, x, lengths


def files():
    """Input and output."""
    lines = [case(*given) for given in cases()]
    stdin = stored.numbers_text(line for line, _ in lines)
    assert len(stdin) <= LARGEST_INPUT_BYTES, len(stdin)
    assert max(len(line) for line, _ in lines) <= LARGEST_LINE_NUMBERS
    assert max(len(output) for _, output in lines) - 2 <= LARGEST_WRITTEN_NUMBERS
    yield "crates/bare_cases/stdin", stdin
    yield "crates/bare_cases/stdout", stored.numbers_text(output for _, output in lines)


if __name__ == "__main__":
    stored.write(files)
