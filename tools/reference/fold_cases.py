"""Stored input and output of the test program for the fold's calls, crates/fold_cases.

Input: decimal numbers parted by single blanks, one case a line. A case is the number of a call, then the sixteen sizes
    d n r K L w κ κ1 κ2 b b1 b2 t1 t2 β² β'²
and then the call's lists, each as its length and its numbers, in the order of sizes.CALLS; of a list that the call writes only
the length is given, and the program fills it with FILL before the call. Calls 1 to 5 are the messages, 6 is the verifier; 7 and 8 are 5 and 6 with z in
one digit, and then b stands in its place and is not looked at.
Output: a line for each case: the answer's kind and number, and then the numbers of the lists that the call wrote.
"""

import random

import fold
import ring
import stored
import low_digits
import one_digit
from fixtures import (
    SMALL, challenge, check_faults, honest_case, kept_draws, margin_sides, moved, random_lists, random_sizes, replaced, short_lists,
    sides_of_challenges, uniform,
)
from sizes import CALLS, HEADER, LARGEST_BOUND, LENGTHS

# the program's room
LARGEST_INPUT_BYTES = 2097152
LARGEST_LINE_NUMBERS = 16384

SIZES = [name for name in HEADER if name not in ("nu", "mu")]

# the calls by their numbers in the input
NUMBERED = dict(enumerate(("message_1", "message_2", "message_3", "message_4", "message_5", "verify"), start=1))
AMORTIZE, VERIFY = 5, 6

# those with z in one digit, and the calls that they are
ONE_DIGIT = {7: AMORTIZE, 8: VERIFY}
AMORTIZE_ONE, VERIFY_ONE = ONE_DIGIT


def call_of(number):
    return NUMBERED[ONE_DIGIT.get(number, number)]


def case(number, s, x, lengths=None):
    """The input line and the output line of one call. `lengths` changes the lengths of lists that it writes."""
    assert s.tz == (1 if number in ONE_DIGIT else 2) or number < AMORTIZE
    call = call_of(number)
    _, reads, writes = CALLS[call]
    room = {name: [stored.FILL] * (lengths or {}).get(name, LENGTHS[name](s)) for name in writes}
    line = [number] + [getattr(s, name) for name in SIZES]
    line += fold.flat([len(x[name])] + x[name] for name in reads) + [len(room[name]) for name in writes]
    answer = kind, content = fold.answer(call, s, x | room)
    written = room | (content if kind == "written" else {})
    return line, stored.answer_numbers(answer) + fold.flat(written[name] for name in writes)


def run(s, x):
    """All five messages, and the verdict on them."""
    for number in range(1, VERIFY):
        yield case(number, s, x)
    yield case(VERIFY, s, fold.honest(s, x))


def every_degree(rng):
    """Honest runs at every degree, with sizes that differ from one another; those of degree 64 have kept challenges (kept_draws)."""
    for d in ring.DEGREES:
        for _ in range(2 if d > 8 else 4):
            s = random_sizes(rng)._replace(
                d=d, n=rng.randint(1, 2 if d > 8 else 3), r=rng.randint(1, 3), K=rng.randint(0, 2), L=rng.randint(0, 2),
                w=rng.randint(0, 2), kappa=rng.randint(1, 2), kappa1=rng.randint(1, 3), kappa2=rng.randint(1, 2),
                t1=rng.choice((2, 3)), t2=rng.choice((2, 4)),
            )
            yield from run(s, random_lists(rng, s, rng.random() < 0.6))


def near_bounds(rng):
    """Honest runs whose bounds just hold or just fail."""
    for _ in range(12):
        s, _, y = honest_case(rng)
        yield case(VERIFY, s, y)


def any_witness(rng):
    """Witnesses that meet no constraint: the messages answer all the same."""
    for _ in range(3):
        s = random_sizes(rng)._replace(K=2, L=1, w=2)
        x = random_lists(rng, s, False)
        x["witness"] = [ring.centred(number + 1) for number in x["witness"]]
        yield from run(s, x)


def failing_checks(rng):
    """Each check fails alone, and every two at once."""
    s, y, faults = check_faults(rng)
    too_long = s._replace(target_beta_squared=0)
    yield case(VERIFY, s, y)
    yield case(VERIFY, too_long, y)
    for fault in faults.values():
        yield case(VERIFY, s, y | fault)
        yield case(VERIFY, too_long, y | fault)
        for other in faults.values():
            if not fault.keys() & other.keys():
                yield case(VERIFY, s, y | fault | other)


def corrupted_numbers(rng):
    """One number of any list of the verifier changed, in range."""
    for _ in range(20):
        s, _, y = honest_case(rng)
        name = rng.choice([name for name in y if y[name] and name not in ("projections", "c")])
        yield case(VERIFY, s, moved(y, name, rng.randrange(len(y[name])), rng.choice((1, -1, 2, 65536))))


def refusals(rng):
    """Rows 1 to 10 of every call, alone and two at once; outputs stay as they were."""
    s = random_sizes(rng)._replace(
        d=2, n=1, r=2, K=1, L=1, w=1, kappa=1, kappa1=1, kappa2=1, b=16, b1=256, t1=2, b2=16, t2=2,
        beta_squared=100, target_beta_squared=LARGEST_BOUND,
    )
    x = random_lists(rng, s, True)
    y = x | fold.honest(s, x)
    size_faults = [
        {"d": 3}, {"d": 0}, {"d": 128}, {"n": 0}, {"n": 257}, {"r": 0}, {"r": 17}, {"K": 33}, {"L": 33}, {"w": 257},
        {"kappa": 0}, {"kappa": 9}, {"kappa1": 0}, {"kappa2": 9}, {"b": 1}, {"b": 65537}, {"b1": 0}, {"b2": 65537},
        {"t1": 1}, {"t1": 9}, {"t2": 9}, {"beta_squared": LARGEST_BOUND + 1}, {"target_beta_squared": LARGEST_BOUND + 1},
        {"d": 3, "n": 0}, {"n": 0, "kappa": 0}, {"kappa": 0, "b1": 1},
    ]
    for number, call in NUMBERED.items():
        taken, reads, writes = CALLS[call]
        lengths = {name: LENGTHS[name](s) for name in writes}
        for fault in size_faults:
            if number == VERIFY or fault.keys() & set(taken):
                yield case(number, s._replace(**fault), y, lengths)
        for name in reads:
            yield case(number, s, y | {name: y[name] + [0]})
            yield case(number, s, y | {name: [ring.LARGEST + 1] + y[name][1:]})
            yield case(number, s, y | {name: y[name][:-1] + [-ring.LARGEST - 1]})
        for name in writes:
            yield case(number, s, y, {name: lengths[name] + 1})
            yield case(number, s, y, {name: 0})
        last = reads[-1]
        if "projections" in reads:
            row = {"projections": [2] + y["projections"][1:]}
            yield case(number, s, y | row)
            yield case(number, s, y | row | {last: y[last][:-1] + [ring.LARGEST + 1]})
        if "c" in reads:
            yield case(number, s, y | {"c": y["c"][:-1] + [3]})
            yield case(number, s, y | {"c": y["c"][:-1] + [-3], last: y[last] + [1]})
    # "71 read as a length": squared length 71 and 72 at degree 32
    wide = s._replace(d=32, K=0, L=0, w=0)
    z = random_lists(rng, wide, True)
    for last in (1, 2):
        c = [2] * 17 + [1, 1, last] + [0] * 12
        yield case(5, wide, z | {"c": c + c})


def honest_at_64(rng):
    """Honest runs of degree 64 with drawn challenges, of one part and of two."""
    for changes in ({"L": 1, "w": 1}, {"r": 2, "K": 0}):
        s = SMALL._replace(d=64, **changes)
        yield from run(s, short_lists(rng, s))


def challenge_sides(rng):
    """Both sides of the rule for challenges at degrees 64 and 32 in message 5 and in the verifier, which takes those of degree 64 in
    honest_at_64; at 64, 8 and 9 come before 10.
    """

    def lists(s, c):
        x = {name: [0] * LENGTHS[name](s) for name in CALLS["verify"].reads}
        return x | {"a_matrix": uniform(rng, 1, s.d), "witness": uniform(rng, 2, s.r * s.d), "c": c}

    def checked(number, s, x, taken):
        line, output = case(number, s, x)
        assert (output[:2] == [2, 10]) == (not taken)
        return line, output

    for _, shape, taken, c in sides_of_challenges(rng):
        s = SMALL._replace(K=0, **shape)
        yield checked(5, s, lists(s, c), taken)
    for _, shape, taken, c in sides_of_challenges(rng, few=True):
        s = SMALL._replace(K=0, **shape)
        if s.d == 32 or not taken:
            yield checked(VERIFY, s, fold.honest(s, lists(s, c)), taken)
    s = SMALL._replace(d=64, K=0, w=1)
    x = lists(s, challenge(rng, 64))
    for number in (ring.LARGEST, ring.LARGEST + 1):
        yield case(5, s, replaced(x, "c", -1, number))
    x |= {"c": ring.zero(64)}
    yield case(5, s, replaced(x, "witness", -1, ring.LARGEST + 1))
    yield case(VERIFY, s, replaced(x, "projections", -1, 2))


def margins(rng):
    """Target bounds on both sides of the squared length."""
    for name, answer, s, y in margin_sides(rng):
        line, output = case(VERIFY, s, y)
        assert output == stored.answer_numbers(answer), name
        yield line, output


def digit_widths(rng):
    """Row 15: low digits on both sides of half their base, wide top digits, other rows and failing checks beside it, honest digits of half their base."""
    odd, even = (low_digits.FREE._replace(**bases) for bases in (low_digits.ODD, low_digits.EVEN))
    groups = (
        low_digits.sides(odd, ((0, 1), (-1, -1))), low_digits.sides(even, ((0, -1), (-1, 1))), low_digits.far_low_digits(even), low_digits.wide_tops(odd, (1,)),
        low_digits.with_rows(even), low_digits.with_checks(odd), low_digits.recomposed(rng, SMALL, ((0, 1),)),
        low_digits.halves(rng, SMALL._replace(n=2, r=2, b=4, b1=6, b2=2, t2=3)),
    )
    for group in groups:
        for name, answer, s, y in group:
            line, output = case(VERIFY, s, y)
            assert output == stored.answer_numbers(answer), name
            yield line, output


def one_digit_cases(groups, rng):
    """Cases with z in one digit, and those of nonzero padding."""
    for group in groups:
        for number, s, x, *more in group(rng):
            lengths, answer = more or ({}, None)
            line, output = case(number, s, x, lengths)
            assert answer is None or output[:2] == stored.answer_numbers(answer), (group, answer, output)
            yield line, output


def files():
    """Input and output. Of the first groups the challenges of degree 64 are kept ones."""
    rng = random.Random(20)
    groups = (every_degree, near_bounds, any_witness, failing_checks, corrupted_numbers, refusals)
    with kept_draws():
        cases = [line for group in groups for line in group(rng)]
    rng = random.Random(21)
    cases += [line for group in (honest_at_64, challenge_sides) for line in group(rng)]
    cases += margins(random.Random(22))
    cases += digit_widths(random.Random(23))
    cases += one_digit_cases(one_digit.GROUPS, random.Random(26))
    cases += one_digit_cases([one_digit.padded_chains], random.Random(27))
    stdin = stored.numbers_text(line for line, _ in cases)
    assert len(stdin) <= LARGEST_INPUT_BYTES, len(stdin)
    assert max(len(line) for line, _ in cases) <= LARGEST_LINE_NUMBERS
    yield "crates/fold_cases/stdin", stdin
    yield "crates/fold_cases/stdout", stored.numbers_text(output for _, output in cases)


if __name__ == "__main__":
    stored.write(files)
