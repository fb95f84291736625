"""Stored input and output of the test program for the next instance, crates/next_cases.

Input: decimal numbers, one case a line, each number ended by one blank or line feed. A case is its kind (1 to 6), then the eighteen sizes
    d n r K L w κ κ1 κ2 b b1 b2 t1 t2 ν μ β² β'²
and then what its kind has, below. A list is its length and its numbers; "length of X" is one number. Every number fits 64 bits with a sign;
a size or part -k stands for 2^64 - k. Every number of a list fits 32 bits with a sign.

Output: one line for each case. An answer is two numbers: its kind (0 accepted, 1 failed, 2 refused, 3 written) and its number.
sum(X) is two numbers, the count of numbers of X and a checksum: with x_1, x_2, .. the numbers of X, the remainder from 0 to
2147483646 of 1·x_1 + 2·x_2 + 3·x_3 + .. modulo 2147483647 = 2^31 - 1. shown(X) is sum(X), and after it all numbers of X where X has
at most 1000. FILL is 77.

Kind 1, the next instance.
    Input: A, B, C, D, whole, constant terms, u1, projections, p, ψ, ω, b'', α, δ, u2, c; length of the list to write.
    Run: the list is filled with FILL; the call.
    Output: the answer, shown(the list).
Kind 2, one part of the next witness.
    Input: the part's number i; the opening. The call takes d n r κ t1 t2 ν μ, i and the opening.
    Output: the number that the question answers (0 if none of the rows applies), shown(the part).
Kind 3, a fold and a fold of the next instance. Nothing is refused here.
    Input: A, B, C, D, whole, constant terms, projections, ψ, ω, α, δ, c, witness;
        lengths of z digits, t digits, g digits, h digits, u1, p, b'', u2, and of the next instance's constraints;
        eighteen sizes of the second fold; its lists in the same order, of which whole, constant terms, ψ and witness are empty (the run
        gives it the first and the last, and L is 0); lengths of z digits, t digits, g digits, h digits, u1, p, b'', u2 of it.
    Run: every list to write is filled with FILL. Messages 1 to 5 from the first statement and witness (commit, project, aggregate,
    commit_garbage, amortize), verify on them (the opening is the digits of z, t, g, h), next_instance. Then the second fold: its whole
    constraints are the list that next_instance was to write (also where it wrote nothing), its witness is r' parts of n' elements, part
    i being part i of the next witness (kind 2's call) with zeros after it; messages 1 to 5 and verify on them.
    Output: message 1's answer, sum(t), sum(g), sum(u1); message 2's answer, sum(p); message 3's answer, sum(b''); message 4's answer,
    sum(h), sum(u2); message 5's answer, sum(z); the verdict; next_instance's answer, sum(its list); sum(the second witness); and the
    second fold's messages and verdict in the same way.
Kinds 4, 5 and 6: as 1, 2 and 3, with z in one digit in the fold, in kind 6 in the first one; b of it stands in its place and is not looked at. The second fold
of kind 6 has two z digits.

The longest list that is written has 24840 numbers in kinds 1 and 4 and 6144 in kinds 3 and 6, the longest that is read 630 in kinds 1 and 4, 1036 in kinds 2
and 5, 576 in kinds 3 and 6; in kinds 3 and 6 the longest opening has 1792 numbers and the longest second witness 768.
"""

import random

import fold
import next_groups
from fixtures import kept_draws
from next_fixtures import second_lists
from sizes import CALLS, LENGTHS, header_numbers
from stored import FILL, answer_numbers, numbers_text, shown, summed, write

MESSAGES = ("message_1", "message_2", "message_3", "message_4", "message_5")
FOLD_READS = "a_matrix b_matrix c_matrix d_matrix whole constant_terms projections psi omega alpha delta c witness".split()
NOT_DRAWN = {"whole": [], "constant_terms": [], "psi": [], "witness": []}
FOLD_WRITES = "z_digits t_digits g_digits h_digits u1 p second_b u2".split()

# The program's room.
LARGEST_INPUT_BYTES = 2097152
LARGEST_LINE_NUMBERS = 4096

# The longest list that is written, by kind.
LONGEST = {1: 24840, 3: 6144}

# Kinds 4 to 6 are 1 to 3 with z in one digit.
PLAIN_KINDS = 3


def kind_number(kind, s):
    return kind + (PLAIN_KINDS if s.tz == 1 else 0)


# Numbers in

def size_number(value):
    """A size of 64 bits as a number with a sign."""
    assert -(2**63) <= value < 2**64
    return value if value < 2**63 else value - 2**64


def lists(x, names):
    """Each list as its length and its numbers."""
    return fold.flat([len(x[name])] + x[name] for name in names)


# The kinds

def next_list(s, x, room):
    """The answer to the next instance, and the list of `room` numbers afterwards."""
    filled = [FILL] * room
    answer = kind, content = fold.answer("next_instance", s, x | {"next_whole": filled})
    return answer_numbers(answer), content["next_whole"] if kind == "written" else filled


def next_instance(s, x, length=None):
    """Kind 1. `length` is that of the list to write, the right one if it is left out."""
    room = LENGTHS["next_whole"](s) if length is None else length
    assert room <= LONGEST[1]
    line = [kind_number(1, s)] + [size_number(size) for size in header_numbers(s)] + lists(x, CALLS["next_instance"].reads) + [room]
    answer, whole = next_list(s, x, room)
    return line, answer + shown(whole)


def part(s, i, opening):
    """Kind 2."""
    line = [kind_number(2, s)] + [size_number(size) for size in header_numbers(s)] + [size_number(i), len(opening)] + opening
    number, numbers = fold.answer_next_part(s, {"opening": opening}, i)
    return line, [number] + shown(numbers)


def fold_output(s, x):
    """The messages' answers and sums, the verdict; and the verifier's lists."""
    y = fold.honest(s, x)
    output = []
    for call in MESSAGES:
        answer = _, written = fold.answer(call, s, x)
        assert all(y[name] == written[name] for name in written if name in y)
        output += answer_numbers(answer) + fold.flat(summed(written[name]) for name in CALLS[call].lengths_only)
    return output + answer_numbers(fold.answer("verify", s, y)), y


def twice(s, x, following, draws, expected):
    """Kind 3. `expected` are the two verdicts and the next instance's answer."""
    assert following.tz == 2
    room = LENGTHS["next_whole"](s)
    line = [kind_number(3, s)] + header_numbers(s) + lists(x, FOLD_READS) + [LENGTHS[name](s) for name in FOLD_WRITES] + [room]
    line += header_numbers(following) + lists(draws | NOT_DRAWN, FOLD_READS) + [LENGTHS[name](following) for name in FOLD_WRITES]
    assert max(LENGTHS[name](sized) for name in FOLD_WRITES for sized in (s, following)) <= room <= LONGEST[3]
    output, y = fold_output(s, x)
    answer, whole = next_list(s, y, room)
    second = second_lists(s, y, whole, draws)
    second_output, _ = fold_output(following, second)
    assert (output[-2:], answer, second_output[-2:]) == expected, (output[-2:], answer, second_output[-2:])
    return line, output + answer + summed(whole) + summed(second["witness"]) + second_output


RUNS = {1: next_instance, 2: part, 3: twice}


def run_groups(groups, rng):
    return [RUNS[kind](*case) for group in groups for kind, *case in group(rng)]


def files():
    with kept_draws():
        cases = run_groups(next_groups.KEPT_GROUPS, random.Random(30))
    cases += run_groups(next_groups.GROUPS, random.Random(31))
    cases += run_groups(next_groups.WIDE_GROUPS, random.Random(32))
    cases += run_groups(next_groups.ONE_DIGIT_GROUPS, random.Random(33))
    stdin = numbers_text(line for line, _ in cases)
    assert len(stdin) <= LARGEST_INPUT_BYTES, len(stdin)
    assert max(len(line) for line, _ in cases) <= LARGEST_LINE_NUMBERS
    yield "crates/next_cases/stdin", stdin
    yield "crates/next_cases/stdout", numbers_text(output for _, output in cases)


if __name__ == "__main__":
    write(files)
