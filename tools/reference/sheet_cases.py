"""Stored input and output of the programs that judge sheets:

    crates/verdict/stdin, stdout          the whole case of SPECIFICATION 12.4 and its line
    crates/verdict_cases/stdin, stdout    all cases below, and for each the line that the program of verdicts prints

The input of all cases: stored.sheets_text. With the argument `names` the script prints a line for each case: its number, its answer, its
count of bytes, its group and name; last the count of cases by answer.

Honest sheets are kept ones, but for the last eight groups: their openings are by the older rule of the low digit (ring.kept_rule), their
challenges of degree 64 by the rule of the smaller degrees (kept_draws).

Groups, in sheet_checks.py, sheet_numbers.py, sheet_faults.py and sheet_widths.py; a case's name says what is changed.

    whole_case             the whole case of SPECIFICATION 12.4
    every_degree           honest sheets at every degree below 64, sizes apart from one another; bounds that just hold or just fail
    largest_sizes          n = 256, w = 256, K = L = 32, all κ = 8 with t1 = t2 = 8, empty lists
    long_witness           witnesses of any coefficients, bases 65536, so that b² is above q
    failing_checks         each check fails alone; every two at once; some three at once
    last_rows              faults in the last row of A, u1, u2, t, in each b'' and in the last p
    fifth_aggregate        faults that are seen only in the fifth of the five second functions
    wide_digits            digits far beyond their base that recompose to the right values: refused by 15
    wrapped_lengths        squared lengths whose sums modulo 2^64 would hold; those of digits refused by 15
    changed_numbers        one number of an honest sheet changed, in range
    ends_of_the_range      ±2147483598 and ±2147483599 in every list; numbers that 32 bits would cut to a good one
    order_of_numbers       8, 9, 10 by number and not by place; 12 before them
    challenges             coefficients ±2 and ±3; squared length 71 and 72, also of kept sheets of degree 64
    longest_texts          65536 and 65537 bytes; r = 16
    field_faults           one field broken
    line_faults            one line broken
    end_faults             the text cut off, something before it or after it, other line ends, other padding
    header_sides           each size on both sides of its limits, over a broken body
    header_over_a_body     the same over a good body
    header_order           two rows of the header at once; a row and the layout
    even_halves            z, t, g and h with numbers half a base from two multiples; honest sheets by the rule, and by the older one
    challenge_sides        challenges of degree 64 by their counts, of one part and of two; of degree 32 by their squared length
    margins                the target bound on both sides of the squared length, and at its largest
    other_values_modulo_q  narrow digits of values that are greater or less by q, accepted since recomposition is modulo q, or failed 9 or 3
    wrapped_top_digits     squared lengths of digits, the low ones narrow, whose sums modulo 2^64 would hold
    one_digit_moved        a low digit moved and still narrow, a top digit at the end of the range; the whole case to bases of 2
    digit_widths           low digits on both sides of half their base, top digits of any width, other rows and failing checks beside 15
    padded_chains          a chain whose z chunks are not full: of a statement that no witness solves the last fold is accepted
"""

import random
import sys
from collections import Counter

import ring
import sheet
import sheet_checks
import sheet_faults
import sheet_numbers
import sheet_widths
import stored
from fixtures import accepted, kept_draws, whole_case_text


def judged(group, *arguments):
    """The cases of a group as (group, name, answer, text). Where the script states an answer, the judgement is compared with it."""
    for name, stated, given in group(*arguments):
        text = given if isinstance(given, bytes) else sheet.write_sheet(*given)
        answer = sheet.judge(text)
        assert stated in (None, answer), (group, name, stated, answer)
        yield group.__name__, name, answer, text


def all_cases():
    """The cases of all groups."""
    rng = random.Random(12)
    groups = [(group, rng) for group in sheet_checks.GROUPS + sheet_numbers.GROUPS] + [(group,) for group in sheet_faults.GROUPS]
    with ring.kept_rule(), kept_draws():
        cases = [case for group in groups for case in judged(*group)]
    for group, seed in ((sheet_checks.even_halves, 15), (sheet_numbers.challenge_sides, 16), (sheet_checks.margins, 18)):
        cases += judged(group, random.Random(seed))
    rng = random.Random(24)
    for group in sheet_widths.GROUPS:
        cases += judged(group, rng)
    cases += judged(sheet_checks.padded_chains, random.Random(27))
    return cases


def files():
    cases = all_cases()
    yield "crates/verdict_cases/stdin", stored.sheets_text([text for _, _, _, text in cases])
    yield "crates/verdict_cases/stdout", b"".join(sheet.output_line(answer) for _, _, answer, _ in cases)
    yield "crates/verdict/stdin", whole_case_text()
    yield "crates/verdict/stdout", sheet.output_line(accepted(0))


def print_names():
    cases = all_cases()
    for number, (group, name, answer, text) in enumerate(cases, start=1):
        print(number, *answer, len(text), f"{group}: {name}")
    for (kind, number), count in sorted(Counter(answer for _, _, answer, _ in cases).items()):
        print(f"{count} {kind} {number}")


if __name__ == "__main__":
    print_names() if sys.argv[1:] == ["names"] else stored.write(files)
