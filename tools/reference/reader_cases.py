"""Stored input and output of the test program for the calls that read and write a sheet, crates/sheet_cases.

Input: stored.sheets_text, then the cases of writer_cases.py. Output: five lines for each case here, then those of writer_cases.py.
Honest sheets are kept ones, but for challenge_sides, margins and wide_digits: their openings are by the older rule of the low digit (ring.kept_rule).

    count                           how many numbers the header's sizes give
    kind number header shown(X)     three times, for a slice of one number less than the count, of as many, and of one more: the reader's
                                    answer (kind 2 refused, 3 written), the header's 18 numbers (0 where it refuses), and the slice X
                                    afterwards, which the program fills with FILL before the call; shown(X) as in next_cases.py
    kind number                     the judge's answer (kind 0 accepted and the margin, 1 failed, 2 refused)

With the argument `names` the script prints a line for each case: its name and its answers.
"""

import random
import sys

import ring
import sheet
import low_digits
import writer_cases
from fixtures import SMALL, honest, margin_sides, replaced, sides_of_challenges, whole_case_text
from sheet_faults import ROWS, header_with
from stored import FILL, answer_numbers, numbers_text, sheets_text, shown, write


def good_sheets(rng):
    """Sheets of several sizes, accepted or failed; K = L = w = 0; more numbers than are printed."""
    yield "whole case", whole_case_text()
    yield "whole case, β'² = 12", whole_case_text(target_beta_squared=12)
    for changes in (
        {"K": 0}, {"K": 0, "L": 2}, {"K": 0, "w": 3}, {"n": 3, "r": 2, "L": 1, "w": 2, "nu": 7, "mu": 2},
        {"d": 4, "n": 2, "r": 3, "K": 2, "kappa": 2, "kappa1": 3, "t1": 3, "t2": 4}, {"d": 8, "kappa2": 4, "w": 1}, {"d": 32, "r": 2, "L": 1},
    ):
        s, y = honest(rng, SMALL._replace(**changes))
        yield ", ".join(f"{size} = {value}" for size, value in changes.items()), sheet.write_sheet(s, y)


def refused_sheets(rng):
    """The header broken, or refused by each of 1 to 6; other lines broken; numbers refused by 8, 9 and 10; two of these at once."""
    text = whole_case_text()
    yield "no text", b""
    yield "header without its line feed", text[:288]
    yield "a letter in the header", text[:15] + b"a" + text[16:]
    for number, fault in ROWS.items():
        yield f"row {number}", b"".join(header_with(**fault))
    yield "rows 5 and 6", b"".join(header_with(**ROWS[5], **ROWS[6]))
    yield "header alone", text[:289]
    yield "a letter in the last field", text[:-2] + b"a\n"
    yield "a line feed more", text + b"\n"
    yield "a header of more numbers than 65536 bytes hold", b"".join(header_with(d=64, K=12))
    s, y = honest(rng, SMALL._replace(r=2, L=1, w=1))
    wide, row, challenge = ("opening", -1, 2147483599), ("projections", 0, 2), ("c", -1, 3)
    for name, faults in (("8", (wide,)), ("9", (row,)), ("10", (challenge,)), ("8, 10", (wide, challenge)), ("9, 10", (row, challenge))):
        numbers = y
        for fault in faults:
            numbers = replaced(numbers, *fault)
        yield f"numbers refused by {name}", sheet.write_sheet(s, numbers)
        yield f"numbers refused by {name}, a byte more", sheet.write_sheet(s, numbers) + b" "


def challenge_sides(rng):
    """Both sides of the rule for challenges at degrees 64 and 32; 8 before 10."""
    for name, shape, _, c in sides_of_challenges(rng, few=True):
        yield name, sheet.write_sheet(*honest(rng, SMALL._replace(K=0, **shape), c=c))
    s, y = honest(rng, SMALL._replace(d=64, K=0), c=ring.zero(64))
    yield "d = 64, numbers refused by 8, 10", sheet.write_sheet(s, replaced(y, "opening", -1, 2147483599))


def margins(rng):
    """Target bounds on both sides of the squared length."""
    for name, answer, s, y in margin_sides(rng):
        text = sheet.write_sheet(s, y)
        assert sheet.judge(text) == answer, name
        yield name, text


def wide_digits(rng):
    """A wide low digit in each block: the reader takes them, the judge refuses by 15; digits at half, wide top digits and lower rows beside them."""
    odd, even = (low_digits.FREE._replace(**bases) for bases in (low_digits.ODD, low_digits.EVEN))
    groups = (
        low_digits.sides(odd, ((-1, 1),)), low_digits.far_low_digits(even), low_digits.wide_tops(even, (-1,)), low_digits.with_rows(odd),
        low_digits.recomposed(rng, SMALL, ((0, 1),)),
    )
    for name, answer, s, y in (case for group in groups for case in group if case[1] != ("refused", 7)):
        text = sheet.write_sheet(s, y)
        assert sheet.judge(text) == answer, name
        kind, _ = sheet.read_sheet(text)
        assert (kind == "read") == (answer[0] != "refused" or answer[1] == 15), name
        yield name, text


def case_lines(text):
    """The output of a case, as lists of numbers."""
    count = sheet.sheet_numbers(text)
    lines = [[count]]
    for length in (max(count - 1, 0), count, count + 1):
        answer, header, numbers = sheet.read_into(text, [FILL] * length)
        lines.append(answer_numbers(answer) + header + shown(numbers))
    return lines + [answer_numbers(sheet.judge(text))]


def all_cases():
    rng = random.Random(14)
    with ring.kept_rule():
        cases = [case for group in (good_sheets, refused_sheets) for case in group(rng)]
    return cases + list(challenge_sides(random.Random(17))) + list(margins(random.Random(19))) + list(wide_digits(random.Random(25)))


def files():
    texts = [text for _, text in all_cases()]
    writer_input, writer_output = writer_cases.stored_texts()
    yield "crates/sheet_cases/stdin", sheets_text(texts) + writer_input
    yield "crates/sheet_cases/stdout", numbers_text(line for text in texts for line in case_lines(text)) + writer_output


def print_names():
    for name, text in all_cases():
        count, *answers = case_lines(text)
        print(*count, *(f"{line[0]} {line[1]}" for line in answers), name, sep=", ")


if __name__ == "__main__":
    print_names() if sys.argv[1:] == ["names"] else write(files)
