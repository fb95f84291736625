"""The sheet and the program of verdicts: SPECIFICATION 10."""

import random
import subprocess
import sys
from pathlib import Path

import fold
import low_digits
import ring
import sheet
import sheet_cases
import sizes
from fixtures import (
    SMALL, accepted, honest, honest_case, margin_sides, random_sizes, refused, sides_of_challenges, whole_case, whole_case_text,
)
from sheet_faults import SIZE_SIDES
from sizes import Sizes
from writer_cases import FAULTS, LONG, MIXED, drawn, with_faults

EXAMPLES = Path(__file__).parents[2] / "examples"


def test_whole_case_as_text():
    text = whole_case_text()
    assert [len(line) for line in text.split(b"\n")] == [288] + [32] * 32 + [0]
    assert text[:32] == b"               2               1" and text[256:289] == b"               5              13\n"
    assert sheet.line_text([-3, 4]) == b"              -3               4\n" and sheet.line_text([-3, 4]) in text
    s, x = whole_case()
    assert s == Sizes(2, 1, 1, 1, 0, 0, 1, 1, 1, 4, 8, 4, 2, 2, 1, 1, 5, 13)
    assert [x[name] for name in "a_matrix b_matrix c_matrix d_matrix".split()] == [[1, 0], [1, 0, 0, 0], [1, 0, 0, 0], [1, 0, 1, 0]]
    assert x["whole"] == [1, 0, 0, 0, -3, 4] and x["u1"] == [2, 2] and x["u2"] == [0, 0] and x["c"] == [0, 1]
    assert x["opening"] == [-2, 1, 0, 0, 1, 2, 0, 0, 1, 0, -1, 1, 0, 0, 0, 0]
    # A byte less, a byte twice, another byte in its place: broken everywhere.
    for place in range(len(text)):
        before, byte, after = text[:place], text[place : place + 1], text[place + 1 :]
        for other in (b"", byte + byte, b"a", b"\t", b"\0"):
            assert sheet.judge(before + other + after) == refused(12), (place, other)
        if byte != b" ":
            # "-3" and "13" without their first byte are numbers still.
            shorter = text[place - 1 : place] == b" " and after[:1].isdigit()
            assert (sheet.judge(before + b" " + after) == refused(12)) == (not shorter), place
    # The program itself.
    program = [sys.executable, sheet.__file__]
    for given, expected in ((text, [0, 0]), (b"", [2, 12]), (whole_case_text(12), [1, 9]), (whole_case_text(20), [0, 7]), (text[:-1], [2, 12])):
        run = subprocess.run(program, input=given, capture_output=True, check=True)
        assert run.stdout == sheet.line_text(expected) and not run.stderr


def test_broken_sheets():
    text = whole_case_text()
    header, body = text[:289], text[289:]
    field = sheet.field_text
    assert sheet.output_line(sheet.judge(b"")) == b"               2              12\n"

    def refuses(number, changed):
        assert sheet.judge(changed) == refused(number), changed

    def at(place, replacement):
        return text[:place] + replacement + text[place + len(replacement) :]

    first, last = 289, len(text) - 17
    for place in (0, first, last):
        for broken in (b"a", b"+1", b"-0", b"00", b"01", b"-01", b"- 1", b"1 ", b"", b"\t1", b"-", b"1-", b"\x001", b"1.0", b"1_0"):
            refuses(12, at(place, broken.rjust(16)))
    refuses(12, at(289 + 32, b"\r"))
    refuses(12, text[:-1])
    refuses(12, text + b"\n")
    refuses(12, text + b" ")
    refuses(12, text[:-1] + b"\r\n")
    refuses(12, header)
    refuses(12, header[:-1])
    refuses(12, b"\n" + text)
    refuses(12, text.replace(b"\n", b"\n\n", 1))
    refuses(12, b" " * 65537)
    # The header's sizes come before the other lines, even where these are missing; its layout comes before its sizes.
    bad_d = field(3) + header[16:]
    refuses(1, bad_d)
    refuses(1, bad_d + b"a letter")
    refuses(12, bad_d[:-1] + b" ")
    refuses(2, at(32, field(17)))
    refuses(5, at(14 * 16, field(9999999999999999)))
    refuses(6, at(16 * 16, field(-999999999999999)))
    refuses(6, at(16 * 16, field(9999999999999999)))
    # The layout of the other lines comes before their numbers; these by row number and not by place.
    out_of_range = at(first, field(2147483599))
    refuses(8, out_of_range)
    refuses(12, out_of_range[:-1])
    refuses(8, at(first, field(9999999999999999)))
    challenge_place = text.index(b"\n" + field(0) + field(1) + b"\n") + 1
    refuses(10, at(challenge_place, field(3)))
    refuses(8, at(challenge_place, field(3))[:last] + field(-2147483599) + b"\n")
    # Two fields of 16 digits with no blank between them are well formed.
    refuses(8, at(first, b"9" * 32))
    assert sheet.judge(at(first, field(2147483598)))[0] == "failed"


def test_margins():
    """ "number (the margin when accepted, the check that failed, the row that refused). The number is at most 999999999999999, 15 columns." """
    for name, answer, s, y in margin_sides(random.Random(20)):
        assert sheet.judge(sheet.write_sheet(s, y)) == answer, name
    widest = sheet.output_line(sheet.judge(whole_case_text(target_beta_squared=999999999999999)))
    assert widest == b"               0 999999999999986\n"


def test_sheet_round_trip():
    rng = random.Random(9)
    for _ in range(40):
        s, _, y = honest_case(rng)
        text = sheet.write_sheet(s, y)
        assert sheet.read_sheet(text) == ("read", (s, y))
        if len(text) <= sheet.LARGEST_TEXT:
            assert sheet.judge(text) == fold.answer("verify", s, y)
        else:
            assert sheet.judge(text) == refused(12)


def test_reader_slice():
    """Row 7: a slice of another length than the sizes give is refused, after the layout (12) and before 8 to 10."""
    rng = random.Random(13)
    marked = lambda length: [77] * length
    for _ in range(20):
        s, _, y = honest_case(rng)
        text = sheet.write_sheet(s, y)
        numbers = [number for name in sizes.SHEET_LISTS for number in y[name]]
        count = sheet.sheet_numbers(text)
        assert count == len(numbers)
        assert sheet.read_into(text, marked(count)) == (("written", 0), sizes.header_numbers(s), numbers)
        wide = sheet.write_sheet(s, y | {"u1": [ring.LARGEST + 1] * len(y["u1"])})
        assert sheet.read_into(wide, marked(count)) == (refused(8), [0] * 18, marked(count))
        for length in {0, count - 1, count + 1, 2 * count}:
            for given, number in ((text, 7), (wide, 7), (text[:-1], 12), (wide + b" ", 12)):
                assert sheet.read_into(given, marked(length)) == (refused(number), [0] * 18, marked(length))
        assert sheet.sheet_numbers(text[:289]) == count
        assert sheet.sheet_numbers(text[:288]) == sheet.sheet_numbers(sheet.write_sheet(s._replace(nu=0), y)) == 0


def marked(room):
    """A buffer of so many bytes that no text has."""
    return b"M" * room


def test_writer_round_trip():
    """ "What the writer puts down, the reader gives back .., and a text the reader takes is the text the writer makes of its numbers. Bytes past the
    text are untouched. Errors: 13 .. exactly when the buffer is shorter than the text." """
    rng = random.Random(15)
    for case in range(40):
        s, _, y = honest_case(rng)
        numbers = sheet.flat_numbers(y) if case % 2 else drawn(rng, s)
        length = sheet.sheet_bytes(s)
        for room in (0, 288, 289, length - 1):
            assert sheet.write_into(s, numbers, marked(room)) == (refused(13), 0, marked(room))
        for room in (length, length + 5):
            answer, written, buffer = sheet.write_into(s, numbers, marked(room))
            assert answer == ("written", 0) and written == length and buffer[length:] == marked(room - length)
            assert sheet.read_into(buffer[:length], [77] * len(numbers)) == (answer, sizes.header_numbers(s), numbers)
        assert buffer[:length] == sheet.write_sheet(s, sheet.named_lists(s, numbers))


def test_long_texts():
    """ "(65536 bytes is the program's limit, not the reader's)": nor the writer's."""
    rng = random.Random(16)
    for s in LONG:
        numbers, length = drawn(rng, s), sheet.sheet_bytes(s)
        assert length > sheet.LARGEST_TEXT
        assert sheet.write_into(s, numbers, marked(length - 1)) == (refused(13), 0, marked(length - 1))
        answer, written, text = sheet.write_into(s, numbers, marked(length))
        assert answer == ("written", 0) and written == length == len(text)
        assert sheet.read_sheet(text) == ("read", (s, sheet.named_lists(s, numbers)))
        assert sheet.judge(text) == refused(12)


def test_writer_refusals():
    """1 to 6, 7, 8, 9, 10, 13: alone, every two at once, all after each; the buffer is as it was. Sizes up to 2^64 - 1."""
    numbers = drawn(random.Random(17), MIXED)

    def refuses(number, s, given, room):
        assert sheet.write_into(s, given, marked(room)) == (refused(number), 0, marked(room))
        assert sheet.sheet_bytes(s) == (0 if number <= 6 else sheet.text_length(s))

    assert sheet.write_into(*with_faults((), numbers)[:2], marked(sheet.text_length(MIXED)))[0] == ("written", 0)
    for first in FAULTS:
        for second in FAULTS:
            refuses(min(first, second), *with_faults((first, second), numbers))
        refuses(first, *with_faults([row for row in FAULTS if row >= first], numbers))
    for count in (0, 1, len(numbers) - 1, len(numbers) + 1, 2 * len(numbers)):
        refuses(7, MIXED, (numbers * 2)[:count], 0)
    for name, sides in SIZE_SIDES.items():
        for number, values in sides.items():
            for value in values + (() if number == 0 else (2**63, 2**64 - 1)):
                s = MIXED._replace(**{name: value})
                if number:
                    refuses(number, s, numbers, 0)
                else:
                    assert sheet.sheet_bytes(s) == sheet.text_length(s)
    refuses(1, Sizes(*[2**64 - 1] * 18), [], 0)
    refuses(2, Sizes(2, *[2**64 - 1] * 17), numbers, 5000)


def test_sides_of_challenges():
    """Reader, writer and judge on both sides of the rule for challenges at degrees 64 and 32."""
    rng = random.Random(18)
    for name, shape, taken, c in sides_of_challenges(rng):
        s, y = honest(rng, SMALL._replace(K=0, **shape), c=c)
        text, numbers = sheet.write_sheet(s, y), sheet.flat_numbers(y)
        assert sheet.judge(text) == (accepted(0) if taken else refused(10)), name
        assert sheet.read_sheet(text) == (("read", (s, y)) if taken else refused(10)), name
        answer, length, buffer = sheet.write_into(s, numbers, marked(len(text)))
        if taken:
            assert (answer, length, buffer) == (("written", 0), len(text), text), name
        else:
            assert (answer, length, buffer) == (refused(10), 0, marked(len(text))), name
            assert sheet.write_into(s, numbers, b"")[0] == refused(10)
            assert sheet.read_sheet(text, len(numbers) - 1) == refused(7)
            assert sheet.judge(text + b" ") == refused(12)


def test_wide_digits():
    """ "of what the reader took, the verifier refuses by 15 what has a wide low digit, and nothing else": such sheets are read and written back byte for byte."""
    rng = random.Random(21)
    seen = set()
    for bases in (low_digits.ODD, low_digits.EVEN):
        s = low_digits.FREE._replace(**bases)
        groups = (low_digits.sides(s), low_digits.wide_tops(s), low_digits.with_rows(s), low_digits.with_checks(s), low_digits.recomposed(rng, SMALL))
        for name, answer, sized, y in (case for group in groups for case in group if case[1] != refused(7)):
            text, numbers = sheet.write_sheet(sized, y), sheet.flat_numbers(y)
            assert sheet.judge(text) == answer, name
            taken = answer[0] != "refused" or answer[1] == 15
            assert sheet.read_sheet(text) == (("read", (sized, y)) if taken else answer), name
            written = sheet.write_into(sized, numbers, marked(len(text)))
            assert written == ((("written", 0), len(text), text) if taken else (answer, 0, marked(len(text)))), name
            assert sheet.judge(text + b" ") == refused(12)
            seen.add(answer[0] if answer[0] != "refused" else answer[1])
    assert seen == {"accepted", "failed", 8, 9, 10, 15}
    s = low_digits.FREE._replace(**low_digits.ODD)
    wide = sheet.write_sheet(s, low_digits.wide(s, low_digits.at_half(s)))
    program = subprocess.run([sys.executable, sheet.__file__], input=wide, capture_output=True, check=True)
    assert program.stdout == b"               2              15\n" and not program.stderr


def test_texts_written_again():
    """ "So numbers have one text, and a text that is a sheet stands for one list of numbers." Every example and stored sheet that the reader takes is
    what the writer makes of its numbers; where it refuses the numbers, the writer does too, by the same row.
    """
    texts = [path.read_bytes() for path in sorted(EXAMPLES.glob("*.sheet"))] + [text for *_, text in sheet_cases.all_cases()]
    seen = {}
    for text in texts:
        kind, content = sheet.read_sheet(text)
        if kind == "read":
            s, x = content
            assert sheet.write_into(s, sheet.flat_numbers(x), marked(len(text))) == (("written", 0), len(text), text)
        elif content in (8, 9, 10):
            _, (s, position) = sheet.read_header(text)
            numbers = sheet.flat_numbers(sheet.read_body(s, text, position))
            assert sheet.write_into(s, numbers, marked(len(text))) == (refused(content), 0, marked(len(text)))
        seen[kind if kind == "read" else content] = True
    assert {"read", 8, 9, 10} <= set(seen)


def test_sheet_length():
    """The count of bytes that docs/SHEET.md gives."""
    rng = random.Random(10)
    for _ in range(40):
        s = random_sizes(rng)
        d, n, r, K, L, w, kappa, kappa1, kappa2, _, _, _, t1, t2 = s[:14]
        P = r * (r + 1) // 2
        lines = kappa * n + kappa1 * (r * t1 * kappa + P * t2) + kappa2 * P * t1 + K * (P + r * n + 1) + L * (P + r * n)
        lines += kappa1 + w * r * n + 5 + K + 5 + kappa2 + r + 2 * n + r * t1 * kappa + P * (t1 + t2)
        text = sheet.write_sheet(s, {name: [0] * sizes.LENGTHS[name](s) for name in sizes.SHEET_LISTS})
        assert len(text) == sheet.text_length(s) == 289 + (16 * d + 1) * lines + 17 * 6 * (L + w)


def test_examples():
    paths = sorted(EXAMPLES.glob("*.sheet"))
    assert len(paths) == len(list(EXAMPLES.glob("*.verdict"))) > 0
    for path in paths:
        assert sheet.output_line(sheet.judge(path.read_bytes())) == path.with_suffix(".verdict").read_bytes(), path
