"""The sheet and the program of verdicts: SPECIFICATION 10. Quotations are from docs/SPECIFICATION.md.

Run as a program it reads a sheet from standard input and prints the verdict's line.
"""

import re
import sys

import fold
from sizes import HEADER, LENGTHS, SHEET_LISTS, Sizes, function_length, header_numbers, number_refusal, size_refusal

# "Each number is decimal, right-justified with blanks in 16 columns".
COLUMNS = 16

# "The program reads standard input, at most 65536 bytes".
LARGEST_TEXT = 65536

# "no leading zeros, no plus, no minus zero".
FIELD = re.compile(rb" *(0|-?[1-9][0-9]*)")

# "kind (0 accepted, 1 failed, 2 refused)".
KINDS = {"accepted": 0, "failed": 1, "refused": 2}

# Row 7: "a slice's length is not what the sizes give"; row 12: "sheet broken"; row 13: "the buffer is shorter than the text".
SLICE_LENGTH = 7
SHEET_BROKEN = 12
BUFFER_SHORT = 13


class Broken(Exception):
    """Row 12: "sheet broken"."""


# The numbers after the header

def flat_numbers(x):
    """The lists of a sheet by name, one after another in its order."""
    return [number for name in SHEET_LISTS for number in x[name]]


def named_lists(s, numbers):
    """The lists of a sheet by name, cut from its numbers."""
    x = {}
    for name in SHEET_LISTS:
        length = LENGTHS[name](s)
        x[name] = numbers[:length]
        numbers = numbers[length:]
    return x


# Writing

def field_text(number):
    """ "Each number is decimal, right-justified with blanks in 16 columns, no leading zeros, no plus, no minus zero". """
    text = str(number).rjust(COLUMNS)
    assert len(text) == COLUMNS
    return text.encode()


def line_text(numbers):
    """ "each line ends with one line feed." """
    return b"".join(field_text(number) for number in numbers) + b"\n"


def line_widths(s):
    """The fields of each line after the header: "one ring element per line (d fields)"; the b of a constant-term constraint is
    "a line of one field"; "p, ψ, ω (one number a line ..)".
    """
    widths = []
    for name in SHEET_LISTS:
        length = LENGTHS[name](s)
        if name == "constant_terms":
            widths += ([s.d] * (function_length(s.d, s.n, s.r) // s.d) + [1]) * s.L
        elif name in ("p", "psi", "omega"):
            widths += [1] * length
        else:
            widths += [s.d] * (length // s.d)
    return widths


def text_length(s):
    """The bytes of a sheet of these sizes."""
    return sum(COLUMNS * width + 1 for width in [len(HEADER)] + line_widths(s))


def sheet_text(s, numbers):
    """ "Header: .. Then .. A, B, C, D by rows; ..; the opening. Nothing follows." "So numbers have one text". """
    rest = iter(numbers)
    lines = [[next(rest) for _ in range(width)] for width in line_widths(s)]
    return b"".join(line_text(line) for line in [header_numbers(s)] + lines)


def write_sheet(s, x):
    """The sheet of lists by name, whether or not the reader takes their numbers."""
    return sheet_text(s, flat_numbers(x))


def sheet_bytes(s):
    """How many bytes the text of a sheet of these sizes has; 0 where they are refused (1 to 6)."""
    return 0 if size_refusal(HEADER, s) else text_length(s)


def write_refusal(s, numbers, room):
    """The row by which the writer is refused, 0 if by none: 1 to 6 as for a header, 7 for the count of numbers, 8 to 10 for the numbers; "13, after
    11, exactly when the buffer is shorter than the text." Sizes that 1 to 6 refuse give no length.
    """
    number = size_refusal(HEADER, s)
    if number:
        return number
    if len(numbers) != sum(line_widths(s)):
        return SLICE_LENGTH
    number = number_refusal(s, named_lists(s, numbers))
    if number:
        return number
    return BUFFER_SHORT if room < text_length(s) else 0


def write_into(s, numbers, buffer):
    """The writer's call, which "turns the numbers of a sheet into its one text, into a lent buffer, and answers the text's length": its answer, that
    length (0 where it refuses), and the buffer afterwards. "Bytes past the text are untouched."
    """
    number = write_refusal(s, numbers, len(buffer))
    if number:
        return ("refused", number), 0, bytes(buffer)
    text = sheet_text(s, numbers)
    return ("written", 0), len(text), text + bytes(buffer[len(text) :])


# Reading

def read_field(field):
    """One field of 16 columns."""
    match = FIELD.fullmatch(field)
    if len(field) != COLUMNS or not match:
        raise Broken
    return int(match.group(1))


def read_line(text, position, width):
    """The numbers of a line of `width` fields that begins at `position`, and where the next line begins."""
    numbers = [read_field(text[position + k * COLUMNS : position + (k + 1) * COLUMNS]) for k in range(width)]
    end = position + width * COLUMNS
    if text[end : end + 1] != b"\n":
        raise Broken
    return numbers, end + 1


def read_body(s, text, position):
    """The lists of the sheet, from the lines after the header. "Nothing follows." """
    numbers = []
    for width in line_widths(s):
        line, position = read_line(text, position, width)
        numbers += line
    if position != len(text):
        raise Broken
    return named_lists(s, numbers)


def read_header(text):
    """ "The header's layout is read first (12), then 1 to 6". ("refused", number), or ("read", (sizes, where the other lines begin))."""
    try:
        numbers, position = read_line(text, 0, len(HEADER))
    except Broken:
        return ("refused", SHEET_BROKEN)
    s = Sizes(*numbers)
    number = size_refusal(HEADER, s)
    return ("refused", number) if number else ("read", (s, position))


def sheet_numbers(text):
    """How many numbers the header's sizes give; 0 where the header is refused."""
    kind, content = read_header(text)
    return 0 if kind == "refused" else sum(line_widths(content[0]))


def read_sheet(text, length=None):
    """ "The header's layout is read first (12), then 1 to 6, then the other lines (12), then 8 to 10." Row 7 stands before 8: "a slice's
    length is not what the sizes give". `length` is that of the slice that takes the numbers after the header; None where there is no
    slice to test.

    ("refused", number), or ("read", (sizes, lists)).
    """
    kind, content = read_header(text)
    if kind == "refused":
        return (kind, content)
    s, position = content
    try:
        x = read_body(s, text, position)
    except Broken:
        return ("refused", SHEET_BROKEN)
    if length not in (None, sum(line_widths(s))):
        return ("refused", SLICE_LENGTH)
    number = number_refusal(s, x)
    return ("refused", number) if number else ("read", (s, x))


def read_into(text, numbers):
    """The reader's call: its answer, the header (all 0 where it refuses), and the lent slice afterwards: "Nothing lent is written"."""
    kind, content = read_sheet(text, len(numbers))
    if kind == "refused":
        return (kind, content), [0] * len(HEADER), numbers
    s, x = content
    return ("written", 0), header_numbers(s), flat_numbers(x)


# The program

def judge(text):
    """ "The program reads standard input, at most 65536 bytes (longer: 12, before all else)". The verifier's answer."""
    if len(text) > LARGEST_TEXT:
        return ("refused", SHEET_BROKEN)
    kind, content = read_sheet(text)
    return (kind, content) if kind == "refused" else fold.answer("verify", *content)


def output_line(answer):
    """ "prints one line of two such fields of 16 columns: kind (0 accepted, 1 failed, 2 refused) and number (the margin when accepted, the check that
    failed, the row that refused)." """
    kind, number = answer
    return line_text([KINDS[kind], number])


if __name__ == "__main__":
    sys.stdout.buffer.write(output_line(judge(sys.stdin.buffer.read(LARGEST_TEXT + 1))))
