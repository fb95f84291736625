"""Sheets with a fault in the text, for sheet_cases.py: a field, a line, the end, the header's sizes. Each is (name, answer, text).

A field's fault keeps the field's value where a lenient reader would see one, so that it would be judged and not refused.
"""

import sheet
from fixtures import accepted, failed, refused, whole_case_text
from sheet import field_text
from sizes import LARGEST_BOUND, Sizes, header_numbers

BROKEN = refused(12)

# What stands in 16 columns in place of the number whose digits are `v`, right-justified unless it has 16 bytes.
FIELD_FAULTS = {
    "leading zero": lambda v: b"0" + v,
    "zeros to the left end": lambda v: v.rjust(16, b"0"),
    "plus": lambda v: b"+" + v,
    "minus alone": lambda v: b"-",
    "minus, then a blank": lambda v: b"- " + v,
    "two minuses": lambda v: b"--" + v,
    "minus after": lambda v: v + b"-",
    "minus at the left end": lambda v: b"-".ljust(16 - len(v)) + v,
    "minus zero": lambda v: b"-0",
    "minus and a leading zero": lambda v: b"-0" + v,
    "blank inside": lambda v: v + b" " + v,
    "blank after": lambda v: v + b" ",
    "left-justified": lambda v: v.ljust(16),
    "in the middle": lambda v: v.center(16),
    "all blank": lambda v: b"",
    "tab before": lambda v: b"\t" + v,
    "tab after": lambda v: v + b"\t",
    "carriage return before": lambda v: b"\r" + v,
    "carriage return after": lambda v: v + b"\r",
    "line feed before": lambda v: b"\n" + v,
    "line feed after": lambda v: v + b"\n",
    "NUL before": lambda v: b"\0" + v,
    "NUL after": lambda v: v + b"\0",
    "NUL at the left end": lambda v: b"\0" + v.rjust(15),
    "all NUL": lambda v: b"\0" * 16,
    "letter": lambda v: b"a",
    "letter before": lambda v: b"O" + v,
    "letter after": lambda v: v + b"l",
    "letter at the left end": lambda v: b"x" + v.rjust(15),
    "byte 47": lambda v: b"/" + v,
    "byte 58": lambda v: b":" + v,
    "byte 128": lambda v: b"\x80" + v,
    "byte 160": lambda v: b"\xa0" + v,
    "byte 255": lambda v: b"\xff" + v,
    "digit with its top bit set": lambda v: v[:-1] + bytes([v[-1] | 128]),
    "minus of three bytes": lambda v: "\u2212".encode() + v,
    "wide digit of three bytes": lambda v: "\uff11".encode(),
    "point": lambda v: v + b".0",
    "exponent": lambda v: v + b"e0",
    "underscore": lambda v: b"0_" + v,
    "comma": lambda v: b"0," + v,
    "hexadecimal": lambda v: b"0x" + v,
}

# These are tried at every place, the others in turn in the header and in the first line after it.
EVERYWHERE = (
    "leading zero", "plus", "minus zero", "blank after", "all blank", "tab before", "letter", "NUL before",
)


def with_field(text, place, field):
    """The text with another field at a place."""
    field = field.rjust(16)
    assert len(field) == 16
    return text[:place] + field + text[place + 16 :]


def field_places(text):
    """Some fields by name: where they stand."""
    return {"d": 0, "κ2": 8 * 16, "first": 289, "last": len(text) - 17}


def field_faults():
    text = whole_case_text()
    places = field_places(text)
    for k, (name, fault) in enumerate(FIELD_FAULTS.items()):
        for place_name in places if name in EVERYWHERE else (("κ2", "first")[k % 2],):
            place = places[place_name]
            value = text[place : place + 16].lstrip()
            yield f"{place_name}: {name}", BROKEN, with_field(text, place, fault(value))


# One line, without its line feed, and what stands in its place.
LINE_FAULTS = {
    "line feed missing": lambda line: line,
    "carriage return and line feed": lambda line: line + b"\r\n",
    "carriage return for line feed": lambda line: line + b"\r",
    "NUL for line feed": lambda line: line + b"\0",
    "blank for line feed": lambda line: line + b" ",
    "blank before line feed": lambda line: line + b" \n",
    "two line feeds": lambda line: line + b"\n\n",
    "15 columns": lambda line: line[1:] + b"\n",
    "17 columns": lambda line: b" " + line + b"\n",
    "last field of 15 columns": lambda line: line[:-16] + line[-15:] + b"\n",
    "last field of 17 columns": lambda line: line[:-16] + b" " + line[-16:] + b"\n",
    "field missing": lambda line: line[:-16] + b"\n",
    "field more": lambda line: line + field_text(0) + b"\n",
    "one field a line": lambda line: b"".join(line[k : k + 16] + b"\n" for k in range(0, len(line), 16)),
    "line missing": lambda line: b"",
    "line twice": lambda line: line + b"\n" + line + b"\n",
    "empty line": lambda line: b"\n",
    "blanks only": lambda line: b" " * len(line) + b"\n",
}


def line_faults():
    lines = whole_case_text().splitlines()
    for line_name, at in (("header", 0), ("line 2", 1), ("last line", len(lines) - 1)):
        for name, fault in LINE_FAULTS.items():
            texts = [line + b"\n" for line in lines]
            texts[at] = fault(lines[at])
            yield f"{line_name}: {name}", BROKEN, b"".join(texts)


def end_faults():
    text = whole_case_text()
    yield "empty input", BROKEN, b""
    for count in (1, 15, 16, 17, 287, 288, 289, 290, 305, 321, 322, len(text) // 2, len(text) - 34, len(text) - 33, len(text) - 1):
        yield f"the first {count} bytes", BROKEN, text[:count]
    for name, tail in (
        ("line feed", b"\n"), ("blank", b" "), ("NUL", b"\0"), ("letter", b"a"), ("carriage return", b"\r"), ("end of file mark", b"\x1a"),
        ("a line", sheet.line_text([0, 0])), ("a field", field_text(0)), ("the sheet again", text),
    ):
        yield f"after the end: {name}", BROKEN, text + tail
    for name, head in (("line feed", b"\n"), ("blank", b" "), ("byte order mark", b"\xef\xbb\xbf"), ("a line", sheet.line_text([0, 0]))):
        yield f"before the header: {name}", BROKEN, head + text
    yield "every line with a carriage return", BROKEN, text.replace(b"\n", b"\r\n")
    yield "carriage returns only", BROKEN, text.replace(b"\n", b"\r")
    yield "no line feeds", BROKEN, text.replace(b"\n", b"")
    yield "one blank between numbers", BROKEN, b"\n".join(b" ".join(line.split()) for line in text.split(b"\n"))
    yield "padding left out of one line", BROKEN, text.replace(sheet.line_text([-3, 4]), b"-3 4\n")
    yield "padding by zeros", BROKEN, text.replace(b" ", b"0")
    yield "padding by tabs", BROKEN, text.replace(b" ", b"\t")
    yield "padding by NUL", BROKEN, text.replace(b" ", b"\0")
    yield "lines 4 and 5 joined, 5 and 6 parted elsewhere", BROKEN, text[:387] + text[388:420] + b"\n" + text[420:]


# The header

# Values of each size by the number of the refusal; 0 stands for those not refused.
HUGE = (9999999999999999, 1000000000000000, -1, -999999999999999)
SIZE_SIDES = {
    "d": {0: (4, 8, 16, 32, 64), 1: (0, 1, 3, 5, 6, 63, 65, 128, 258, -2, 4294967298) + HUGE},
    "n": {0: (2, 255, 256), 2: (0, 257, 65537, 4294967297) + HUGE},
    "r": {0: (2, 15, 16), 2: (0, 17, 257, 4294967297) + HUGE},
    "K": {0: (0, 31, 32), 2: (33, 257, 4294967296) + HUGE},
    "L": {0: (1, 31, 32), 2: (33, 256, 4294967296) + HUGE},
    "w": {0: (1, 255, 256), 2: (257, 65536, 4294967296) + HUGE},
    "kappa": {0: (2, 8), 3: (0, 9, 257) + HUGE},
    "kappa1": {0: (2, 8), 3: (0, 9, 257) + HUGE},
    "kappa2": {0: (2, 8), 3: (0, 9, 257) + HUGE},
    "b": {0: (2, 65536), 4: (0, 1, 65537, 4294967300) + HUGE},
    "b1": {0: (2, 65536), 4: (0, 1, 65537, 4294967304) + HUGE},
    "b2": {0: (2, 65536), 4: (0, 1, 65537, 4294967300) + HUGE},
    "t1": {0: (3, 8), 4: (0, 1, 9, 258) + HUGE},
    "t2": {0: (3, 8), 4: (0, 1, 9, 258) + HUGE},
    "nu": {0: (2, 7), 5: (0, 8, 257, 4294967297, 4611686018427388) + HUGE},
    "mu": {0: (2, 14), 5: (0, 15, 257, 4294967297) + HUGE},
    "beta_squared": {0: (0, 6, 999999999999999), 6: HUGE},
    "target_beta_squared": {0: (14, 999999999999998, 999999999999999), 6: HUGE},
}

BODIES = {"no body": b"", "a letter": b"a", "bytes 0 and 255": b"\0\xff" * 20, "half a line": b"       0"}


def header_with(**changes):
    """The whole case's header with other sizes, and its body."""
    text = whole_case_text()
    s = Sizes(*map(int, text[:288].split()))
    return sheet.line_text(header_numbers(s._replace(**changes))), text[289:]


def header_sides():
    """Each size on both sides of its limits, over a broken body: a refused header does not look at it, another finds it broken."""
    bodies = list(BODIES.items())
    for name, sides in SIZE_SIDES.items():
        for number, values in sides.items():
            for value in values:
                body_name, body = bodies[0]
                bodies = bodies[1:] + bodies[:1]
                header, _ = header_with(**{name: value})
                yield f"{name} = {value}, {body_name}", refused(number) if number else BROKEN, header + body


def header_over_a_body():
    """Refused sizes over the whole case's body; sizes that change no line, on their good side, are judged."""
    for name, sides in SIZE_SIDES.items():
        number, values = max(sides.items())
        header, body = header_with(**{name: values[0]})
        yield f"{name} = {values[0]}", refused(number), header + body
    for name in ("b", "b1", "beta_squared", "target_beta_squared"):
        for value in SIZE_SIDES[name][0]:
            header, body = header_with(**{name: value})
            wide = name in ("b", "b1") and value == 2
            judged = accepted(value - 13 if name == "target_beta_squared" else 0)
            yield f"{name} = {value}", refused(15) if wide else judged, header + body
    for b2 in (2, 3, 65536):
        header, body = header_with(b2=b2)
        yield f"b2 = {b2}", failed(6), header + body
    header, body = header_with(target_beta_squared=12)
    yield "β'² = 12", failed(9), header + body
    for nu, mu in ((1, 1), (7, 2), (7, 1), (1, 14), (6, 4), (4, 8), (2, 12), (3, 3)):
        header, body = header_with(nu=nu, mu=mu)
        yield f"ν = {nu}, μ = {mu}", accepted(0), header + body
    big, low = 9999999999999999, -999999999999999
    for nu, mu in ((8, 1), (7, 3), (1, 15), (4, 9), (16, 16), (0, 16), (8, 0), (big, big), (1, big), (big, 1), (big, low), (9, -2)):
        header, body = header_with(nu=nu, mu=mu)
        yield f"ν = {nu}, μ = {mu}", refused(5), header + body


# One fault for each row of the header.
ROWS = {
    1: {"d": 3}, 2: {"r": 17}, 3: {"kappa": 0}, 4: {"b": 1}, 5: {"nu": 8}, 6: {"beta_squared": -1},
}


def header_order():
    """Two rows at once, the lowest is named; a row and the header's layout."""
    for first, fault in ROWS.items():
        for second, other in ROWS.items():
            if first < second:
                header, body = header_with(**fault, **other)
                yield f"rows {first} and {second}", refused(first), header + body
    for number, fault in ROWS.items():
        header, body = header_with(**fault)
        yield f"row {number}, header without line feed", BROKEN, header[:-1]
        yield f"row {number}, last size broken", BROKEN, header[:-2] + b"a\n" + body
        yield f"row {number}, a number out of range in the body", refused(number), header + field_text(2147483599) + body[16:]
    header, body = header_with(d=9999999999999999, n=9999999999999999, r=9999999999999999)
    yield "three sizes of 16 digits side by side", refused(1), header + body
    header, body = header_with(n=9999999999999999, r=9999999999999999)
    yield "two sizes of 16 digits side by side", refused(2), header + body
    header, body = header_with(beta_squared=LARGEST_BOUND + 1, target_beta_squared=LARGEST_BOUND + 1)
    yield "both bounds one too large, side by side", refused(6), header + body


GROUPS = (field_faults, line_faults, end_faults, header_sides, header_over_a_body, header_order)
