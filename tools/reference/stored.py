"""What the writers of stored cases share. Each has a function `files` that gives the files it writes, by their paths in the repository:

    python3 tools/reference/WRITER.py ROOT    writes them under ROOT; they are the same every time
    python3 tools/reference/stored.py ROOT    all writers

`tools/all` compares them with those that are kept.
"""

import importlib
import sys
from pathlib import Path

import sheet

WRITERS = "ring_cases fold_cases next_cases bare_cases sheet_cases reader_cases examples second_case binding_cases".split()

# What a list that a call writes holds before the call.
FILL = 77

# Lists of more numbers are shown by their sum only.
SHOWN = 1000
MODULUS = 2**31 - 1

# The kinds of answers: those of the program, and "written", which is no judgement.
KINDS = sheet.KINDS | {"written": 3}


def answer_numbers(answer):
    """An answer as two numbers."""
    kind, content = answer
    return [KINDS[kind], 0 if kind == "written" else content]


def summed(numbers):
    """The count of the numbers x_1, x_2, .., and 1·x_1 + 2·x_2 + 3·x_3 + .. modulo 2^31 - 1."""
    return [len(numbers), sum(k * number for k, number in enumerate(numbers, start=1)) % MODULUS]


def shown(numbers):
    """The sum, and all numbers where they are not too many."""
    return summed(numbers) + (numbers if len(numbers) <= SHOWN else [])


def numbers_text(lines):
    """One line a list of numbers, parted by single blanks."""
    return "".join(" ".join(map(str, numbers)) + "\n" for numbers in lines).encode()


def sheets_text(texts):
    """A line with the count of texts, then for each a line with the count of its bytes, these bytes, a line feed. Each count is one
    field of 16 columns.
    """
    return sheet.line_text([len(texts)]) + b"".join(sheet.line_text([len(text)]) + text + b"\n" for text in texts)


def write(files):
    """Writes the files that a writer gives, under the folder that the command names."""
    for path, content in files():
        target = Path(sys.argv[1]) / path
        target.parent.mkdir(parents=True, exist_ok=True)
        target.write_bytes(content)


if __name__ == "__main__":
    for writer in WRITERS:
        write(importlib.import_module(writer).files)
