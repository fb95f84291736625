"""Compares the stored cases of an older tree with those of this one: none may be lost, and what is stored for each stays.

    python3 tools/reference/kept.py OLD      OLD is the folder of the older tree

"Stored lines of kind 0 are compared by kind alone from now on, and their margins with the definition; the other lines are compared whole." An opening
with a wide low digit that was judged turns: such openings "are refused by 15 now, whatever their verdict was." Its verdict is to be 2 15, and no other's is.
Which lines are verdicts follows from what a case asks for, not from how its line looks. A case is known by its input, its place may change.

A line for each file, and before it one for each difference. Exit status: 0 no difference; 1 some, or a case is lost; 3 the command was wrong.
"""

import sys
from collections import defaultdict, namedtuple
from pathlib import Path

import bare
import fold
import sheet
from bare_cases import VERIFY as VERIFY_BARE
from fold_cases import ONE_DIGIT, SIZES, call_of
from next_cases import FOLD_READS, FOLD_WRITES, PLAIN_KINDS, next_list
from next_fixtures import second_lists
from sizes import CALLS, HEADER, BareSizes, Sizes
from stored import answer_numbers, numbers_text
from writer_cases import SHOWN_BYTES

ROOT = Path(__file__).resolve().parents[2]


class Unreadable(Exception):
    """A stored file that is not as its writer says."""


# `input` tells cases apart. `lines` are the lines stored for it. `verdicts` tells where a verdict's kind stands: a line's index and the
# places of kinds among its numbers. `judged()` is what the second implementation answers at these places, in order. `line(numbers)` writes
# such a line.
Case = namedtuple("Case", "input lines verdicts judged line")


def whole(given, lines):
    """A case of which no line is a verdict."""
    return Case(given, lines, {}, None, None)


def numbers_line(numbers):
    return numbers_text([numbers])


def lines_of(text):
    """The lines, each with its line feed."""
    *lines, rest = text.split(b"\n")
    if rest:
        raise Unreadable("the last line has no line feed")
    return [line + b"\n" for line in lines]


def paired(inputs, outputs):
    if len(inputs) != len(outputs):
        raise Unreadable(f"{len(inputs)} cases, and lines for {len(outputs)}")
    return zip(inputs, outputs)


# Calls, a case a line

class Numbers:
    """The numbers of a case, taken one after another."""

    def __init__(self, line):
        self.rest = iter(list(map(int, line.split())))

    def take(self, count):
        return [next(self.rest) for _ in range(count)]

    def lists(self, names):
        """Each list as its length and its numbers."""
        return {name: self.take(*self.take(1)) for name in names}


def ring_cases(given, stored):
    return [whole(line, [output]) for line, output in paired(lines_of(given), lines_of(stored))]


def judged_call(line):
    """The verifier's answer to a case of fold_cases."""
    numbers = Numbers(line)
    call, *sized = numbers.take(1 + len(SIZES))
    s = Sizes(**dict(zip(SIZES, sized, strict=True)), nu=1, mu=1, tz=1 if call in ONE_DIGIT else 2)
    return [fold.answer(call_of(call), s, numbers.lists(CALLS[call_of(call)].reads))]


def fold_cases(given, stored):
    """The call's number is the first of a line: that of the verifier answers a verdict."""
    for line, output in paired(lines_of(given), lines_of(stored)):
        if call_of(int(line.split()[0])) == "verify":
            yield Case(line, [output], {0: [0]}, lambda line=line: judged_call(line), numbers_line)
        else:
            yield whole(line, [output])


def judged_bare(line):
    """The answer of the verifier of the bare level to a case of bare_cases."""
    numbers = Numbers(line)
    _, *sized = numbers.take(1 + len(BareSizes._fields))
    return [bare.answer("bare_verify", BareSizes(*sized), numbers.lists(bare.VERIFIER_LISTS))]


def bare_cases(given, stored):
    """As fold_cases."""
    for line, output in paired(lines_of(given), lines_of(stored)):
        if int(line.split()[0]) == VERIFY_BARE:
            yield Case(line, [output], {0: [0]}, lambda line=line: judged_bare(line), numbers_line)
        else:
            yield whole(line, [output])


# Where the kinds of the two verdicts stand in the line of a case of kind 3: after the answers and sums of five messages; and again after the first
# verdict, the next instance's answer and the sums of its list and of the second witness.
MESSAGE_NUMBERS = 8 + 4 + 4 + 6 + 4
TWO_VERDICTS = [MESSAGE_NUMBERS, 2 * MESSAGE_NUMBERS + 8]


def judged_twice(line):
    """The verdicts of both folds of a case of kind 3 or 6 of next_cases."""
    numbers = Numbers(line)
    (kind,) = numbers.take(1)
    s = Sizes(*numbers.take(len(HEADER)), tz=1 if kind > PLAIN_KINDS else 2)
    x = numbers.lists(FOLD_READS)
    *_, room = numbers.take(len(FOLD_WRITES) + 1)
    following = Sizes(*numbers.take(len(HEADER)))
    draws = numbers.lists(FOLD_READS)
    y = fold.honest(s, x)
    _, constraints = next_list(s, y, room)
    second = fold.honest(following, second_lists(s, y, constraints, draws))
    return [fold.answer("verify", s, y), fold.answer("verify", following, second)]


def next_cases(given, stored):
    """The first number of a line is its kind: 3 and 6 have two verdicts, 1 and 4 may fail and are never accepted, 2 and 5 ask for a part."""
    for line, output in paired(lines_of(given), lines_of(stored)):
        if line.split()[0] in (b"3", b"6"):
            yield Case(line, [output], {0: TWO_VERDICTS}, lambda line=line: judged_twice(line), numbers_line)
        else:
            yield whole(line, [output])


# Sheets

def counted_texts(given):
    """The texts of stored.sheets_text, and what stands behind them."""
    at = 17
    texts = []
    for _ in range(int(given[:16])):
        count = int(given[at : at + 16])
        texts.append(given[at + 17 : at + 17 + count])
        at += 17 + count + 1
    return texts, given[at:]


def judged_sheet(text, lines, line, at):
    """A case of a sheet, whose line at an index is the verdict on it."""
    return Case(text, lines, {at: [0]}, lambda: [sheet.judge(text)], line)


def first_line(text):
    """The first line, with its line feed, and what follows."""
    end = text.index(b"\n") + 1
    return text[:end], text[end:]


def sheet_cases(given, stored):
    """Five lines for each text, of which the last is the judge's; then the writer's cases, whose lines hold no verdict."""
    texts, rest = counted_texts(given)
    for text in texts:
        lines = []
        for _ in range(5):
            line, stored = first_line(stored)
            lines.append(line)
        yield judged_sheet(text, lines, numbers_line, 4)
    count, rest = first_line(rest)
    for _ in range(int(count)):
        header, rest = first_line(rest)
        numbers, rest = first_line(rest)
        line, stored = first_line(stored)
        room = int(header.split()[-1])
        shown = (room if room <= SHOWN_BYTES else 0) + 1
        yield whole(header + numbers, [line, stored[:shown]])
        stored = stored[shown:]
    if rest or stored:
        raise Unreadable("more than its cases")


def verdict_cases(given, stored):
    texts, rest = counted_texts(given)
    if rest:
        raise Unreadable("more than its cases")
    return [judged_sheet(text, [line], sheet.line_text, 0) for text, line in paired(texts, lines_of(stored))]


def one_sheet(given, stored):
    return [judged_sheet(given, [stored], sheet.line_text, 0)]


FILES = {
    "ring_cases": ring_cases, "fold_cases": fold_cases, "next_cases": next_cases, "bare_cases": bare_cases, "sheet_cases": sheet_cases, "verdict_cases": verdict_cases,
    "verdict": one_sheet,
}


# Those that an older tree need not have.
NEW = ["bare_cases"]


def stored_cases(tree):
    """The cases of a tree, by what the lines of this script call their file. An example is known by its name, too."""
    found = {}
    for crate, read in FILES.items():
        if crate in NEW and not (tree / "crates" / crate).exists():
            continue
        given, stored = ((tree / "crates" / crate / name).read_bytes() for name in ("stdin", "stdout"))
        try:
            found[f"crates/{crate}"] = list(read(given, stored))
        except (ValueError, StopIteration, RuntimeError, Unreadable) as error:
            raise Unreadable(f"{tree / 'crates' / crate}: {error}") from error
    found["examples"] = []
    for path in sorted((tree / "examples").glob("*.sheet")):
        (example,) = one_sheet(path.read_bytes(), path.with_suffix(".verdict").read_bytes())
        found["examples"].append(example._replace(input=path.name.encode() + b"\n" + example.input))
    return found


# Comparison

def shown(text):
    """The begin of a line, for a message."""
    return text[:80].decode("ascii", "backslashreplace").strip() + (" .." if len(text) > 80 else "")


# The kinds of a judgement, and the answer to a wide low digit.
ACCEPTED, FAILED = 0, 1
WIDE = ("refused", 15)


def expected_line(case, at):
    """The line that is to be stored for an older one: a judgement on a wide opening is 2 15, each other margin after kind 0 is the definition's, all else
    as it was. And how many margins it has, and how many verdicts turned.
    """
    line, places = case.lines[at], case.verdicts.get(at, [])
    numbers = list(map(int, line.split())) if places else []
    if not any(numbers[place] in (ACCEPTED, FAILED) for place in places):
        return line, 0, 0
    margins = turned = 0
    for place, answer in zip(places, case.judged(), strict=True):
        kind, number = answer
        if numbers[place] in (ACCEPTED, FAILED) and answer == WIDE:
            numbers[place : place + 2] = answer_numbers(WIDE)
            turned += 1
        elif numbers[place] == ACCEPTED:
            if kind != "accepted":
                return f"no line: the second implementation says {kind} {number}".encode(), 0, 0
            numbers[place + 1] = number
            margins += 1
    return case.line(numbers) if margins or turned else line, margins, turned


def compare(name, older, newer):
    """Prints each difference, then the file's line; whether there is none."""
    known = defaultdict(list)
    for case in newer:
        known[case.input].append(case)
    whole_lines = kind_lines = turned_lines = margins = differences = 0
    for number, case in enumerate(older, start=1):
        if not known[case.input]:
            print(f"{name}: case {number} is LOST: {shown(case.input)}")
            differences += 1
            continue
        stored = known[case.input].pop(0).lines
        if len(stored) != len(case.lines):
            print(f"{name}: case {number} has {len(stored)} lines, not {len(case.lines)}: {shown(case.input)}")
            differences += 1
            continue
        for at, line in enumerate(stored):
            expected, count, turned = expected_line(case, at)
            whole_lines, kind_lines, turned_lines = whole_lines + (count == turned == 0), kind_lines + (count > 0), turned_lines + (turned > 0)
            margins += count
            if line != expected:
                print(f"{name}: case {number}, line {at + 1} is {shown(line)}, not {shown(expected)}")
                differences += 1
    new = sum(map(len, known.values()))
    print(
        f"{name}: {len(older)} cases kept before, {new} new; {whole_lines} lines compared whole, {kind_lines} of kind 0 by kind alone, "
        f"{margins} margins compared with the definition; {turned_lines} turned to 2 15; {differences} differences", flush=True,
    )
    return differences == 0


def main():
    if len(sys.argv) != 2 or not Path(sys.argv[1]).is_dir():
        print("usage: kept.py OLD, the folder of an older tree", file=sys.stderr)
        sys.exit(3)
    try:
        older = stored_cases(Path(sys.argv[1]))
    except (OSError, Unreadable) as error:
        print(f"kept: {error}", file=sys.stderr)
        sys.exit(3)
    try:
        newer = stored_cases(ROOT)
    except (OSError, Unreadable) as error:
        sys.exit(f"kept: {error}")
    same = [compare(name, older[name], newer[name]) for name in older]
    print("every stored case is kept" if all(same) else "stored cases DIFFER or are lost")
    sys.exit(0 if all(same) else 1)


if __name__ == "__main__":
    main()
