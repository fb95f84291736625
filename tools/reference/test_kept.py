"""The comparison of stored cases with older ones: kept.py."""

import contextlib
import io

import fold_cases
import kept
import low_digits
import sheet
from fixtures import replaced, whole_case_text
from sheet import line_text
from stored import numbers_text

TEXTS = [whole_case_text(), whole_case_text(target_beta_squared=20), whole_case_text(target_beta_squared=12), b"no sheet"]
LINES = [[0, 0], [0, 7], [1, 9], [2, 12]]


def cases(lines=LINES, texts=TEXTS):
    return [kept.judged_sheet(text, [line_text(line)], line_text, 0) for text, line in zip(texts, lines, strict=True)]


def difference(older, newer):
    """What is said before the file's line; empty where nothing differs."""
    said = io.StringIO()
    with contextlib.redirect_stdout(said):
        same = kept.compare("file", older, newer)
    *differences, _ = said.getvalue().splitlines()
    assert same == (not differences)
    return " ".join(differences)


def test_kept_verdicts():
    """Of kind 0 the kind alone counts in the older line, and the margin is the definition's; the other lines count whole."""
    before = [[0, 0], [0, 0], [1, 9], [2, 12]]
    assert not difference(cases(before), cases())
    assert not difference(cases(), cases())
    assert not difference(cases([[0, 5], [0, 999], [1, 9], [2, 12]]), cases())
    assert "case 2, line 1" in difference(cases(before), cases(before))
    assert "case 1, line 1" in difference(cases(before), cases([[0, 1], [0, 7], [1, 9], [2, 12]]))
    assert "case 1, line 1" in difference(cases(before), cases([[1, 9], [0, 7], [1, 9], [2, 12]]))
    assert "case 3, line 1" in difference(cases(before), cases([[0, 0], [0, 7], [1, 8], [2, 12]]))
    assert "case 4, line 1" in difference(cases(before), cases([[0, 0], [0, 7], [1, 9], [2, 8]]))
    # accepted before, failed by the definition
    assert "second implementation says failed 9" in difference(cases([[0, 0], [0, 0], [0, 0], [2, 12]]), cases())
    # no line of another layout
    newer = cases()
    newer[1] = newer[1]._replace(lines=[b"0 7\n"])
    assert "case 2, line 1" in difference(cases(before), newer)


def wide_texts():
    """A wide opening; one that is refused by 10, too; one whose low digits are at half their base."""
    s = low_digits.FREE._replace(**low_digits.EVEN)
    half = low_digits.at_half(s)
    wide = low_digits.wide(s, half)
    return [sheet.write_sheet(s, y) for y in (wide, replaced(wide, "c", 0, 3), half)]


def test_turned_verdicts():
    """A judgement on a wide opening is 2 15 now, whatever it was; no other line is. A refusal by another row stays."""
    texts = wide_texts()
    accepted = [0, sheet.judge(texts[2])[1]]
    now = cases([[2, 15], [2, 10], accepted], texts)
    for judgement in ([0, 0], [0, 77], [1, 3], [1, 9]):
        before = cases([judgement, [2, 10], [0, 0]], texts)
        assert not difference(before, now)
        # it did not turn, or it turned to another row or check
        for line in (judgement, [2, 8], [2, 10], [1, 1], [0, 15]):
            assert "case 1, line 1" in difference(before, cases([line, [2, 10], accepted], texts))
    assert not difference(now, now)
    before = cases([[1, 3], [2, 10], [0, 0]], texts)
    # what was refused, and what is not wide, does not turn
    assert "case 2, line 1" in difference(before, cases([[2, 15], [2, 15], accepted], texts))
    assert "case 3, line 1" in difference(before, cases([[2, 15], [2, 10], [2, 15]], texts))
    assert "case 1, line 1" in difference(cases([[1, 9]], TEXTS[2:3]), cases([[2, 15]], TEXTS[2:3]))
    # kept by an older tree as refused by 15: it stays
    assert "case 1, line 1" in difference(now, before)
    said = io.StringIO()
    with contextlib.redirect_stdout(said):
        assert kept.compare("file", before, now)
    assert "1 lines compared whole, 1 of kind 0 by kind alone, 1 margins compared with the definition; 1 turned to 2 15; 0 differences" in said.getvalue()


def test_turned_calls():
    """The same in fold_cases, whose cases are numbers: the verifier's lines turn, those of the messages do not."""
    s = low_digits.FREE._replace(**low_digits.ODD)
    y = low_digits.wide(s, low_digits.at_half(s))
    line, output = fold_cases.case(fold_cases.VERIFY, s, y)
    assert output == [2, 15]
    given = numbers_text([line])
    before, now = (list(kept.fold_cases(given, numbers_text([stored]))) for stored in ([1, 6], [2, 15]))
    assert not difference(before, now) and "case 1, line 1" in difference(before, before)
    line, output = fold_cases.case(5, s, y | {"witness": [0] * 8})
    before, now = (list(kept.fold_cases(numbers_text([line]), numbers_text([stored]))) for stored in (output, [2, 15] + output[2:]))
    assert "case 1, line 1" in difference(before, now)


def test_kept_cases():
    """None is lost, wherever it stands and however many are new; one that is stored twice is kept twice."""
    assert not difference(cases()[:2], cases())
    assert not difference(cases(), cases()[::-1])
    assert "case 3 is LOST" in difference(cases(), cases()[:2] + cases()[3:])
    assert "case 5 is LOST" in difference(cases() + cases()[:1], cases())
    assert not difference(cases() + cases()[:1], cases()[:1] + cases())


def test_kept_files():
    """The stored files of this tree are read; which lines are verdicts follows from the call."""
    found = kept.stored_cases(kept.ROOT)
    assert all(found.values())
    for name, older in found.items():
        counts = {len(case.verdicts) for case in older}
        assert counts == {"crates/ring_cases": {0}, "crates/verdict_cases": {1}, "crates/verdict": {1}, "examples": {1}}.get(name, {0, 1}), name
    for case in found["crates/next_cases"]:
        numbers = list(map(int, case.lines[0].split()))
        assert not case.verdicts or len(numbers) == 62 and all(numbers[place] in (0, 1) for place in case.verdicts[0])
        assert numbers_text([numbers]) == case.lines[0]
    messages = [case for case in found["crates/fold_cases"] if not case.input.startswith((b"6 ", b"8 "))]
    assert messages and not any(case.verdicts for case in messages)
