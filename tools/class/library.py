"""The class's case through the proved library, by bindings/python: every message, verdict and sheet of docs/CLASS.md is the second implementation's."""

import sys
from pathlib import Path

import case

import fold
import sheet

sys.path.insert(0, str(Path(__file__).resolve().parent.parent.parent / "bindings/python"))

import lizkarg
from lizkarg import Accepted, Failed, Proof, Refused, Sizes

# fields of lizkarg.Sizes that the second implementation names otherwise
OTHERWISE = {"k": "K", "l": "L", "bound": "beta_squared", "target": "target_beta_squared"}


def library_sizes(s):
    return Sizes(*(getattr(s, OTHERWISE.get(field, field)) for field in Sizes._fields))


def library_verdict(verdict):
    """The second implementation's verdict, as the library's."""
    kind, number = verdict
    return {"accepted": Accepted, "failed": Failed}[kind](number)


def library_answer(call, *arguments):
    """What a call of the library that judges answers, as the second implementation's answer."""
    try:
        verdict = call(*arguments)
    except Refused as refused:
        return ("refused", refused.number)
    return ("accepted", verdict.margin) if isinstance(verdict, Accepted) else ("failed", verdict.check)


def library_text(s, lists):
    """The sheet of these sizes and lists, by the library's writer."""
    return lizkarg.write_sheet(library_sizes(s), s.nu, s.mu, Proof(**lists))


def same_fold(readings):
    """All five messages, the verdict on one unit and its sheet; how many numbers were compared."""
    s, x, y = case.honest(readings)
    proof = lizkarg.prove(library_sizes(s), **x)
    assert proof == Proof(**y), "a message differs"
    assert lizkarg.verify(library_sizes(s), proof) == library_verdict(fold.verdict(s, y))
    assert lizkarg.read_sheet(sheet.write_sheet(s, y)) == (library_sizes(s), s.nu, s.mu, proof)
    assert library_text(s, proof._asdict()) == sheet.write_sheet(s, y)
    return sum(len(getattr(proof, name)) for name in ("u1", "p", "second_b", "u2", "opening"))


def same_changed_digits():
    """The verdict with each digit changed by one, and on its sheet; how many digits."""
    s, _, y = case.honest()
    for place in range(len(y["opening"])):
        changed = list(y["opening"])
        changed[place] += 1
        z = y | {"opening": changed}
        answer = fold.answer("verify", s, z)
        assert library_answer(lizkarg.verify, library_sizes(s), Proof(**z)) == answer, place
        assert library_text(s, z) == sheet.write_sheet(s, z), place
        assert library_answer(lizkarg.judge_sheet, sheet.write_sheet(s, z)) == answer, place
    return len(y["opening"])


def same_next_instance():
    """The next instance, its parts and its padded witness."""
    s, _, y = case.honest()
    sizes, opening = library_sizes(s), y["opening"]
    assert lizkarg.next_instance(sizes, s.nu, s.mu, Proof(**y)) == fold.next_instance(s, y)["next_whole"]
    for part in range(1, 2 * s.nu + s.mu + 1):
        assert lizkarg.next_part(sizes, s.nu, s.mu, part, opening) == fold.next_part(s, y, part)


def compare(sheets):
    """All of it, and each sheet of the class, given as name, verdict and text."""
    numbers = same_fold(case.READINGS) + same_fold(case.TOO_LONG)
    digits = same_changed_digits()
    same_next_instance()
    for known, verdict, text in sheets:
        assert library_answer(lizkarg.judge_sheet, text) == verdict, known
        assert library_text(*sheet.read_sheet(text)[1]) == text, known
    print(f"the proved library makes the same {numbers} numbers and the same sheets and gives the same verdicts, also with each of {digits} digits changed")
