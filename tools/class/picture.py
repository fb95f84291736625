"""The picture of the class: the unit with its slots and codes, and the fold."""

import sys
from pathlib import Path

import case
from case import pair

import fold
import verifier

sys.path.insert(0, str(Path(__file__).resolve().parent.parent / "pictures"))

from svg import Page


def picture():
    s, x, y = case.honest()
    slots = [part[0] for part in fold.parts(s, x["witness"])]
    challenges = fold.elements(s.d, x["c"])
    z = verifier.recomposed_z(s, y)[0]
    page = Page(900, 400, "One control unit, three slots, two stored codes, and the fold")
    page.box(20, 20, 420, 270, "", "grey")
    page.text(230, 46, "control unit", anchor="middle", bold=True)
    for k, slot in enumerate(slots):
        at = 70 + k * 50
        page.box(40, at, 80, 36, f"slot {k + 1}", "white")
        page.box(150, at, 110, 36, str(slot[0]), "blue", size=18)
        page.box(290, at, 110, 36, str(slot[1]), "green", size=18)
    page.text(80, 250, "codes", anchor="middle")
    for k, (code, colour) in enumerate(zip(case.codes(case.READINGS), ("blue", "green"))):
        at = 150 + k * 140
        page.line((at + 55, 206), (at + 55, 226), arrow=True)
        page.box(at, 230, 110, 40, str(code), colour, size=20)
    page.text(192, 222, "+", anchor="end", size=16)
    page.text(332, 222, "+", anchor="end", size=16)
    page.text(660, 46, "the fold", anchor="middle", bold=True)
    for k, (slot, c) in enumerate(zip(slots, challenges)):
        at = 70 + k * 50
        page.line((404, at + 18), (476, at + 18), arrow=True)
        page.box(480, at, 120, 36, f"s{k + 1} = {pair(slot)}", "white", size=13)
        page.text(612, at + 23, f"times {pair(c)}", size=13)
        page.line((690, at + 18), (716, 128 + k * 10))
    page.box(716, 120, 36, 36, "+", "white", size=18)
    page.line((752, 138), (780, 138), arrow=True)
    page.box(784, 110, 96, 56, f"z =\n{pair(z)}", "sand", size=14)
    page.text(480, 250, "three slots in, one out; what was drawn after", size=13)
    page.text(480, 270, "the slots were fixed decides how they are mixed", size=13)
    page.text(20, 330, "The blue readings add up to the blue code, the green ones to the green code. Each slot becomes one", size=13)
    page.text(20, 350, "pair of numbers; the fold adds the three, each times a small pair that was drawn, and the nine checks", size=13)
    page.text(20, 370, "tell whether z could have come from readings that meet both codes.", size=13)
    return page
