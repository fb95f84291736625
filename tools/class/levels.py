"""The class's chain, how a proof shrinks level by level: the lines that bindings/python/chain.py prints, by the second implementation, and the picture."""

import random
import sys
from pathlib import Path

import case  # which puts the second implementation on the path

import bare
import chains
import fold
from sizes import LENGTHS

ROOT = Path(__file__).resolve().parent.parent.parent
sys.path[:0] = [str(ROOT / "bindings/python"), str(ROOT / "tools/pictures")]

import chain
import lizkarg
from svg import Page

# names of the second implementation for those of lizkarg.Sizes
NAMES = {"k": "K", "l": "L"}


def shapes():
    """The folds of the example as chains.folds takes them."""
    first = {NAMES.get(name, name): number for name, number in chain.FIRST._asdict().items() if name not in ("d", "bound", "target")}
    for number, level in enumerate(chain.LEVELS):
        yield (first if number == 0 else {}) | level | {"b": level["b"] or 0, "tz": 2 if level["b"] else 1}


def levels():
    """Of each level its sizes, how many numbers its opening has, and the verdict."""
    rng, d = random.Random(1), chain.FIRST.d
    made = list(chains.folds(rng, d, list(shapes()), chains.short))
    for (s, y), _ in made:
        kind, margin = fold.answer("verify", s, y)
        assert (kind, margin, len(y["opening"])) == ("accepted", 0, LENGTHS["opening"](s)) and chains.has_full_chunks(s)
        yield s, len(y["opening"]), lizkarg.Accepted(margin)
    s, _, y = chains.bare_level(rng, *made[-1], chains.short, kappa=chain.FIRST.kappa, w=chain.FIRST.w)
    kind, margin = bare.answer("bare_verify", s, y)
    assert (kind, margin) == ("accepted", 0)
    yield s, len(y["bare_opening"]), lizkarg.BareAccepted(margin)


def named():
    """The levels with their names: 1, 2, 3, bare."""
    return [(number if number <= len(chain.LEVELS) else "bare", *level) for number, level in enumerate(levels(), start=1)]


def lines(found):
    """What bindings/python/chain.py prints."""
    return [chain.HEAD] + [chain.line(*level) for level in found]


def picture(found):
    """A bar for the readings and one for the opening of each level, by their numbers."""
    _, first, _, _ = found[0]
    bars = [("readings", f"{first.r} parts of {first.n}", first.r * first.n * first.d, "blue")]
    bars += [("sent bare" if level == "bare" else f"opening {level}", f"{s.r} parts of {s.n}", opening, "green" if level == "bare" else "sand") for level, s, opening, _ in found]
    row, left, most = 52, 200, 560
    page = Page(900, 96 + row * len(bars), "How a proof shrinks level by level")
    page.text(20, 32, "How many numbers there are at each level of the chain", bold=True)
    for k, (what, shape, count, colour) in enumerate(bars):
        y = 52 + k * row
        page.text(20, y + 17, what, bold=True)
        page.text(20, y + 35, shape if k == 0 else f"folds {shape}", size=12)
        page.box(left, y, count / bars[0][2] * most, 36, "", colour)
        page.text(left + count / bars[0][2] * most + 12, y + 24, str(count), size=16)
    page.text(20, 72 + row * len(bars), "Each opening, padded with zeros, is folded by the next level. Only the green one is sent.", size=13)
    return page
