#!/usr/bin/env python3
"""Writes the drawings of ROOT/docs/pictures: python3 tools/pictures/draw.py ROOT. Standard library only; the same bytes every time."""

import sys
from pathlib import Path

from svg import Page

ROOT = Path(__file__).resolve().parent.parent.parent


NO_CODE = ("integers", "algebra", "fold_values", "theorems")


def crate_colour(crate):
    if crate in NO_CODE:
        return "sand"
    return "grey" if crate == "verdict" or crate.endswith("cases") else "blue"


def layers():
    """The crates by the headings of crates.txt."""
    groups = []
    for line in (ROOT / "crates.txt").read_text().splitlines()[1:]:
        if line.startswith("#"):
            groups.append((line[1:].strip(), []))
        elif ":" in line:
            groups[-1][1].append(line.split(":")[0].split()[0])
    row, gap, left, width = 60, 12, 330, 900
    page = Page(width, 92 + len(groups) * row, "The crates in layers")
    page.text(20, 32, "The crates in layers. Each uses only the promises of those above it, or before it in its row.", bold=True)
    for k, (heading, crates) in enumerate(groups):
        y = 52 + k * row
        lines = wrapped(heading, 36)
        for part, line in enumerate(lines):
            page.text(20, y + 27 + (part - (len(lines) - 1) / 2) * 17, line, size=13)
        wide = (width - left - 20 - gap * (len(crates) - 1)) / len(crates)
        broken = any(len(crate) * 8 + 12 > wide for crate in crates)
        for i, crate in enumerate(crates):
            page.box(left + i * (wide + gap), y, wide, row - 16, crate.replace("_", "_\n") if broken else crate, crate_colour(crate), size=13)
    y = 64 + len(groups) * row
    for x, colour, said in ((330, "sand", "mathematics, no code"), (522, "blue", "the library"), (644, "grey", "programs, and what they share")):
        page.box(x, y - 13, 22, 16, "", colour)
        page.text(x + 30, y, said, size=12)
    return page


def wrapped(text, width):
    lines = [""]
    for word in text.split():
        if len(lines[-1]) + len(word) + 1 > width and lines[-1]:
            lines.append("")
        lines[-1] = (lines[-1] + " " + word).strip()
    return lines


# Of each step: the prover's work, what is drawn before it, the message, its lists on the sheet.
STEPS = [
    ("statement", "sizes, bounds, A B C D,\nconstraints", None, None, ["header: 18 sizes", "A, B, C, D", "whole constraints", "constant-term constraints"]),
    ("message 1", "t_i = A s_i,  g_ij = <s_i,s_j>", None, "u1", ["u1"]),
    ("message 2", "p: projections times all readings", "projections", "p", ["projections", "p"]),
    ("message 3", "five sums of constraints", "ψ, ω", "b''", ["ψ, ω", "b''"]),
    ("message 4", "one aggregate;  h_ij", "α, δ", "u2", ["α, δ", "u2"]),
    ("message 5", "z = c_1 s_1 + .. + c_r s_r", "c", "opening: z, t, g, h", ["c", "opening: z, t, g, h"]),
]

CHECKS = ["1   p is short", "2   constant terms of b''", "3   u1 from the t and g digits", "4   u2 from the h digits", "5   A z = Σ c_i t_i", "6   <z,z> from g and c",
          "7   Σ <φ_i,z> c_i from h and c", "8   Σ a_ij g_ij + Σ h_ii = b", "9   all digits are short"]


def fold():
    """The messages between prover and verifier, and where each list stands on the sheet."""
    page = Page(1000, 748, "One fold: its messages, and where each list stands on the sheet")
    page.text(20, 32, "One fold: five messages, each after what was drawn for it; at the right, the sheet that keeps it all.", bold=True)
    page.box(20, 54, 250, 40, "Prover: the readings s_1 .. s_r", "green")
    page.box(470, 54, 110, 40, "Verifier", "green")
    page.box(740, 54, 240, 40, "The sheet, from top to bottom", "sand")
    page.box(516, 94, 18, 490, "", "green")
    y, at = 112, 112
    for step, work, drawn, message, lists in STEPS:
        page.box(20, y, 250, 50, work, "blue" if message else "sand", size=12)
        if drawn:
            page.text(392, y + 6, f"drawn: {drawn}", size=12, anchor="middle", italic=True)
            page.line((516, y + 13), (274, y + 13), arrow=True, dashed=True)
        if message:
            page.text(392, y + 34, message, size=13, anchor="middle", bold=True)
            page.line((270, y + 41), (512, y + 41), arrow=True)
        else:
            page.text(392, y + 30, "known to both", size=12, anchor="middle", italic=True)
        bracket = (at + 4, at + 34 * len(lists) - 6)
        page.line((732, bracket[0]), (724, bracket[0]), (724, bracket[1]), (732, bracket[1]))
        page.text(714, sum(bracket) / 2 + 5, step, size=13, anchor="end", bold=True)
        for name in lists:
            page.box(740, at, 240, 32, name, "sand" if not message else ("blue" if name == message else "white"), size=12)
            at += 34
        y += 84
    page.text(740, at + 22, "Sand: the statement.  White: drawn.", size=12, italic=True)
    page.text(740, at + 40, "Blue: what the prover sends.", size=12, italic=True)
    page.line((525, 584), (525, 612), arrow=True)
    page.box(20, 616, 960, 112, "", "white")
    page.text(36, 640, "With all that is drawn and sent, the verifier makes nine checks, and names the first that fails:", size=13)
    for k, check in enumerate(CHECKS):
        page.text(36 + k // 3 * 310, 666 + k % 3 * 22, check, size=13)
    return page


def opening():
    """The opening's blocks, and its cut into the parts of the next witness."""
    page = Page(1000, 360, "The opening, and its cut into the parts of the next witness")
    page.text(20, 32, "The opening, and its cut into the parts of the next witness (here ν = 2, μ = 3: r' = 2ν + μ = 7 parts).", bold=True)
    left, width = 20, 960
    blocks = [("z low\nn elements", 0.2, "blue"), ("z high\nn elements", 0.2, "blue"), ("t\nby part, digit, row", 0.24, "green"), ("g\nby i, j, digit", 0.18, "sand"), ("h\nby i, j, digit", 0.18, "rose")]
    x = left
    for name, share, colour in blocks:
        page.box(x, 60, share * width, 56, name, colour, size=13)
        x += share * width
    page.line((left, 134), (left + 0.4 * width - 4, 134))
    page.text(left + 0.2 * width, 152, "each z digit in ν chunks of n/ν elements", size=13, anchor="middle")
    page.line((left + 0.4 * width + 4, 134), (left + width, 134))
    page.text(left + 0.7 * width, 152, "t, g and h together, m elements, in μ chunks of m/μ", size=13, anchor="middle")
    chunks = [("blue", 0.1)] * 4 + [("green", 0.21), ("sand", 0.21), ("rose", 0.18)]
    x, places = left, []
    for k, (colour, share) in enumerate(chunks):
        page.box(x, 172, share * width, 40, str(k + 1), colour, size=13)
        if colour == "sand":
            page.box(x, 172, 0.03 * width, 40, "", "green")
        places.append(x + share * width / 2)
        x += share * width
    slot = width / 7
    for k, (colour, share) in enumerate(chunks):
        x = left + k * slot
        page.line((places[k], 214), (x + slot / 2 - 4, 252), arrow=True)
        full = 0.21
        wide = (slot - 14) * share / full
        page.box(x, 256, wide, 40, f"part {k + 1}", colour, size=12)
        if colour == "sand":
            page.box(x, 256, wide / 7, 40, "", "green")
        if share < full:
            page.box(x + wide, 256, (slot - 14) - wide, 40, "0", "white", size=12, dashed=True)
    page.text(20, 326, "Rounded up, so the last chunks may be short or empty; each is padded with zeros to n' elements, the larger of n/ν and m/μ.", size=13)
    page.text(20, 348, "Chunks are cut by place, not by block: part 6 here holds the end of t, and then g.", size=13, italic=True)
    return page


def main():
    folder = Path(sys.argv[1]) / "docs/pictures"
    folder.mkdir(parents=True, exist_ok=True)
    for draw in (layers, fold, opening):
        (folder / f"{draw.__name__}.svg").write_text(draw().svg())


if __name__ == "__main__":
    main()
