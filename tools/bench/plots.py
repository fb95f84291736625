"""Draws the benchmark: plots.py ROOT writes ROOT/docs/pictures/ratios.svg and growth.svg from the tables of docs/PERFORMANCE.md. tools/bench/plots runs it.

    plots.py --compare    whether the kept pictures are these: byte for byte where this version of matplotlib drew them, else by the numbers that they show

A picture keeps the version of matplotlib and the numbers that it shows in its description.
"""

import io
import re
import sys
from pathlib import Path
from xml.sax.saxutils import unescape

import matplotlib

matplotlib.use("svg")
import matplotlib.pyplot as plt

HERE = Path(__file__).resolve().parent.parent.parent
PICTURES = Path("docs/pictures")
NANOSECONDS = {"ns": 1, "us": 1e3, "ms": 1e6}

# Colours that are told apart by all eyes (Okabe and Ito).
INK, GREY, BLUE, ORANGE, GREEN, PURPLE = "#1b2a38", "#8a97a3", "#0072b2", "#d55e00", "#009e73", "#cc79a7"

matplotlib.rcParams.update({
    "svg.hashsalt": "lizkarg", "svg.fonttype": "none", "font.family": "DejaVu Sans", "font.size": 9, "text.color": INK, "axes.labelcolor": INK, "axes.edgecolor": GREY,
    "xtick.color": INK, "ytick.color": INK, "axes.spines.top": False, "axes.spines.right": False,
})


# ---- the tables

def tables():
    """The tables of the page: each is a heading line and rows by name, a row's cells by the heading's words. And the line of sizes."""
    text = (HERE / "docs/PERFORMANCE.md").read_text().split("<!-- tables -->")[1]
    found, head = [], None
    for line in text.splitlines():
        cells = [cell.strip() for cell in line.strip("|").split("|")] if line.startswith("|") else None
        if cells is None:
            head = None
        elif head is None:
            head = cells
            found.append({})
        elif set(cells[0]) != {"-"}:
            found[-1][cells[0]] = dict(zip(head[1:], cells[1:]))
    sizes = re.search(r"^d = .*?, w = \d+", text, re.M).group()
    growth = re.search(r"^Growth with n \((.*?)\) and with r \((.*?)\); (.*?), best", text, re.M).groups()
    return found, sizes, growth


def time(cell):
    value, unit = cell.split()
    return float(value) * NANOSECONDS[unit]


# ---- ratios to the alternatives

ROWS = ["ring product", "inner product, per pair", "message 1", "message 2", "message 3", "message 4", "message 5", "prover, all messages", "verifier", "next instance"]
OTHERS = [
    ("clang_centred", "C, the same work"), ("clang_tuned", "C without tests"), ("gcc_tuned", "the same by gcc"), ("gcc_plain", "plain C"), ("rust_plain", "plain Rust"),
    ("flint_based", "FLINT's products"), ("PARI/GP", "a script"),
]


def ratio_numbers():
    (fold, _, _, pari), sizes, _ = tables()
    for row, cells in pari.items():
        fold[row]["PARI/GP"] = cells["ratio"]
    return {name: [float(fold[row].get(name) or 0) for row in ROWS] for name, _ in OTHERS}, sizes


def ratio_bar(panel, at, value):
    """A bar from 1 to the ratio, and the ratio beside it."""
    if not value:
        panel.text(1.12, at, "not timed", va="center", fontsize=7, color=GREY)
        return
    faster = value >= 1
    panel.barh(at, value - 1, left=1, height=0.62, color=BLUE if faster else ORANGE)
    panel.text(value * 1.12 if faster else value / 1.12, at, f"{value:.2f}" if value < 10 else f"{value:.1f}", va="center", ha="left" if faster else "right", fontsize=8)


def ratios():
    numbers, sizes = ratio_numbers()
    figure, panels = plt.subplots(1, len(OTHERS), sharey=True, figsize=(10.4, 4.0))
    figure.subplots_adjust(left=0.155, right=0.985, top=0.755, bottom=0.03, wspace=0.12)
    most = max(map(max, numbers.values()))
    for panel, (name, said) in zip(panels, OTHERS):
        panel.set_xscale("log")
        panel.set_xlim(0.3, most * 2.6)
        panel.set_ylim(len(ROWS) - 0.4, -0.6)
        panel.set_title(f"{name}\n{said}", fontsize=8.5, loc="left", pad=6)
        for at, value in enumerate(numbers[name]):
            ratio_bar(panel, at, value)
        panel.axvline(1, color=INK, linewidth=0.8)
        for between in (1.5, 6.5):
            panel.axhline(between, color=GREY, linewidth=0.5)
        panel.spines[:].set_visible(False)
        panel.tick_params(left=False, bottom=False, labelbottom=False, which="both")
    panels[0].set_yticks(range(len(ROWS)), [row.replace(", per pair", "").replace(", all messages", "") for row in ROWS])
    figure.text(0.012, 0.95, f"Their time divided by ours; {sizes}; a logarithmic scale", fontsize=10.5, weight="bold")
    figure.text(0.012, 0.905, "Blue, right of the line: ours is faster.", color=BLUE)
    figure.text(0.262, 0.905, "Orange, left of it: theirs is.", color=ORANGE)
    return figure, {name: dict(zip(ROWS, values)) for name, values in numbers.items()}


# ---- growth with n and r

STEPS = ["prover", "verifier", "next instance"]
LINES = [("rust_plain", "plain Rust", GREEN, "^", "-"), ("flint_based", "FLINT's products", PURPLE, "D", "-"), ("ours", "ours", BLUE, "o", "-"), ("clang_tuned", "C without tests", ORANGE, "s", "none")]


def growth_numbers():
    """Milliseconds by letter, step and version: a list of pairs of size and time."""
    found = {}
    for row, cells in tables()[0][2].items():
        letter, size = row.split(" = ")
        for at, step in enumerate(STEPS):
            ours = time(cells[step]) / 1e6
            found.setdefault((letter, step), {}).setdefault("ours", []).append((int(size), ours))
            for head, cell in cells.items():
                version = head.split(":")[0]
                values = cell.split(", ")
                if ":" in head and at < len(values):
                    found[letter, step].setdefault(version, []).append((int(size), round(ours * float(values[at]), 4)))
    return found


def growth_lines(panel, lines):
    """The versions' times, each with its name at the end."""
    for name, said, colour, marker, style in LINES:
        if name in lines:
            sizes, times = zip(*lines[name])
            hollow = style == "none"
            panel.plot(sizes, times, marker=marker, color=colour, linestyle=style, markersize=7 if hollow else 5, linewidth=1.6, markerfacecolor="none" if hollow else colour)
            aside = {"ours": 1.08, "clang_tuned": 0.76}.get(name, 1)
            panel.text(sizes[-1] * 1.13, times[-1] * aside, said, color=colour, va="center", fontsize=8)


def proportion(panel, letter, lines):
    """A line of the slope that is growth in proportion."""
    (least, low), (most, _) = lines["ours"][0], lines["ours"][-1]
    ends = [low / 3.2, low / 3.2 * most / least]
    panel.plot([least, most], ends, color=GREY, linewidth=1, linestyle=":")
    panel.text(most * 1.13, ends[1], f"in proportion to {letter}", color=GREY, va="center", fontsize=8)


def growth_axes(panel, title, sizes):
    panel.set_xscale("log", base=2)
    panel.set_yscale("log")
    panel.set_xticks(sizes, [str(size) for size in sizes])
    panel.minorticks_off()
    panel.set_xlim(sizes[0] * 0.85, sizes[-1] * 4.6)
    panel.set_ylim(0.7, 1100)
    panel.set_yticks([1, 10, 100, 1000], ["1 ms", "10 ms", "100 ms", "1 s"])
    panel.grid(axis="y", color="#e3e8ec", linewidth=0.7)
    panel.set_axisbelow(True)
    panel.set_title(title, fontsize=9.5, loc="left")
    panel.tick_params(length=3)
    panel.spines["bottom"].set_bounds(sizes[0], sizes[-1])


def growth():
    numbers, (fixed_r, fixed_n, others) = growth_numbers(), tables()[2]
    figure, grid = plt.subplots(2, 3, sharey=True, figsize=(10.4, 6.6))
    figure.subplots_adjust(left=0.065, right=0.985, top=0.875, bottom=0.075, wspace=0.1, hspace=0.38)
    for panel, ((letter, step), lines) in zip(grid.flat, numbers.items()):
        growth_lines(panel, lines)
        first = step == STEPS[0]
        if first:
            proportion(panel, letter, lines)
        fixed = fixed_r if letter == "n" else fixed_n
        growth_axes(panel, f"{step}, by {letter}" + (f" ({fixed})" if first else ""), [size for size, _ in lines["ours"]])
    figure.text(0.012, 0.955, f"Time of a fold at d = 64, {others}; both scales logarithmic", fontsize=10.5, weight="bold")
    return figure, {f"{letter}, {step}": lines for (letter, step), lines in numbers.items()}


# ---- the pictures

TITLES = {"ratios": "Times of the alternatives divided by ours", "growth": "Time of prover, verifier and next instance by n and by r"}


def drawn(draw):
    figure, numbers = draw()
    text = io.BytesIO()
    figure.savefig(text, format="svg", metadata={"Date": None, "Creator": None, "Title": TITLES[draw.__name__], "Description": f"matplotlib {matplotlib.__version__}: {numbers}"})
    plt.close(figure)
    return text.getvalue().decode()


def described(svg):
    """The version of matplotlib, and the numbers shown."""
    return unescape(re.search("<dc:description>(.*?)</dc:description>", svg, re.S).group(1)).split(": ", 1)


def compare(name, new):
    kept = (HERE / PICTURES / name).read_text()
    (kept_by, kept_numbers), (here, numbers) = described(kept), described(new)
    if kept_numbers != numbers:
        sys.exit(f"{name} shows other numbers than docs/PERFORMANCE.md: tools/bench/plots draws it anew")
    if kept_by != here:
        print(f"{name}: the same numbers; kept by {kept_by}, here {here}, so the bytes were not compared")
    elif kept != new:
        sys.exit(f"{name} is not what docs/PERFORMANCE.md gives: tools/bench/plots draws it anew")
    else:
        print(f"{name}: the same bytes")


def main():
    for draw in (ratios, growth):
        name = f"{draw.__name__}.svg"
        if sys.argv[1] == "--compare":
            compare(name, drawn(draw))
        else:
            folder = Path(sys.argv[1]) / PICTURES
            folder.mkdir(parents=True, exist_ok=True)
            (folder / name).write_text(drawn(draw))


if __name__ == "__main__":
    main()
