#!/usr/bin/env python3
"""What pages copy from the crates: python3 tools/pages/write.py ROOT writes ROOT/docs/THEOREMS.md and ROOT/docs/EDITS.md; ROOT is '.' to write the
pages themselves anew.

Their words are kept in the pages; what is copied stands between marks and is written here, so that it cannot go stale: tools/all writes the pages
anew and compares. A mark is followed by what is written, and that by <!-- end -->.

    <!-- show FILE NAME .. -->    declarations of a file: a theorem's statement, a record, a data type, a definition with its equations, each under the modules whose
                                  parameters it takes
    <!-- lines -->                a table of files; the last column is how many lines they have
    <!-- edits CRATE -->          the must-fail edits of a crate: name, what the edit says of itself, and a last column that the page keeps
    <!-- counts -->               functions and must-fail edits by crate
"""

import re
import sys
from pathlib import Path

HERE = Path(__file__).resolve().parent.parent.parent
PAGES = ["docs/THEOREMS.md", "docs/EDITS.md"]
MARK = re.compile(r"<!-- (show|lines|edits|counts)( [^\n]*)? -->\n(.*?)<!-- end -->", re.DOTALL)


def table(*rows):
    return "".join("| " + " | ".join(str(cell) for cell in row) + " |\n" for row in rows)


def rows(text):
    """The rows of a table below its head, as cells."""
    lines = [line for line in text.split("\n") if line.startswith("|")]
    return [[cell.strip() for cell in line[1:-1].split(" | ")] for line in lines[2:]]


# ---- declarations

def indent(line):
    return len(line) - len(line.lstrip())


def below(lines, at):
    """The end of what stands deeper than line `at`; blank lines within it count."""
    end = at + 1
    while end < len(lines) and (not lines[end] or indent(lines[end]) > indent(lines[at])):
        end += 1
    while not lines[end - 1]:
        end -= 1
    return end


def modules(lines, at):
    """The headers of the modules around line `at`, outermost first, with what each opens."""
    found, depth = [], indent(lines[at])
    for start in range(at, -1, -1):
        if lines[start] and indent(lines[start]) < depth:
            depth = indent(lines[start])
            if not lines[start].lstrip().startswith("module _"):
                continue
            end = start + 1
            while not lines[end - 1].endswith(" where"):
                end += 1
            opens = end
            while lines[opens].lstrip().startswith(("open ", "infix")):
                opens += 1
            found.insert(0, lines[start:end] + [line for line in lines[end:opens] if line.lstrip().startswith("open ")])
    return found


def declaration(path, lines, name):
    """Where the declaration of `name` starts and ends; a theorem's ends before its proof."""
    head = re.compile(r"\s*(abbrev |unfoldable )?(pub )?(record |data )?" + re.escape(name) + r" ")
    start = next((k for k, line in enumerate(lines) if head.match(line) and (head.match(line)[3] or f"{name} :" in line)), None)
    if start is None:
        raise SystemExit(f"{path} declares no {name}")
    end = below(lines, start)
    if head.match(lines[start])[1]:
        while end < len(lines) and lines[end].lstrip().startswith(name + " ") and indent(lines[end]) == indent(lines[start]):
            end = below(lines, end)
    return start, end


def show(words, _):
    path, *names = words
    lines, out, inside = (HERE / path).read_text().split("\n"), [f"-- {path}"], []
    for name in names:
        start, end = declaration(path, lines, name)
        around = modules(lines, start)
        same = next((k for k, pair in enumerate(zip(around, inside)) if pair[0] != pair[1]), min(len(around), len(inside)))
        for header in around[same:]:
            out += ["", *header]
        if len(around) == same or around[-1][-1].lstrip().startswith("open "):
            out.append("")
        out += lines[start:end]
        inside = around
    return "\n".join(["```", *out, "```", ""])


# ---- lines

def files(cell):
    """The files that a cell names: a name without a folder is in the folder of the one before it."""
    found, folder = [], None
    for name in re.findall(r"[\w/]+\.antt", cell):
        path = Path(name) if "/" in name else folder / name
        folder = path.parent
        found.append(path)
    return found


def size(paths):
    """How many files, lines, and lines that are neither comment nor import nor blank."""
    lines = [line for path in paths for line in (HERE / path).read_text().splitlines()]
    return len(paths), len(lines), sum(1 for line in lines if line.strip() and not line.lstrip().startswith(("--", "use ")))


def lines(_, kept):
    head = ["File", "What it writes down", "Lines"]
    body = [[*row[:-1], size(files(row[0]))[2]] for row in rows(kept)]
    count, every, bare = size([path for row in rows(kept) for path in files(row[0])])
    last = f"These {count} files have {every} lines. The last column counts those that are neither comment nor import nor blank: {bare} together.\n"
    return table(head, ["---"] * 3, *body) + "\n" + last


# ---- must-fail edits

def edits(crate):
    return sorted((HERE / "crates" / crate / "must-fail").glob("*.edit"))


def says(edit):
    """What an edit says of itself: its text before the changes."""
    return " ".join(edit.read_text().split("\nfile: ")[0].split("\n"))


def edit_rows(words, kept):
    by = {row[0]: row[-1] for row in rows(kept)}
    found = [[f"`{edit.stem}`", says(edit), by.get(f"`{edit.stem}`", "")] for edit in edits(words[0])]
    return table(["Edit", "What it would do", "Refused by"], ["---"] * 3, *found)


def crates():
    return re.findall(r"^(\w+)(?: staticlib)?:", (HERE / "crates.txt").read_text(), re.MULTILINE)


def functions(crate):
    sources = (HERE / "crates" / crate / "src").rglob("*.rt")
    return sum(len(re.findall(r'^\s*(?:pub(?:\(crate\))? )?(?:extern "C" )?fn ', source.read_text(), re.MULTILINE)) for source in sources)


def counts(*_):
    found = [[crate, functions(crate), len(edits(crate))] for crate in crates()]
    return table(["Crate", "Functions", "Must-fail edits"], ["---"] * 3, *found, ["all", sum(row[1] for row in found), sum(row[2] for row in found)])


# ---- the pages

WRITERS = {"show": show, "lines": lines, "edits": edit_rows, "counts": counts}


def written(mark):
    words = mark[2] or ""
    return f"<!-- {mark[1]}{words} -->\n{WRITERS[mark[1]](words.split(), mark[3])}<!-- end -->"


def main(root):
    for page in PAGES:
        text = MARK.sub(written, (HERE / page).read_text())
        out = Path(root) / page
        out.parent.mkdir(parents=True, exist_ok=True)
        out.write_text(text)


if __name__ == "__main__":
    main(sys.argv[1])
