#!/usr/bin/env python3
"""Holds the pages to the repository: python3 tools/pages/check.py prints a line for each fault, and ends with status 1 where there is one.

    files       a file or folder that a page names is there; so is the target of each link and picture
    names       a name in `..` is a word of the sources, or a file
    citations   'SPECIFICATION 7' and 'SPECIFICATION 7.h', anywhere, are a section and a paragraph of docs/SPECIFICATION.md, which has each number once
    quotes      what a comment of the crates quotes in "..", of more than ten characters, stands in docs/SPECIFICATION.md; '..' is something left out
    edits       docs/EDITS.md has a table for each crate with must-fail edits, and the edits that it names after a crate are that crate's
"""

import re
import subprocess
from pathlib import Path

HERE = Path(__file__).resolve().parent.parent.parent
FOLDERS = ("crates", "docs", "tools", "bindings", "examples")
# a file of a crate may stand without crates/
OF_CRATE = r"[a-z_]+/(?:specs|src|proofs|must-fail)"
FILES = subprocess.run(["git", "ls-files", "-co", "--exclude-standard"], cwd=HERE, capture_output=True, text=True, check=True).stdout.split("\n")
FILES = [name for name in FILES if name and (HERE / name).is_file()]
NAMES = {Path(name).name for name in FILES}
# these three name what was there before, too
PAGES = [name for name in FILES if name.endswith(".md") and name not in ("docs/PORT.md", "docs/DESIGN-PASS.md", "docs/LOOK-BACK.md")]
# commands and words of the kit or of the system; names that stand for others
FOREIGN = {"rt", "cargo", "rustfmt", "clippy", "parallel", "nonnull", "dereferenceable"}
PLACEHOLDER = re.compile(r"[A-Z]+(\.\w+)?")


def text(name):
    return (HERE / name).read_text(encoding="utf-8", errors="replace")


# ---- files

def is_there(page, path):
    folders = [HERE, HERE / Path(page).parent, HERE / "crates"]
    return any((folder / path).exists() or ("*" in path and list(folder.glob(path))) for folder in folders)


def placeholder(path):
    return any(PLACEHOLDER.fullmatch(part) and not part.endswith(".md") for part in path.split("/"))


def file_faults(page):
    words = re.sub(r"https?://\S+", "", text(page))
    for path in set(re.findall(r"(?<![\w/.$-])((?:%s)/[\w./*-]*[\w*])" % "|".join(FOLDERS + (OF_CRATE,)), words)):
        if not placeholder(path) and not is_there(page, path):
            yield f"{page}: {path} is not there"
    # in a statement a dot stands before a field
    outside_blocks = re.sub(r"```.*?```", "", words, flags=re.DOTALL)
    for name in set(re.findall(r"(?<![\w/.*-])([A-Za-z][\w-]*\.(?:antt|rt|md|py|rs|c|h|svg|sheet))(?![\w/])", outside_blocks)):
        if not placeholder(name) and name not in NAMES:
            yield f"{page}: no file has the name {name}"
    for target in re.findall(r"\]\(([^)#\s]+)[^)]*\)", words):
        if not (HERE / Path(page).parent / target).exists():
            yield f"{page}: the link {target} leads nowhere"


# ---- names

def source_words():
    words = {Path(name).stem for name in FILES if name.endswith(".edit")}
    for name in FILES:
        if not name.endswith((".md", ".svg", ".sheet", "stdin", "stdout")):
            words.update(re.split(r"[\s(){}\[\],;.:\"'`|=<>&!*/]+", text(name)))
            words.update(re.findall(r"[\w-]+'+", text(name)))
            words.update(re.findall(r"[A-Za-z_]\w*", text(name)))
    return words


def name_faults(page, words):
    outside_blocks = re.sub(r"```.*?```", "", text(page), flags=re.DOTALL)
    for quoted in set(re.findall(r"`([^`\n]+)`", outside_blocks)):
        if not re.fullmatch(r"[\w'ᵒ₀-₉-]+(::[\w]+)*(\(\w*\))?", quoted) or quoted in FOREIGN | NAMES or re.fullmatch(r"[\d-]+|[A-Z_]+", quoted):
            continue
        for word in re.findall(r"[\w'ᵒ₀-₉-]+", re.sub(r"\(\w*\)", "", quoted)):
            if word not in words and not (word.startswith("_") and any(known.endswith(word) for known in words)):
                yield f"{page}: `{quoted}` is no name of the sources"


# ---- the specification

SPECIFICATION = text("docs/SPECIFICATION.md")


def plain(words):
    return " ".join(words.replace("**", "").split()).lower()


def paragraphs():
    found = set(re.findall(r"^## (\d+) ", SPECIFICATION, re.MULTILINE)) | set(re.findall(r"^\*\*(\d+\.\w+)\*\*", SPECIFICATION, re.MULTILINE))
    for section, first, last, more in re.findall(r"^\*\*(\d+)\.(\d+) to \d+\.(\d+)(?: and \d+\.(\d+))?\*\*", SPECIFICATION, re.MULTILINE):
        found |= {f"{section}.{k}" for k in range(int(first), int(last) + 1)} | ({f"{section}.{more}"} if more else set())
    return found


def citation_faults(name, known):
    for cited in set(re.findall(r"SPECIFICATION (\d+(?:\.(?:\d+|[a-z])\b)?)", text(name))):
        if cited not in known:
            yield f"{name}: SPECIFICATION {cited} is not there"


def number_faults():
    numbers = re.findall(r"^\*\*(\d+\.\w+)\*\*", SPECIFICATION, re.MULTILINE)
    for number in set(numbers):
        if numbers.count(number) > 1:
            yield f"docs/SPECIFICATION.md: {number} stands {numbers.count(number)} times"


def quote_faults(name, specification):
    for block in re.findall(r"(?:^[ \t]*(?:--|//).*\n)+", text(name), re.MULTILINE):
        comment = plain(re.sub(r"^[ \t]*(--|//) ?", "", block, flags=re.MULTILINE))
        for quote in re.findall(r'"([^"]{11,})"', comment):
            for piece in re.split(r"\.\.", re.sub(r"^\d+: ", "", quote)):
                if piece.strip(" .,;:") not in specification:
                    yield f"{name}: not in docs/SPECIFICATION.md: {piece.strip()}"


# ---- must-fail edits

def edit_faults():
    page = text("docs/EDITS.md")
    edits = {}
    for name in FILES:
        if name.endswith(".edit"):
            edits.setdefault(Path(name).parts[1], set()).add(Path(name).stem)
    for crate in sorted(edits):
        if page.count(f"<!-- edits {crate} -->") != 1:
            yield f"docs/EDITS.md: not one table of the edits of {crate}"
    for crate, names in re.findall(r"(\w+) ((?:`\w+`(?:, |; (?=`))?)+)", page):
        for name in re.findall(r"`(\w+)`", names) if crate in edits else []:
            if name not in edits[crate]:
                yield f"docs/EDITS.md: {crate} has no edit {name}"


def faults():
    words, known, specification = source_words(), paragraphs(), plain(SPECIFICATION)
    for page in PAGES:
        yield from file_faults(page)
        yield from name_faults(page, words)
    for name in FILES:
        yield from citation_faults(name, known)
        if name.startswith("crates/") and name.endswith((".antt", ".rt")):
            yield from quote_faults(name, specification)
    yield from number_faults()
    yield from edit_faults()


if __name__ == "__main__":
    found = sorted(set(faults()))
    print("\n".join(found) or "the pages agree with the repository")
    raise SystemExit(1 if found else 0)
