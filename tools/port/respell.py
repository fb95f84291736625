"""Respell the names of this repository's own definitions and lemmas.

Run once at the top of the repository, after the kit's port.py. A name that is declared in specs/ or in a lemma file of
proofs/ gets today's spelling: snake case; a dash stays only between two names, or after a type; a prime is an apostrophe.
Functions of src/, exported names, strings, inputs and outputs keep their names.
"""
import collections
import pathlib
import re
import sys

SEPARATORS = set(' \t\n(){}[];,.|"«»') | {'λ'}
# a capital within a word; what is no name
INNER = re.compile(r'(^|-)[a-z][a-z0-9_₀-₉]*[A-Z]')
QUOTED = re.compile(r'[^A-Za-z0-9_₀-₉\'-]')
KEYWORDS = set('pub use module data record where abbrev unfoldable unfolding infix infixl infixr let in open as elim if then'
               ' else syntax ruleset mod of with using'.split())
# words of std that a dash may join
STD = set('length take drop set get_or map suc zero pos negsuc add mul sub div mod neg min max replicate append one cond'
          ' flat reverse concat sum le lt eq eqb leb ltb leZ ltZ nat_abs emod'.split())


def tokens(text):
    """(is_name, piece) of the text, strings and comments apart."""
    out, i, n = [], 0, len(text)
    while i < n:
        if text[i] in SEPARATORS:
            j = i + 1
            if text[i] == '"':
                while j < n and text[j] != '"':
                    j += 2 if text[j] == '\\' else 1
                j += 1
            out.append((False, text[i:j]))
        else:
            j = i
            while j < n and text[j] not in SEPARATORS:
                j += 1
            out.append((True, text[i:j]))
        i = j
    return out


def split_comment(line, mark):
    """code and comment of a line"""
    if line.lstrip().startswith(mark):
        k = line.index(mark)
        return line[:k], line[k:]
    k = line.find(' ' + mark + ' ')
    return (line, '') if k < 0 else (line[:k + 1], line[k + 1:])


def snake(piece):
    if not piece or not re.search(r'[a-zα-ω]', piece[0]):
        return piece
    # inner capitals: normSq -> norm_sq, timesX -> times_x, quotZ -> quot_z
    piece = re.sub(r'([a-z0-9₀-₉])([A-Z])', lambda m: m.group(1) + '_' + m.group(2).lower(), piece)
    return re.sub(r'([A-Z])', lambda m: m.group(1).lower(), piece)


def declared(root):
    """names declared at the first level of a file or of a section, and fields of records, in specs/ and in lemma files"""
    names, fields = collections.Counter(), set()
    files = list(root.glob('crates/*/specs/**/*.antt')) + list(root.glob('crates/*/proofs/*.antt'))
    for f in files:
        if f.name == 'Lib.antt':
            continue
        record = None
        where = None
        for line in f.read_text().split('\n'):
            code, _ = split_comment(line, '--')
            if not code.strip():
                continue
            indent = len(code) - len(code.lstrip())
            if record is not None and indent <= record:
                record = None
            if where is not None and indent <= where:
                where = None
            s = code.strip()
            if s == 'where':
                where = indent
                continue
            m = re.match(r'(?:(?:abbrev|unfoldable)\s+)?(?:pub\s+)?(record|data|ruleset)\s+(\S+)', s)
            if m:
                names[m.group(2).rstrip(':')] += 1
                if m.group(1) != 'ruleset':
                    record = indent
                continue
            m = re.match(r'(?:(?:abbrev|unfoldable)\s+)?(?:pub\s+)?((?:[^\s(){}\[\];,.|]+\s+)+):(\s|$)', s)
            if m and where is None:
                for name in m.group(1).split():
                    if name in KEYWORDS:
                        continue
                    if record is not None:
                        fields.add(name)
                    names[name] += 1
    return names, fields


def plan(names):
    base = {n for n in names if '-' not in n} | STD
    base |= {snake(n) for n in base}
    spelled = {}
    for name in names:
        if name.startswith('◌') or name.endswith('◌'):
            continue
        pieces = name.replace('′', "'").split('-')
        if '' in pieces:
            continue
        out = snake(pieces[0])
        for left, right in zip(pieces, pieces[1:]):
            typed = left[0].isupper()
            keep = typed or ((left in base or '◌' + left + '◌' in names) and right in base)
            out += ('-' if keep else '_') + snake(right)
        if out != name:
            spelled[name] = out
    # names that would fall together: the lemma gives way
    taken = collections.defaultdict(list)
    for name in names:
        taken[spelled.get(name, name)].append(name)
    for new, olds in taken.items():
        if len(olds) > 1:
            for old in olds:
                if '-' in old:
                    spelled[old] = new + '_lem'
    return spelled


# lemmas whose spelling is a definition's that their file also names
LEMMAS = {
    'crates/judge/specs/Cases/WholeCase.antt': {'whole_length': 'whole_length_lem'},
}


def apply(text, spelled, fields, mark):
    out = []
    for line in text.split('\n'):
        code, comment = split_comment(line, mark)
        parts, before = [], ''
        for is_name, piece in tokens(code):
            if is_name and piece in spelled and (not before.endswith('.') or piece in fields or INNER.search(piece)):
                piece = spelled[piece]
            elif is_name and INNER.search(piece) and not QUOTED.search(piece):
                piece = '-'.join(snake(p) for p in piece.split('-'))
            parts.append(piece)
            before = piece
        if comment:
            comment = re.sub(r'`[^`]*`', lambda m: ''.join(spelled.get(p, p) if n else p for n, p in tokens(m.group(0).replace('`', '|'))).replace('|', '`'), comment)
            m = re.match(r'(--\s{3,}|//\s{3,})(\S+)(.*)$', comment, re.S)
            if m and m.group(2).rstrip(',') in spelled:
                w = m.group(2).rstrip(',')
                comment = m.group(1) + spelled[w] + m.group(2)[len(w):] + m.group(3)
            words = re.split(r'(\s+|[(),.;:`])', comment)
            comment = ''.join(spelled[w] if w in spelled and re.search(r'[a-z][A-Z]', w) else w for w in words)
        out.append(''.join(parts) + comment)
    return '\n'.join(out)


def main(lemmas):
    root = pathlib.Path('.')
    names, fields = declared(root)
    spelled = plan(names)
    together = collections.defaultdict(list)
    for n in names:
        together[spelled.get(n, n)].append(n)
    for new, olds in sorted(together.items()):
        if len(olds) > 1:
            print('together:', new, '<-', ' '.join(olds))
    if '--plan' in sys.argv:
        for o, n in sorted(spelled.items()):
            print(o, '->', n)
        return
    changed = 0
    for f in sorted(list(root.glob('crates/*/specs/**/*.antt')) + list(root.glob('crates/*/proofs/**/*.antt'))
                    + list(root.glob('crates/*/src/**/*.rt'))):
        text = f.read_text()
        local = {**spelled, **lemmas.get(f.as_posix(), {})}
        new = apply(text, local, fields, '//' if f.suffix == '.rt' else '--')
        if new != text:
            f.write_text(new)
            changed += 1
    print(len(spelled), 'names respelled in', changed, 'files')


if __name__ == '__main__':
    # twice: what the first run respelled tells which dashes of longer names stay
    main(LEMMAS)
    if '--plan' not in sys.argv:
        main({})
