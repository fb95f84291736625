"""Move the laws and theorems of a crate that no contract rests on from specs/ to proofs/.

move_laws.py CRATE..   at the top of the repository. An edit of a definition is refused by the laws over it only where these stand in proofs/.
"""
import glob
import os
import re
import subprocess
import sys


def read(p):
    with open(p, encoding='utf-8') as f:
        return f.read()


def write(p, text):
    os.makedirs(os.path.dirname(p), exist_ok=True)
    with open(p, 'w', encoding='utf-8') as f:
        f.write(text)


def modules(crate):
    root = f'crates/{crate}/specs'
    return {os.path.relpath(f, root)[:-5].replace('/', '.'): f for f in glob.glob(root + '/**/*.antt', recursive=True)}


def imports(crate, files, text):
    out = set()
    for m in re.finditer(r'Rattle\.' + crate + r'\.specs\.([A-Za-z0-9_.]+)', text):
        p = m.group(1).rstrip('.')
        while p and p not in files:
            p = p.rpartition('.')[0]
        if p:
            out.add(p)
    return out


def main():
    moved = {}
    for crate in sys.argv[1:]:
        files = modules(crate)
        above = re.compile(r'(Laws|Theorems|Cases)(\.|$)')
        stay = {m for m in files if not above.match(m)}
        for f in glob.glob(f'crates/{crate}/src/**/*.rt', recursive=True):
            stay |= imports(crate, files, read(f))
        todo = list(stay)
        while todo:
            m = todo.pop()
            for i in imports(crate, files, read(files[m])):
                if i not in stay:
                    stay.add(i)
                    todo.append(i)
        leaves = {m for m in files if '.' in m and above.match(m)}
        go = {m for m in leaves - stay if not m.startswith('Cases')}
        while True:
            more = {m for m in leaves - stay - go if imports(crate, files, read(files[m])) & go}
            if not more:
                break
            go |= more
        moved[crate] = go
        kept_nodes, new_nodes = {}, {}
        for folder in ('Laws', 'Theorems', 'Cases', 'Known'):
            node = f'crates/{crate}/specs/{folder}.antt'
            if not os.path.exists(node):
                continue
            keep, new = [], []
            for line in read(node).split('\n'):
                m = re.match(r'(?:pub )?mod (\S+)', line)
                (new if m and f'{folder}.{m.group(1)}' in go else keep).append(line)
            if new:
                kept_nodes[folder], new_nodes[folder] = keep, new
        for m in go:
            target = f'crates/{crate}/proofs/' + m.replace('.', '/') + '.antt'
            os.makedirs(os.path.dirname(target), exist_ok=True)
            subprocess.run(['git', 'mv', files[m], target], check=True)
        lib = f'crates/{crate}/proofs/Lib.antt'
        text = read(lib) if os.path.exists(lib) else ''
        spec_lib = read(f'crates/{crate}/specs/Lib.antt')
        for folder, new in new_nodes.items():
            node = f'crates/{crate}/specs/{folder}.antt'
            comments = [l for l in kept_nodes[folder] if l.startswith('--')]
            write(f'crates/{crate}/proofs/{folder}.antt', '\n'.join([l for l in comments + new if l.strip()]) + '\n')
            text += f'pub mod {folder}\n'
            if any(re.match(r'(?:pub )?mod ', l) for l in kept_nodes[folder]):
                write(node, '\n'.join(kept_nodes[folder]).rstrip('\n') + '\n')
            else:
                subprocess.run(['git', 'rm', '-q', node], check=True)
                spec_lib = re.sub(r'(?m)^pub mod ' + folder + r'\n', '', spec_lib)
        if new_nodes:
            write(lib, text)
            write(f'crates/{crate}/specs/Lib.antt', spec_lib)
        print(crate, len(go), 'files moved')
    pattern = {c: sorted(g, key=len, reverse=True) for c, g in moved.items() if g}
    every = glob.glob('crates/**/*.antt', recursive=True) + glob.glob('crates/*/src/**/*.rt', recursive=True)
    for f in every + glob.glob('crates/*/must-fail/*.edit'):
        if '/out/' in f:
            continue
        text = new = read(f)
        for crate, go in pattern.items():
            if f'Rattle.{crate}.specs.' in new:
                new = re.sub(r'Rattle\.' + crate + r'\.specs\.((?:Laws|Theorems|Cases|Known)\.[A-Za-z0-9_]+)',
                             lambda m: f'Rattle.{crate}.proofs.{m.group(1)}' if m.group(1) in go else m.group(0), new)
            if f.startswith(f'crates/{crate}/must-fail/'):
                new = re.sub(r'(?m)^file: specs/(\S+)\.antt', lambda m: f'file: proofs/{m.group(1)}.antt' if m.group(1).replace('/', '.') in go else m.group(0), new)
        if new != text:
            write(f, new)


main()
