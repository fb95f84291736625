"""Divides PARI/GP's times by ours: ratios.py TABLE TIMES"""
import sys

UNIT = {'ns': 1, 'us': 1e3, 'ms': 1e6}
rows = {'product': 'ring product', 'inner': 'inner product, per pair', 'message1': 'message 1', 'message5': 'message 5'}
ours = {}
for line in open(sys.argv[1]):
    cells = [c.strip() for c in line.split('|')]
    if len(cells) > 3 and cells[1] in rows.values() and cells[1] not in ours:
        value, unit = cells[2].split()
        ours[cells[1]] = float(value) * UNIT[unit]
print('| | PARI/GP | ratio |\n|---|---|---|')
for line in open(sys.argv[2]):
    what, value = line.split()
    row = rows[what]
    print(f'| {row} | {float(value) / 1e3:.1f} us | {float(value) / ours[row]:.1f} |')
