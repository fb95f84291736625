#!/usr/bin/env python3
"""Makes a proof, prints the verdict, and writes the sheet to the file that is named: python3 bindings/python/prove.py [FILE], after bindings/python/build.

The case of SPECIFICATION 12.4: some s with s·s = -3 + 4X, where X·X = -1, and squared length at most 5. The witness is 1 + 2X.
"""

import sys

import lizkarg

sizes = lizkarg.Sizes(d=2, n=1, r=1, k=1, l=0, w=0, kappa=1, kappa1=1, kappa2=1, b=4, b1=8, b2=4, t1=2, t2=2, bound=5, target=13)
proof = lizkarg.prove(
    sizes,
    witness=[1, 2],
    a_matrix=[1, 0],
    b_matrix=[1, 0, 0, 0],
    c_matrix=[1, 0, 0, 0],
    d_matrix=[1, 0, 1, 0],
    whole=[1, 0, 0, 0, -3, 4],
    constant_terms=[],
    projections=[],
    psi=[],
    omega=[],
    alpha=[1, 0],
    delta=[0] * 10,
    c=[0, 1],
)
print(lizkarg.verify(sizes, proof))

# ν = μ = 1 say how the next instance would cut the opening
if len(sys.argv) > 1:
    with open(sys.argv[1], "wb") as file:
        file.write(lizkarg.write_sheet(sizes, 1, 1, proof))
