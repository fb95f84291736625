"""The principal relation: SPECIFICATION 3; the paper, section 5.1.

`s` is a Sizes, `x` a dictionary of flat lists by name (sizes.LENGTHS names them). Indexes count from 0. Quotations are from docs/SPECIFICATION.md.
"""

from collections import namedtuple

import sizes
from ring import add, add_all, constant_term, inner_product, multiply, squared_norm
from sizes import pairs


# Reading and writing flat lists

def cut(items, size):
    """Consecutive blocks of `size` items."""
    return [items[k : k + size] for k in range(0, len(items), size)]


def flat(blocks):
    """The blocks one after another."""
    return [item for block in blocks for item in block]


def elements(d, numbers):
    """ "Coefficients lie in lent slices of signed 32-bit numbers, lowest power first." """
    return cut(numbers, d)


def parts(s, witness):
    """ "Parts s_1..s_r, each n ring elements." """
    return cut(elements(s.d, witness), s.n)


def matrix(s, numbers, row_count):
    """ "A, B, C, D by rows". """
    entries = elements(s.d, numbers)
    return cut(entries, len(entries) // row_count)


def matrix_product(d, rows, vector):
    """A matrix times a vector of elements."""
    return [inner_product(d, row, vector) for row in rows]


# Statement

# A quadratic dot-product function without its constant: "a_ij for i ≤ j (each pair counted once), vectors φ_i".
# a is a dictionary over the pairs (i, j), phi a list of one vector for each part.
Function = namedtuple("Function", "a phi")

# A function and its constant b: an element for the whole kind, a number for the constant-term kind.
Constraint = namedtuple("Constraint", "function b")

Statement = namedtuple("Statement", "d n r whole constant_terms beta_squared")


def read_function(d, n, r, numbers):
    """ "a (by i, then j), φ (by part)". """
    entries = elements(d, numbers)
    count = len(pairs(r))
    return Function(dict(zip(pairs(r), entries[:count], strict=True)), cut(entries[count:], n))


def whole_constraints(d, n, r, numbers):
    """ "each whole constraint as a (by i, then j), φ (by part), b". """
    blocks = cut(numbers, sizes.whole_constraint_length(d, n, r))
    return [Constraint(read_function(d, n, r, block[:-d]), block[-d:]) for block in blocks]


def constant_term_constraints(d, n, r, numbers):
    """ "each constant-term one likewise, its b a line of one field". """
    blocks = cut(numbers, sizes.constant_term_constraint_length(d, n, r))
    return [Constraint(read_function(d, n, r, block[:-1]), block[-1]) for block in blocks]


def statement(s, x):
    """ "K constraints vanish wholly. L others vanish in the constant term only, and their b is a number." """
    whole = whole_constraints(s.d, s.n, s.r, x["whole"])
    constant_terms = constant_term_constraints(s.d, s.n, s.r, x["constant_terms"])
    return Statement(s.d, s.n, s.r, whole, constant_terms, s.beta_squared)


def value(d, function, witness_parts):
    """ "the sum of a_ij<s_i,s_j> plus the sum of <φ_i,s_i>", without the constant."""
    quadratic = [
        multiply(a_ij, inner_product(d, witness_parts[i], witness_parts[j])) for (i, j), a_ij in function.a.items()
    ]
    linear = [inner_product(d, phi_i, s_i) for phi_i, s_i in zip(function.phi, witness_parts, strict=True)]
    return add(add_all(d, quadratic), add_all(d, linear))


def meets(statement, witness_parts):
    """ "A witness meets all constraints when both kinds hold at it; its length isn't asked." """
    d = statement.d
    return all(value(d, f, witness_parts) == b for f, b in statement.whole) and all(
        constant_term(value(d, f, witness_parts)) == b for f, b in statement.constant_terms
    )


def solves(statement, witness_parts):
    """ "A witness solves the statement if both kinds hold and its total squared length is at most β²". """
    numbers = flat(flat(witness_parts))
    return meets(statement, witness_parts) and squared_norm(numbers) <= statement.beta_squared


def combine(d, n, r, multiply_by, factors, functions):
    """The sum of factor times function; `multiply_by` is the product with a number or with an element."""
    a = {
        pair: add_all(d, [multiply_by(factor, f.a[pair]) for factor, f in zip(factors, functions, strict=True)])
        for pair in pairs(r)
    }
    phi = [
        [
            add_all(d, [multiply_by(factor, f.phi[i][k]) for factor, f in zip(factors, functions, strict=True)])
            for k in range(n)
        ]
        for i in range(r)
    ]
    return Function(a, phi)
