"""Checks 1 to 9, the margin and the verdict: SPECIFICATION 6; the paper, Figure 3.

`s` is a Sizes, `x` a dictionary of flat lists by name (sizes.LENGTHS names them). Indexes count from 0. Quotations are from docs/SPECIFICATION.md.
"""

from collections import namedtuple

import ring
import sizes
from prover import aggregate, aggregate_constant, first_outer_commitment, second_outer_commitment
from relation import cut, elements, matrix, matrix_product, statement
from ring import add, add_all, constant_term, inner_product, multiply, scale, squared_norm
from sizes import pairs


# The opening, read

Opening = namedtuple("Opening", "z_low z_high t_digits g_digits h_digits")


def read_opening(s, x):
    """ "Order: z low, z high, with one digit z; t by part, then digit, then row; g and h by i, then j, then digit." "With one z digit, z stands for z low
    and there is no z high".
    """
    entries = elements(s.d, x["opening"])
    sections = []
    for length in (s.n, s.n if s.tz == 2 else 0) + tuple(sizes.LENGTHS[name](s) // s.d for name in ("t_digits", "g_digits", "h_digits")):
        sections.append(entries[:length])
        entries = entries[length:]
    return Opening(*sections)


def recomposed_z(s, x):
    """ "z = (z low) + b·(z high), with one digit that digit". """
    o = read_opening(s, x)
    if s.tz == 1:
        return o.z_low
    return [ring.recompose_element(s.b, [low, high]) for low, high in zip(o.z_low, o.z_high, strict=True)]


def recomposed_t(s, x):
    """ "z and t_i are their digits recomposed". One vector of κ elements for each part."""
    by_part = cut(cut(read_opening(s, x).t_digits, s.kappa), s.t1)
    return [[ring.recompose_element(s.b1, column) for column in zip(*part, strict=True)] for part in by_part]


def recomposed_pairs(s, base, count, digit_elements):
    """g_ij or h_ij, recomposed: a dictionary over the pairs."""
    values = [ring.recompose_element(base, group) for group in cut(digit_elements, count)]
    return dict(zip(pairs(s.r), values, strict=True))


def recomposed_g(s, x):
    """g_ij, recomposed from t2 digits to base b2."""
    return recomposed_pairs(s, s.b2, s.t2, read_opening(s, x).g_digits)


def recomposed_h(s, x):
    """h_ij, recomposed from t1 digits to base b1."""
    return recomposed_pairs(s, s.b1, s.t1, read_opening(s, x).h_digits)


# Verdict

def garbage_sum(s, x, garbage):
    """ "Σ g_ii c_i² + 2Σ_{i<j} g_ij c_i c_j"; for h alike."""
    c = elements(s.d, x["c"])
    return add_all(
        s.d, [scale(1 if i == j else 2, multiply(garbage[i, j], multiply(c[i], c[j]))) for i, j in pairs(s.r)]
    )


def check_1(s, x):
    """ "2·|p|² ≤ w·β²." """
    return 2 * squared_norm(x["p"]) <= s.w * s.beta_squared


def check_2(s, x):
    """ "Each b''_k has constant term Σψ b' + Σω p." """
    constants = [b for _, b in statement(s, x).constant_terms]
    for k, b_k in enumerate(elements(s.d, x["second_b"])):
        psi_k = x["psi"][k * s.L : (k + 1) * s.L]
        omega_k = x["omega"][k * s.w : (k + 1) * s.w]
        expected = sum(a * b for a, b in zip(psi_k, constants, strict=True))
        expected += sum(a * b for a, b in zip(omega_k, x["p"], strict=True))
        if constant_term(b_k) != ring.centred(expected):
            return False
    return True


def check_3(s, x):
    """ "u1 equation." """
    o = read_opening(s, x)
    return first_outer_commitment(s, x, o.t_digits, o.g_digits) == elements(s.d, x["u1"])


def check_4(s, x):
    """ "u2 equation." """
    return second_outer_commitment(s, x, read_opening(s, x).h_digits) == elements(s.d, x["u2"])


def check_5(s, x):
    """ "A z = Σ c_i t_i." """
    c = elements(s.d, x["c"])
    t = recomposed_t(s, x)
    right = [add_all(s.d, [multiply(c[i], t[i][k]) for i in range(s.r)]) for k in range(s.kappa)]
    return matrix_product(s.d, matrix(s, x["a_matrix"], s.kappa), recomposed_z(s, x)) == right


def check_6(s, x):
    """ "<z,z> = Σ g_ii c_i² + 2Σ_{i<j} g_ij c_i c_j." """
    z = recomposed_z(s, x)
    return inner_product(s.d, z, z) == garbage_sum(s, x, recomposed_g(s, x))


def check_7(s, x):
    """ "Σ<φ_i,z>c_i = Σ h_ii c_i² + 2Σ_{i<j} h_ij c_i c_j." """
    z = recomposed_z(s, x)
    c = elements(s.d, x["c"])
    phi = aggregate(s, x).phi
    left = add_all(s.d, [multiply(inner_product(s.d, phi[i], z), c[i]) for i in range(s.r)])
    return left == garbage_sum(s, x, recomposed_h(s, x))


def check_8(s, x):
    """ "Σ a_ij g_ij + Σ h_ii = b." """
    aggregate_a, g, h = aggregate(s, x).a, recomposed_g(s, x), recomposed_h(s, x)
    products = add_all(s.d, [multiply(aggregate_a[pair], g[pair]) for pair in pairs(s.r)])
    diagonal = add_all(s.d, [h[i, i] for i in range(s.r)])
    return add(products, diagonal) == aggregate_constant(s, x)


def check_9(s, x):
    """ "All digits' squared length ≤ β'² (lent)." """
    return squared_norm(x["opening"]) <= s.target_beta_squared


def margin(s, x):
    """ "Accepted carries the margin of check 9: the bound minus the squared length, β'² minus that of all digits." """
    return s.target_beta_squared - squared_norm(x["opening"])


CHECKS = (check_1, check_2, check_3, check_4, check_5, check_6, check_7, check_8, check_9)


def verdict(s, x):
    """ "The first check that fails is named; none means accepted, with the margin (6.g)." """
    for number, check in enumerate(CHECKS, start=1):
        if not check(s, x):
            return ("failed", number)
    return ("accepted", margin(s, x))
