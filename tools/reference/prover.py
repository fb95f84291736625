"""Messages 1 to 5 and the honest opening: SPECIFICATION 4; the paper, Figure 2.

For any witness, also one that misses constraints.
`s` is a Sizes, `x` a dictionary of flat lists by name (sizes.LENGTHS names them). Indexes count from 0. Quotations are from docs/SPECIFICATION.md.
"""

import ring
import sizes
from relation import Function, combine, cut, elements, flat, matrix, matrix_product, parts, statement, value
from ring import add, add_all, conjugate, element_digits, inner_product, multiply, scale
from sizes import AGGREGATES, pairs


def message_1(s, x):
    """ "t_i = A s_i (A has κ rows); g_ij = <s_i,s_j> for i ≤ j; t in t1 digits to base b1, g in t2 digits to base b2;
    u1 = B·(t digits) + C·(g digits), κ1 rows."

    "Order: .. t by part, then digit, then row; g and h by i, then j, then digit."
    """
    witness_parts = parts(s, x["witness"])
    a_matrix = matrix(s, x["a_matrix"], s.kappa)
    t_digits = []
    for s_i in witness_parts:
        t_i = [element_digits(s.b1, s.t1, t_ik) for t_ik in matrix_product(s.d, a_matrix, s_i)]
        for e in range(s.t1):
            for row in range(s.kappa):
                t_digits.append(t_i[row][e])
    g_digits = []
    for i, j in pairs(s.r):
        g_digits += element_digits(s.b2, s.t2, inner_product(s.d, witness_parts[i], witness_parts[j]))
    u1 = first_outer_commitment(s, x, t_digits, g_digits)
    return {"t_digits": flat(t_digits), "g_digits": flat(g_digits), "u1": flat(u1)}


def first_outer_commitment(s, x, t_digits, g_digits):
    """ "u1 = B·(t digits) + C·(g digits), κ1 rows." """
    from_t = matrix_product(s.d, matrix(s, x["b_matrix"], s.kappa1), t_digits)
    from_g = matrix_product(s.d, matrix(s, x["c_matrix"], s.kappa1), g_digits)
    return [add(a, b) for a, b in zip(from_t, from_g, strict=True)]


def second_outer_commitment(s, x, h_digits):
    """ "u2 = D·(h digits), κ2 rows." """
    return matrix_product(s.d, matrix(s, x["d_matrix"], s.kappa2), h_digits)


def projection_rows(s, x):
    """ "projection rows (by row, then part)": one list of numbers for each row."""
    return cut(x["projections"], s.r * s.n * s.d)


def message_2(s, x):
    """ "p_j = the centred dot product of row j with all coefficients of all parts." """
    rows = projection_rows(s, x)
    return {"p": [ring.centred(sum(a * b for a, b in zip(row, x["witness"], strict=True))) for row in rows]}


def projection_functions(s, x):
    """For row j the function of φ_i = "σ(row j, part i)" and no a."""
    a = {pair: ring.zero(s.d) for pair in pairs(s.r)}
    return [Function(a, [[conjugate(e) for e in part] for part in parts(s, row)]) for row in projection_rows(s, x)]


def second_functions(s, x):
    """ "Given ψ (5 by L) and ω (5 by w), for k = 1..5: a'' = Σψ a'; φ''_i = Σψ φ'_i + Σω_j σ(row j, part i)". """
    functions = [f for f, _ in statement(s, x).constant_terms] + projection_functions(s, x)
    return [
        combine(s.d, s.n, s.r, scale, x["psi"][k * s.L : (k + 1) * s.L] + x["omega"][k * s.w : (k + 1) * s.w], functions)
        for k in range(AGGREGATES)
    ]


def message_3(s, x):
    """ "b''_k is the value of that function without its constant." """
    witness_parts = parts(s, x["witness"])
    return {"second_b": flat(value(s.d, f, witness_parts) for f in second_functions(s, x))}


def aggregate(s, x):
    """ "Given ring elements α (K) and δ (5), the aggregate is Σα f + Σδ f''." Without its constant."""
    factors = elements(s.d, x["alpha"]) + elements(s.d, x["delta"])
    functions = [f for f, _ in statement(s, x).whole] + second_functions(s, x)
    return combine(s.d, s.n, s.r, multiply, factors, functions)


def aggregate_constant(s, x):
    """The aggregate's b: Σα b + Σδ b''."""
    factors = elements(s.d, x["alpha"]) + elements(s.d, x["delta"])
    constants = [b for _, b in statement(s, x).whole] + elements(s.d, x["second_b"])
    return inner_product(s.d, factors, constants)


def message_4(s, x):
    """ "h_ii = <φ_i,s_i>; for i < j, h_ij is half of <φ_i,s_j> + <φ_j,s_i>. h in t1 digits to base b1;
    u2 = D·(h digits), κ2 rows."
    """
    witness_parts = parts(s, x["witness"])
    phi = aggregate(s, x).phi
    h_digits = []
    for i, j in pairs(s.r):
        if i == j:
            h_ij = inner_product(s.d, phi[i], witness_parts[i])
        else:
            crossed = inner_product(s.d, phi[i], witness_parts[j]), inner_product(s.d, phi[j], witness_parts[i])
            h_ij = ring.half(add(*crossed))
        h_digits += element_digits(s.b1, s.t1, h_ij)
    return {"h_digits": flat(h_digits), "u2": flat(second_outer_commitment(s, x, h_digits))}


def message_5(s, x):
    """ "Given c_1..c_r, z = Σ c_i s_i in two digits to base b, or in one (3.6). Written: z low, z high; with one digit z." """
    witness_parts = parts(s, x["witness"])
    challenges = elements(s.d, x["c"])
    z = [
        add_all(s.d, [multiply(c_i, s_i[k]) for c_i, s_i in zip(challenges, witness_parts, strict=True)])
        for k in range(s.n)
    ]
    if s.tz == 1:
        return {"z_digits": flat(z)}
    split = [element_digits(s.b, 2, z_k) for z_k in z]
    return {"z_digits": flat([low for low, _ in split] + [high for _, high in split])}


def opening(z_digits, t_digits, g_digits, h_digits):
    """ "The opening is the digits of z, t, g, h." """
    return z_digits + t_digits + g_digits + h_digits


def honest(s, x):
    """ "The honest messages and opening are those of messages 1 to 5, all from one statement, one witness and one set of lent
    projection rows, ψ, ω, α, δ and c". All lists of the verifier.
    """
    m1, m2, m3, m4, m5 = (message(s, x) for message in (message_1, message_2, message_3, message_4, message_5))
    sent = {"u1": m1["u1"], "p": m2["p"], "second_b": m3["second_b"], "u2": m4["u2"]}
    sent["opening"] = opening(m5["z_digits"], m1["t_digits"], m1["g_digits"], m4["h_digits"])
    return {name: sent[name] if name in sent else x[name] for name in sizes.SHEET_LISTS}
