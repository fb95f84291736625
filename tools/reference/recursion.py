"""The next instance and the parts of its witness: SPECIFICATION 8; the paper, section 5.3.

`s` is a Sizes, `x` a dictionary of flat lists by name (sizes.LENGTHS names them). Indexes count from 0. Quotations are from docs/SPECIFICATION.md.
"""

import ring
import sizes
from prover import aggregate, aggregate_constant
from relation import Constraint, Function, Statement, elements, flat, matrix
from ring import add_all, multiply, scale
from sizes import next_multiplicity, next_rank, pairs, tail_chunk, z_chunk
from verifier import check_1, check_2, read_opening


def chunks(s, z_low, z_high, tail):
    """ "z low and z high are cut into ν chunks each of n/ν elements, the rest into μ chunks of m/μ elements, both rounded
    up; the last chunks may be short or empty. With one z digit z is cut so, into ν chunks": there is no z high, and no chunk of it.
    """
    result = []
    z_high_count = s.nu if s.tz == 2 else 0
    for section, size, count in ((z_low, z_chunk(s), s.nu), (z_high, z_chunk(s), z_high_count), (tail, tail_chunk(s), s.mu)):
        result += [section[k * size : (k + 1) * size] for k in range(count)]
    return result


def padded_chunks(s, z_low, z_high, tail):
    """ "every chunk is padded with zeros at its end to n'." """
    return [
        chunk + [ring.zero(s.d)] * (next_rank(s) - len(chunk)) for chunk in chunks(s, z_low, z_high, tail)
    ]


def opening_sections(s, x):
    """z low, z high, and "the rest"."""
    o = read_opening(s, x)
    return o.z_low, o.z_high, o.t_digits + o.g_digits + o.h_digits


def next_witness(s, x):
    """The parts of the padded opening: r' parts of n' elements."""
    return padded_chunks(s, *opening_sections(s, x))


def next_part(s, x, part):
    """ "Asked for one part of the next witness, the library hands back that chunk of the caller's own slice"; not padded.

    `part` counts from 1 to r'.
    """
    return flat(chunks(s, *opening_sections(s, x))[part - 1])


def next_constraint(s, quadratic=None, z=None, t=None, g=None, h=None, b=None):
    """One constraint of the next instance from its coefficients on z and on the digits of t, g, h; what is left out is zero.

    `z` is the coefficient of z recomposed, so z low has it once and z high b times; with one digit z has it. "φ on padding is zero".
    """
    zeros = {name: [ring.zero(s.d)] * (sizes.LENGTHS[name + "_digits"](s) // s.d) for name in "tgh"}
    z_low = z or [ring.zero(s.d)] * s.n
    z_high = [scale(s.b, e) for e in z_low] if s.tz == 2 else []
    phi = padded_chunks(s, z_low, z_high, (t or zeros["t"]) + (g or zeros["g"]) + (h or zeros["h"]))
    a = {pair: (quadratic or {}).get(pair, ring.zero(s.d)) for pair in pairs(next_multiplicity(s))}
    return Constraint(Function(a, phi), b or ring.zero(s.d))


def powers(base, count):
    """The weights of `count` digits: 1, B, B², .. modulo q."""
    return [ring.centred(base**e) for e in range(count)]


def next_check_5(s, x, row):
    """ "A z = Σ c_i t_i", row by row, "as left side minus right side". """
    c = elements(s.d, x["c"])
    t = [
        scale(-weight, c[i]) if k == row else ring.zero(s.d)
        for i in range(s.r)
        for weight in powers(s.b1, s.t1)
        for k in range(s.kappa)
    ]
    return next_constraint(s, z=matrix(s, x["a_matrix"], s.kappa)[row], t=t)


def garbage_coefficients(s, x, base, count):
    """The coefficients of g or h digits on the right side of checks 6 and 7, taken to the left side."""
    c = elements(s.d, x["c"])
    return [
        scale(-weight * (1 if i == j else 2), multiply(c[i], c[j]))
        for i, j in pairs(s.r)
        for weight in powers(base, count)
    ]


def next_check_6(s, x):
    """ "<z,z> = Σ g_ii c_i² + 2Σ_{i<j} g_ij c_i c_j"; "an empty chunk has the same a in check 6 as a full one".

    With z = low + b·high, <z,z> = <low,low> + 2b<low,high> + b²<high,high>, chunk by chunk. With one digit "each chunk of z with itself has a = 1 in check
    6, and all other a are zero."
    """
    quadratic = {(k, k): ring.one(s.d) for k in range(s.nu)}
    for k in range(s.nu) if s.tz == 2 else ():
        quadratic[k, k + s.nu] = scale(2 * s.b, ring.one(s.d))
        quadratic[k + s.nu, k + s.nu] = scale(s.b**2, ring.one(s.d))
    return next_constraint(s, quadratic=quadratic, g=garbage_coefficients(s, x, s.b2, s.t2))


def next_check_7(s, x):
    """ "Σ<φ_i,z>c_i = Σ h_ii c_i² + 2Σ_{i<j} h_ij c_i c_j", "as left side minus right side". """
    c = elements(s.d, x["c"])
    phi = aggregate(s, x).phi
    z = [add_all(s.d, [multiply(c[i], phi[i][k]) for i in range(s.r)]) for k in range(s.n)]
    return next_constraint(s, z=z, h=garbage_coefficients(s, x, s.b1, s.t1))


def next_check_8(s, x):
    """ "Σ a_ij g_ij + Σ h_ii = b", "as left side minus right side". """
    aggregate_a = aggregate(s, x).a
    g = [scale(weight, aggregate_a[pair]) for pair in pairs(s.r) for weight in powers(s.b2, s.t2)]
    h = [scale(weight if i == j else 0, ring.one(s.d)) for i, j in pairs(s.r) for weight in powers(s.b1, s.t1)]
    return next_constraint(s, g=g, h=h, b=aggregate_constant(s, x))


def next_check_3(s, x, row):
    """ "3 and 4 as the sum over the digits minus u1 or u2". """
    t, g = (matrix(s, x[name], s.kappa1)[row] for name in ("b_matrix", "c_matrix"))
    return next_constraint(s, t=t, g=g, b=elements(s.d, x["u1"])[row])


def next_check_4(s, x, row):
    """ "3 and 4 as the sum over the digits minus u1 or u2". """
    return next_constraint(s, h=matrix(s, x["d_matrix"], s.kappa2)[row], b=elements(s.d, x["u2"])[row])


def next_statement(s, x):
    """ "Constraints, all of the whole kind: checks 5 (κ), 6, 7, 8, 3 (κ1), 4 (κ2), so K' = κ+κ1+κ2+3, L' = 0, bound β'²." """
    constraints = [next_check_5(s, x, row) for row in range(s.kappa)]
    constraints += [next_check_6(s, x), next_check_7(s, x), next_check_8(s, x)]
    constraints += [next_check_3(s, x, row) for row in range(s.kappa1)]
    constraints += [next_check_4(s, x, row) for row in range(s.kappa2)]
    return Statement(s.d, next_rank(s), next_multiplicity(s), constraints, [], s.target_beta_squared)


def write_constraint(constraint):
    """ "Each is laid out as on the sheet: a, φ, b." """
    (a, phi), b = constraint
    return flat(a.values()) + flat(flat(phi)) + b


def next_instance(s, x):
    """ "If check 1 or 2 fails the answer is that judgement and nothing is written .. Otherwise all K' are written and the answer
    is "written", which is no judgement."
    """
    for number, check in ((1, check_1), (2, check_2)):
        if not check(s, x):
            return ("failed", number)
    return {"next_whole": flat(write_constraint(constraint) for constraint in next_statement(s, x).whole)}
