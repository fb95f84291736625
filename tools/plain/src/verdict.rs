//! SPECIFICATION 6.
use crate::lists::{Lists, Numbers, Sizes};
use crate::messages::*;
use crate::ring::*;
use std::cell::LazyCell;

/// "a judgement is accepted or failed with a check", and "Accepted carries the margin of check 9".
#[derive(Clone, Copy, Debug, PartialEq, Eq)]
pub enum Verdict {
    Accepted(u64),
    Failed(u8),
}

/// The opening: the digits of t, g and h, and z, t_i, g_ij and h_ij recomposed.
struct Opening {
    t_digits: Vec<El>,
    g_digits: Vec<El>,
    h_digits: Vec<El>,
    z: Vec<El>,
    t: Vec<Vec<El>>,
    g: Vec<El>,
    h: Vec<El>,
}

/// "Order: z low, z high, with one digit z; t by part, then digit, then row; g and h by i, then j, then digit."
fn opening(s: &Sizes, numbers: &[i32]) -> Opening {
    let room = s.room();
    let (z, rest) = numbers.split_at(room.z);
    let (t, rest) = rest.split_at(room.t);
    let (g, h) = rest.split_at(room.g);
    let [z, t, g, h] = [z, t, g, h].map(|block| elements(s.d, block));
    let z_of = |k: usize| if s.one_digit { z[k].clone() } else { recompose(s.d, s.b, [&z[k], &z[s.n + k]].into_iter()) };
    let t_row = |part: &[El], k: usize| recompose(s.d, s.b1, part.iter().skip(k).step_by(s.kappa));
    Opening {
        z: (0..s.n).map(z_of).collect(),
        t: t.chunks(s.t1 * s.kappa).map(|part| (0..s.kappa).map(|k| t_row(part, k)).collect()).collect(),
        g: g.chunks(s.t2).map(|block| recompose(s.d, s.b2, block.iter())).collect(),
        h: h.chunks(s.t1).map(|block| recompose(s.d, s.b1, block.iter())).collect(),
        t_digits: t,
        g_digits: g,
        h_digits: h,
    }
}

/// "2·|p|² ≤ w·β²."
pub fn check1(s: &Sizes, l: &Lists<impl Numbers>) -> bool {
    2 * squared_length(&l.p) <= s.w as i128 * s.bound as i128
}

/// "Each b''_k has constant term Σψ b' + Σω p."
pub fn check2(s: &Sizes, l: &Lists<impl Numbers>) -> bool {
    let constant_terms = constant_terms(s, &l.constant_terms);
    elements(s.d, &l.second_b).iter().enumerate().all(|(k, second_b)| {
        let of_psi = (0..s.l).map(|j| l.psi[k * s.l + j] as i64 * constant_terms[j].1);
        let of_omega = (0..s.w).map(|j| l.omega[k * s.w + j] as i64 * l.p[j] as i64);
        second_b[0] == centre(of_psi.chain(of_omega).fold(0, |sum, x| (sum + x) % Q))
    })
}

/// Σ x_ii c_i² + 2 Σ_{i<j} x_ij c_i c_j, for x one of g and h.
fn mixed(s: &Sizes, c: &[El], x: &[El]) -> El {
    let summand = |((i, j), x): ((usize, usize), &El)| scale(if i == j { 1 } else { 2 }, &mul(x, &mul(&c[i], &c[j])));
    s.pairs().into_iter().zip(x).map(summand).fold(zero(s.d), |sum, x| add(&sum, &x))
}

/// "A z = Σ c_i t_i."
fn check5(s: &Sizes, a_matrix: &[El], c: &[El], o: &Opening) -> bool {
    let right = (0..s.kappa).map(|k| sum_products(s.d, c.iter().zip(o.t.iter().map(|t| &t[k]))));
    times(s.d, a_matrix, &o.z).into_iter().eq(right)
}

/// "Σ<φ_i,z>c_i = Σ h_ii c_i² + 2Σ_{i<j} h_ij c_i c_j."
fn check7(s: &Sizes, c: &[El], o: &Opening, aggregate: &Function) -> bool {
    let products: Vec<El> = aggregate.phi.iter().map(|phi| inner(s.d, phi, &o.z)).collect();
    inner(s.d, &products, c) == mixed(s, c, &o.h)
}

/// "Σ a_ij g_ij + Σ h_ii = b."
fn check8(s: &Sizes, o: &Opening, aggregate: &Function, constant: &El) -> bool {
    let diagonal = s.pairs().into_iter().zip(&o.h).filter(|((i, j), _)| i == j);
    diagonal.fold(inner(s.d, &aggregate.a, &o.g), |sum, (_, h)| add(&sum, h)) == *constant
}

/// "the bound minus the squared length, β'² minus that of all digits": below 0 where check 9 fails.
pub fn margin(s: &Sizes, l: &Lists<impl Numbers>) -> i128 {
    s.target as i128 - squared_length(&l.opening)
}

/// "The first check that fails is named; none means accepted, with the margin (6.g)." `second` are the second functions.
pub fn verdict(s: &Sizes, l: &Lists<impl Numbers>, second: &[Function]) -> Verdict {
    let d = s.d;
    let o = opening(s, &l.opening);
    let c = elements(d, &l.c);
    let aggregate = LazyCell::new(|| aggregate(s, l, second));
    let checks: [&dyn Fn() -> bool; 9] = [
        &|| check1(s, l),
        &|| check2(s, l),
        &|| first_outer(s, l, &o.t_digits, &o.g_digits) == elements(d, &l.u1),
        &|| second_outer(s, l, &o.h_digits) == elements(d, &l.u2),
        &|| check5(s, &elements(d, &l.a_matrix), &c, &o),
        &|| inner(d, &o.z, &o.z) == mixed(s, &c, &o.g),
        &|| check7(s, &c, &o, &aggregate),
        &|| check8(s, &o, &aggregate, &aggregate_constant(s, l)),
        &|| squared_length(&l.opening) <= s.target as i128,
    ];
    match checks.iter().position(|check| !check()) {
        Some(at) => Verdict::Failed(at as u8 + 1),
        None => Verdict::Accepted(margin(s, l) as u64),
    }
}
