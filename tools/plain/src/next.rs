//! SPECIFICATION 8.
use crate::lists::{Lists, Numbers, Sizes};
use crate::messages::*;
use crate::ring::*;
use crate::verdict::{check1, check2};
use std::ops::Range;

/// "m = rκt1 + (r²+r)/2 · (t1+t2)"
pub fn rest(s: &Sizes) -> usize {
    s.r * s.kappa * s.t1 + (s.r * s.r + s.r) / 2 * (s.t1 + s.t2)
}

/// n', "the larger of the two", both rounded up.
pub fn rank(s: &Sizes) -> usize {
    s.n.div_ceil(s.nu).max(rest(s).div_ceil(s.mu))
}

/// The sizes of the next instance, r' "= 2ν+μ, with one z digit r' = ν+μ"; its commitment ranks, bases and digit counts are free and left as they are.
pub fn sizes(s: &Sizes) -> Sizes {
    Sizes { n: rank(s), r: s.z_digits() * s.nu + s.mu, k: s.kappa + s.kappa1 + s.kappa2 + 3, l: 0, bound: s.target, ..*s }
}

/// `total` places from `from` on in `count` chunks; "the last chunks may be short or empty".
fn cut(from: usize, total: usize, count: usize) -> impl Iterator<Item = Range<usize>> {
    let size = total.div_ceil(count);
    (0..count).map(move |i| from + (i * size).min(total)..from + ((i + 1) * size).min(total))
}

/// The elements of the opening that each part of the next witness has: z low and z high, or z, "cut into ν chunks each", then the rest.
pub fn chunks(s: &Sizes) -> Vec<Range<usize>> {
    let z = (0..s.z_digits()).flat_map(|digit| cut(digit * s.n, s.n, s.nu));
    z.chain(cut(s.z_digits() * s.n, rest(s), s.mu)).collect()
}

/// "every chunk is padded with zeros at its end to n'": `width` numbers or elements stand for one element of the opening.
fn padded<T: Clone>(s: &Sizes, width: usize, all: &[T], zero: T) -> Vec<T> {
    let full = rank(s) * width;
    let part = |chunk: Range<usize>| {
        let mut part = all[chunk.start * width..chunk.end * width].to_vec();
        part.resize(full, zero.clone());
        part
    };
    chunks(s).into_iter().flat_map(part).collect()
}

/// The next witness: the padded opening.
pub fn witness(s: &Sizes, opening: &[i32]) -> Vec<i32> {
    padded(s, s.d, opening, 0)
}

/// One constraint: a by pair, the coefficients of z recomposed and of the digits of t, g and h, and b. What is left empty is zero.
#[derive(Default)]
struct Constraint {
    a: Vec<((usize, usize), El)>,
    z: Vec<El>,
    t: Vec<El>,
    g: Vec<El>,
    h: Vec<El>,
    b: El,
}

/// "Each is laid out as on the sheet: a, φ, b." z low has the coefficient of z, z high b times it; z in one digit has it.
fn laid_out(s: &Sizes, x: Constraint) -> Vec<i32> {
    let room = s.room();
    let or_zero = |mut block: Vec<El>, numbers: usize| {
        block.resize(numbers / s.d, zero(s.d));
        block
    };
    let z = or_zero(x.z, s.n * s.d);
    let high = if s.one_digit { vec![] } else { z.iter().map(|e| scale(s.b as i64, e)).collect() };
    let places = [z, high, or_zero(x.t, room.t), or_zero(x.g, room.g), or_zero(x.h, room.h)].concat();
    let a_of = |pair| x.a.iter().find(|(at, _)| *at == pair).map_or(zero(s.d), |(_, a)| a.clone());
    let a = sizes(s).pairs().into_iter().map(a_of).collect();
    let b = if x.b.is_empty() { zero(s.d) } else { x.b };
    flat(&[a, padded(s, 1, &places, zero(s.d)), vec![b]].concat())
}

/// The rows of a matrix.
fn rows(d: usize, matrix: &[i32], count: usize) -> Vec<Vec<El>> {
    matrix.chunks(matrix.len() / count).map(|row| elements(d, row)).collect()
}

/// For each pair and each of its digits, the pair's element times the digit's weight.
fn by_digit(base: usize, count: usize, of_pairs: &[El]) -> Vec<El> {
    of_pairs.iter().flat_map(|x| (0..count).map(|e| scale(power(base, e), x))).collect()
}

/// The t digits of row k of check 5: -b1^e c_i at digit e of t_i.
fn folded_t(s: &Sizes, c: &[El], k: usize) -> Vec<El> {
    let mut t = vec![zero(s.d); s.r * s.t1 * s.kappa];
    for i in 0..s.r {
        for e in 0..s.t1 {
            t[(i * s.t1 + e) * s.kappa + k] = scale(-power(s.b1, e), &c[i]);
        }
    }
    t
}

/// <z,z>, where z is low + b·high, chunk by chunk; with one digit "each chunk of z with itself has a = 1 in check 6, and all other a are zero."
fn square(s: &Sizes) -> Vec<((usize, usize), El)> {
    if s.one_digit {
        return (0..s.nu).map(|x| ((x, x), constant(s.d, 1))).collect();
    }
    let (b, nu) = (s.b as i64, s.nu);
    let of = |x| [((x, x), 1), ((x, nu + x), 2 * b), ((nu + x, nu + x), b * b)];
    (0..nu).flat_map(of).map(|(pair, a)| (pair, constant(s.d, a))).collect()
}

/// "checks 5 (κ), 6, 7, 8, 3 (κ1), 4 (κ2)", "5 to 8 .. as left side minus right side, 3 and 4 as the sum over the digits minus u1 or u2".
fn constraints(s: &Sizes, l: &Lists<impl Numbers>, second: &[Function]) -> Vec<Constraint> {
    let d = s.d;
    let c = elements(d, &l.c);
    let aggregate = aggregate(s, l, second);
    let mixed: Vec<El> = s.pairs().iter().map(|(i, j)| scale(if i == j { -1 } else { -2 }, &mul(&c[*i], &c[*j]))).collect();
    let diagonal: Vec<El> = s.pairs().iter().map(|(i, j)| constant(d, (i == j) as i64)).collect();
    let phi = |e: usize| sum_products(d, c.iter().zip(aggregate.phi.iter().map(|phi| &phi[e])));
    let (g_digits, h_digits) = (|x: &[El]| by_digit(s.b2, s.t2, x), |x: &[El]| by_digit(s.b1, s.t1, x));

    let a_matrix = rows(d, &l.a_matrix, s.kappa).into_iter().enumerate();
    let mut all: Vec<Constraint> = a_matrix.map(|(k, z)| Constraint { z, t: folded_t(s, &c, k), ..Constraint::default() }).collect();
    all.push(Constraint { a: square(s), g: g_digits(&mixed), ..Constraint::default() });
    all.push(Constraint { z: (0..s.n).map(phi).collect(), h: h_digits(&mixed), ..Constraint::default() });
    all.push(Constraint { g: g_digits(&aggregate.a), h: h_digits(&diagonal), b: aggregate_constant(s, l), ..Constraint::default() });
    let outer = rows(d, &l.b_matrix, s.kappa1).into_iter().zip(rows(d, &l.c_matrix, s.kappa1)).zip(elements(d, &l.u1));
    all.extend(outer.map(|((t, g), b)| Constraint { t, g, b, ..Constraint::default() }));
    let outer = rows(d, &l.d_matrix, s.kappa2).into_iter().zip(elements(d, &l.u2));
    all.extend(outer.map(|(h, b)| Constraint { h, b, ..Constraint::default() }));
    all
}

/// All K' constraints. "If check 1 or 2 fails the answer is that judgement and nothing is written": then the check.
pub fn instance(s: &Sizes, l: &Lists<impl Numbers>, second: &[Function]) -> Result<Vec<i32>, u8> {
    if !check1(s, l) {
        return Err(1);
    }
    if !check2(s, l) {
        return Err(2);
    }
    Ok(constraints(s, l, second).into_iter().flat_map(|x| laid_out(s, x)).collect())
}

/// Whether every whole constraint vanishes at a witness.
pub fn meets(s: &Sizes, numbers: &[i32], witness: &[i32]) -> bool {
    let parts = parts(s, witness);
    let products = pair_products(s, &parts);
    whole(s, numbers).iter().all(|(f, b)| value(s, f, &parts, &products) == *b)
}

#[cfg(test)]
mod tests {
    use super::*;

    /// The whole case of SPECIFICATION 12.4 with z in one digit: z = -2+X as it is; checks 5, 6, 7, 8, 3, 4, each as a (3 elements), φ (2 parts of 6), b.
    #[test]
    fn whole_case_in_one_digit() {
        let s = Sizes {
            d: 2, n: 1, r: 1, k: 1, l: 0, w: 0, kappa: 1, kappa1: 1, kappa2: 1, b: 0, b1: 8, b2: 4, t1: 2, t2: 2, nu: 1, mu: 1, bound: 5, target: 13, one_digit: true,
        };
        let mut l = Lists::zeros(&s);
        l.a_matrix = vec![1, 0];
        l.b_matrix = vec![1, 0, 0, 0];
        l.c_matrix = vec![1, 0, 0, 0];
        l.d_matrix = vec![1, 0, 1, 0];
        l.whole = vec![1, 0, 0, 0, -3, 4];
        (l.alpha, l.c, l.witness) = (vec![1, 0], vec![0, 1], vec![1, 2]);
        let second = second(&s, &l);
        let [t, g, u1] = message1(&s, &l);
        let [h, u2] = message4(&s, &l, &aggregate(&s, &l, &second));
        let [z] = message5(&s, &l);
        assert_eq!(z, [-2, 1]);
        (l.u1, l.u2, l.opening) = (u1, u2, [z, t, g, h].concat());
        assert_eq!(l.opening, [-2, 1, 1, 2, 0, 0, 1, 0, -1, 1, 0, 0, 0, 0]);
        assert_eq!(crate::verdict::verdict(&s, &l, &second), crate::verdict::Verdict::Accepted(0));
        let (z, rest, b) = (3, 9, 15);
        let nonzero: [&[(usize, [i32; 2])]; 6] = [
            &[(z, [1, 0]), (rest, [0, -1]), (rest + 1, [0, -8])],
            &[(0, [1, 0]), (rest + 2, [1, 0]), (rest + 3, [4, 0])],
            &[(rest + 4, [1, 0]), (rest + 5, [8, 0])],
            &[(rest + 2, [1, 0]), (rest + 3, [4, 0]), (rest + 4, [1, 0]), (rest + 5, [8, 0]), (b, [-3, 4])],
            &[(rest, [1, 0]), (rest + 2, [1, 0]), (b, [2, 2])],
            &[(rest + 4, [1, 0]), (rest + 5, [1, 0])],
        ];
        let mut should = vec![0; 6 * 16 * 2];
        for (constraint, all) in nonzero.iter().enumerate() {
            for (place, element) in *all {
                should[(constraint * 16 + place) * 2..][..2].copy_from_slice(element);
            }
        }
        let written = instance(&s, &l, &second).unwrap();
        assert_eq!(written, should);
        let after = sizes(&s);
        assert_eq!((after.n, after.r, after.k), (6, 2, 6));
        assert!(meets(&after, &written, &witness(&s, &l.opening)));
    }

    /// n = 4 and ν = 3: chunks of 2, 2 and 0 elements, then the rest.
    #[test]
    fn chunks_of_one_z_digit() {
        let s = Sizes {
            d: 2, n: 4, r: 1, k: 0, l: 0, w: 0, kappa: 1, kappa1: 1, kappa2: 1, b: 0, b1: 8, b2: 4, t1: 2, t2: 2, nu: 3, mu: 1, bound: 5, target: 13, one_digit: true,
        };
        assert_eq!(chunks(&s), [0..2, 2..4, 4..4, 4..10]);
        assert_eq!(chunks(&Sizes { one_digit: false, ..s }), [0..2, 2..4, 4..4, 4..6, 6..8, 8..8, 8..14]);
    }
}
