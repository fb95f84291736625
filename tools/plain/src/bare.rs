//! SPECIFICATION 14: the bare level. Its lists are those of `Lists`, of which B, C, D, u1 and u2 are not looked at; the opening is the bare one.
use crate::lists::{product, sum, Lists, Numbers, Sizes};
use crate::messages::{aggregate, aggregate_constant, constant_terms, parts, whole, Function};
use crate::refusals::{challenges, count, degree, lists, projections, ranks, row, rows, shape, Refusal};
use crate::ring::*;
use crate::verdict::{check1, check2, Verdict};
use std::cell::LazyCell;

/// "There are no κ1, κ2, bases or digit counts .. and no target bound." `bound` is β², `z_bound` the bound on z.
#[derive(Clone, Copy, Debug, PartialEq, Eq)]
pub struct BareSizes {
    pub d: usize,
    pub n: usize,
    pub r: usize,
    pub k: usize,
    pub l: usize,
    pub w: usize,
    pub kappa: usize,
    pub bound: u64,
    pub z_bound: u64,
}

impl BareSizes {
    /// The sizes of a fold with one z digit that has these; the others are the least.
    pub fn fold(&self) -> Sizes {
        let BareSizes { d, n, r, k, l, w, kappa, bound, .. } = *self;
        Sizes {
            d, n, r, k, l, w, kappa, kappa1: 1, kappa2: 1, b: 0, b1: 2, b2: 2, t1: 2, t2: 2, nu: 1, mu: 1, bound, target: 0, one_digit: true,
        }
    }

    /// The numbers of t: "r·κ elements".
    pub fn t(&self) -> usize {
        product([self.r, self.kappa, self.d])
    }

    /// The numbers of z: n elements.
    pub fn z(&self) -> usize {
        product([self.n, self.d])
    }

    /// The numbers of a turn: "four elements".
    pub fn turn(&self) -> usize {
        product([4, self.d])
    }

    /// How many numbers each list has; none where the bare level does not have it.
    pub fn lengths(&self) -> Lists<usize> {
        let opening = sum([self.t(), self.z(), product([self.r, self.turn()])]);
        Lists { b_matrix: 0, c_matrix: 0, d_matrix: 0, u1: 0, u2: 0, opening, ..self.fold().lengths() }
    }
}

// Refusals

/// Row 14: "both kinds of constraints, and .. each of their a_ij with i < j, whatever α, ψ and δ are".
fn unmixed(s: &Sizes, l: &Lists<impl Numbers>) -> Refusal {
    let (whole, constant_terms) = (whole(s, &l.whole), constant_terms(s, &l.constant_terms));
    let mut functions = whole.iter().map(|(f, _)| f).chain(constant_terms.iter().map(|(f, _)| f));
    row(14, functions.all(|f| s.pairs().iter().zip(&f.a).all(|((i, j), a)| i == j || a.iter().all(|x| *x == 0))))
}

/// `room` is the length of the list that is written.
pub fn commit_refusal(s: &BareSizes, l: &Lists<impl Numbers>, room: usize) -> Refusal {
    let (fold, length) = (s.fold(), s.lengths());
    degree(&fold)?;
    row(2, shape(&fold))?;
    ranks([s.kappa])?;
    lists(&[(&l.a_matrix, length.a_matrix), (&l.witness, length.witness)], &[(room, s.t())])
}

pub fn phi_refusal(s: &BareSizes, l: &Lists<impl Numbers>, room: usize) -> Refusal {
    let (fold, length) = (s.fold(), s.lengths());
    degree(&fold)?;
    row(2, shape(&fold) && count(s.k) && count(s.l) && rows(s.w))?;
    let reads: &[(&[i32], usize)] = &[
        (&l.whole, length.whole), (&l.constant_terms, length.constant_terms), (&l.projections, length.projections), (&l.psi, length.psi),
        (&l.omega, length.omega), (&l.alpha, length.alpha), (&l.delta, length.delta),
    ];
    lists(reads, &[(room, length.witness)])?;
    projections(&l.projections)?;
    unmixed(&fold, l)
}

/// `c` are the challenges before the turn, "in exactly this number".
pub fn turn_refusal(s: &BareSizes, turn: usize, phi: &[i32], c: &[i32], witness: &[i32], room: usize) -> Refusal {
    let (fold, length) = (s.fold(), s.lengths());
    degree(&fold)?;
    row(2, shape(&fold) && (1..=s.r).contains(&turn))?;
    lists(&[(phi, length.witness), (c, (turn - 1) * s.d), (witness, length.witness)], &[(room, s.turn())])?;
    challenges(s.d, c)
}

pub fn verify_refusal(s: &BareSizes, l: &Lists<impl Numbers>) -> Refusal {
    let (fold, length) = (s.fold(), s.lengths());
    degree(&fold)?;
    row(2, shape(&fold) && count(s.k) && count(s.l) && rows(s.w))?;
    ranks([s.kappa])?;
    row(6, s.bound <= 999999999999999 && s.z_bound <= 999999999999999)?;
    let reads: &[(&[i32], usize)] = &[
        (&l.a_matrix, length.a_matrix), (&l.whole, length.whole), (&l.constant_terms, length.constant_terms), (&l.projections, length.projections),
        (&l.p, length.p), (&l.psi, length.psi), (&l.omega, length.omega), (&l.second_b, length.second_b), (&l.alpha, length.alpha),
        (&l.delta, length.delta), (&l.c, length.c), (&l.opening, length.opening),
    ];
    lists(reads, &[])?;
    projections(&l.projections)?;
    challenges(s.d, &l.c)?;
    unmixed(&fold, l)
}

// Messages

/// "t_i = A s_i", by part, then row.
pub fn commit(s: &BareSizes, l: &Lists<impl Numbers>) -> Vec<i32> {
    let a_matrix = elements(s.d, &l.a_matrix);
    parts(&s.fold(), &l.witness).iter().flat_map(|part| flat(&times(s.d, &a_matrix, part))).collect()
}

/// "φ_1..φ_r of the aggregate", by part.
pub fn phi(s: &BareSizes, l: &Lists<impl Numbers>, second: &[Function]) -> Vec<i32> {
    flat(&aggregate(&s.fold(), l, second).phi.concat())
}

/// The four of a turn: "the mixed φ, the own φ, the mixed z and the own z".
pub fn turn(s: &BareSizes, turn: usize, phi: &[i32], c: &[i32], witness: &[i32]) -> Vec<i32> {
    let (phi, s_of, i) = (parts(&s.fold(), phi), parts(&s.fold(), witness), turn - 1);
    let inner = |x: &[El], y: &[El]| inner(s.d, x, y);
    let (mut mixed_phi, mut mixed_z) = (zero(s.d), zero(s.d));
    for (j, c) in elements(s.d, c).iter().enumerate() {
        mixed_phi = add(&mixed_phi, &mul(&add(&inner(&phi[j], &s_of[i]), &inner(&phi[i], &s_of[j])), c));
        mixed_z = add(&mixed_z, &mul(&scale(2, &inner(&s_of[i], &s_of[j])), c));
    }
    flat(&[mixed_phi, inner(&phi[i], &s_of[i]), mixed_z, inner(&s_of[i], &s_of[i])])
}

// Verdict

/// |z|², a whole number.
pub fn z_squared_length(s: &BareSizes, opening: &[i32]) -> i128 {
    squared_length(&opening[s.t()..s.t() + s.z()])
}

/// "(mixed)·c_i + (own)·c_i²" over all turns; `at` is the place of the mixed one in a turn, and the own one follows it.
fn in_turn(s: &BareSizes, c: &[El], turns: &[El], at: usize) -> El {
    let summand = |(four, c): (&[El], &El)| mul(c, &add(&four[at], &mul(c, &four[at + 1])));
    turns.chunks(4).zip(c).map(summand).fold(zero(s.d), |sum, x| add(&sum, &x))
}

/// "Σ a_ii·(own z of turn i) + Σ (own φ of turn i)"
fn aggregated(s: &BareSizes, aggregate: &Function, turns: &[El]) -> El {
    let diagonal = s.fold().pairs().into_iter().zip(&aggregate.a).filter(|((i, j), _)| i == j);
    let summands = diagonal.zip(turns.chunks(4)).map(|((_, a), four)| add(&mul(a, &four[3]), &four[1]));
    summands.fold(zero(s.d), |sum, x| add(&sum, &x))
}

/// "Its checks, in this order; the first that fails is named"; "Accepted carries the margin of check 7: the bound on z minus |z|²." `second` are the second
/// functions.
pub fn verdict(s: &BareSizes, l: &Lists<impl Numbers>, second: &[Function]) -> Verdict {
    let (d, fold) = (s.d, s.fold());
    let all = elements(d, &l.opening);
    let (t, rest) = all.split_at(s.r * s.kappa);
    let (z, turns) = rest.split_at(s.n);
    let c = elements(d, &l.c);
    let aggregate = LazyCell::new(|| aggregate(&fold, l, second));
    let folded = |k: usize| sum_products(d, c.iter().zip(t.iter().skip(k).step_by(s.kappa)));
    let phi_z = |c: &[El]| inner(d, &aggregate.phi.iter().map(|phi| inner(d, phi, z)).collect::<Vec<El>>(), c);
    let margin = s.z_bound as i128 - z_squared_length(s, &l.opening);
    let checks: [&dyn Fn() -> bool; 7] = [
        &|| check1(&fold, l),
        &|| check2(&fold, l),
        &|| times(d, &elements(d, &l.a_matrix), z).into_iter().eq((0..s.kappa).map(folded)),
        &|| inner(d, z, z) == in_turn(s, &c, turns, 2),
        &|| phi_z(&c) == in_turn(s, &c, turns, 0),
        &|| aggregated(s, &aggregate, turns) == aggregate_constant(&fold, l),
        &|| margin >= 0,
    ];
    match checks.iter().position(|check| !check()) {
        Some(at) => Verdict::Failed(at as u8 + 1),
        None => Verdict::Accepted(margin as u64),
    }
}

#[cfg(test)]
mod tests {
    use super::*;
    use crate::messages::{message2, message3, second};

    fn sizes() -> BareSizes {
        BareSizes { d: 2, n: 1, r: 2, k: 1, l: 0, w: 0, kappa: 1, bound: 0, z_bound: 5 }
    }

    /// s = (1+2X, 3), c = (X, 1-X), A = (1+X), 2<s_1,s_1> + <1,s_1> + <X,s_2> = -5+13X.
    fn lists() -> Lists<Vec<i32>> {
        let mut l = Lists::from_array(sizes().lengths().each().map(|length| vec![0; *length]));
        (l.a_matrix, l.witness, l.c, l.alpha) = (vec![1, 1], vec![1, 2, 3, 0], vec![0, 1, 1, -1], vec![1, 0]);
        l.whole = vec![2, 0, 0, 0, 0, 0, 1, 0, 0, 1, -5, 13];
        l
    }

    fn honest(s: &BareSizes, l: &mut Lists<Vec<i32>>) -> Vec<Function> {
        let second = second(&s.fold(), l);
        [l.p] = message2(&s.fold(), l);
        [l.second_b] = message3(&s.fold(), l, &second);
        let (phi, [z]) = (phi(s, l, &second), crate::messages::message5(&s.fold(), l));
        let turns = (1..=s.r).flat_map(|i| turn(s, i, &phi, &l.c[..(i - 1) * s.d], &l.witness));
        l.opening = [commit(s, l), z].concat().into_iter().chain(turns).collect();
        second
    }

    #[test]
    fn by_hand() {
        let (s, mut l) = (sizes(), lists());
        let second = honest(&s, &mut l);
        assert_eq!(l.opening, [-1, 3, 3, 3, 1, -2, 0, 0, 1, 2, 0, 0, -3, 4, -1, 1, 0, 3, -12, 6, 9, 0]);
        assert_eq!(verify_refusal(&s, &l), Ok(()));
        for (z_bound, answer) in [(4, Verdict::Failed(7)), (5, Verdict::Accepted(0)), (12, Verdict::Accepted(7))] {
            assert_eq!(verdict(&BareSizes { z_bound, ..s }, &l, &second), answer);
        }
        // t, z, and the four of the second turn; then b
        for (at, check) in [(0, 3), (4, 3), (14, 5), (16, 5), (18, 4), (20, 4)] {
            let mut other = l.clone();
            other.opening[at] += 1;
            assert_eq!(verdict(&s, &other, &second), Verdict::Failed(check), "{at}");
        }
        l.whole[11] += 1;
        assert_eq!(verdict(&s, &l, &second), Verdict::Failed(6));
    }

    /// Row 14 in both kinds, after 8 to 10, without weight; not for a_11 and a_22.
    #[test]
    fn mixed_products() {
        let s = BareSizes { l: 1, w: 1, ..sizes() };
        let zeros = || Lists::from_array(s.lengths().each().map(|length| vec![0; *length]));
        for kind in 0..2 {
            for (at, mixed) in [(0, false), (1, false), (2, true), (3, true), (4, false), (5, false), (6, false)] {
                let mut l: Lists<Vec<i32>> = zeros();
                (if kind == 0 { &mut l.whole } else { &mut l.constant_terms })[at] = -1;
                assert_eq!(verify_refusal(&s, &l), row(14, !mixed));
                assert_eq!(phi_refusal(&s, &l, 4), row(14, !mixed));
                l.c[3] = 3;
                assert_eq!(verify_refusal(&s, &l), Err(10));
                l.projections[0] = 2;
                assert_eq!(verify_refusal(&s, &l), Err(9));
                assert_eq!(phi_refusal(&s, &l, 4), Err(9));
                l.delta[0] = i32::MAX;
                assert_eq!([verify_refusal(&s, &l), phi_refusal(&s, &l, 4)], [Err(8); 2]);
                assert_eq!(phi_refusal(&s, &l, 3), Err(7));
            }
        }
    }

    #[test]
    fn turns() {
        let (s, zeros) = (sizes(), [0; 8]);
        for (turn, length, answer) in [(0, 0, Err(2)), (1, 0, Ok(())), (1, 2, Err(7)), (2, 2, Ok(())), (2, 0, Err(7)), (2, 4, Err(7)), (3, 4, Err(2)), (usize::MAX, 0, Err(2))] {
            assert_eq!(turn_refusal(&s, turn, &zeros[..4], &zeros[..length], &zeros[..4], 8), answer, "{turn} {length}");
        }
        assert_eq!(turn_refusal(&s, 2, &zeros[..4], &[0, 3], &zeros[..4], 8), Err(10));
        assert_eq!(turn_refusal(&s, 2, &[0, 0, 0, i32::MIN], &[0, 3], &zeros[..4], 8), Err(8));
        assert_eq!(turn_refusal(&s, 2, &zeros[..4], &[0, 3], &zeros[..4], 6), Err(7));
    }
}
