//! SPECIFICATION 7: whether a call is refused, and by which number. A projection entry or a challenge coefficient that is
//! no coefficient at all is 8, the lower number.
use crate::lists::{Lists, Numbers, Room, Sizes};
use crate::next;
use crate::ring::{squared_length, MOST};

pub type Refusal = Result<(), u8>;

/// "Lowest number first": the rows that a call tests stand in this order, and the first that fails is its answer.
pub fn row(number: u8, passes: bool) -> Refusal {
    if passes { Ok(()) } else { Err(number) }
}

// Rows 1 to 6

pub(crate) fn degree(s: &Sizes) -> Refusal {
    row(1, [2, 4, 8, 16, 32, 64].contains(&s.d))
}

pub(crate) fn shape(s: &Sizes) -> bool {
    (1..=256).contains(&s.n) && (1..=16).contains(&s.r)
}

pub(crate) fn count(k: usize) -> bool {
    k <= 32
}

pub(crate) fn rows(w: usize) -> bool {
    w <= 256
}

pub(crate) fn ranks<const N: usize>(all: [usize; N]) -> Refusal {
    row(3, all.iter().all(|k| (1..=8).contains(k)))
}

fn digits<const B: usize, const T: usize>(bases: [usize; B], counts: [usize; T]) -> Refusal {
    row(4, bases.iter().all(|b| (2..=65536).contains(b)) && counts.iter().all(|t| (2..=8).contains(t)))
}

fn chunks(s: &Sizes) -> Refusal {
    row(5, s.nu >= 1 && s.mu >= 1 && parts(s) <= 16)
}

/// r'
fn parts(s: &Sizes) -> u128 {
    s.z_digits() as u128 * s.nu as u128 + s.mu as u128
}

/// Row 4 of the base of z: "With one, b is neither taken nor tested."
fn z_base(s: &Sizes) -> Refusal {
    if s.one_digit { Ok(()) } else { digits([s.b], []) }
}

/// The rows 1 to 6 of the verifier, and with `nu_mu` those of the next instance, which are those of a sheet.
pub fn sizes(s: &Sizes, nu_mu: bool) -> Refusal {
    degree(s)?;
    row(2, shape(s) && count(s.k) && count(s.l) && rows(s.w))?;
    ranks([s.kappa, s.kappa1, s.kappa2])?;
    z_base(s)?;
    digits([s.b1, s.b2], [s.t1, s.t2])?;
    if nu_mu {
        chunks(s)?;
    }
    row(6, s.bound <= 999999999999999 && s.target <= 999999999999999)
}

// Rows 7 to 10

/// Lists that a call reads, each with the length that the sizes give.
macro_rules! reads {
    ($s:expr, $l:expr, $($name:ident)*) => {{
        let lengths = $s.lengths();
        &[$((&$l.$name[..], lengths.$name)),*]
    }};
}

/// Rows 7 and 8, for lists with the lengths that they should have, and for the lengths that a call writes.
pub(crate) fn lists(reads: &[(&[i32], usize)], writes: &[(usize, usize)]) -> Refusal {
    row(7, reads.iter().all(|(list, length)| list.len() == *length) && writes.iter().all(|(room, length)| room == length))?;
    row(8, reads.iter().all(|(list, _)| list.iter().all(|v| (*v as i64).abs() <= MOST)))
}

pub(crate) fn projections(entries: &[i32]) -> Refusal {
    row(9, entries.iter().all(|v| [-1, 0, 1].contains(v)))
}

/// "at degree 64, exactly 23 coefficients are zero, 31 are +1 or -1, and 10 are +2 or -2. At each smaller degree, a challenge c has
/// coefficients -2 to 2 and squared length at most 71."
fn challenge(d: usize, c: &[i32]) -> bool {
    let count = |size: i32| c.iter().filter(|v| [-size, size].contains(v)).count();
    if d == 64 {
        [count(0), count(1), count(2)] == [23, 31, 10]
    } else {
        c.iter().all(|v| (-2..=2).contains(v)) && squared_length(c) <= 71
    }
}

pub(crate) fn challenges(d: usize, c: &[i32]) -> Refusal {
    row(10, c.chunks(d).all(|c| challenge(d, c)))
}

// Row 15

/// "each low digit x of the opening, of a base B, has 2·|x| ≤ B." The opening has the length that the sizes give.
fn low_digits(s: &Sizes, opening: &[i32]) -> Refusal {
    let narrow = |base: usize, x: i32| 2 * (x as i64).abs() <= base as i64;
    row(15, s.blocks().into_iter().all(|block| block.places().all(|(low, _)| opening[low].iter().all(|x| narrow(block.base, *x)))))
}

// The calls

/// Message 1.
pub fn commit(s: &Sizes, l: &Lists<impl Numbers>, room: &Room) -> Refusal {
    degree(s)?;
    row(2, shape(s))?;
    ranks([s.kappa, s.kappa1])?;
    digits([s.b1, s.b2], [s.t1, s.t2])?;
    let want = s.room();
    lists(reads!(s, l, a_matrix b_matrix c_matrix witness), &[(room.t, want.t), (room.g, want.g), (room.u1, want.u1)])
}

/// Message 2.
pub fn project(s: &Sizes, l: &Lists<impl Numbers>, room: &Room) -> Refusal {
    degree(s)?;
    row(2, shape(s) && rows(s.w))?;
    lists(reads!(s, l, projections witness), &[(room.p, s.w)])?;
    projections(&l.projections)
}

/// Message 3.
pub fn aggregate(s: &Sizes, l: &Lists<impl Numbers>, room: &Room) -> Refusal {
    degree(s)?;
    row(2, shape(s) && count(s.l) && rows(s.w))?;
    lists(reads!(s, l, constant_terms projections psi omega witness), &[(room.second_b, s.room().second_b)])?;
    projections(&l.projections)
}

/// Message 4.
pub fn commit_garbage(s: &Sizes, l: &Lists<impl Numbers>, room: &Room) -> Refusal {
    degree(s)?;
    row(2, shape(s) && count(s.k) && count(s.l) && rows(s.w))?;
    ranks([s.kappa2])?;
    digits([s.b1], [s.t1])?;
    let want = s.room();
    let reads = reads!(s, l, whole constant_terms projections psi omega alpha delta d_matrix witness);
    lists(reads, &[(room.h, want.h), (room.u2, want.u2)])?;
    projections(&l.projections)
}

/// Message 5.
pub fn amortize(s: &Sizes, l: &Lists<impl Numbers>, room: &Room) -> Refusal {
    degree(s)?;
    row(2, shape(s))?;
    z_base(s)?;
    lists(reads!(s, l, c witness), &[(room.z, s.room().z)])?;
    challenges(s.d, &l.c)
}

/// The lists of the verifier but the opening, and what is beside them.
fn judged(s: &Sizes, l: &Lists<impl Numbers>, opening: Option<&[i32]>, writes: &[(usize, usize)]) -> Refusal {
    let shared = reads!(s, l, a_matrix b_matrix c_matrix d_matrix whole constant_terms u1 projections p psi omega second_b alpha delta u2 c);
    let mut reads = shared.to_vec();
    reads.extend(opening.map(|numbers| (numbers, s.lengths().opening)));
    lists(&reads, writes)?;
    projections(&l.projections)?;
    challenges(s.d, &l.c)
}

/// Rows 7 to 10 of the verifier, which are those of a sheet.
pub fn numbers(s: &Sizes, l: &Lists<impl Numbers>) -> Refusal {
    judged(s, l, Some(&l.opening), &[])
}

pub fn verify(s: &Sizes, l: &Lists<impl Numbers>) -> Refusal {
    sizes(s, false)?;
    numbers(s, l)?;
    low_digits(s, &l.opening)
}

/// The next instance, which takes no opening; `room` is the length of the slice that it writes.
pub fn next_instance(s: &Sizes, l: &Lists<impl Numbers>, room: usize) -> Refusal {
    sizes(s, true)?;
    judged(s, l, None, &[(room, next::sizes(s).lengths().whole)])?;
    row(11, next::rank(s) <= 256)
}

/// One part of the next witness; `opening` is the length of the slice.
pub fn next_part(s: &Sizes, part: usize, opening: usize) -> Refusal {
    degree(s)?;
    row(2, shape(s) && part >= 1 && part as u128 <= parts(s))?;
    ranks([s.kappa])?;
    digits([], [s.t1, s.t2])?;
    chunks(s)?;
    row(7, opening == s.lengths().opening)
}

#[cfg(test)]
mod tests {
    use super::*;

    fn sizes_of(b: usize, b1: usize, b2: usize) -> Sizes {
        Sizes {
            d: 2, n: 2, r: 2, k: 0, l: 0, w: 1, kappa: 2, kappa1: 1, kappa2: 1, b, b1, b2, t1: 3, t2: 4, nu: 1, mu: 1, bound: 0, target: 0,
            one_digit: false,
        }
    }

    fn one_digit(b: usize) -> Sizes {
        Sizes { b, one_digit: true, ..sizes_of(4, 3, 5) }
    }

    /// With one z digit no b is refused and z is free; the low digits of t, g and h are tested as with two.
    #[test]
    fn one_z_digit() {
        for b in [0, 1, 4, 65537, usize::MAX] {
            let s = one_digit(b);
            let mut l = Lists::zeros(&s);
            assert_eq!(l.opening.len(), (2 + next::rest(&s)) * 2);
            assert_eq!(amortize(&s, &l, &s.room()), Ok(()));
            assert_eq!(amortize(&s, &l, &Room { z: 8, ..s.room() }), Err(7));
            assert_eq!(amortize(&Sizes { one_digit: false, b: 4, ..s }, &l, &s.room()), Err(7));
            assert_eq!(sizes(&Sizes { one_digit: false, ..s }, true), row(4, b == 4));
            let [z, t, g, h] = s.blocks();
            for (block, free) in [(z, true), (t, false), (g, false), (h, false)] {
                l.opening[block.start] = 4;
                assert_eq!(verify(&s, &l), row(15, free));
                l.opening[block.start] = 0;
            }
            l.opening.extend([0; 4]);
            assert_eq!(verify(&s, &l), Err(7));
            l.opening.truncate(l.opening.len() - 4);
            assert_eq!(verify(&Sizes { one_digit: false, b: 4, ..s }, &l), Err(7));
            assert_eq!(verify(&Sizes { b1: 1, ..s }, &l), Err(4));
        }
    }

    /// ν+μ against 16, and a part against ν+μ, also where row 5 refuses.
    #[test]
    fn cuts_of_one_z_digit() {
        for (nu, mu, one, two) in [(9, 7, true, false), (15, 1, true, false), (7, 2, true, true), (16, 1, false, false), (9, 8, false, false), (0, 1, false, false)] {
            let s = Sizes { nu, mu, ..one_digit(0) };
            assert_eq!(sizes(&s, true), row(5, one), "{nu} {mu}");
            assert_eq!(sizes(&Sizes { one_digit: false, b: 4, ..s }, true), row(5, two), "{nu} {mu}");
        }
        let s = Sizes { nu: 8, mu: 1, ..one_digit(0) };
        let length = s.lengths().opening;
        assert_eq!([0, 1, 9, 10, 17].map(|part| next_part(&s, part, length)), [Err(2), Ok(()), Ok(()), Err(2), Err(2)]);
        assert_eq!(next_part(&s, 9, length + 4), Err(7));
        let s = Sizes { nu: 16, mu: 1, ..s };
        assert_eq!([1, 17, 18].map(|part| next_part(&s, part, length)), [Err(5), Err(5), Err(2)]);
        let s = Sizes { nu: usize::MAX, mu: usize::MAX, ..s };
        assert_eq!(next_part(&s, usize::MAX, length), Err(5));
    }

    /// Both sides of half, odd and even bases, each low digit of each block with both signs; every top digit is free.
    #[test]
    fn low_digits_of_each_block() {
        for (b, b1, b2) in [(2, 3, 4), (3, 4, 5), (65535, 65536, 2), (65536, 2, 65535), (5, 255, 256)] {
            let s = sizes_of(b, b1, b2);
            let mut l = Lists::zeros(&s);
            let mut seen = 0;
            for block in s.blocks() {
                for (low, top) in block.places() {
                    for (at, is_low) in low.map(|at| (at, true)).chain(top.map(|at| (at, false))) {
                        let half = (block.base / 2) as i32;
                        for (x, wide) in [(half, false), (half + 1, true), (MOST as i32, true), (1 << 30, true)] {
                            for x in [x, -x] {
                                l.opening[at] = x;
                                assert_eq!(verify(&s, &l), row(15, !(wide && is_low)), "{block:?}, {at}, {x}");
                                assert_eq!(numbers(&s, &l), Ok(()));
                                assert_eq!(next_instance(&s, &l, next::sizes(&s).lengths().whole), Ok(()));
                            }
                        }
                        l.opening[at] = 0;
                        seen += 1;
                    }
                }
            }
            assert_eq!(seen, l.opening.len());
        }
    }

    /// Rows 6 to 10 come before 15; a low digit out of range is 8.
    #[test]
    fn lower_rows_first() {
        let s = sizes_of(4, 4, 4);
        let mut l = Lists::zeros(&s);
        l.opening[0] = 3;
        assert_eq!(verify(&s, &l), Err(15));
        let bad = |edit: &dyn Fn(&mut Lists<Vec<i32>>)| {
            let mut bad = l.clone();
            edit(&mut bad);
            verify(&s, &bad)
        };
        assert_eq!(verify(&Sizes { target: 1_000_000_000_000_000, ..s }, &l), Err(6));
        assert_eq!(bad(&|x| x.opening.push(0)), Err(7));
        assert_eq!(bad(&|x| x.u2[0] = MOST as i32 + 1), Err(8));
        assert_eq!(bad(&|x| x.projections[0] = 2), Err(9));
        assert_eq!(bad(&|x| x.c[0] = 3), Err(10));
        for x in [i32::MIN, i32::MAX, MOST as i32 + 1, -MOST as i32 - 1] {
            assert_eq!(bad(&|l| l.opening[1] = x), Err(8));
        }
    }

    /// The blocks are the opening, each place once.
    #[test]
    fn blocks_are_the_opening() {
        let s = sizes_of(4, 4, 4);
        let places: Vec<usize> = s.blocks().into_iter().flat_map(|block| block.places().flat_map(|(low, top)| low.chain(top))).collect();
        assert_eq!(places, (0..s.lengths().opening).collect::<Vec<_>>());
    }
}
