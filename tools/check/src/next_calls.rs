//! The next instance, the parts of its witness and its fold, held to the second implementation.
use crate::answer::Answer::{self, Judged, Written};
use crate::calls::*;
use crate::case::{self, Lists, LARGEST_BOUND, MOST};
use crate::random::Random;
use lizkarg::Verdict::{Accepted, Failed};
use lizkarg::{Draws, Messages, Proof, Statement};
use plain::lists::Sizes;
use plain::ring::squared_length;
use plain::{next, refusals};

/// The numbers of the next instance's constraints.
pub fn instance_room(s: &Sizes) -> usize {
    next::sizes(s).lengths().whole
}

/// The next instance, into a slice of `room` numbers: the constraints where they are written.
pub fn next_instance(tally: &mut Tally, case: &Case, room: usize) -> Option<Vec<i32>> {
    let (s, l) = (case.s, case.l);
    let run = |[out]: [&mut [i32]; 1]| proof(s, l).write_next_instance(cut(s), out);
    let should = || next::instance(s, l, case.second()).map(|all| [all]);
    let answer = written(tally, "next_instance", refusals::next_instance(s, l, room), [room], run, should);
    answer.ok().map(|[all]| all)
}

/// A proof of which only the sizes and the opening are given, as the parts of the next witness take it.
fn opened<'a>(s: &Sizes, opening: &'a [i32]) -> Proof<'a> {
    let none = &[];
    let statement = Statement {
        sizes: sizes(s), a_matrix: none, b_matrix: none, c_matrix: none, d_matrix: none, whole: none, constant_terms: none,
    };
    Proof { statement, draws: Draws::default(), messages: Messages { opening, ..Messages::default() } }
}

/// One part of the next witness: its refusal, and its place in the opening.
fn part(tally: &mut Tally, s: &Sizes, number: usize, opening: &[i32]) {
    let proof = opened(s, opening);
    let answer = proof.next_part(cut(s), number);
    let found = proof.next_part_or_empty(cut(s), number);
    let should = refusals::next_part(s, number, opening.len());
    assert_eq!(answer.map(|_| ()).map_err(|refused| refused.0), should, "next_part: {s:?}, part {number}");
    let chunk = match should {
        Ok(()) => next::chunks(s)[number - 1].clone(),
        Err(_) => 0..0,
    };
    let chunk = &opening[chunk.start * s.d..chunk.end * s.d];
    for found in answer.into_iter().chain([found]) {
        assert_eq!(found.as_ptr_range(), chunk.as_ptr_range(), "next_part: {s:?}, part {number}");
    }
    tally.count("next_part", answer.map_or_else(Answer::from, |_| Written));
}

/// All parts from 0 to r' + 1, and part numbers far out; where r' is large, those at its ends.
pub fn parts(tally: &mut Tally, s: &Sizes, opening: &[i32]) {
    let last = usize::try_from(s.z_digits() as u128 * s.nu as u128 + s.mu as u128).unwrap_or(usize::MAX);
    let ends = [s.nu, last, last.saturating_add(1), last.wrapping_add(2), usize::MAX];
    for number in (0..=last.saturating_add(1).min(20)).chain(ends) {
        part(tally, s, number, opening);
    }
}

/// ν and μ at and past their limits, and huge.
pub fn odd_parts(tally: &mut Tally, s: &Sizes, opening: &[i32]) {
    let huge = usize::MAX;
    let half = 1 << 63;
    for (nu, mu) in [
        (0, 0), (0, 1), (1, 0), (7, 2), (7, 3), (8, 1), (1, 14), (1, 15), (0, 17), (huge, 1), (1, huge), (huge, huge), (half, 1), (half, half),
        (huge, 0), (0, huge), (half - 1, 2), (9, 7), (15, 1), (16, 1), (9, 8), (1, 16),
    ] {
        parts(tally, &Sizes { nu, mu, ..*s }, opening);
    }
}

/// The next witness, formed from the library's parts.
fn witness(s: &Sizes, opening: &[i32]) -> Vec<i32> {
    let all = opened(s, opening).next_witness(cut(s)).unwrap();
    assert!(all == next::witness(s, opening), "the next witness differs");
    all
}

/// A fold of the instance that the library wrote, with the witness of its parts: every message and the verdict. `free` has the sizes that
/// the next instance leaves free, and `least` takes the least bounds that accept in place of β'². The verdict is that of an honest fold
/// exactly if the opening solves the instance.
pub fn second_fold(
    tally: &mut Tally, rng: &mut Random, case: &Case, written: Vec<i32>, free: &Sizes, least: bool, solved: bool,
) -> (Sizes, Answer) {
    let after = next::sizes(case.s);
    let mut t = Sizes { n: after.n, r: after.r, k: after.k, l: after.l, d: after.d, bound: after.bound, ..*free };
    let mut m = case::random(rng, &Sizes { k: 0, ..t }, true);
    (m.whole, m.alpha) = (written, (0..t.k * t.d).map(|_| rng.signed(MOST)).collect());
    m.witness = witness(case.s, &case.l.opening);
    let second = fold(tally, &t, &mut m);
    if least {
        let (bound, target) = least_bounds(&t, &m);
        (t.bound, t.target) = (bound.min(LARGEST_BOUND), target.min(LARGEST_BOUND));
    }
    let answer = verify(tally, &Case::formed(&t, &m, second));
    if solved {
        let short = 2 * squared_length(&m.p) <= t.bound as i128 * t.w as i128;
        let margin = t.target as i128 - squared_length(&m.opening);
        let should = if !short { Judged(Failed(1)) } else if margin < 0 { Judged(Failed(9)) } else { Judged(Accepted(margin as u64)) };
        assert_eq!(answer, should, "second fold");
    } else {
        assert!(matches!(answer, Judged(Failed(1 | 8))), "second fold of a witness that solves nothing: {answer:?}");
    }
    (t, answer)
}

/// The least β² and β'² that accept an honest fold.
pub fn least_bounds(s: &Sizes, l: &Lists) -> (u64, u64) {
    let bound = (2 * squared_length(&l.p) as u128).div_ceil(s.w.max(1) as u128);
    (bound as u64, squared_length(&l.opening) as u64)
}
