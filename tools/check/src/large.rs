//! Folds at product size and at the limits: all five messages, the verdict, each block damaged, the next instance, a second fold.
use crate::answer::Answer::{Judged, Refused};
use crate::bare;
use crate::calls::*;
use crate::case::{self, Lists, LARGEST_BOUND, MOST};
use crate::next_calls::*;
use crate::random::Random;
use crate::small::writes;
use lizkarg::Verdict::{Accepted, Failed};
use plain::lists::Sizes;
use plain::ring::{elements, flat, squared_length};
use plain::{messages, next, sheet};
use std::time::Instant;

/// What, and its sizes; bounds are set to what the honest fold needs. Between them every limit is reached.
fn sizes() -> Vec<(&'static str, Sizes)> {
    let s = |d, n, r, k, l, w, kappa, b, b1, b2, t1, t2, nu, mu| Sizes {
        d, n, r, k, l, w, kappa, kappa1: kappa, kappa2: kappa, b, b1, b2, t1, t2, nu, mu, bound: 0, target: 0, one_digit: false,
    };
    vec![
        ("product", s(64, 256, 16, 4, 4, 256, 8, 16, 256, 256, 4, 4, 2, 12)),
        ("every limit", s(64, 256, 16, 32, 32, 256, 8, 65536, 65536, 65536, 8, 8, 1, 14)),
        ("one part", s(64, 256, 1, 2, 2, 256, 8, 4, 255, 257, 4, 4, 3, 10)),
        ("rank 1", s(64, 1, 16, 3, 3, 64, 1, 2, 2048, 2048, 3, 3, 1, 14)),
        ("degree 2", s(2, 256, 16, 32, 32, 256, 8, 8, 16, 16, 8, 8, 4, 8)),
        ("degree 32, odd bases", s(32, 77, 7, 5, 3, 33, 3, 5, 6563, 641, 3, 4, 5, 6)),
        ("no projections", s(16, 40, 9, 7, 0, 0, 2, 3, 65535, 1627, 2, 3, 2, 11)),
        ("one z digit", Sizes { one_digit: true, ..s(64, 255, 5, 4, 3, 128, 4, 0, 256, 256, 4, 4, 3, 13) }),
    ]
}

/// The longest text of a sheet that is written here, in bytes: the first two sizes have a billion.
const LONGEST_TEXT: usize = 100_000_000;

fn change(xs: &mut [i32], at: usize) {
    xs[at] = if xs[at] == 7 { 8 } else { 7 };
}

/// A digit that is another one, and narrow to every base.
fn change_digit(xs: &mut [i32], at: usize) {
    xs[at] = if xs[at] == 0 { 1 } else { 0 };
}

/// Each message and each block of the opening damaged: the check that must fail is known.
fn damage(tally: &mut Tally, rng: &mut Random, s: &Sizes, l: &Lists) {
    let room = s.room();
    let (t, g, h, end) = (room.z, room.z + room.t, room.z + room.t + room.g, l.opening.len());
    let wide = Sizes { bound: LARGEST_BOUND, target: LARGEST_BOUND, ..*s };
    let mut failed = |what: &str, check: u8, s: &Sizes, edit: &mut dyn FnMut(&mut Lists)| {
        let mut bad = l.clone();
        edit(&mut bad);
        if bad == *l && what != "bound" && what != "target" {
            return;
        }
        assert_eq!(judged(tally, s, &bad), Judged(Failed(check)), "{what}");
    };
    // a change that is multiplied by a zero element is not seen
    let zero = |xs: &[i32], e: usize| xs[e * s.d..(e + 1) * s.d].iter().all(|v| *v == 0);
    for _ in 0..3 {
        failed("u1", 3, &wide, &mut |x| change(&mut x.u1, rng.below(room.u1)));
        failed("u2", 4, &wide, &mut |x| change(&mut x.u2, rng.below(room.u2)));
        failed("b'' constant", 2, &wide, &mut |x| change(&mut x.second_b, rng.below(5) * s.d));
        failed("z low or high", 5, &wide, &mut |x| change_digit(&mut x.opening, rng.below(t)));
        failed("t", 3, &wide, &mut |x| change_digit(&mut x.opening, t + rng.below(g - t)));
        failed("g", 3, &wide, &mut |x| change_digit(&mut x.opening, g + rng.below(h - g)));
        failed("h", 4, &wide, &mut |x| change_digit(&mut x.opening, h + rng.below(end - h)));
        let k = rng.below(5);
        if !zero(&l.delta, k) {
            failed("b'' elsewhere", 8, &wide, &mut |x| change(&mut x.second_b, k * s.d + 1 + rng.below(s.d - 1)));
        }
        if s.w > 0 {
            failed("p", 2, &wide, &mut |x| change(&mut x.p, rng.below(s.w)));
            failed("p far", 1, &wide, &mut |x| x.p.fill(MOST));
        }
        if s.k > 0 && !zero(&l.alpha, 0) {
            failed("constraint's b", 8, &wide, &mut |x| change(&mut x.whole, s.function() + rng.below(s.d)));
        }
        // a matrix of zeros hides a change from the commitment: a later check must see it
        failed("A zero, z", 6, &wide, &mut |x| {
            x.a_matrix.fill(0);
            x.b_matrix.fill(0);
            x.opening[t..g].fill(0);
            x.u1 = flat(&messages::first_outer(s, x, &elements(s.d, &x.opening[t..g]), &elements(s.d, &x.opening[g..h])));
            change_digit(&mut x.opening, rng.below(t));
        });
        let at = rng.below(end - h);
        let (i, j) = s.pairs()[at / (s.t1 * s.d)];
        if !zero(&l.c, i) && !zero(&l.c, j) {
            failed("D zero, h", 7, &wide, &mut |x| {
                x.d_matrix.fill(0);
                x.u2.fill(0);
                change_digit(&mut x.opening, h + at);
            });
        }
    }
    if s.bound > 0 {
        failed("bound", 1, &Sizes { bound: s.bound - 1, ..*s }, &mut |_| ());
    }
    failed("target", 9, &Sizes { target: s.target - 1, ..*s }, &mut |_| ());
}

/// A low digit of each block one beyond half its base, in the first value and in the last: refused by 15. At half, or a top digit far out: judged.
fn widen(tally: &mut Tally, rng: &mut Random, s: &Sizes, l: &Lists) {
    for block in s.blocks() {
        let half = (block.base / 2) as i32;
        for value in [0, block.values - 1] {
            let (low, top) = block.places().nth(value).unwrap();
            if low.is_empty() {
                continue;
            }
            let low = low.start + rng.below(low.len());
            let top = top.start + rng.below(top.len());
            for (at, x, refused) in [(low, half + 1, true), (low, -half - 1, true), (low, half, false), (low, -half, false), (top, MOST, false), (top, -MOST, false)] {
                let mut bad = l.clone();
                bad.opening[at] = x;
                assert_eq!(judged(tally, s, &bad) == Refused(15), refused, "{block:?}, {at}: {x}");
            }
        }
    }
}

/// The next instance, and nothing written where a check fails or the call is refused.
fn next_calls(tally: &mut Tally, case: &Case) -> Option<Vec<i32>> {
    let (s, l) = (case.s, case.l);
    let room = instance_room(s);
    let written = next_instance(tally, case, room);
    assert_eq!(written.is_some(), next::rank(s) <= 256, "checks 1 and 2 hold");
    let mut none = |s: &Sizes, room: usize, edit: &dyn Fn(&mut Lists)| {
        let mut bad = l.clone();
        edit(&mut bad);
        assert!(next_instance(tally, &Case::new(s, &bad), room).is_none());
    };
    let wide = Sizes { bound: LARGEST_BOUND, target: LARGEST_BOUND, ..*s };
    if s.w > 0 {
        none(&wide, room, &|x| x.p.fill(MOST));
        none(&wide, room, &|x| change(&mut x.p, 0));
        none(&Sizes { bound: s.bound - 1, ..*s }, room, &|_| ());
    }
    none(&wide, room, &|x| change(&mut x.second_b, 3 * s.d));
    none(s, room + 1, &|_| ());
    none(s, room - 1, &|_| ());
    none(&Sizes { nu: 8, mu: 1, ..*s }, room, &|_| ());
    none(&Sizes { nu: usize::MAX, mu: 2, ..*s }, room, &|_| ());
    none(s, room, &|x| x.u2[0] = MOST + 1);
    none(s, room, &|x| x.d_matrix[0] = -MOST - 1);
    none(s, room, &|x| x.c[0] = 3);
    none(&Sizes { target: LARGEST_BOUND + 1, ..*s }, room, &|_| ());
    parts(tally, s, &l.opening);
    odd_parts(tally, s, &l.opening);
    parts(tally, s, &l.opening[1..]);
    written
}

/// The next witness solves the next instance, and is folded once more.
fn again(tally: &mut Tally, rng: &mut Random, case: &Case) {
    let (s, l) = (case.s, case.l);
    let after = next::sizes(s);
    let Some(written) = next_calls(tally, case) else {
        println!("    next instance: n' = {} is above 256, refused", after.n);
        return;
    };
    let mut witness = next::witness(s, &l.opening);
    assert!(squared_length(&witness) <= s.target as i128);
    assert!(next::meets(&after, &written, &witness), "the next witness does not solve the next instance");
    change(&mut witness, 0);
    assert!(!next::meets(&after, &written, &witness));
    if s.one_digit {
        bare::bare_end(tally, rng, s, written.clone(), next::witness(s, &l.opening));
    }
    let free = Sizes { w: s.w.max(1), kappa: 2, kappa1: 2, kappa2: 2, b: 256, b1: 256, b2: 256, t1: 4, t2: 4, ..after };
    let (t, answer) = second_fold(tally, rng, case, written, &free, true, true);
    println!("    second fold at n' = {}, r' = {}, K' = {}: {:?}", t.n, t.r, t.k, answer);
}

pub fn run(tally: &mut Tally, seed: u64) {
    for (what, mut s) in sizes() {
        let mut rng = Random::new(seed ^ s.n as u64);
        let from = Instant::now();
        let mut l = case::random(&mut rng, &s, true);
        if l.a_matrix.iter().all(|v| *v == 0) {
            l.a_matrix[0] = 1;
        }
        let second = fold(tally, &s, &mut l);
        (s.bound, s.target) = least_bounds(&s, &l);
        let case = Case::formed(&s, &l, second);
        assert_eq!(verify(tally, &case), Judged(Accepted(0)), "{what}");
        for (target, margin) in [(s.target + 1, 1), (LARGEST_BOUND, LARGEST_BOUND - s.target)] {
            assert_eq!(judged(tally, &Sizes { target, ..s }, &l), Judged(Accepted(margin)), "{what}");
        }
        println!("{what}: d {} n {} r {} K {} L {} w {}: accepted, {:.1} s", s.d, s.n, s.r, s.k, s.l, s.w, from.elapsed().as_secs_f64());
        if sheet::bytes_of(&s) <= LONGEST_TEXT {
            writes(tally, &mut rng, &s, &l);
        }
        damage(tally, &mut rng, &s, &l);
        widen(tally, &mut rng, &s, &l);
        again(tally, &mut rng, &case);
        if next::rank(&s) > 256 {
            again(tally, &mut rng, &Case::new(&Sizes { nu: 1, mu: 14, ..s }, &l));
        }
        println!("    {:.1} s", from.elapsed().as_secs_f64());
    }
    bare::large(tally, seed);
}
