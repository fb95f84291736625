//! Both sides of limits that random cases rarely meet: SPECIFICATION 12.2.
use crate::answer::Answer::{self, Judged, Refused};
use crate::calls::*;
use crate::case::{self, Lists, LARGEST_BOUND, MOST};
use crate::next_calls::*;
use crate::random::Random;
use crate::small::{judge, read, writes};
use lizkarg::Verdict::{Accepted, Failed};
use plain::lists::Sizes;
use plain::ring::squared_length;
use plain::{next, refusals, sheet};

fn base() -> Sizes {
    Sizes {
        d: 64, n: 2, r: 2, k: 1, l: 1, w: 2, kappa: 1, kappa1: 1, kappa2: 1, b: 16, b1: 256, b2: 256, t1: 4, t2: 4, nu: 1, mu: 1,
        bound: LARGEST_BOUND, target: LARGEST_BOUND, one_digit: false,
    }
}

/// What an honest fold is answered: accepted with the target bound minus the squared length of all digits.
fn honest(s: &Sizes, l: &Lists) -> Answer {
    Judged(Accepted((s.target as i128 - squared_length(&l.opening)).try_into().expect("a bound that holds")))
}

/// An honest fold, each message compared, is accepted.
fn accepted(tally: &mut Tally, s: &Sizes, l: &mut Lists) {
    let second = fold(tally, s, l);
    assert_eq!(verify(tally, &Case::formed(s, l, second)), honest(s, l));
}

fn verdict(tally: &mut Tally, s: &Sizes, l: &Lists) -> Answer {
    verify(tally, &Case::new(s, l))
}

/// The challenges of a case through every call that takes them: an honest fold with them is accepted, or each call refuses them by 10.
fn through(tally: &mut Tally, s: &Sizes, l: &mut Lists, taken: bool) {
    let (room, refusal) = (instance_room(s), if taken { Ok(()) } else { Err(10) });
    if taken {
        accepted(tally, s, l);
    }
    let (case, text) = (Case::new(s, l), sheet::write(s, l));
    let answer = if taken { honest(s, l) } else { Refused(10) };
    assert_eq!(amortize(tally, &case, &s.room()).err(), (!taken).then_some(Refused(10)));
    assert_eq!(verify(tally, &case), answer);
    assert_eq!(refusals::next_instance(s, l, room), refusal);
    assert_eq!(next_instance(tally, &case, room).is_some(), taken);
    assert_eq!(judge(tally, &text), answer);
    assert_eq!(sheet::read(&text, None).map(|_| ()), refusal);
    read(tally, &text, l.in_sheet_order().len());
    writes(tally, &mut Random::new(8), s, l);
}

/// At degree 64 the counts of ±1 and ±2 are right or not, in the first challenge or in the last; at degree 32 the squared length is 71 or 72.
fn challenges(tally: &mut Tally) {
    let mut rng = Random::new(3);
    let s = Sizes { n: 1, k: 0, l: 0, w: 0, t1: 2, t2: 2, b1: 65536, b2: 65536, ..base() };
    let mut l = case::random(&mut rng, &s, true);
    let drawn = l.c.clone();
    through(tally, &s, &mut l, true);
    // one more of one and one less of another; squared length 71 by other counts; none at all
    let counts = [
        (30, 10), (32, 10), (31, 9), (31, 11), (32, 9), (30, 11), (35, 9), (27, 11), (19, 13), (3, 17), (0, 0), (31, 10),
    ];
    for (ones, twos) in counts {
        for part in [0, 64] {
            l.c.copy_from_slice(&drawn);
            case::counted(&mut rng, &mut l.c[part..part + 64], twos, ones);
            through(tally, &s, &mut l, (ones, twos) == (31, 10));
        }
    }
    // 3 in place of a 2, of a 1 and of a 0; other signs
    for (size, other, taken) in [(2, 3, false), (2, -3, false), (1, 3, false), (0, -3, false), (2, -2, true), (2, 2, true), (1, -1, true), (1, 1, true)] {
        l.c.copy_from_slice(&drawn);
        let at = l.c.iter().position(|x| x.abs() == size).unwrap();
        l.c[at] = other;
        through(tally, &s, &mut l, taken);
    }
    let s = Sizes { d: 32, r: 1, ..s };
    let mut l = case::random(&mut rng, &s, true);
    for (ones, twos, taken) in [(3, 17, true), (0, 18, false), (7, 16, true), (8, 16, false), (0, 0, true), (32, 0, true), (22, 10, true)] {
        case::counted(&mut rng, &mut l.c, twos, ones);
        through(tally, &s, &mut l, taken);
    }
}

/// r 16 and 17, bounds 999999999999999 and one more, and the ends of the coefficients' range.
fn sizes(tally: &mut Tally) {
    let s = Sizes { d: 2, n: 1, r: 16, ..base() };
    let mut l = case::random(&mut Random::new(4), &s, true);
    accepted(tally, &s, &mut l);
    assert_eq!(verdict(tally, &Sizes { r: 17, ..s }, &l), Refused(2));
    assert_eq!(verdict(tally, &Sizes { bound: LARGEST_BOUND + 1, ..s }, &l), Refused(6));
    assert_eq!(verdict(tally, &Sizes { target: LARGEST_BOUND + 1, ..s }, &l), Refused(6));
    l.a_matrix[0] = MOST;
    assert_ne!(verdict(tally, &s, &l), Refused(8));
    l.a_matrix[0] = MOST + 1;
    assert_eq!(verdict(tally, &s, &l), Refused(8));
}

/// n' 256 and 257: the least sizes that give them.
fn ranks(tally: &mut Tally) {
    for wanted in [256, 257] {
        let all = (1..=16).flat_map(|r| (1..=8).flat_map(move |kappa| (2..=8).flat_map(move |t1| (1..=14).map(move |mu| (r, kappa, t1, mu)))));
        let mut all = all.map(|(r, kappa, t1, mu)| Sizes { d: 2, n: 3, r, kappa, t1, mu, ..base() });
        let s = all.find(|s| next::rank(s) == wanted).expect("sizes with this rank");
        let mut l = case::random(&mut Random::new(5), &s, true);
        accepted(tally, &s, &mut l);
        let room = instance_room(&s);
        assert_eq!(next_instance(tally, &Case::new(&s, &l), room).is_some(), wanted == 256);
        next_instance(tally, &Case::new(&s, &l), room + 1);
        parts(tally, &s, &l.opening);
        odd_parts(tally, &s, &l.opening);
        for (nu, mu) in [(0, 1), (1, 0), (8, 1), (7, 2), (7, 3), (usize::MAX, 1), (1, usize::MAX)] {
            next_instance(tally, &Case::new(&Sizes { nu, mu, ..s }, &l), room);
        }
        l.p[0] = MOST;
        next_instance(tally, &Case::new(&Sizes { bound: 1, ..s }, &l), room);
        next_instance(tally, &Case::new(&s, &l), room);
    }
}

/// The whole case of SPECIFICATION 12.4: its witness, messages and verdict.
fn whole_case(tally: &mut Tally) {
    let s = Sizes {
        d: 2, n: 1, r: 1, k: 1, l: 0, w: 0, kappa: 1, kappa1: 1, kappa2: 1, b: 4, b1: 8, b2: 4, t1: 2, t2: 2, nu: 1, mu: 1, bound: 5,
        target: 13, one_digit: false,
    };
    let less = Sizes { target: 12, ..s };
    let mut l = Lists {
        a_matrix: vec![1, 0],
        b_matrix: vec![1, 0, 0, 0],
        c_matrix: vec![1, 0, 0, 0],
        d_matrix: vec![1, 0, 1, 0],
        whole: vec![1, 0, 0, 0, -3, 4],
        alpha: vec![1, 0],
        c: vec![0, 1],
        witness: vec![1, 2],
        ..Lists::zeros(&s)
    };
    accepted(tally, &s, &mut l);
    assert_eq!(l.u1, vec![2, 2]);
    assert_eq!(l.opening, vec![-2, 1, 0, 0, 1, 2, 0, 0, 1, 0, -1, 1, 0, 0, 0, 0]);
    assert_eq!(verdict(tally, &less, &l), Judged(Failed(9)));
    let after = next::sizes(&s);
    assert_eq!((next::rest(&s), after.n, after.r, after.k), (6, 6, 3, 6));
    assert!(next_instance(tally, &Case::new(&s, &l), instance_room(&s)).is_some());
    assert_eq!(judge(tally, &sheet::write(&s, &l)), Judged(Accepted(0)));
    assert_eq!(judge(tally, &sheet::write(&less, &l)), Judged(Failed(9)));
    let more = Sizes { target: 20, ..s };
    assert_eq!(verdict(tally, &more, &l), Judged(Accepted(7)));
    assert_eq!(judge(tally, &sheet::write(&more, &l)), Judged(Accepted(7)));
}

/// z in one digit: the whole case, of which b is not looked at; ν+μ 16 and 17; n' 256 and 257; z at the end of the range.
fn one_digit(tally: &mut Tally) {
    let s = Sizes {
        d: 2, n: 1, r: 1, k: 1, l: 0, w: 0, kappa: 1, kappa1: 1, kappa2: 1, b: 0, b1: 8, b2: 4, t1: 2, t2: 2, nu: 1, mu: 1, bound: 5, target: 13, one_digit: true,
    };
    let mut l = Lists {
        a_matrix: vec![1, 0], b_matrix: vec![1, 0, 0, 0], c_matrix: vec![1, 0, 0, 0], d_matrix: vec![1, 0, 1, 0], whole: vec![1, 0, 0, 0, -3, 4], alpha: vec![1, 0],
        c: vec![0, 1], witness: vec![1, 2], ..Lists::zeros(&s)
    };
    accepted(tally, &s, &mut l);
    assert_eq!(l.opening, vec![-2, 1, 1, 2, 0, 0, 1, 0, -1, 1, 0, 0, 0, 0]);
    assert_eq!(verdict(tally, &Sizes { target: 12, ..s }, &l), Judged(Failed(9)));
    assert_eq!(verdict(tally, &Sizes { target: 20, ..s }, &l), Judged(Accepted(7)));
    assert_eq!(verdict(tally, &Sizes { one_digit: false, b: 4, ..s }, &l), Refused(7));
    let after = next::sizes(&s);
    assert_eq!((after.n, after.r, after.k), (6, 2, 6));
    for (nu, mu, taken) in [(1, 1, true), (9, 7, true), (15, 1, true), (1, 15, true), (16, 1, false), (9, 8, false), (1, 16, false), (0, 1, false)] {
        let s = Sizes { nu, mu, ..s };
        let room = if nu > 0 { instance_room(&s) } else { 0 };
        assert_eq!(next_instance(tally, &Case::new(&s, &l), room).is_some(), taken, "{nu} {mu}");
        parts(tally, &s, &l.opening);
    }
    odd_parts(tally, &s, &l.opening);
    writes(tally, &mut Random::new(12), &s, &l);
    for x in [MOST, -MOST, 1 << 30] {
        let mut far = l.clone();
        far.opening[1] = x;
        assert!(matches!(verdict(tally, &s, &far), Judged(Failed(5))));
    }
    for wanted in [256, 257] {
        let all = (1..=16).flat_map(|r| (1..=8).flat_map(move |kappa| (2..=8).flat_map(move |t1| (1..=14).map(move |mu| (r, kappa, t1, mu)))));
        let mut all = all.map(|(r, kappa, t1, mu)| Sizes { d: 2, n: 3, r, kappa, t1, mu, one_digit: true, ..base() });
        let s = all.find(|s| next::rank(s) == wanted).expect("sizes with this rank");
        let mut l = case::random(&mut Random::new(5), &s, true);
        accepted(tally, &s, &mut l);
        assert_eq!(next_instance(tally, &Case::new(&s, &l), instance_room(&s)).is_some(), wanted == 256);
    }
}

/// β'² one below the squared length of all digits, at it, one above it and at its largest; each block of the opening counts.
fn margins(tally: &mut Tally) {
    let mut rng = Random::new(9);
    for (d, n, r) in [(2, 1, 1), (2, 3, 3), (16, 2, 2), (64, 1, 2)] {
        // at degree 64 without constraints, that its sheet has at most 65536 bytes
        let k = (d < 64) as usize;
        let s = Sizes { d, n, r, k, l: k, b: 65536, b1: 65536, b2: 65536, t1: 2, t2: 2, ..base() };
        let mut l = case::random(&mut rng, &s, true);
        accepted(tally, &s, &mut l);
        let length = squared_length(&l.opening) as u64;
        for (target, answer) in [
            (length - 1, Failed(9)), (length, Accepted(0)), (length + 1, Accepted(1)), (length + 256, Accepted(256)),
            (LARGEST_BOUND, Accepted(LARGEST_BOUND - length)),
        ] {
            let s = Sizes { target, ..s };
            assert_eq!(verdict(tally, &s, &l), Judged(answer));
            assert_eq!(judge(tally, &sheet::write(&s, &l)), Judged(answer));
        }
        other_digits(tally, &s, &l, length);
    }
}

/// q added to or taken from a value of z, t, g and h, by which it stays modulo q: q is 65536² - 99, and the low digit, to base 65536, stays narrow. The
/// margin moves by the squares of both digits.
fn other_digits(tally: &mut Tally, s: &Sizes, l: &Lists, length: u64) {
    for block in s.blocks() {
        let mut other = l.clone();
        let sign = if l.opening[block.start] >= 0 { 1 } else { -1 };
        other.opening[block.start] -= sign * 99;
        other.opening[block.start + block.width] += sign * 65536;
        commit_anew(s, &mut other);
        assert_ne!(squared_length(&other.opening) as u64, length);
        assert_eq!(verdict(tally, s, &other), honest(s, &other));
    }
}

/// Row 15: each block to odd and even bases, the first low digit of its first value and the last of its last, on both sides of half its base, far out and
/// with both signs; top digits at the end of the range; wide digits of the right values, which the reader, the writer and the next instance take.
fn low_digits(tally: &mut Tally) {
    let mut rng = Random::new(10);
    for (b, b1, b2) in [(3, 255, 65535), (4, 256, 65536), (65535, 65536, 255), (65536, 65535, 256), (2, 16, 17), (5, 17, 16)] {
        let counted = |base: usize| if base > 4096 { 2 } else { 8 };
        let s = Sizes { d: 2, kappa: 2, b, b1, b2, t1: counted(b1), t2: counted(b2), ..base() };
        let mut l = case::random(&mut rng, &s, true);
        let second = fold(tally, &s, &mut l);
        let answer = verify(tally, &Case::formed(&s, &l, second));
        assert!(matches!(answer, Judged(Accepted(_) | Failed(9))), "{answer:?}");
        for block in s.blocks() {
            let (low, top) = (block.places().next().unwrap().0.start, block.places().last().unwrap());
            let half = (block.base / 2) as i32;
            for (size, wide) in [(half, false), (half + 1, true), (block.base as i32, true), (1 << 30, true), (MOST, true)] {
                for (at, is_low) in [(low, true), (top.0.end - 1, true), (top.1.start, false), (top.1.end - 1, false)] {
                    for x in [size, -size] {
                        let mut changed = l.clone();
                        changed.opening[at] = x;
                        through_digits(tally, &s, &changed, wide && is_low);
                        commit_anew(&s, &mut changed);
                        through_digits(tally, &s, &changed, wide && is_low);
                    }
                }
            }
            for at in [low, top.0.end - 1] {
                let mut carried = l.clone();
                let sign = if l.opening[at] >= 0 { 1 } else { -1 };
                carried.opening[at] += sign * block.base as i32;
                carried.opening[at + block.width] -= sign;
                commit_anew(&s, &mut carried);
                assert!(matches!(plain_judgement(&Case::new(&s, &carried)), Judged(Accepted(_) | Failed(9))), "{block:?}");
                through_digits(tally, &s, &carried, true);
                let written = next_instance(tally, &Case::new(&s, &carried), instance_room(&s)).expect("a next instance");
                assert!(next::meets(&next::sizes(&s), &written, &next::witness(&s, &carried.opening)), "{block:?}");
            }
        }
    }
}

/// An opening through every call that takes it: the verifier and the judge refuse it by 15, or neither does; the reader and the writer take it.
fn through_digits(tally: &mut Tally, s: &Sizes, l: &Lists, wide: bool) {
    let text = sheet::write(s, l);
    assert_eq!(verdict(tally, s, l) == Refused(15), wide);
    assert_eq!(judge(tally, &text) == Refused(15), wide);
    assert!(sheet::read(&text, None).is_ok());
    read(tally, &text, l.in_sheet_order().len());
    writes(tally, &mut Random::new(11), s, l);
    // a lower row beside it
    let mut lower = l.clone();
    lower.c[0] = 3;
    assert_eq!(verdict(tally, s, &lower), Refused(10));
    lower.projections[0] = 2;
    assert_eq!(verdict(tally, s, &lower), Refused(9));
    lower.u2[0] = MOST + 1;
    assert_eq!(verdict(tally, s, &lower), Refused(8));
    lower.opening.push(0);
    assert_eq!(verdict(tally, s, &lower), Refused(7));
}

/// Valid sheets of 65536 and of 65537 bytes.
fn long_sheets(tally: &mut Tally) {
    for wanted in [65536, 65537] {
        let all = (1..=9).flat_map(|n| (0..=8).flat_map(move |l| (0..=32).flat_map(move |k| (1..=99).map(move |w| (n, k, l, w)))));
        let mut all = all.map(|(n, k, l, w)| Sizes { d: 4, n, k, l, w, ..base() });
        let s = all.find(|s| sheet::bytes(s) == wanted).expect("sizes with this many bytes");
        let mut l = case::random(&mut Random::new(6), &s, true);
        accepted(tally, &s, &mut l);
        let text = sheet::write(&s, &l);
        assert_eq!(text.len(), wanted);
        assert_eq!(judge(tally, &text), if wanted == 65536 { honest(&s, &l) } else { Refused(12) });
        writes(tally, &mut Random::new(7), &s, &l);
    }
}

pub fn run(tally: &mut Tally) {
    whole_case(tally);
    one_digit(tally);
    margins(tally);
    low_digits(tally);
    challenges(tally);
    sizes(tally);
    ranks(tally);
    long_sheets(tally);
    crate::bare::sides(tally);
}
