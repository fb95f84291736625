//! The bare level and chains that end with it, held to the second implementation.
use crate::answer::Answer::{self, Judged, Refused};
use crate::calls::*;
use crate::case::{self, Lists, LARGEST_BOUND, MOST};
use crate::next_calls::*;
use crate::random::Random;
use crate::small::{damage_list, odd_size};
use lizkarg::Verdict::{Accepted, Failed};
use lizkarg::{BareMessages, BareProof, BareProver, BareStatement};
use plain::bare::{self, BareSizes};
use plain::lists::Sizes;
use plain::messages::{self, Function};
use plain::ring::squared_length;
use plain::verdict::Verdict;
use plain::next;
use std::time::Instant;

fn sizes_of(s: &BareSizes) -> lizkarg::BareSizes {
    let BareSizes { d, n, r, k, l, w, kappa, bound, z_bound } = *s;
    lizkarg::BareSizes { d, n, r, k, l, w, kappa, bound, z_bound }
}

fn statement<'a>(s: &BareSizes, l: &'a Lists) -> BareStatement<'a> {
    BareStatement { sizes: sizes_of(s), a_matrix: &l.a_matrix, whole: &l.whole, constant_terms: &l.constant_terms }
}

fn proof<'a>(s: &BareSizes, l: &'a Lists) -> BareProof<'a> {
    BareProof { statement: statement(s, l), draws: draws(l), messages: BareMessages { p: &l.p, second_b: &l.second_b, opening: &l.opening } }
}

/// The second functions, where the lists have the lengths of the sizes.
fn second(s: &BareSizes, l: &Lists) -> Vec<Function> {
    messages::second(&s.fold(), l)
}

// The calls

fn commit(tally: &mut Tally, s: &BareSizes, l: &Lists, room: usize) -> Result<[Vec<i32>; 1], Answer> {
    let run = |[t]: [&mut [i32]; 1]| statement(s, l).commit(&l.witness, t);
    written(tally, "bare_commit", bare::commit_refusal(s, l, room), [room], run, || Ok([bare::commit(s, l)]))
}

fn phi(tally: &mut Tally, s: &BareSizes, l: &Lists, room: usize) -> Result<[Vec<i32>; 1], Answer> {
    let run = |[phi]: [&mut [i32]; 1]| statement(s, l).phi(&draws(l), phi);
    written(tally, "bare_phi", bare::phi_refusal(s, l, room), [room], run, || Ok([bare::phi(s, l, &second(s, l))]))
}

fn turn(tally: &mut Tally, s: &BareSizes, l: &Lists, turn: usize, phi: &[i32], c: &[i32], room: usize) -> Result<[Vec<i32>; 1], Answer> {
    let run = |[garbage]: [&mut [i32]; 1]| statement(s, l).turn(turn, phi, c, &l.witness, garbage);
    let refusal = bare::turn_refusal(s, turn, phi, c, &l.witness, room);
    written(tally, "bare_turn", refusal, [room], run, || Ok([bare::turn(s, turn, phi, c, &l.witness)]))
}

fn verify(tally: &mut Tally, s: &BareSizes, l: &Lists) -> Answer {
    let answer = proof(s, l).verify().into();
    tally.count("bare_verify", answer);
    let should = match bare::verify_refusal(s, l) {
        Err(number) => Refused(number),
        Ok(()) => match bare::verdict(s, l, &second(s, l)) {
            Verdict::Accepted(margin) => Judged(Accepted(margin)),
            Verdict::Failed(check) => Judged(Failed(check)),
        },
    };
    assert_eq!(answer, should, "bare_verify: {s:?}");
    answer
}

// Honest levels

/// A statement without mixed products that a witness meets, and random draws.
fn random(rng: &mut Random, s: &BareSizes, short: bool) -> Lists {
    let fold = s.fold();
    let mut l = Lists { b_matrix: vec![], c_matrix: vec![], d_matrix: vec![], u1: vec![], u2: vec![], opening: vec![], ..case::random(rng, &fold, short) };
    let (whole, constant_terms) = (fold.function() + s.d, fold.function() + 1);
    for constraint in l.whole.chunks_mut(whole).chain(l.constant_terms.chunks_mut(constant_terms)) {
        for (a, (i, j)) in constraint.chunks_mut(s.d).zip(fold.pairs()) {
            if i < j {
                a.fill(0);
            }
        }
    }
    case::solve(&fold, &mut l);
    l
}

/// Every message, put into the lists; φ.
fn fold(tally: &mut Tally, s: &BareSizes, l: &mut Lists) -> Vec<i32> {
    let length = s.lengths();
    let [t] = commit(tally, s, l, s.t()).unwrap();
    let [phi] = phi(tally, s, l, length.witness).unwrap();
    let turns = (1..=s.r).flat_map(|i| {
        let [garbage] = turn(tally, s, l, i, &phi, &l.c[..(i - 1) * s.d], s.turn()).unwrap();
        garbage
    });
    let turns: Vec<i32> = turns.collect();
    let [z] = messages::message5(&s.fold(), l);
    let [p] = messages::message2(&s.fold(), l);
    let [second_b] = messages::message3(&s.fold(), l, &second(s, l));
    (l.p, l.second_b, l.opening) = (p, second_b, [t, z, turns].concat());
    // the binding's prover, whose lists are its own, makes p, b'' and z by the library
    let mut prover = BareProver::new(statement(s, l), &l.witness);
    assert!(prover.prove(draws(l)) == Ok(proof(s, l)), "BareProver: messages differ");
    phi
}

/// "failed 1 exactly when 2·|p|² is above w·β²; otherwise failed 7 exactly when |z|² is above the bound on z; otherwise accepted, with that bound minus |z|²"
fn honest(s: &BareSizes, l: &Lists) -> Answer {
    let margin = s.z_bound as i128 - bare::z_squared_length(s, &l.opening);
    if 2 * squared_length(&l.p) > s.bound as i128 * s.w as i128 {
        Judged(Failed(1))
    } else if margin < 0 {
        Judged(Failed(7))
    } else {
        Judged(Accepted(margin as u64))
    }
}

/// The bound on z one below |z|², at it and one above it.
fn around(tally: &mut Tally, s: &BareSizes, l: &Lists) {
    let length = bare::z_squared_length(s, &l.opening);
    for z_bound in [length - 1, length, length + 1] {
        if let Some(z_bound) = u64::try_from(z_bound).ok().filter(|bound| *bound <= LARGEST_BOUND) {
            let s = BareSizes { z_bound, ..*s };
            assert_eq!(verify(tally, &s, l), honest(&s, l), "bare level");
        }
    }
}

fn lengths(s: &BareSizes) {
    let (found, should) = (sizes_of(s).lengths(), s.lengths());
    let lists = [found.a_matrix, found.whole, found.constant_terms, found.projections, found.p, found.psi, found.omega, found.second_b, found.alpha];
    let plain = [should.a_matrix, should.whole, should.constant_terms, should.projections, should.p, should.psi, should.omega, should.second_b, should.alpha];
    assert_eq!(lists, plain, "lengths: {s:?}");
    let lists = [found.delta, found.c, found.opening, found.witness, found.t, found.phi, found.z, found.garbage];
    assert_eq!(lists, [should.delta, should.c, should.opening, should.witness, s.t(), should.witness, s.z(), s.turn()], "lengths: {s:?}");
}

// Damaged levels

fn damage_size(rng: &mut Random, s: &mut BareSizes) {
    let value = odd_size(rng);
    let sizes = [&mut s.d, &mut s.n, &mut s.r, &mut s.k, &mut s.l, &mut s.w, &mut s.kappa];
    match rng.below(9) {
        7 => s.bound = value,
        8 => s.z_bound = value,
        at => *sizes.into_iter().nth(at).unwrap() = value as usize,
    }
}

/// A nonzero number in an a_ij, mostly with i < j, of a constraint of either kind.
fn damage_product(rng: &mut Random, s: &BareSizes, l: &mut Lists) {
    let fold = s.fold();
    let (list, length) = if rng.once_in(2) { (&mut l.whole, fold.function() + s.d) } else { (&mut l.constant_terms, fold.function() + 1) };
    if list.is_empty() {
        return;
    }
    let at = rng.below(list.len() / length) * length + rng.below(fold.pair_count() * s.d);
    list[at] = rng.pick(&[1, -1, MOST, -MOST]);
    if rng.once_in(3) {
        l.alpha.fill(0);
        l.delta.fill(0);
    }
}

/// Every call on a level of which a size, a list, a length, a product or a number of the opening is damaged.
fn damaged(tally: &mut Tally, rng: &mut Random, s: &BareSizes, l: &Lists, honest_phi: &[i32]) {
    let (mut s, mut l, mut phi_list) = (*s, l.clone(), honest_phi.to_vec());
    let room = [s.t(), s.lengths().witness, s.turn()];
    let whole = s;
    match rng.below(8) {
        0 => damage_size(rng, &mut s),
        1 | 2 => damage_product(rng, &s, &mut l),
        3 => {
            damage_product(rng, &s, &mut l);
            damage_list(rng, &mut l);
        }
        4 | 5 => {
            let at = rng.below(l.opening.len());
            l.opening[at] = rng.pick(&[0, 1, MOST, -MOST, MOST + 1]);
        }
        _ => damage_list(rng, &mut l),
    }
    lengths(&s);
    if rng.once_in(8) {
        let at = rng.below(phi_list.len());
        phi_list[at] = rng.pick(&[MOST, MOST + 1, i32::MIN]);
    }
    let room = room.map(|length| if rng.once_in(8) { length + 1 } else { length });
    let _ = commit(tally, &s, &l, room[0]);
    let _ = phi(tally, &s, &l, room[1]);
    let number = if rng.once_in(4) { rng.pick(&[0, whole.r + 1, 17, usize::MAX, 1 << 32]) } else { rng.between(1, whole.r) };
    let before = if rng.once_in(4) { rng.below(whole.r + 1) } else { number.wrapping_sub(1).min(whole.r) };
    let c = &l.c[..(before * whole.d).min(l.c.len())];
    let _ = turn(tally, &s, &l, number, &phi_list, c, room[2]);
    verify(tally, &s, &l);
}

/// A random level near these sizes: honest, around its bound on z, then three times damaged.
pub fn levels(tally: &mut Tally, rng: &mut Random, near: &Sizes) {
    let s = BareSizes { d: near.d, n: near.n, r: near.r, k: near.k, l: near.l, w: near.w, kappa: near.kappa, bound: near.bound, z_bound: case::bound(rng) };
    lengths(&s);
    let short = rng.once_in(2);
    let mut l = random(rng, &s, short);
    let phi = fold(tally, &s, &mut l);
    assert_eq!(verify(tally, &s, &l), honest(&s, &l), "bare level");
    around(tally, &s, &l);
    for _ in 0..3 {
        damaged(tally, rng, &s, &l, &phi);
    }
}

// Chains

/// Rows of which p is short enough under the tight bound; about every second draw is.
fn rows(rng: &mut Random, w: usize, witness: &[i32]) -> Vec<i32> {
    loop {
        let rows: Vec<i32> = (0..w * witness.len()).map(|_| rng.pick(&[-1, 0, 0, 1])).collect();
        let product = |row: &[i32]| row.iter().zip(witness).map(|(x, y)| *x as i128 * *y as i128).sum::<i128>();
        let p: i128 = rows.chunks(witness.len()).map(|row| product(row) * product(row)).sum();
        if 2 * p <= w as i128 * squared_length(witness) {
            return rows;
        }
    }
}

/// The cuts of a fold with full chunks, ν·n' = n, of the fewest elements.
fn full_cut(rng: &mut Random, s: &Sizes) -> Option<(usize, usize)> {
    let all = (1..=15).flat_map(|nu| (1..=15).map(move |mu| (nu, mu)));
    let mut full: Vec<_> = all.filter(|(nu, mu)| sizes(s).has_full_chunks(lizkarg::Cut { nu: *nu, mu: *mu })).collect();
    full.sort_by_key(|(nu, mu)| (s.z_digits() * nu + mu) * next::rank(&Sizes { nu: *nu, mu: *mu, ..*s }));
    full.truncate(3);
    if full.is_empty() { None } else { Some(rng.pick(&full)) }
}

/// One fold of a chain under tight bounds: accepted with the margin 0, failed 9 by one; the next statement and witness.
fn link(tally: &mut Tally, rng: &mut Random, s: &mut Sizes, l: &mut Lists) -> (Vec<i32>, Vec<i32>) {
    s.bound = squared_length(&l.witness) as u64;
    l.projections = rows(rng, s.w, &l.witness);
    let second = crate::calls::fold(tally, s, l);
    s.target = squared_length(&l.opening) as u64 - 1;
    assert_eq!(crate::calls::verify(tally, &Case::new(s, l)), Judged(Failed(9)), "chain");
    s.target += 1;
    let case = Case::formed(s, l, second);
    assert_eq!(crate::calls::verify(tally, &case), Judged(Accepted(0)), "chain");
    let whole = next_instance(tally, &case, instance_room(s)).expect("a next instance");
    (whole, next::witness(s, &l.opening))
}

/// Two folds with two z digits or one such fold or none, then one with one z digit, then the bare level: full chunks, tight bounds.
pub fn chain(tally: &mut Tally, rng: &mut Random) {
    let d = rng.pick(&[2, 2, 4, 8]);
    let folds = rng.between(1, 3);
    let n = rng.pick(&[24, 48, 60]);
    let mut s = Sizes {
        d, n, r: rng.between(1, 2), k: rng.between(0, 1), l: rng.between(0, 1), w: rng.between(1, 3), kappa: 1, kappa1: rng.between(1, 2), kappa2: 1, b: 512, b1: 1626, b2: 1626,
        t1: 3, t2: 3, nu: 1, mu: 1, bound: 0, target: 0, one_digit: folds == 1,
    };
    let Some((nu, mu)) = full_cut(rng, &s) else { return };
    (s.nu, s.mu) = (nu, mu);
    let mut l = case::random(rng, &s, true);
    for level in 1..=folds {
        let (whole, witness) = link(tally, rng, &mut s, &mut l);
        let after = next::sizes(&s);
        if level == folds {
            return bare_end(tally, rng, &s, whole, witness);
        }
        s = Sizes { n: after.n, r: after.r, k: after.k, l: 0, one_digit: level + 1 == folds, ..s };
        let Some((nu, mu)) = full_cut(rng, &s) else { return };
        (s.nu, s.mu) = (nu, mu);
        l = case::random(rng, &Sizes { k: 0, ..s }, true);
        (l.whole, l.witness) = (whole, witness);
        l.alpha = (0..s.k * s.d).map(|_| rng.signed(MOST)).collect();
    }
}

/// The bare level of the next instance of a fold with one z digit: margin 0, and failed 7 by one.
pub fn bare_end(tally: &mut Tally, rng: &mut Random, f: &Sizes, whole: Vec<i32>, witness: Vec<i32>) {
    let after = next::sizes(f);
    let mut s = BareSizes { d: f.d, n: after.n, r: after.r, k: after.k, l: 0, w: f.w, kappa: rng.between(1, 2), bound: f.target, z_bound: 0 };
    let mut l = random(rng, &BareSizes { k: 0, ..s }, true);
    l.alpha = (0..s.k * s.d).map(|_| rng.signed(MOST)).collect();
    l.projections = rows(rng, s.w, &witness);
    (l.whole, l.witness) = (whole, witness);
    let phi = fold(tally, &s, &mut l);
    let length = bare::z_squared_length(&s, &l.opening);
    assert!(length <= LARGEST_BOUND as i128, "chain: z is long");
    s.z_bound = length as u64;
    assert_eq!(verify(tally, &s, &l), Judged(Accepted(0)), "chain");
    around(tally, &s, &l);
    damaged(tally, rng, &s, &l, &phi);
}

/// Levels at product size and at every limit at once: honest, around the bound on z, damaged.
pub fn large(tally: &mut Tally, seed: u64) {
    for (k, w, kappa) in [(4, 256, 8), (32, 16, 1)] {
        let s = BareSizes { d: 64, n: 256, r: 16, k, l: k, w, kappa, bound: LARGEST_BOUND, z_bound: LARGEST_BOUND };
        let (mut rng, from) = (Random::new(seed ^ k as u64), Instant::now());
        let mut l = random(&mut rng, &s, true);
        let phi = fold(tally, &s, &mut l);
        assert_eq!(verify(tally, &s, &l), honest(&s, &l), "bare level");
        around(tally, &s, &l);
        damaged(tally, &mut rng, &s, &l, &phi);
        println!("bare level: d 64 n 256 r 16 K {k} L {k} w {w}: {:.1} s", from.elapsed().as_secs_f64());
    }
}

/// A level by hand; every limit at once with zeros; challenges before a turn at degrees 64 and 32.
pub fn sides(tally: &mut Tally) {
    let s = BareSizes { d: 2, n: 1, r: 2, k: 1, l: 0, w: 0, kappa: 1, bound: 0, z_bound: 5 };
    let mut l = random(&mut Random::new(1), &s, true);
    (l.a_matrix, l.witness, l.c, l.alpha, l.delta) = (vec![1, 1], vec![1, 2, 3, 0], vec![0, 1, 1, -1], vec![1, 0], vec![0; 10]);
    l.whole = vec![2, 0, 0, 0, 0, 0, 1, 0, 0, 1, -5, 13];
    fold(tally, &s, &mut l);
    assert_eq!(l.opening, [-1, 3, 3, 3, 1, -2, 0, 0, 1, 2, 0, 0, -3, 4, -1, 1, 0, 3, -12, 6, 9, 0]);
    assert_eq!(verify(tally, &s, &l), Judged(Accepted(0)));
    around(tally, &s, &l);
    let largest = BareSizes { d: 4, n: 256, r: 16, k: 32, l: 32, w: 256, kappa: 8, bound: LARGEST_BOUND, z_bound: LARGEST_BOUND };
    let zeros = Lists::from_array(largest.lengths().each().map(|length| vec![0; *length]));
    assert_eq!(verify(tally, &largest, &zeros), Judged(Accepted(LARGEST_BOUND)));
    for past in [
        BareSizes { n: 257, ..largest }, BareSizes { r: 17, ..largest }, BareSizes { k: 33, ..largest }, BareSizes { l: 33, ..largest }, BareSizes { w: 257, ..largest },
        BareSizes { kappa: 9, ..largest }, BareSizes { bound: LARGEST_BOUND + 1, ..largest }, BareSizes { z_bound: LARGEST_BOUND + 1, ..largest },
    ] {
        assert!(matches!(verify(tally, &past, &zeros), Refused(2 | 3 | 6)));
    }
    for (d, twos, ones, taken) in [(64, 10, 31, true), (64, 9, 35, false), (64, 10, 30, false), (64, 0, 0, false), (32, 17, 3, true), (32, 18, 0, false)] {
        let s = BareSizes { d, n: 1, r: 2, k: 0, l: 0, w: 0, kappa: 1, bound: 0, z_bound: LARGEST_BOUND };
        let mut rng = Random::new(13);
        let mut l = random(&mut rng, &s, true);
        let phi_list = vec![1; 2 * d];
        case::counted(&mut rng, &mut l.c[..d], twos, ones);
        let c = l.c[..d].to_vec();
        assert_eq!(turn(tally, &s, &l, 2, &phi_list, &c, 4 * d).is_ok(), taken, "{d} {twos} {ones}");
        l.opening = vec![0; s.lengths().opening];
        (l.p, l.second_b) = (vec![], vec![0; 5 * d]);
        assert_eq!(verify(tally, &s, &l) == Refused(10), !taken);
    }
}
