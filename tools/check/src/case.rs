//! Random sizes and lists.
use crate::random::Random;
use plain::lists::Sizes;
use plain::{messages, ring};

/// Lists that are owned.
pub type Lists = plain::lists::Lists<Vec<i32>>;

/// The largest coefficient and the largest bound.
pub const MOST: i32 = ring::MOST as i32;
pub const LARGEST_BOUND: u64 = 999999999999999;

/// Numbers of a size that is drawn once for the list: tiny, short, the range's ends, or the whole range.
pub fn fill(rng: &mut Random, xs: &mut [i32]) {
    let kind = rng.below(6);
    for x in xs {
        *x = match kind {
            0 => rng.signed(1),
            1 => rng.signed(100),
            2 => rng.pick(&[-MOST, MOST, 1 - MOST, 0, 1, -1]),
            _ => rng.signed(MOST),
        };
    }
}

/// So many coefficients ±2 and ±1, the rest 0, in random order.
pub fn counted(rng: &mut Random, c: &mut [i32], twos: usize, ones: usize) {
    for (at, x) in c.iter_mut().enumerate() {
        let size = if at < twos { 2 } else if at < twos + ones { 1 } else { 0 };
        *x = rng.pick(&[-size, size]);
    }
    rng.shuffle(c);
}

/// A challenge: at degree 64, 31 coefficients ±1 and 10 coefficients ±2; at a smaller one some of them, of squared length at most 71, and
/// now and then just that.
pub fn challenge(rng: &mut Random, c: &mut [i32]) {
    let d = c.len();
    if d == 64 {
        return counted(rng, c, 10, 31);
    }
    let twos = rng.below(d.min(17) + 1);
    let room = (d - twos).min(71 - 4 * twos);
    let ones = if rng.once_in(4) { room } else { rng.below(room + 1) };
    counted(rng, c, twos, ones);
}

/// A statement with a witness that meets it, and random draws. `short`: a short witness.
pub fn random(rng: &mut Random, s: &Sizes, short: bool) -> Lists {
    let mut l = Lists::zeros(s);
    for list in [
        &mut l.a_matrix, &mut l.b_matrix, &mut l.c_matrix, &mut l.d_matrix, &mut l.whole, &mut l.constant_terms, &mut l.psi, &mut l.omega,
        &mut l.alpha, &mut l.delta, &mut l.witness,
    ] {
        fill(rng, list);
    }
    if short {
        l.witness.fill_with(|| rng.signed(1));
    }
    l.projections.fill_with(|| rng.signed(1));
    for c in l.c.chunks_mut(s.d) {
        challenge(rng, c);
    }
    solve(s, &mut l);
    l
}

/// Sets each constraint's constant to its function's value at the witness.
pub fn solve(s: &Sizes, l: &mut Lists) {
    let parts = messages::parts(s, &l.witness);
    let products = messages::pair_products(s, &parts);
    let value = |f| ring::flat(&[messages::value(s, f, &parts, &products)]);
    let whole = messages::whole(s, &l.whole);
    for (numbers, (f, _)) in l.whole.chunks_mut(s.function() + s.d).zip(&whole) {
        numbers[s.function()..].copy_from_slice(&value(f));
    }
    let constant_terms = messages::constant_terms(s, &l.constant_terms);
    for (numbers, (f, _)) in l.constant_terms.chunks_mut(s.function() + 1).zip(&constant_terms) {
        numbers[s.function()] = value(f)[0];
    }
}

/// ν and μ within their limits: 2ν+μ at most 16, with one z digit ν+μ.
pub fn chunks(rng: &mut Random, one_digit: bool) -> (usize, usize) {
    let (most, digits) = if one_digit { (15, 1) } else { (7, 2) };
    let nu = rng.between(1, most);
    (nu, rng.between(1, 16 - digits * nu))
}

pub fn bound(rng: &mut Random) -> u64 {
    match rng.below(4) {
        0 => rng.next() % 1000,
        1 => rng.next() % 1_000_000_000_000,
        _ => LARGEST_BOUND,
    }
}

/// Small random sizes, mostly tiny.
pub fn small(rng: &mut Random) -> Sizes {
    let tiny = !rng.once_in(40);
    let most = if tiny { 2 } else { 3 };
    let base = |rng: &mut Random| rng.pick(&[2, 3, 4, 5, 7, 8, 16, 255, 256, 4095, 32768, 65535, 65536]);
    let one_digit = rng.once_in(2);
    let (nu, mu) = chunks(rng, one_digit);
    Sizes {
        d: if tiny { rng.pick(&[2, 2, 2, 4]) } else { rng.pick(&[2, 4, 8, 16, 32]) },
        n: rng.between(1, most),
        r: rng.between(1, most),
        k: rng.between(0, 2),
        l: rng.between(0, 2),
        w: rng.between(0, most),
        kappa: rng.between(1, 2),
        kappa1: rng.between(1, 2),
        kappa2: rng.between(1, 2),
        b: base(rng),
        b1: base(rng),
        b2: base(rng),
        t1: rng.between(2, 3),
        t2: rng.between(2, 3),
        nu,
        mu,
        bound: bound(rng),
        target: bound(rng),
        one_digit,
    }
}

/// Random sizes from the whole of their ranges, those whose lists are long left out.
pub fn medium(rng: &mut Random) -> Sizes {
    loop {
        let up = |rng: &mut Random, low: usize, high: usize| {
            let most = if rng.once_in(2) { high } else { low.max(high / 8) };
            rng.between(low, most)
        };
        let one_digit = rng.once_in(2);
        let (nu, mu) = chunks(rng, one_digit);
        let s = Sizes {
            d: 2 << rng.below(6),
            n: up(rng, 1, 256),
            r: up(rng, 1, 16),
            k: up(rng, 0, 32),
            l: up(rng, 0, 32),
            w: up(rng, 0, 256),
            kappa: up(rng, 1, 8),
            kappa1: up(rng, 1, 8),
            kappa2: up(rng, 1, 8),
            b: up(rng, 2, 65536),
            b1: up(rng, 2, 65536),
            b2: up(rng, 2, 65536),
            t1: up(rng, 2, 8),
            t2: up(rng, 2, 8),
            nu,
            mu,
            bound: bound(rng),
            target: bound(rng),
            one_digit,
        };
        let numbers = s.n * s.r * s.d * (s.k + s.l + s.w + 1) + s.pair_count() * s.t1.max(s.t2) * s.kappa1.max(s.kappa2) * s.d;
        if numbers < 100_000 {
            return s;
        }
    }
}
