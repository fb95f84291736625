//! A chain through the library: two folds with two z digits, one with one, then the bare level. All bounds are tight, and z is cut into full chunks.
use lizkarg::{BareProver, BareSizes, BareStatement, BareVerdict, Cut, Draws, Next, Prover, Refused, Sizes, Statement, Verdict, ZDigits};

/// A small generator (splitmix64).
struct Random(u64);

impl Random {
    fn next(&mut self) -> u64 {
        self.0 = self.0.wrapping_add(0x9e3779b97f4a7c15);
        let mut z = self.0;
        z = (z ^ (z >> 30)).wrapping_mul(0xbf58476d1ce4e5b9);
        z = (z ^ (z >> 27)).wrapping_mul(0x94d049bb133111eb);
        z ^ (z >> 31)
    }

    /// Numbers from -most to most.
    fn list(&mut self, length: usize, most: i64) -> Vec<i32> {
        (0..length).map(|_| ((self.next() % (2 * most as u64 + 1)) as i64 - most) as i32).collect()
    }

    /// Coefficients from the whole range.
    fn any(&mut self, length: usize) -> Vec<i32> {
        self.list(length, 2147483598)
    }

    /// At degree 64 the counts of the rule, shuffled; at a smaller one coefficients from -1 to 1.
    fn challenges(&mut self, d: usize, r: usize) -> Vec<i32> {
        let mut all = self.list(r * d, 1);
        for c in all.chunks_mut(64).filter(|_| d == 64) {
            for (at, x) in c.iter_mut().enumerate() {
                *x = if at < 23 { 0 } else { [1, 2][(at >= 54) as usize] * if self.next() % 2 == 0 { 1 } else { -1 } };
            }
            for last in (1..64).rev() {
                c.swap(last, (self.next() % (last as u64 + 1)) as usize);
            }
        }
        all
    }

    /// Projection rows, drawn until 2·|p|² ≤ w·|s|², which is check 1 under the tight bound; about every second draw is so.
    fn rows(&mut self, w: usize, witness: &[i32]) -> Vec<i32> {
        loop {
            let rows: Vec<i32> = (0..w * witness.len()).map(|_| [-1, 0, 0, 1][(self.next() % 4) as usize]).collect();
            let product = |row: &[i32]| row.iter().zip(witness).map(|(x, y)| *x as i128 * *y as i128).sum::<i128>();
            let p: i128 = rows.chunks(witness.len()).map(|row| product(row) * product(row)).sum();
            if 2 * p <= w as i128 * squared_length(witness) as i128 {
                return rows;
            }
        }
    }
}

fn squared_length(numbers: &[i32]) -> u64 {
    numbers.iter().map(|x| (*x as i64 * *x as i64) as u64).sum()
}

/// One fold: accepted with the margin 0, and failed 9 by one; the next instance and its witness.
fn fold(rng: &mut Random, sizes: Sizes, cut: Cut, whole: &[i32], witness: &[i32]) -> (Sizes, Vec<i32>, Vec<i32>) {
    assert!(sizes.has_full_chunks(cut));
    let l = sizes.lengths();
    let [a_matrix, b_matrix, c_matrix, d_matrix, psi, omega, alpha, delta] =
        [l.a_matrix, l.b_matrix, l.c_matrix, l.d_matrix, l.psi, l.omega, l.alpha, l.delta].map(|length| rng.any(length));
    let (projections, c) = (rng.rows(sizes.w, witness), rng.challenges(sizes.d, sizes.r));
    let sizes = Sizes { bound: squared_length(witness), target: 0, ..sizes };
    let of = |sizes| Statement {
        sizes,
        a_matrix: &a_matrix,
        b_matrix: &b_matrix,
        c_matrix: &c_matrix,
        d_matrix: &d_matrix,
        whole,
        constant_terms: &[],
    };
    let draws = Draws { projections: &projections, psi: &psi, omega: &omega, alpha: &alpha, delta: &delta, c: &c };
    let mut prover = Prover::new(of(sizes), witness);
    let mut proof = prover.prove(draws).unwrap();
    let target = squared_length(proof.messages.opening);
    assert_eq!(
        {
            proof.statement = of(Sizes { target: target - 1, ..sizes });
            proof.verify()
        },
        Ok(Verdict::Failed(9))
    );
    assert_eq!(
        {
            proof.statement = of(Sizes { target, ..sizes });
            proof.verify()
        },
        Ok(Verdict::Accepted(0))
    );
    let Ok(Next::Written(next)) = proof.next_instance(cut) else { panic!("no next instance") };
    (proof.statement.sizes, next, proof.next_witness(cut).unwrap())
}

/// The sizes of a fold of the next instance.
fn following(sizes: &Sizes, cut: Cut, free: Sizes) -> Sizes {
    let next = sizes.next(cut);
    Sizes { n: next.n, r: next.r, k: next.k, l: 0, ..free }
}

fn chain(d: usize) {
    let mut rng = Random(d as u64);
    let first = Sizes {
        d,
        n: 24,
        r: 1,
        k: 1,
        l: 0,
        w: 2,
        kappa: 1,
        kappa1: 1,
        kappa2: 1,
        z: ZDigits::Two(16),
        b1: 65536,
        b2: 256,
        t1: 2,
        t2: 2,
        bound: 0,
        target: 0,
    };
    let witness = rng.list(first.lengths().witness, 2);
    // <s_1,s_1> and <φ_1,s_1> with φ_1 = (1, 0, ..): their sum is b
    let (mut whole, mut b) = (vec![0; first.lengths().whole], vec![0i64; d]);
    (whole[0], whole[d]) = (1, 1);
    for s in witness.chunks(d) {
        for (i, x) in s.iter().enumerate() {
            for (j, y) in s.iter().enumerate() {
                b[(i + j) % d] += *x as i64 * *y as i64 * if i + j < d { 1 } else { -1 };
            }
        }
    }
    for (b, x) in b.iter_mut().zip(&witness) {
        *b += *x as i64;
    }
    let at = whole.len() - d;
    for (number, b) in whole[at..].iter_mut().zip(&b) {
        *number = *b as i32;
    }

    let one = Cut { nu: 1, mu: 1 };
    let (sizes, whole, witness) = fold(&mut rng, first, one, &whole, &witness);
    let second = following(&sizes, one, Sizes { z: ZDigits::Two(512), b1: 1626, b2: 1626, t1: 3, t2: 3, ..first });
    let cut = Cut { nu: 1, mu: 2 };
    let (sizes, whole, witness) = fold(&mut rng, second, cut, &whole, &witness);
    let third = following(&sizes, cut, Sizes { z: ZDigits::One, b1: 65536, b2: 65536, ..first });
    let last = Cut { nu: 2, mu: 4 };
    // the instance of two z digits has mixed products
    let bare = BareSizes::of_next(&sizes, cut, 0, 1, 0);
    let (zeros, l) = (vec![0; bare.lengths().whole], bare.lengths());
    let statement = BareStatement { sizes: bare, a_matrix: &zeros[..l.a_matrix], whole: &whole, constant_terms: &[] };
    let draws = Draws { alpha: &zeros[..l.alpha], delta: &zeros[..l.delta], ..Draws::default() };
    assert_eq!(statement.phi(&draws, &mut vec![0; l.phi]), Err(Refused(14)));

    let (sizes, whole, witness) = fold(&mut rng, third, last, &whole, &witness);
    bare_level(&mut rng, BareSizes::of_next(&sizes, last, 2, 1, 0), &whole, &witness);
}

/// The bare level: accepted with the margin 0, and failed 7 by one.
fn bare_level(rng: &mut Random, sizes: BareSizes, whole: &[i32], witness: &[i32]) {
    assert_eq!(sizes.bound, squared_length(witness));
    let l = sizes.lengths();
    let [a_matrix, omega, alpha, delta] = [l.a_matrix, l.omega, l.alpha, l.delta].map(|length| rng.any(length));
    let (projections, c) = (rng.rows(sizes.w, witness), rng.challenges(sizes.d, sizes.r));
    let of = |sizes| BareStatement { sizes, a_matrix: &a_matrix, whole, constant_terms: &[] };
    let draws = Draws { projections: &projections, psi: &[], omega: &omega, alpha: &alpha, delta: &delta, c: &c };
    let mut prover = BareProver::new(of(sizes), witness);
    let mut proof = prover.prove(draws).unwrap();
    let z_bound = squared_length(&proof.messages.opening[l.t..l.t + l.z]);
    for (z_bound, verdict) in
        [(z_bound - 1, BareVerdict::Failed(7)), (z_bound, BareVerdict::Accepted(0)), (z_bound + 9, BareVerdict::Accepted(9))]
    {
        proof.statement = of(BareSizes { z_bound, ..sizes });
        assert_eq!(proof.verify(), Ok(verdict), "degree {}", sizes.d);
    }
}

#[test]
fn chains() {
    for d in [2, 8, 64] {
        chain(d);
    }
}
