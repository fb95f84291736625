//! SPECIFICATION 2.

pub const Q: i64 = 4294967197;
pub const MOST: i64 = 2147483598;
const HALF: i64 = 2147483599;

pub type El = Vec<i64>;

/// The centred number congruent to x modulo q.
pub fn centre(x: i64) -> i64 {
    let m = x.rem_euclid(Q);
    if m > MOST { m - Q } else { m }
}

pub fn zero(d: usize) -> El {
    vec![0; d]
}

pub fn constant(d: usize, c: i64) -> El {
    let mut x = zero(d);
    x[0] = centre(c);
    x
}

pub fn add(x: &El, y: &El) -> El {
    x.iter().zip(y).map(|(a, b)| centre(a + b)).collect()
}

/// `c` is at most q in absolute value.
pub fn scale(c: i64, x: &El) -> El {
    x.iter().map(|v| centre(c * v)).collect()
}

pub fn half(x: &El) -> El {
    scale(HALF, x)
}

/// Σ x·y over pairs of elements; X^d = -1.
pub fn sum_products<'a>(d: usize, pairs: impl Iterator<Item = (&'a El, &'a El)>) -> El {
    let mut sum = zero(d);
    for (x, y) in pairs {
        for i in 0..d {
            for j in 0..d {
                let v = x[i] * y[j];
                if i + j < d {
                    sum[i + j] = (sum[i + j] + v) % Q;
                } else {
                    sum[i + j - d] = (sum[i + j - d] - v) % Q;
                }
            }
        }
    }
    sum.into_iter().map(centre).collect()
}

pub fn mul(x: &El, y: &El) -> El {
    sum_products(x.len(), std::iter::once((x, y)))
}

/// <x,y>
pub fn inner(d: usize, x: &[El], y: &[El]) -> El {
    assert_eq!(x.len(), y.len());
    sum_products(d, x.iter().zip(y))
}

/// A matrix by rows times a vector.
pub fn times(d: usize, matrix: &[El], vector: &[El]) -> Vec<El> {
    matrix.chunks(vector.len()).map(|row| inner(d, row, vector)).collect()
}

/// σ sends X to its inverse: X^i to X^-i = -X^(d-i).
pub fn sigma(x: &[i32]) -> El {
    let d = x.len();
    (0..d).map(|i| if i == 0 { x[0] as i64 } else { -(x[d - i] as i64) }).collect()
}

/// "each low digit is at least -B/2 and at most B/2 (integers, for odd B as well), congruent to the value modulo B"; "When a value lies
/// exactly half a base from two multiples, the low digit is the one of +B/2 and -B/2 that leaves an even quotient."
fn low_digit(base: i64, x: i64) -> i64 {
    let low = x.rem_euclid(base);
    let odd_quotient = (x - low) / base % 2 != 0;
    if 2 * low > base || 2 * low == base && odd_quotient { low - base } else { low }
}

/// "subtract it, divide by B, repeat. The last digit is what is left." The digits of an element, lowest first.
pub fn digits(base: usize, count: usize, x: &El) -> Vec<El> {
    let base = base as i64;
    let mut rest = x.clone();
    let mut all = vec![];
    for _ in 1..count {
        let mut low = zero(x.len());
        for (low, rest) in low.iter_mut().zip(&mut rest) {
            *low = low_digit(base, *rest);
            *rest = (*rest - *low) / base;
        }
        all.push(low);
    }
    all.push(rest);
    all
}

/// B^e modulo q.
pub fn power(base: usize, e: usize) -> i64 {
    (0..e).fold(1, |p, _| centre(p * base as i64))
}

/// "Recomposition is modulo q."
pub fn recompose<'a>(d: usize, base: usize, digits: impl Iterator<Item = &'a El>) -> El {
    digits.enumerate().fold(zero(d), |sum, (e, digit)| add(&sum, &scale(power(base, e), digit)))
}

/// "the whole-number sum of squared centred coefficients"
pub fn squared_length(xs: &[i32]) -> i128 {
    xs.iter().map(|v| (*v as i128) * (*v as i128)).sum()
}

pub fn elements(d: usize, xs: &[i32]) -> Vec<El> {
    xs.chunks(d).map(|e| e.iter().map(|v| *v as i64).collect()).collect()
}

pub fn flat(xs: &[El]) -> Vec<i32> {
    xs.iter().flatten().map(|v| i32::try_from(*v).unwrap()).collect()
}
