//! SPECIFICATION 3 and 4. Each message is a function of the sizes and the lists that gives the lists it writes.
use crate::lists::{Lists, Numbers, Sizes};
use crate::ring::*;

/// "a_ij for i ≤ j (each pair counted once), vectors φ_i"
pub struct Function {
    pub a: Vec<El>,
    pub phi: Vec<Vec<El>>,
}

fn function(s: &Sizes, numbers: &[i32]) -> Function {
    let (a, phi) = numbers.split_at(s.pair_count() * s.d);
    Function { a: elements(s.d, a), phi: parts(s, phi) }
}

/// "each whole constraint as a (by i, then j), φ (by part), b": functions, each with its b.
pub fn whole(s: &Sizes, numbers: &[i32]) -> Vec<(Function, El)> {
    let each = numbers.chunks(s.function() + s.d).map(|all| all.split_at(s.function()));
    each.map(|(f, b)| (function(s, f), elements(s.d, b).remove(0))).collect()
}

/// "L others vanish in the constant term only, and their b is a number."
pub fn constant_terms(s: &Sizes, numbers: &[i32]) -> Vec<(Function, i64)> {
    let each = numbers.chunks(s.function() + 1).map(|all| all.split_at(s.function()));
    each.map(|(f, b)| (function(s, f), b[0] as i64)).collect()
}

/// "Parts s_1..s_r, each n ring elements."
pub fn parts(s: &Sizes, numbers: &[i32]) -> Vec<Vec<El>> {
    numbers.chunks(s.n * s.d).map(|part| elements(s.d, part)).collect()
}

/// <s_i,s_j> for i ≤ j.
pub fn pair_products(s: &Sizes, parts: &[Vec<El>]) -> Vec<El> {
    s.pairs().into_iter().map(|(i, j)| inner(s.d, &parts[i], &parts[j])).collect()
}

/// Σ a_ij <s_i,s_j> + Σ <φ_i,s_i>, without the constant.
pub fn value(s: &Sizes, f: &Function, parts: &[Vec<El>], products: &[El]) -> El {
    let linear = f.phi.iter().flatten().zip(parts.iter().flatten());
    sum_products(s.d, f.a.iter().zip(products).chain(linear))
}

/// u1 = B·(t digits) + C·(g digits).
pub fn first_outer(s: &Sizes, l: &Lists<impl Numbers>, t: &[El], g: &[El]) -> Vec<El> {
    let (of_t, of_g) = (times(s.d, &elements(s.d, &l.b_matrix), t), times(s.d, &elements(s.d, &l.c_matrix), g));
    of_t.iter().zip(&of_g).map(|(x, y)| add(x, y)).collect()
}

/// u2 = D·(h digits).
pub fn second_outer(s: &Sizes, l: &Lists<impl Numbers>, h: &[El]) -> Vec<El> {
    times(s.d, &elements(s.d, &l.d_matrix), h)
}

/// Message 1: t digits ("by part, then digit, then row"), g digits ("by i, then j, then digit"), u1.
pub fn message1(s: &Sizes, l: &Lists<impl Numbers>) -> [Vec<i32>; 3] {
    let a_matrix = elements(s.d, &l.a_matrix);
    let parts = parts(s, &l.witness);
    let mut t = vec![];
    for part in &parts {
        let rows: Vec<Vec<El>> = times(s.d, &a_matrix, part).iter().map(|x| digits(s.b1, s.t1, x)).collect();
        for e in 0..s.t1 {
            t.extend(rows.iter().map(|row| row[e].clone()));
        }
    }
    let g: Vec<El> = pair_products(s, &parts).iter().flat_map(|x| digits(s.b2, s.t2, x)).collect();
    [flat(&t), flat(&g), flat(&first_outer(s, l, &t, &g))]
}

/// Message 2: p, "the centred dot product of row j with all coefficients of all parts".
pub fn message2(s: &Sizes, l: &Lists<impl Numbers>) -> [Vec<i32>; 1] {
    let rows = l.projections.chunks(s.r * s.n * s.d);
    let p = rows.map(|row| row.iter().zip(l.witness.iter()).map(|(x, y)| *x as i64 * *y as i64).sum::<i64>());
    [p.map(|p| centre(p) as i32).collect()]
}

/// "for k = 1..5: a'' = Σψ a'; φ''_i = Σψ φ'_i + Σω_j σ(row j, part i)": the five second functions.
pub fn second(s: &Sizes, l: &Lists<impl Numbers>) -> Vec<Function> {
    let constant_terms = constant_terms(s, &l.constant_terms);
    let row = s.r * s.n * s.d;
    (0..5).map(|k| {
        let psi = &l.psi[k * s.l..(k + 1) * s.l];
        let omega = &l.omega[k * s.w..(k + 1) * s.w];
        let weighted = |entry: &dyn Fn(&Function) -> &El| {
            let summands = psi.iter().zip(&constant_terms).map(|(psi, (f, _))| scale(*psi as i64, entry(f)));
            summands.fold(zero(s.d), |sum, x| add(&sum, &x))
        };
        let phi = |i: usize, e: usize| {
            let mut sum = weighted(&|f| &f.phi[i][e]);
            for (j, omega) in omega.iter().enumerate() {
                let at = j * row + (i * s.n + e) * s.d;
                for (sum, x) in sum.iter_mut().zip(sigma(&l.projections[at..at + s.d])) {
                    *sum += *omega as i64 * x;
                }
            }
            sum.into_iter().map(centre).collect()
        };
        Function {
            a: (0..s.pair_count()).map(|at| weighted(&|f| &f.a[at])).collect(),
            phi: (0..s.r).map(|i| (0..s.n).map(|e| phi(i, e)).collect()).collect(),
        }
    }).collect()
}

/// Message 3: "b''_k is the value of that function without its constant."
pub fn message3(s: &Sizes, l: &Lists<impl Numbers>, second: &[Function]) -> [Vec<i32>; 1] {
    let parts = parts(s, &l.witness);
    let products = pair_products(s, &parts);
    [flat(&second.iter().map(|f| value(s, f, &parts, &products)).collect::<Vec<_>>())]
}

/// α and δ.
fn weights(s: &Sizes, l: &Lists<impl Numbers>) -> Vec<El> {
    [elements(s.d, &l.alpha), elements(s.d, &l.delta)].concat()
}

/// "the aggregate is Σα f + Σδ f''", without its constant.
pub fn aggregate(s: &Sizes, l: &Lists<impl Numbers>, second: &[Function]) -> Function {
    let whole = whole(s, &l.whole);
    let functions: Vec<&Function> = whole.iter().map(|(f, _)| f).chain(second).collect();
    let weights = weights(s, l);
    let sum = |entry: &dyn Fn(&Function) -> &El| sum_products(s.d, weights.iter().zip(functions.iter().map(|f| entry(f))));
    Function {
        a: (0..s.pair_count()).map(|at| sum(&|f| &f.a[at])).collect(),
        phi: (0..s.r).map(|i| (0..s.n).map(|e| sum(&|f| &f.phi[i][e])).collect()).collect(),
    }
}

/// The aggregate's b: Σα b + Σδ b''.
pub fn aggregate_constant(s: &Sizes, l: &Lists<impl Numbers>) -> El {
    let mut constants: Vec<El> = whole(s, &l.whole).into_iter().map(|(_, b)| b).collect();
    constants.extend(elements(s.d, &l.second_b));
    inner(s.d, &weights(s, l), &constants)
}

/// Message 4: "h_ii = <φ_i,s_i>; for i < j, h_ij is half of <φ_i,s_j> + <φ_j,s_i>"; h digits, u2.
pub fn message4(s: &Sizes, l: &Lists<impl Numbers>, aggregate: &Function) -> [Vec<i32>; 2] {
    let (phi, parts) = (&aggregate.phi, parts(s, &l.witness));
    let h_of = |(i, j): (usize, usize)| match i == j {
        true => inner(s.d, &phi[i], &parts[i]),
        false => half(&add(&inner(s.d, &phi[i], &parts[j]), &inner(s.d, &phi[j], &parts[i]))),
    };
    let h: Vec<El> = s.pairs().into_iter().flat_map(|pair| digits(s.b1, s.t1, &h_of(pair))).collect();
    [flat(&h), flat(&second_outer(s, l, &h))]
}

/// Message 5: "z = Σ c_i s_i in two digits to base b, or in one"; z low, then z high, or z.
pub fn message5(s: &Sizes, l: &Lists<impl Numbers>) -> [Vec<i32>; 1] {
    let (c, parts) = (elements(s.d, &l.c), parts(s, &l.witness));
    let z = (0..s.n).map(|k| sum_products(s.d, c.iter().zip(parts.iter().map(|part| &part[k]))));
    if s.one_digit {
        return [flat(&z.collect::<Vec<El>>())];
    }
    let (low, high): (Vec<El>, Vec<El>) = z.map(|z| digits(s.b, 2, &z)).map(|mut two| (two.remove(0), two.remove(0))).unzip();
    [flat(&[low, high].concat())]
}
