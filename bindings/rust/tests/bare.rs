//! The bare level: the stored cases of crates/bare_cases, and what the binding adds to the calls.
use lizkarg::{BareMessages, BareProof, BareProver, BareSizes, BareStatement, BareVerdict, Draws, Refused};

const SIZES: BareSizes = BareSizes { d: 2, n: 1, r: 2, k: 1, l: 0, w: 0, kappa: 1, bound: 0, z_bound: 5 };
const WHOLE: [i32; 12] = [2, 0, 0, 0, 0, 0, 1, 0, 0, 1, -5, 13];
const C: [i32; 4] = [0, 1, 1, -1];

fn statement(sizes: BareSizes) -> BareStatement<'static> {
    BareStatement { sizes, a_matrix: &[1, 1], whole: &WHOLE, constant_terms: &[] }
}

fn draws() -> Draws<'static> {
    Draws { alpha: &[1, 0], delta: &[0; 10], c: &C, ..Draws::default() }
}

/// s_1 = 1+2X, s_2 = 3, z = 1-2X: all messages at once, and the verdict on both sides of the bound on z.
#[test]
fn by_hand() {
    let mut prover = BareProver::new(statement(SIZES), &[1, 2, 3, 0]);
    let proof = prover.prove(draws()).unwrap();
    assert_eq!(proof.messages.opening, [-1, 3, 3, 3, 1, -2, 0, 0, 1, 2, 0, 0, -3, 4, -1, 1, 0, 3, -12, 6, 9, 0]);
    let with_bound = |z_bound| BareProof { statement: statement(BareSizes { z_bound, ..SIZES }), ..proof }.verify();
    assert_eq!(with_bound(4), Ok(BareVerdict::Failed(7)));
    assert_eq!(with_bound(5), Ok(BareVerdict::Accepted(0)));
    assert_eq!(with_bound(999999999999999), Ok(BareVerdict::Accepted(999999999999994)));
    assert_eq!(with_bound(1000000000000000), Err(Refused(6)));
    let widest = with_bound(999999999999999).unwrap();
    assert_eq!((widest.code(), widest.margin(), widest.is_accepted()), ((0, 999999999999994), Some(999999999999994), true));
    assert_eq!((BareVerdict::Failed(7).code(), BareVerdict::Failed(7).margin()), ((1, 7), None));
}

/// A refused turn can be made again; past turn r it is 2. Challenges that are too few are 7.
#[test]
fn turns() {
    let mut prover = BareProver::new(statement(SIZES), &[1, 2, 3, 0]);
    prover.phi(&draws()).unwrap();
    assert_eq!(prover.turn(&C[..2]), Err(Refused(7)));
    assert!(prover.turn(&[]).is_ok());
    assert_eq!(prover.turn(&[]), Err(Refused(7)));
    assert_eq!(prover.turn(&[0, 3]), Err(Refused(10)));
    assert_eq!(prover.turn(&C[..2]), Ok(&[-1, 1, 0, 3, -12, 6, 9, 0][..]));
    assert_eq!(prover.turn(&C), Err(Refused(2)));
    let few = Draws { c: &C[..3], ..draws() };
    assert_eq!(BareProver::new(statement(SIZES), &[1, 2, 3, 0]).prove(few), Err(Refused(7)));
    // without φ the turns are refused
    assert_eq!(BareProver::new(statement(SIZES), &[1, 2, 3, 0]).turn(&[]), Err(Refused(7)));
    let huge = BareSizes { r: usize::MAX, n: usize::MAX, ..SIZES };
    assert_eq!(BareProver::new(statement(huge), &[]).prove(draws()), Err(Refused(2)));
}

/// a_12 of either kind of constraint: 14, after 8 to 10.
#[test]
fn mixed_products() {
    let mut prover = BareProver::new(statement(SIZES), &[1, 2, 3, 0]);
    let proof = prover.prove(draws()).unwrap();
    for (place, mixed) in [(0, false), (1, false), (2, true), (3, true), (4, false), (6, false)] {
        let mut whole = WHOLE;
        whole[place] += 1;
        let changed = BareProof { statement: BareStatement { whole: &whole, ..proof.statement }, ..proof };
        assert_eq!(changed.verify() == Err(Refused(14)), mixed, "{place}");
        assert_eq!(changed.statement.phi(&changed.draws, &mut [0; 4]).is_err(), mixed);
        let other = BareProof { draws: Draws { c: &[0, 3, 0, 0], ..proof.draws }, ..changed };
        assert_eq!(other.verify(), Err(Refused(10)));
    }
}

/// Numbers of a line, taken one after another.
struct Numbers<'a>(std::str::SplitAsciiWhitespace<'a>);

impl Numbers<'_> {
    fn next(&mut self) -> u64 {
        self.0.next().unwrap().parse().unwrap()
    }

    fn list(&mut self) -> Vec<i32> {
        let length = self.next();
        (0..length).map(|_| self.0.next().unwrap().parse().unwrap()).collect()
    }

    fn lists<const N: usize>(&mut self) -> [Vec<i32>; N] {
        std::array::from_fn(|_| self.list())
    }

    /// The list that the call writes, as it is before.
    fn room(&mut self) -> Vec<i32> {
        vec![77; self.next() as usize]
    }
}

/// Kind, number and the written list of a case.
fn answer(line: &str) -> (u8, u64, Vec<i32>) {
    let mut all = Numbers(line.split_ascii_whitespace());
    let call = all.next();
    let [d, n, r, k, l, w, kappa] = std::array::from_fn(|_| all.next() as usize);
    let (bound, z_bound, turn) = (all.next(), all.next(), all.next() as usize);
    let sizes = BareSizes { d, n, r, k, l, w, kappa, bound, z_bound };
    let none = BareStatement { sizes, a_matrix: &[], whole: &[], constant_terms: &[] };
    let (answer, out) = match call {
        1 => {
            let ([a_matrix, witness], mut out) = (all.lists(), all.room());
            (BareStatement { a_matrix: &a_matrix, ..none }.commit(&witness, &mut out), out)
        }
        2 => {
            let ([whole, constant_terms, projections, psi, omega, alpha, delta], mut out) = (all.lists(), all.room());
            let draws = Draws { projections: &projections, psi: &psi, omega: &omega, alpha: &alpha, delta: &delta, c: &[] };
            (BareStatement { whole: &whole, constant_terms: &constant_terms, ..none }.phi(&draws, &mut out), out)
        }
        3 => {
            let ([phi, c, witness], mut out) = (all.lists(), all.room());
            (none.turn(turn, &phi, &c, &witness, &mut out), out)
        }
        _ => {
            let [a_matrix, whole, constant_terms, projections, p, psi, omega, second_b, alpha, delta, c, opening] = all.lists();
            let draws = Draws { projections: &projections, psi: &psi, omega: &omega, alpha: &alpha, delta: &delta, c: &c };
            let statement = BareStatement { sizes, a_matrix: &a_matrix, whole: &whole, constant_terms: &constant_terms };
            let messages = BareMessages { p: &p, second_b: &second_b, opening: &opening };
            let verdict = BareProof { statement, draws, messages }.verify();
            if !matches!(verdict, Err(Refused(1..=7))) {
                let has = sizes.lengths();
                let given = [&a_matrix, &whole, &constant_terms, &projections, &p, &psi, &omega, &second_b, &alpha, &delta, &c, &opening];
                let should = [has.a_matrix, has.whole, has.constant_terms, has.projections, has.p, has.psi, has.omega, has.second_b];
                let should = should.into_iter().chain([has.alpha, has.delta, has.c, has.opening]);
                assert!(given.into_iter().map(Vec::len).eq(should), "{line}");
            }
            return verdict.map_or_else(|row| (2, row.0.into(), vec![]), |verdict| (verdict.code().0, verdict.code().1, vec![]));
        }
    };
    answer.map_or_else(|row| (2, row.0.into(), out.clone()), |()| (3, 0, out.clone()))
}

#[test]
fn stored_cases() {
    let (given, stored) = (include_str!("../../../crates/bare_cases/stdin"), include_str!("../../../crates/bare_cases/stdout"));
    assert_eq!(given.lines().count(), stored.lines().count());
    for (number, (line, should)) in given.lines().zip(stored.lines()).enumerate() {
        let (kind, row, out) = answer(line);
        let found: Vec<String> = [kind.to_string(), row.to_string()].into_iter().chain(out.iter().map(i32::to_string)).collect();
        assert_eq!(found.join(" "), should, "case {}", number + 1);
    }
}
