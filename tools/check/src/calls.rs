//! Each call of the library on a case, held to the second implementation: the answer, and every lent number afterwards.
use crate::answer::Answer::{self, Judged, Refused, Written};
use crate::case::Lists;
use lizkarg::Verdict::{Accepted, Failed};
use lizkarg::{Cut, Draws, Messages, Proof, Prover, Statement, ZDigits};
use plain::lists::{self, Room, Sizes};
use plain::messages::{self, Function};
use plain::refusals::{self, Refusal};
use plain::ring::{elements, flat};
use plain::verdict::{self, Verdict};
use std::cell::OnceCell;
use std::collections::BTreeMap;

/// What a call's outputs hold before it.
const POISON: i32 = 1234567891;

/// How often each call gave each answer: its kind, and its number, for which a margin above 0 counts as 1.
#[derive(Default)]
pub struct Tally {
    pub seen: BTreeMap<(&'static str, u8, u64), u64>,
}

impl Tally {
    pub fn count(&mut self, call: &'static str, answer: Answer) {
        let (kind, number) = answer.code();
        let number = if kind == 0 { number.min(1) } else { number };
        *self.seen.entry((call, kind, number)).or_insert(0) += 1;
    }

    pub fn add(&mut self, other: &Tally) {
        for (answer, times) in &other.seen {
            *self.seen.entry(*answer).or_insert(0) += times;
        }
    }
}

/// Sizes and lists, with the second functions, which are formed once.
pub struct Case<'a> {
    pub s: &'a Sizes,
    pub l: &'a Lists,
    second: OnceCell<Vec<Function>>,
}

impl<'a> Case<'a> {
    pub fn new(s: &'a Sizes, l: &'a Lists) -> Case<'a> {
        Case { s, l, second: OnceCell::new() }
    }

    /// With the second functions, where they were formed already.
    pub fn formed(s: &'a Sizes, l: &'a Lists, second: Vec<Function>) -> Case<'a> {
        Case { s, l, second: OnceCell::from(second) }
    }

    pub fn second(&self) -> &[Function] {
        self.second.get_or_init(|| messages::second(self.s, self.l))
    }
}

pub fn cut(s: &Sizes) -> Cut {
    Cut { nu: s.nu, mu: s.mu }
}

fn z_digits(s: &Sizes) -> ZDigits {
    if s.one_digit { ZDigits::One } else { ZDigits::Two(s.b) }
}

pub fn sizes(s: &Sizes) -> lizkarg::Sizes {
    lizkarg::Sizes {
        d: s.d, n: s.n, r: s.r, k: s.k, l: s.l, w: s.w, kappa: s.kappa, kappa1: s.kappa1, kappa2: s.kappa2, z: z_digits(s), b1: s.b1, b2: s.b2,
        t1: s.t1, t2: s.t2, bound: s.bound, target: s.target,
    }
}

fn statement<'a>(s: &Sizes, l: &'a Lists) -> Statement<'a> {
    Statement {
        sizes: sizes(s), a_matrix: &l.a_matrix, b_matrix: &l.b_matrix, c_matrix: &l.c_matrix, d_matrix: &l.d_matrix, whole: &l.whole,
        constant_terms: &l.constant_terms,
    }
}

pub fn draws(l: &Lists) -> Draws<'_> {
    Draws { projections: &l.projections, psi: &l.psi, omega: &l.omega, alpha: &l.alpha, delta: &l.delta, c: &l.c }
}

pub fn proof<'a>(s: &Sizes, l: &'a Lists) -> Proof<'a> {
    let messages = Messages { u1: &l.u1, p: &l.p, second_b: &l.second_b, u2: &l.u2, opening: &l.opening };
    Proof { statement: statement(s, l), draws: draws(l), messages }
}

/// Makes a call on lists of the given lengths. Refused, it leaves them as they were; else it answers written and writes what it should, or
/// answers with the check that fails.
pub fn written<const N: usize, A: Into<Answer>>(
    tally: &mut Tally, call: &'static str, refusal: Refusal, room: [usize; N], run: impl FnOnce([&mut [i32]; N]) -> A,
    should: impl FnOnce() -> Result<[Vec<i32>; N], u8>,
) -> Result<[Vec<i32>; N], Answer> {
    let mut out = room.map(|length| vec![POISON; length]);
    let answer = run(out.each_mut().map(|list| &mut list[..])).into();
    tally.count(call, answer);
    let should = refusal.map_err(Refused).and_then(|()| should().map_err(|check| Judged(Failed(check))));
    match should {
        Ok(should) => {
            assert_eq!(answer, Written, "{call}");
            assert!(out == should, "{call}: outputs differ");
            Ok(out)
        }
        Err(should) => {
            assert_eq!(answer, should, "{call}");
            assert!(out.iter().flatten().all(|v| *v == POISON), "{call}: written all the same");
            Err(answer)
        }
    }
}

pub fn commit(tally: &mut Tally, case: &Case, room: &Room) -> Result<[Vec<i32>; 3], Answer> {
    let (s, l) = (case.s, case.l);
    let run = |[t, g, u1]: [&mut [i32]; 3]| statement(s, l).commit(&l.witness, t, g, u1);
    written(tally, "commit", refusals::commit(s, l, room), [room.t, room.g, room.u1], run, || Ok(messages::message1(s, l)))
}

pub fn project(tally: &mut Tally, case: &Case, room: &Room) -> Result<[Vec<i32>; 1], Answer> {
    let (s, l) = (case.s, case.l);
    let run = |[p]: [&mut [i32]; 1]| statement(s, l).project(&draws(l), &l.witness, p);
    written(tally, "project", refusals::project(s, l, room), [room.p], run, || Ok(messages::message2(s, l)))
}

pub fn aggregate(tally: &mut Tally, case: &Case, room: &Room) -> Result<[Vec<i32>; 1], Answer> {
    let (s, l) = (case.s, case.l);
    let run = |[second_b]: [&mut [i32]; 1]| statement(s, l).aggregate(&draws(l), &l.witness, second_b);
    let should = || Ok(messages::message3(s, l, case.second()));
    written(tally, "aggregate", refusals::aggregate(s, l, room), [room.second_b], run, should)
}

pub fn commit_garbage(tally: &mut Tally, case: &Case, room: &Room) -> Result<[Vec<i32>; 2], Answer> {
    let (s, l) = (case.s, case.l);
    let run = |[h, u2]: [&mut [i32]; 2]| statement(s, l).commit_garbage(&draws(l), &l.witness, h, u2);
    let should = || Ok(messages::message4(s, l, &messages::aggregate(s, l, case.second())));
    written(tally, "commit_garbage", refusals::commit_garbage(s, l, room), [room.h, room.u2], run, should)
}

pub fn amortize(tally: &mut Tally, case: &Case, room: &Room) -> Result<[Vec<i32>; 1], Answer> {
    let (s, l) = (case.s, case.l);
    let run = |[z]: [&mut [i32]; 1]| statement(s, l).amortize(&draws(l), &l.witness, z);
    written(tally, "amortize", refusals::amortize(s, l, room), [room.z], run, || Ok(messages::message5(s, l)))
}

/// The binding's lengths, held to the second implementation's.
pub fn lengths(s: &Sizes) {
    let (found, room) = (sizes(s).lengths(), s.room());
    let lengths = [
        found.a_matrix, found.b_matrix, found.c_matrix, found.d_matrix, found.whole, found.constant_terms, found.u1, found.projections,
        found.p, found.psi, found.omega, found.second_b, found.alpha, found.delta, found.u2, found.c, found.opening, found.witness,
    ];
    assert_eq!(lists::Lists::from_array(lengths), s.lengths(), "lengths: {s:?}");
    assert_eq!([found.z, found.t, found.g, found.h], [room.z, room.t, room.g, room.h], "lengths: {s:?}");
}

/// All five messages, put into the lists; the second functions.
pub fn fold(tally: &mut Tally, s: &Sizes, l: &mut Lists) -> Vec<Function> {
    let (case, room) = (Case::new(s, l), s.room());
    let [t, g, u1] = commit(tally, &case, &room).unwrap();
    let [p] = project(tally, &case, &room).unwrap();
    let [second_b] = aggregate(tally, &case, &room).unwrap();
    let [h, u2] = commit_garbage(tally, &case, &room).unwrap();
    let [z] = amortize(tally, &case, &room).unwrap();
    let second = case.second.into_inner().unwrap();
    (l.u1, l.p, l.second_b, l.u2, l.opening) = (u1, p, second_b, u2, [z, t, g, h].concat());
    // the binding's prover, whose lists are its own
    let mut prover = Prover::new(statement(s, l), &l.witness);
    assert!(prover.prove(draws(l)) == Ok(proof(s, l)), "Prover: messages differ");
    second
}

/// The library's verdict, counted.
pub fn judged(tally: &mut Tally, s: &Sizes, l: &Lists) -> Answer {
    let answer = proof(s, l).verify().into();
    tally.count("verify", answer);
    answer
}

/// The verdict, held to the second implementation's, margin and all.
pub fn verify(tally: &mut Tally, case: &Case) -> Answer {
    let answer = judged(tally, case.s, case.l);
    assert_eq!(answer, plain_verify(case), "verify");
    answer
}

/// The second implementation's verdict.
pub fn plain_verify(case: &Case) -> Answer {
    match refusals::verify(case.s, case.l) {
        Err(number) => Refused(number),
        Ok(()) => plain_judgement(case),
    }
}

/// The second implementation's judgement on lists that are not refused, or by 15 alone.
pub fn plain_judgement(case: &Case) -> Answer {
    match verdict::verdict(case.s, case.l, case.second()) {
        Verdict::Accepted(margin) => Judged(Accepted(margin)),
        Verdict::Failed(check) => Judged(Failed(check)),
    }
}

/// u1 and u2 formed anew from the opening as it is.
pub fn commit_anew(s: &Sizes, l: &mut Lists) {
    let [_, t, g, h] = s.blocks().map(|block| elements(s.d, &l.opening[block.start..block.start + block.values * block.digits * block.width]));
    (l.u1, l.u2) = (flat(&messages::first_outer(s, l, &t, &g)), flat(&messages::second_outer(s, l, &h)));
}
