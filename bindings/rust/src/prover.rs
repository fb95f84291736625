use crate::sizes::room;
use crate::{Draws, Messages, Proof, Refused, Statement};

/// A prover with the lists that its messages write. Each message answers what is sent; what is drawn after it goes into the [`Draws`] of the next.
///
/// ```
/// use lizkarg::{Draws, Prover, Sizes, Statement, Verdict, ZDigits};
///
/// let sizes = Sizes { d: 2, n: 1, r: 1, k: 1, l: 0, w: 0, kappa: 1, kappa1: 1, kappa2: 1, z: ZDigits::Two(4), b1: 8, b2: 4, t1: 2, t2: 2, bound: 5, target: 13 };
/// let (a_matrix, b_matrix, c_matrix, d_matrix) = (&[1, 0], &[1, 0, 0, 0], &[1, 0, 0, 0], &[1, 0, 1, 0]);
/// let statement = Statement { sizes, a_matrix, b_matrix, c_matrix, d_matrix, whole: &[1, 0, 0, 0, -3, 4], constant_terms: &[] };
/// let mut prover = Prover::new(statement, &[1, 2]);
/// let mut draws = Draws::default();
/// assert_eq!(prover.commit()?, [2, 2]);
/// prover.project(&draws)?;
/// prover.aggregate(&draws)?;
/// (draws.alpha, draws.delta) = (&[1, 0], &[0; 10]);
/// prover.commit_garbage(&draws)?;
/// draws.c = &[0, 1];
/// prover.amortize(&draws)?;
/// assert_eq!(prover.proof(draws).verify()?, Verdict::Accepted(0));
/// # Ok::<(), lizkarg::Refused>(())
/// ```
#[derive(Clone, Debug)]
pub struct Prover<'a> {
    statement: Statement<'a>,
    witness: &'a [i32],
    t: Vec<i32>,
    g: Vec<i32>,
    h: Vec<i32>,
    u1: Vec<i32>,
    p: Vec<i32>,
    second_b: Vec<i32>,
    u2: Vec<i32>,
    opening: Vec<i32>,
}

impl<'a> Prover<'a> {
    /// A prover of this statement with this witness: r parts of n elements.
    #[must_use]
    pub fn new(statement: Statement<'a>, witness: &'a [i32]) -> Prover<'a> {
        let none = Vec::new;
        Prover { statement, witness, t: none(), g: none(), h: none(), u1: none(), p: none(), second_b: none(), u2: none(), opening: none() }
    }

    /// Message 1: u1.
    ///
    /// # Errors
    /// Those of [`Statement::commit`].
    pub fn commit(&mut self) -> Result<&[i32], Refused> {
        let lengths = self.statement.sizes.lengths();
        let (mut t, mut g, mut u1) = (room(lengths.t), room(lengths.g), room(lengths.u1));
        self.statement.commit(self.witness, &mut t, &mut g, &mut u1)?;
        (self.t, self.g, self.u1) = (t, g, u1);
        Ok(&self.u1)
    }

    /// Message 2: p.
    ///
    /// # Errors
    /// Those of [`Statement::project`].
    pub fn project(&mut self, draws: &Draws) -> Result<&[i32], Refused> {
        let mut p = room(self.statement.sizes.lengths().p);
        self.statement.project(draws, self.witness, &mut p)?;
        self.p = p;
        Ok(&self.p)
    }

    /// Message 3: b''.
    ///
    /// # Errors
    /// Those of [`Statement::aggregate`].
    pub fn aggregate(&mut self, draws: &Draws) -> Result<&[i32], Refused> {
        let mut second_b = room(self.statement.sizes.lengths().second_b);
        self.statement.aggregate(draws, self.witness, &mut second_b)?;
        self.second_b = second_b;
        Ok(&self.second_b)
    }

    /// Message 4: u2.
    ///
    /// # Errors
    /// Those of [`Statement::commit_garbage`].
    pub fn commit_garbage(&mut self, draws: &Draws) -> Result<&[i32], Refused> {
        let lengths = self.statement.sizes.lengths();
        let (mut h, mut u2) = (room(lengths.h), room(lengths.u2));
        self.statement.commit_garbage(draws, self.witness, &mut h, &mut u2)?;
        (self.h, self.u2) = (h, u2);
        Ok(&self.u2)
    }

    /// Message 5: the opening, with the digits of messages 1 and 4.
    ///
    /// # Errors
    /// Those of [`Statement::amortize`].
    pub fn amortize(&mut self, draws: &Draws) -> Result<&[i32], Refused> {
        let mut z = room(self.statement.sizes.lengths().z);
        self.statement.amortize(draws, self.witness, &mut z)?;
        self.opening = [&z[..], &self.t, &self.g, &self.h].concat();
        Ok(&self.opening)
    }

    /// All five messages, where everything is drawn already.
    ///
    /// # Errors
    /// The first refusal of a message.
    pub fn prove<'b>(&'b mut self, draws: Draws<'b>) -> Result<Proof<'b>, Refused> {
        self.commit()?;
        self.project(&draws)?;
        self.aggregate(&draws)?;
        self.commit_garbage(&draws)?;
        self.amortize(&draws)?;
        Ok(self.proof(draws))
    }

    /// The messages made so far; the others are empty.
    #[must_use]
    pub fn messages(&self) -> Messages<'_> {
        Messages { u1: &self.u1, p: &self.p, second_b: &self.second_b, u2: &self.u2, opening: &self.opening }
    }

    /// The proof, as the verifier takes it.
    #[must_use]
    pub fn proof<'b>(&'b self, draws: Draws<'b>) -> Proof<'b> {
        Proof { statement: self.statement, draws, messages: self.messages() }
    }
}
