use crate::sizes::room;
use crate::{BareMessages, BareProof, BareStatement, Draws, Refused};

/// A prover of the bare level with the lists that its messages write. Each message answers what is sent.
///
/// ```
/// use lizkarg::{BareProver, BareSizes, BareStatement, BareVerdict, Draws};
///
/// // s_1 = 1+2X and s_2 = 3 meet 2<s_1,s_1> + s_1 + X·s_2 = -5+13X
/// let sizes = BareSizes { d: 2, n: 1, r: 2, k: 1, l: 0, w: 0, kappa: 1, bound: 0, z_bound: 12 };
/// let whole = &[2, 0, 0, 0, 0, 0, 1, 0, 0, 1, -5, 13];
/// let statement = BareStatement { sizes, a_matrix: &[1, 1], whole, constant_terms: &[] };
/// let mut prover = BareProver::new(statement, &[1, 2, 3, 0]);
/// let mut draws = Draws::default();
/// assert_eq!(prover.commit()?, [-1, 3, 3, 3]);
/// prover.project(&draws)?;
/// prover.aggregate(&draws)?;
/// (draws.alpha, draws.delta) = (&[1, 0], &[0; 10]);
/// prover.phi(&draws)?;
/// let c = [0, 1, 1, -1];
/// assert_eq!(prover.turn(&[])?, [0, 0, 1, 2, 0, 0, -3, 4]);
/// assert_eq!(prover.turn(&c[..2])?, [-1, 1, 0, 3, -12, 6, 9, 0]);
/// draws.c = &c;
/// assert_eq!(prover.amortize(&draws)?, [1, -2]);
/// assert_eq!(prover.proof(draws).verify()?, BareVerdict::Accepted(7));
/// # Ok::<(), lizkarg::Refused>(())
/// ```
#[derive(Clone, Debug)]
pub struct BareProver<'a> {
    statement: BareStatement<'a>,
    witness: &'a [i32],
    p: Vec<i32>,
    second_b: Vec<i32>,
    phi: Vec<i32>,
    t: Vec<i32>,
    z: Vec<i32>,
    turns: Vec<i32>,
    opening: Vec<i32>,
}

impl<'a> BareProver<'a> {
    /// A prover of this statement with this witness: r parts of n elements.
    #[must_use]
    pub fn new(statement: BareStatement<'a>, witness: &'a [i32]) -> BareProver<'a> {
        let none = Vec::new;
        BareProver { statement, witness, p: none(), second_b: none(), phi: none(), t: none(), z: none(), turns: none(), opening: none() }
    }

    /// t, in the clear.
    ///
    /// # Errors
    /// Those of [`BareStatement::commit`].
    pub fn commit(&mut self) -> Result<&[i32], Refused> {
        let mut t = room(self.statement.sizes.lengths().t);
        self.statement.commit(self.witness, &mut t)?;
        self.t = t;
        Ok(&self.t)
    }

    /// Message 2: p.
    ///
    /// # Errors
    /// Those of [`BareStatement::project`].
    pub fn project(&mut self, draws: &Draws) -> Result<&[i32], Refused> {
        let mut p = room(self.statement.sizes.lengths().p);
        self.statement.project(draws, self.witness, &mut p)?;
        self.p = p;
        Ok(&self.p)
    }

    /// Message 3: b''.
    ///
    /// # Errors
    /// Those of [`BareStatement::aggregate`].
    pub fn aggregate(&mut self, draws: &Draws) -> Result<&[i32], Refused> {
        let mut second_b = room(self.statement.sizes.lengths().second_b);
        self.statement.aggregate(draws, self.witness, &mut second_b)?;
        self.second_b = second_b;
        Ok(&self.second_b)
    }

    /// φ of the aggregate, which is not sent; the turns are made from it, and they start anew.
    ///
    /// # Errors
    /// Those of [`BareStatement::phi`].
    pub fn phi(&mut self, draws: &Draws) -> Result<&[i32], Refused> {
        let mut phi = room(self.statement.sizes.lengths().phi);
        self.statement.phi(draws, &mut phi)?;
        (self.phi, self.turns) = (phi, Vec::new());
        Ok(&self.phi)
    }

    /// The garbage of the next turn: four elements. `c` are the challenges that are known by then, one less than the number of the turn.
    ///
    /// # Errors
    /// Those of [`BareStatement::turn`]; 2 after turn r. A refused turn can be made again.
    pub fn turn(&mut self, c: &[i32]) -> Result<&[i32], Refused> {
        let length = self.statement.sizes.lengths().garbage;
        let mut garbage = room(length);
        let turn = self.turns.len() / length.max(1) + 1;
        self.statement.turn(turn, &self.phi, c, self.witness, &mut garbage)?;
        self.turns.extend(garbage);
        Ok(&self.turns[self.turns.len() - length..])
    }

    /// Message 5: z, whole. With it the opening is complete.
    ///
    /// # Errors
    /// Those of [`BareStatement::amortize`].
    pub fn amortize(&mut self, draws: &Draws) -> Result<&[i32], Refused> {
        let mut z = room(self.statement.sizes.lengths().z);
        self.statement.amortize(draws, self.witness, &mut z)?;
        self.z = z;
        self.opening = [&self.t[..], &self.z, &self.turns].concat();
        Ok(&self.z)
    }

    /// All messages, where everything is drawn already.
    ///
    /// # Errors
    /// The first refusal of a message.
    pub fn prove<'b>(&'b mut self, draws: Draws<'b>) -> Result<BareProof<'b>, Refused> {
        self.commit()?;
        self.project(&draws)?;
        self.aggregate(&draws)?;
        self.phi(&draws)?;
        for turn in 0..self.statement.sizes.r {
            self.turn(&draws.c[..draws.c.len().min(turn * self.statement.sizes.d)])?;
        }
        self.amortize(&draws)?;
        Ok(self.proof(draws))
    }

    /// The messages made so far; the others are empty.
    #[must_use]
    pub fn messages(&self) -> BareMessages<'_> {
        BareMessages { p: &self.p, second_b: &self.second_b, opening: &self.opening }
    }

    /// The proof, as the verifier takes it.
    #[must_use]
    pub fn proof<'b>(&'b self, draws: Draws<'b>) -> BareProof<'b> {
        BareProof { statement: self.statement, draws, messages: self.messages() }
    }
}
