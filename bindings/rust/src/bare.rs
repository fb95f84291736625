use crate::sizes::{function, product, sum, FIVE};
use crate::{raw, BareVerdict, Cut, Draws, Refused, Sizes};

/// The sizes and bounds of the bare level, the last of a chain. [`BareSizes::lengths`] has the length of every list.
#[derive(Clone, Copy, Debug, PartialEq, Eq, Hash)]
pub struct BareSizes {
    /// The degree: 2, 4, 8, 16, 32 or 64.
    pub d: usize,
    /// Elements to a part of the witness: 1 to 256.
    pub n: usize,
    /// Parts of the witness, and turns: 1 to 16.
    pub r: usize,
    /// Whole constraints: 0 to 32.
    pub k: usize,
    /// Constant-term constraints: 0 to 32.
    pub l: usize,
    /// Projection rows: 0 to 256.
    pub w: usize,
    /// κ, the rows of A: 1 to 8.
    pub kappa: usize,
    /// β², the bound on the witness's squared length: 0 to 999999999999999.
    pub bound: u64,
    /// The bound on the squared length of z: 0 to 999999999999999.
    pub z_bound: u64,
}

/// How many numbers each list of the bare level has. Where sizes are past their limits, and every call refuses them, a length stops at `usize::MAX`.
#[derive(Clone, Copy, Debug, PartialEq, Eq, Hash)]
pub struct BareLengths {
    /// A: κ rows of n elements.
    pub a_matrix: usize,
    /// The whole constraints.
    pub whole: usize,
    /// The constant-term constraints.
    pub constant_terms: usize,
    /// The projection rows.
    pub projections: usize,
    /// p: w numbers.
    pub p: usize,
    /// ψ: 5 rows of L numbers.
    pub psi: usize,
    /// ω: 5 rows of w numbers.
    pub omega: usize,
    /// b'': 5 elements.
    pub second_b: usize,
    /// α: K elements.
    pub alpha: usize,
    /// δ: 5 elements.
    pub delta: usize,
    /// c: r elements.
    pub c: usize,
    /// The bare opening: t, z, and the garbage of every turn.
    pub opening: usize,
    /// The witness: r parts of n elements.
    pub witness: usize,
    /// t: r·κ elements.
    pub t: usize,
    /// φ of the aggregate: r·n elements.
    pub phi: usize,
    /// z: n elements.
    pub z: usize,
    /// The garbage of one turn: 4 elements.
    pub garbage: usize,
}

impl BareSizes {
    /// The sizes of the next instance of a fold with one z digit, sent bare with w projection rows and κ rows of A.
    ///
    /// ```
    /// # use lizkarg::{BareSizes, Cut, Sizes, ZDigits};
    /// # let sizes = Sizes { d: 64, n: 12, r: 2, k: 1, l: 0, w: 0, kappa: 1, kappa1: 1, kappa2: 1, z: ZDigits::One, b1: 8, b2: 4, t1: 2, t2: 2, bound: 5, target: 13 };
    /// let bare = BareSizes::of_next(&sizes, Cut { nu: 2, mu: 3 }, 4, 2, 99);
    /// assert_eq!(bare, BareSizes { d: 64, n: 6, r: 5, k: 6, l: 0, w: 4, kappa: 2, bound: 13, z_bound: 99 });
    /// ```
    #[must_use]
    pub fn of_next(sizes: &Sizes, cut: Cut, w: usize, kappa: usize, z_bound: u64) -> BareSizes {
        let next = sizes.next(cut);
        BareSizes { d: sizes.d, n: next.n, r: next.r, k: next.k, l: 0, w, kappa, bound: sizes.target, z_bound }
    }

    /// How many numbers each list has.
    ///
    /// ```
    /// # let sizes = lizkarg::BareSizes { d: 2, n: 1, r: 2, k: 1, l: 0, w: 0, kappa: 1, bound: 0, z_bound: 5 };
    /// let lengths = sizes.lengths();
    /// assert_eq!((lengths.t, lengths.z, lengths.garbage, lengths.opening), (4, 2, 8, 22));
    /// ```
    #[must_use]
    pub fn lengths(&self) -> BareLengths {
        let BareSizes { d, n, r, k, l, w, kappa, .. } = *self;
        let (t, z, garbage, function) = (product([r, kappa, d]), product([n, d]), product([4, d]), function(d, n, r));
        BareLengths {
            a_matrix: product([kappa, n, d]),
            whole: product([k, sum([function, d])]),
            constant_terms: product([l, sum([function, 1])]),
            projections: product([w, r, n, d]),
            p: w,
            psi: product([FIVE, l]),
            omega: product([FIVE, w]),
            second_b: product([FIVE, d]),
            alpha: product([k, d]),
            delta: product([FIVE, d]),
            c: product([r, d]),
            opening: sum([t, z, product([r, garbage])]),
            witness: product([r, n, d]),
            t,
            phi: product([r, n, d]),
            z,
            garbage,
        }
    }

    fn shape(&self) -> raw::Shape {
        let BareSizes { d, n, r, .. } = *self;
        raw::Shape { d, n, r }
    }

    fn raw(&self) -> raw::BareSizes {
        let BareSizes { d, n, r, k, l, w, kappa, bound, z_bound } = *self;
        raw::BareSizes { d, n, r, k, l, w, kappa, bound, z_bound }
    }
}

/// A statement of the bare level: no constraint has an a_ij with i < j other than zero. Its methods are the prover's messages, written to lent lists;
/// [`BareProver`](crate::BareProver) makes them with lists of its own.
#[derive(Clone, Copy, Debug, PartialEq, Eq)]
pub struct BareStatement<'a> {
    /// Sizes and bounds.
    pub sizes: BareSizes,
    /// A, by rows.
    pub a_matrix: &'a [i32],
    /// The constraints that vanish wholly, as in [`Statement`](crate::Statement).
    pub whole: &'a [i32],
    /// The constraints that vanish in the constant term only, likewise.
    pub constant_terms: &'a [i32],
}

/// What the prover of the bare level sends.
#[derive(Clone, Copy, Debug, Default, PartialEq, Eq)]
pub struct BareMessages<'a> {
    /// Message 2: the projection.
    pub p: &'a [i32],
    /// Message 3: b'', five elements.
    pub second_b: &'a [i32],
    /// t by part, then row; z; then the four elements of each turn.
    pub opening: &'a [i32],
}

/// All that the verifier of the bare level is given. Of the draws, `c` is drawn one by one: `c_i` after turn i.
#[derive(Clone, Copy, Debug, PartialEq, Eq)]
pub struct BareProof<'a> {
    /// What is proved.
    pub statement: BareStatement<'a>,
    /// What was drawn.
    pub draws: Draws<'a>,
    /// What the prover sent.
    pub messages: BareMessages<'a>,
}

impl BareStatement<'_> {
    /// Writes t, in the clear.
    ///
    /// # Errors
    /// Refused 1 to 3, 7, 8; then nothing is written.
    pub fn commit(&self, witness: &[i32], t: &mut [i32]) -> Result<(), Refused> {
        raw::lizkarg_bare_commit(self.sizes.shape(), self.sizes.kappa, self.a_matrix, witness, t).written()
    }

    /// Message 2: writes p. Of the draws it takes the projection rows.
    ///
    /// # Errors
    /// Refused 1, 2, 7 to 9; then nothing is written.
    pub fn project(&self, draws: &Draws, witness: &[i32], p: &mut [i32]) -> Result<(), Refused> {
        raw::lizkarg_project(self.sizes.shape(), self.sizes.w, draws.projections, witness, p).written()
    }

    /// Message 3: writes the five b''. Of the draws it takes the projection rows, ψ and ω.
    ///
    /// # Errors
    /// Refused 1, 2, 7 to 9; then nothing is written.
    pub fn aggregate(&self, draws: &Draws, witness: &[i32], second_b: &mut [i32]) -> Result<(), Refused> {
        let (BareSizes { l, w, .. }, Draws { projections, psi, omega, .. }) = (self.sizes, draws);
        raw::lizkarg_aggregate(self.sizes.shape(), l, w, self.constant_terms, projections, psi, omega, witness, second_b).written()
    }

    /// Writes φ of the aggregate, which the turns take. It takes all draws but the challenges.
    ///
    /// # Errors
    /// Refused 1, 2, 7 to 9, 14; then nothing is written.
    pub fn phi(&self, draws: &Draws, phi: &mut [i32]) -> Result<(), Refused> {
        let Draws { projections, psi, omega, alpha, delta, .. } = draws;
        let BareSizes { d, n, r, k, l, w, .. } = self.sizes;
        let sizes = raw::ConstraintSizes { d, n, r, k, l, w };
        raw::lizkarg_bare_phi(sizes, self.whole, self.constant_terms, projections, psi, omega, alpha, delta, phi).written()
    }

    /// Writes the garbage of a turn, from 1 to r. `c` are the challenges before it: exactly `turn - 1` elements.
    ///
    /// # Errors
    /// Refused 1, 2, 7, 8, 10; 2 also for a turn that is not 1 to r. Then nothing is written.
    pub fn turn(&self, turn: usize, phi: &[i32], c: &[i32], witness: &[i32], garbage: &mut [i32]) -> Result<(), Refused> {
        raw::lizkarg_bare_turn(self.sizes.shape(), turn, phi, c, witness, garbage).written()
    }

    /// Message 5: writes z, whole. Of the draws it takes the challenges.
    ///
    /// # Errors
    /// Refused 1, 2, 7, 8, 10; then nothing is written.
    pub fn amortize(&self, draws: &Draws, witness: &[i32], z: &mut [i32]) -> Result<(), Refused> {
        raw::lizkarg_amortize_one_digit(self.sizes.shape(), draws.c, witness, z).written()
    }
}

impl BareProof<'_> {
    /// The verdict: the first check of the bare level that fails, or accepted with the margin.
    ///
    /// # Errors
    /// Refused 1 to 3, 6 to 10, 14.
    pub fn verify(&self) -> Result<BareVerdict, Refused> {
        let BareProof { statement: s, draws: v, messages: m } = self;
        raw::lizkarg_bare_verify(
            s.sizes.raw(),
            s.a_matrix,
            s.whole,
            s.constant_terms,
            v.projections,
            m.p,
            v.psi,
            v.omega,
            m.second_b,
            v.alpha,
            v.delta,
            v.c,
            m.opening,
        )
        .judged_bare()
    }
}
