use crate::sizes::room;
use crate::{raw, Cut, Lengths, Next, Refused, Sheet, Sizes, Verdict, ZDigits};

/// A statement: its sizes, the matrices of the commitments and the constraints. Its methods are the prover's messages, written to lent lists;
/// [`Prover`](crate::Prover) makes them with lists of its own.
///
/// A list holds ring elements one after another, d numbers each, lowest power first, from -2147483598 to 2147483598.
#[derive(Clone, Copy, Debug, PartialEq, Eq)]
pub struct Statement<'a> {
    /// Sizes, bases and bounds.
    pub sizes: Sizes,
    /// A, by rows.
    pub a_matrix: &'a [i32],
    /// B, by rows.
    pub b_matrix: &'a [i32],
    /// C, by rows.
    pub c_matrix: &'a [i32],
    /// D, by rows.
    pub d_matrix: &'a [i32],
    /// The constraints that vanish wholly, each as a (by i, then j ≥ i), φ (by part), b.
    pub whole: &'a [i32],
    /// The constraints that vanish in the constant term only, likewise, but b is one number.
    pub constant_terms: &'a [i32],
}

/// What is drawn between the messages. Each message looks only at what was drawn before it, so the rest may still be empty.
#[derive(Clone, Copy, Debug, Default, PartialEq, Eq)]
pub struct Draws<'a> {
    /// w projection rows, by row, then part; entries -1, 0, 1. Drawn after message 1.
    pub projections: &'a [i32],
    /// ψ, 5 by L numbers. Drawn after message 2.
    pub psi: &'a [i32],
    /// ω, 5 by w numbers. Drawn after message 2.
    pub omega: &'a [i32],
    /// α, an element to each whole constraint. Drawn after message 3.
    pub alpha: &'a [i32],
    /// δ, five elements. Drawn after message 3.
    pub delta: &'a [i32],
    /// The challenges, an element to each part. At degree 64 exactly 23 coefficients are zero, 31 are 1 or -1, and 10 are 2 or -2; at smaller
    /// degrees coefficients are -2 to 2, and the squared length is at most 71. Drawn after message 4.
    pub c: &'a [i32],
}

/// What the prover sends.
#[derive(Clone, Copy, Debug, Default, PartialEq, Eq)]
pub struct Messages<'a> {
    /// Message 1: the commitment to the t and g digits.
    pub u1: &'a [i32],
    /// Message 2: the projection.
    pub p: &'a [i32],
    /// Message 3: b'', five elements.
    pub second_b: &'a [i32],
    /// Message 4: the commitment to the h digits.
    pub u2: &'a [i32],
    /// Message 5: z low, z high, or z in one digit; the digits of t, g and h.
    pub opening: &'a [i32],
}

/// All that the verifier is given.
///
/// ```
/// use lizkarg::{Sheet, Verdict};
///
/// let sheet = Sheet::read(include_bytes!("../../../examples/class.sheet"))?;
/// assert_eq!(sheet.proof().verify()?, Verdict::Accepted(0));
/// # Ok::<(), lizkarg::Refused>(())
/// ```
#[derive(Clone, Copy, Debug, PartialEq, Eq)]
pub struct Proof<'a> {
    /// What is proved.
    pub statement: Statement<'a>,
    /// What was drawn.
    pub draws: Draws<'a>,
    /// What the prover sent.
    pub messages: Messages<'a>,
}

impl Statement<'_> {
    /// Message 1: writes the t digits, the g digits and u1.
    ///
    /// # Errors
    /// Refused 1 to 4, 7, 8; then nothing is written.
    pub fn commit(&self, witness: &[i32], t: &mut [i32], g: &mut [i32], u1: &mut [i32]) -> Result<(), Refused> {
        raw::lizkarg_commit(self.sizes.commit_sizes(), self.a_matrix, self.b_matrix, self.c_matrix, witness, t, g, u1).written()
    }

    /// Message 2: writes p. Of the draws it takes the projection rows.
    ///
    /// # Errors
    /// Refused 1, 2, 7 to 9; then nothing is written.
    pub fn project(&self, draws: &Draws, witness: &[i32], p: &mut [i32]) -> Result<(), Refused> {
        raw::lizkarg_project(self.sizes.shape(), self.sizes.w, draws.projections, witness, p).written()
    }

    /// Message 3: writes the five b''. Of the draws it takes the projection rows, ψ and ω.
    ///
    /// # Errors
    /// Refused 1, 2, 7 to 9; then nothing is written.
    pub fn aggregate(&self, draws: &Draws, witness: &[i32], second_b: &mut [i32]) -> Result<(), Refused> {
        let (Sizes { l, w, .. }, Draws { projections, psi, omega, .. }) = (self.sizes, draws);
        raw::lizkarg_aggregate(self.sizes.shape(), l, w, self.constant_terms, projections, psi, omega, witness, second_b).written()
    }

    /// Message 4: writes the h digits and u2. It takes all draws but the challenges.
    ///
    /// # Errors
    /// Refused 1 to 4, 7 to 9; then nothing is written.
    pub fn commit_garbage(&self, draws: &Draws, witness: &[i32], h: &mut [i32], u2: &mut [i32]) -> Result<(), Refused> {
        let Draws { projections, psi, omega, alpha, delta, .. } = draws;
        let (sizes, whole, constant_terms) = (self.sizes.garbage_sizes(), self.whole, self.constant_terms);
        raw::lizkarg_commit_garbage(sizes, whole, constant_terms, projections, psi, omega, alpha, delta, self.d_matrix, witness, h, u2)
            .written()
    }

    /// Message 5: writes z low, then z high, or z in one digit. Of the draws it takes the challenges.
    ///
    /// # Errors
    /// Refused 1, 2, 4, 7, 8, 10, with one digit not 4; then nothing is written.
    pub fn amortize(&self, draws: &Draws, witness: &[i32], z: &mut [i32]) -> Result<(), Refused> {
        let shape = self.sizes.shape();
        match self.sizes.z {
            ZDigits::One => raw::lizkarg_amortize_one_digit(shape, draws.c, witness, z),
            ZDigits::Two(b) => raw::lizkarg_amortize(shape, b, draws.c, witness, z),
        }
        .written()
    }
}

impl<'a> Proof<'a> {
    /// The proof whose lists stand one after another in `numbers`, in the sheet's order. Of numbers that are too few or too many some list
    /// gets a wrong length, which every call refuses by 7.
    #[must_use]
    pub fn of_numbers(sizes: Sizes, numbers: &'a [i32]) -> Proof<'a> {
        let mut rest = numbers;
        let mut next = |length: usize| {
            let (list, others) = rest.split_at(length.min(rest.len()));
            rest = others;
            list
        };
        let l: Lengths = sizes.lengths();
        let (a_matrix, b_matrix, c_matrix, d_matrix) = (next(l.a_matrix), next(l.b_matrix), next(l.c_matrix), next(l.d_matrix));
        let (whole, constant_terms, u1) = (next(l.whole), next(l.constant_terms), next(l.u1));
        let (projections, p, psi, omega, second_b) = (next(l.projections), next(l.p), next(l.psi), next(l.omega), next(l.second_b));
        let (alpha, delta, u2, c) = (next(l.alpha), next(l.delta), next(l.u2), next(l.c));
        Proof {
            statement: Statement { sizes, a_matrix, b_matrix, c_matrix, d_matrix, whole, constant_terms },
            draws: Draws { projections, psi, omega, alpha, delta, c },
            messages: Messages { u1, p, second_b, u2, opening: rest },
        }
    }

    /// The verdict: the first check that fails, or accepted with the margin.
    ///
    /// # Errors
    /// Refused 1 to 4, 6 to 10, 15.
    pub fn verify(&self) -> Result<Verdict, Refused> {
        let Proof { statement: s, draws: v, messages: m } = self;
        raw::lizkarg_verify(
            s.sizes.raw(),
            s.a_matrix,
            s.b_matrix,
            s.c_matrix,
            s.d_matrix,
            s.whole,
            s.constant_terms,
            m.u1,
            v.projections,
            m.p,
            v.psi,
            v.omega,
            m.second_b,
            v.alpha,
            v.delta,
            m.u2,
            v.c,
            m.opening,
        )
        .judged()
    }

    /// The text of the sheet that holds this proof, which has two z digits.
    ///
    /// ```
    /// use lizkarg::Sheet;
    ///
    /// let text = include_bytes!("../../../examples/class.sheet");
    /// let sheet = Sheet::read(text)?;
    /// assert_eq!(sheet.proof().write_sheet(sheet.cut)?, text);
    /// # Ok::<(), lizkarg::Refused>(())
    /// ```
    ///
    /// # Errors
    /// Refused 1 to 10; with one z digit by 4 if not by 1 to 3.
    pub fn write_sheet(&self, cut: Cut) -> Result<Vec<u8>, Refused> {
        let Proof { statement: s, draws: v, messages: m } = self;
        let l = s.sizes.lengths();
        let lists = [
            (s.a_matrix, l.a_matrix),
            (s.b_matrix, l.b_matrix),
            (s.c_matrix, l.c_matrix),
            (s.d_matrix, l.d_matrix),
            (s.whole, l.whole),
            (s.constant_terms, l.constant_terms),
            (m.u1, l.u1),
            (v.projections, l.projections),
            (m.p, l.p),
            (v.psi, l.psi),
            (v.omega, l.omega),
            (m.second_b, l.second_b),
            (v.alpha, l.alpha),
            (v.delta, l.delta),
            (m.u2, l.u2),
            (v.c, l.c),
            (m.opening, l.opening),
        ];
        // the library counts all numbers together: where one list is too long and another too short it is given none, and refuses by 7 at
        // the latest
        let fit = lists.iter().all(|(list, length)| list.len() == *length);
        let numbers = if fit { lists.map(|(list, _)| list).concat() } else { Vec::new() };
        Sheet { sizes: s.sizes, cut, numbers }.write()
    }

    /// Writes the constraints of the next instance to `out`, whose length is [`NextSizes::whole`](crate::NextSizes::whole). The opening is not looked at.
    ///
    /// # Errors
    /// Refused 1 to 11. Then, and where check 1 or 2 fails, nothing is written.
    pub fn write_next_instance(&self, cut: Cut, out: &mut [i32]) -> Result<Next, Refused> {
        let Proof { statement: s, draws: v, messages: m } = self;
        let answer = raw::lizkarg_next_instance(
            s.sizes.raw(),
            cut.nu,
            cut.mu,
            s.a_matrix,
            s.b_matrix,
            s.c_matrix,
            s.d_matrix,
            s.whole,
            s.constant_terms,
            m.u1,
            v.projections,
            m.p,
            v.psi,
            v.omega,
            m.second_b,
            v.alpha,
            v.delta,
            m.u2,
            v.c,
            out,
        );
        Ok(match answer.written_or_failed()? {
            None => Next::Written(()),
            Some(check) => Next::Failed(check),
        })
    }

    /// The constraints of the next instance. The opening is not looked at. A chain must cut with ν·n' = n ([`Sizes::has_full_chunks`]): else its accepted end says
    /// nothing of this statement. docs/CALLS.md says what a chain with full chunks shows, and what it does not.
    ///
    /// ```
    /// use lizkarg::{Next, Sheet};
    ///
    /// let sheet = Sheet::read(include_bytes!("../../../examples/class.sheet"))?;
    /// let Next::Written(whole) = sheet.proof().next_instance(sheet.cut)? else { panic!("check 1 or 2 fails") };
    /// assert_eq!(whole.len(), sheet.sizes.next(sheet.cut).whole);
    /// # Ok::<(), lizkarg::Refused>(())
    /// ```
    ///
    /// # Errors
    /// Refused 1 to 11.
    pub fn next_instance(&self, cut: Cut) -> Result<Next<Vec<i32>>, Refused> {
        let mut out = room(self.statement.sizes.next(cut).whole);
        Ok(match self.write_next_instance(cut, &mut out)? {
            Next::Written(()) => Next::Written(out),
            Next::Failed(check) => Next::Failed(check),
        })
    }

    /// Part `part`, from 1, of the next witness, without the zeros that pad it: that chunk of the opening.
    ///
    /// # Errors
    /// Refused 1 to 5, 7; 2 also for a part that is not 1 to r': 2ν+μ, with one z digit ν+μ.
    pub fn next_part(&self, cut: Cut, part: usize) -> Result<&'a [i32], Refused> {
        match raw::lizkarg_next_part_refusal(self.statement.sizes.part_sizes(cut), part, self.messages.opening) {
            0 => Ok(self.next_part_or_empty(cut, part)),
            number => Err(Refused(number)),
        }
    }

    /// [`Proof::next_part`], and no numbers where it is refused. The last chunks may have none too.
    #[must_use]
    pub fn next_part_or_empty(&self, cut: Cut, part: usize) -> &'a [i32] {
        let opening = self.messages.opening;
        let place = raw::lizkarg_next_part(self.statement.sizes.part_sizes(cut), part, opening);
        &opening[place.start..place.start + place.length]
    }

    /// The next witness: its parts, each padded with zeros.
    ///
    /// # Errors
    /// Those of [`Proof::next_part`].
    pub fn next_witness(&self, cut: Cut) -> Result<Vec<i32>, Refused> {
        let (next, d) = (self.statement.sizes.next(cut), self.statement.sizes.d);
        self.next_part(cut, next.r)?;
        let mut witness = Vec::with_capacity(next.r * next.n * d);
        for part in 1..=next.r {
            witness.extend_from_slice(self.next_part(cut, part)?);
            witness.resize(part * next.n * d, 0);
        }
        Ok(witness)
    }
}
