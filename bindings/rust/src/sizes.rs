use crate::raw;

/// The number of second functions: b'' and δ have five elements, ψ and ω five rows.
pub(crate) const FIVE: usize = 5;

/// How an opening keeps z: in two digits, or whole in one. The next instance of one digit has no mixed products and fewer parts: r' = ν+μ. A sheet has two.
#[derive(Clone, Copy, Debug, PartialEq, Eq, Hash)]
pub enum ZDigits {
    /// z itself. There is no base, and none is refused.
    One,
    /// z low and z high, to this base: 2 to 65536.
    Two(usize),
}

impl ZDigits {
    /// How many there are.
    #[must_use]
    pub fn count(self) -> usize {
        match self {
            ZDigits::One => 1,
            ZDigits::Two(_) => 2,
        }
    }

    /// The base, if there is one.
    #[must_use]
    pub fn base(self) -> Option<usize> {
        match self {
            ZDigits::One => None,
            ZDigits::Two(b) => Some(b),
        }
    }
}

/// The sizes, bases and bounds of a statement, in the sheet's order. `Sizes::lengths` has the length of every list.
#[derive(Clone, Copy, Debug, PartialEq, Eq, Hash)]
pub struct Sizes {
    /// The degree: 2, 4, 8, 16, 32 or 64.
    pub d: usize,
    /// Elements to a part of the witness: 1 to 256.
    pub n: usize,
    /// Parts of the witness: 1 to 16.
    pub r: usize,
    /// Whole constraints: 0 to 32.
    pub k: usize,
    /// Constant-term constraints: 0 to 32.
    pub l: usize,
    /// Projection rows: 0 to 256.
    pub w: usize,
    /// κ, the rows of A: 1 to 8.
    pub kappa: usize,
    /// κ1, the rows of B and C: 1 to 8.
    pub kappa1: usize,
    /// κ2, the rows of D: 1 to 8.
    pub kappa2: usize,
    /// z in two digits, with their base, or in one.
    pub z: ZDigits,
    /// The base of the digits of t and h: 2 to 65536.
    pub b1: usize,
    /// The base of the digits of g: 2 to 65536.
    pub b2: usize,
    /// The number of digits of t and h: 2 to 8.
    pub t1: usize,
    /// The number of digits of g: 2 to 8.
    pub t2: usize,
    /// β², the bound on the witness's squared length: 0 to 999999999999999.
    pub bound: u64,
    /// β'², the bound on the opening's squared length: 0 to 999999999999999.
    pub target: u64,
}

/// How the next instance cuts an opening: z low and z high into ν chunks each, the rest into μ. Both are at least 1, 2ν+μ at most 16. With one z digit z is cut
/// into ν chunks, and ν+μ is at most 16.
///
/// A chain, which folds the next instance in its turn, must cut z into full chunks: [`Sizes::has_full_chunks`].
#[derive(Clone, Copy, Debug, PartialEq, Eq, Hash)]
pub struct Cut {
    /// ν.
    pub nu: usize,
    /// μ.
    pub mu: usize,
}

/// How many numbers each list has. Where sizes are past their limits, and every call refuses them, a length stops at `usize::MAX`.
#[derive(Clone, Copy, Debug, PartialEq, Eq, Hash)]
pub struct Lengths {
    /// A: κ rows of n elements.
    pub a_matrix: usize,
    /// B: κ1 rows, an element to each t digit.
    pub b_matrix: usize,
    /// C: κ1 rows, an element to each g digit.
    pub c_matrix: usize,
    /// D: κ2 rows, an element to each h digit.
    pub d_matrix: usize,
    /// The whole constraints.
    pub whole: usize,
    /// The constant-term constraints.
    pub constant_terms: usize,
    /// u1: κ1 elements.
    pub u1: usize,
    /// The projection rows.
    pub projections: usize,
    /// p: w numbers.
    pub p: usize,
    /// ψ: 5 rows of L numbers.
    pub psi: usize,
    /// ω: 5 rows of w numbers.
    pub omega: usize,
    /// b'': 5 elements.
    pub second_b: usize,
    /// α: K elements.
    pub alpha: usize,
    /// δ: 5 elements.
    pub delta: usize,
    /// u2: κ2 elements.
    pub u2: usize,
    /// c: r elements.
    pub c: usize,
    /// The opening: the digits of z, t, g and h.
    pub opening: usize,
    /// The witness: r parts of n elements.
    pub witness: usize,
    /// z low and z high, or z: n elements each.
    pub z: usize,
    /// The t digits.
    pub t: usize,
    /// The g digits.
    pub g: usize,
    /// The h digits.
    pub h: usize,
}

/// The sizes of the next instance; its degree is the same, it has no constant-term constraints, and its bound is β'².
#[derive(Clone, Copy, Debug, PartialEq, Eq, Hash)]
pub struct NextSizes {
    /// n', the elements to a part.
    pub n: usize,
    /// r' = 2ν+μ, with one z digit ν+μ: the parts.
    pub r: usize,
    /// K' = κ+κ1+κ2+3, the constraints, all of the whole kind.
    pub k: usize,
    /// How many numbers the constraints have.
    pub whole: usize,
}

/// The product, or the largest number where it is past that.
pub(crate) fn product<const N: usize>(factors: [usize; N]) -> usize {
    factors.into_iter().fold(1, usize::saturating_mul)
}

/// The sum, or the largest number where it is past that.
pub(crate) fn sum<const N: usize>(terms: [usize; N]) -> usize {
    terms.into_iter().fold(0, usize::saturating_add)
}

/// The pairs i ≤ j of r parts.
fn pairs(r: usize) -> usize {
    product([r, r.saturating_add(1)]) / 2
}

/// The numbers of a and φ of a constraint.
pub(crate) fn function(d: usize, n: usize, r: usize) -> usize {
    product([sum([pairs(r), product([r, n])]), d])
}

impl Sizes {
    /// How many numbers each list has.
    ///
    /// ```
    /// # let sizes = lizkarg::Sizes { d: 2, n: 1, r: 1, k: 1, l: 0, w: 0, kappa: 1, kappa1: 1, kappa2: 1, z: lizkarg::ZDigits::Two(4), b1: 8, b2: 4, t1: 2, t2: 2, bound: 5, target: 13 };
    /// let lengths = sizes.lengths();
    /// assert_eq!((lengths.witness, lengths.whole, lengths.opening), (2, 6, 16));
    /// ```
    #[must_use]
    pub fn lengths(&self) -> Lengths {
        let Sizes { d, n, r, k, l, w, kappa, kappa1, kappa2, t1, t2, .. } = *self;
        let (z, t) = (product([self.z.count(), n, d]), product([r, t1, kappa, d]));
        let (g, h) = (product([pairs(r), t2, d]), product([pairs(r), t1, d]));
        let function = function(d, n, r);
        Lengths {
            a_matrix: product([kappa, n, d]),
            b_matrix: product([kappa1, t]),
            c_matrix: product([kappa1, g]),
            d_matrix: product([kappa2, h]),
            whole: product([k, sum([function, d])]),
            constant_terms: product([l, sum([function, 1])]),
            u1: product([kappa1, d]),
            projections: product([w, r, n, d]),
            p: w,
            psi: product([FIVE, l]),
            omega: product([FIVE, w]),
            second_b: product([FIVE, d]),
            alpha: product([k, d]),
            delta: product([FIVE, d]),
            u2: product([kappa2, d]),
            c: product([r, d]),
            opening: sum([z, t, g, h]),
            witness: product([r, n, d]),
            z,
            t,
            g,
            h,
        }
    }

    /// The sizes of the next instance.
    ///
    /// ```
    /// # let sizes = lizkarg::Sizes { d: 2, n: 1, r: 1, k: 1, l: 0, w: 0, kappa: 1, kappa1: 1, kappa2: 1, z: lizkarg::ZDigits::Two(4), b1: 8, b2: 4, t1: 2, t2: 2, bound: 5, target: 13 };
    /// let next = sizes.next(lizkarg::Cut { nu: 1, mu: 1 });
    /// assert_eq!((next.n, next.r, next.k), (6, 3, 6));
    /// ```
    #[must_use]
    pub fn next(&self, cut: Cut) -> NextSizes {
        let Sizes { d, n, r, kappa, kappa1, kappa2, t1, t2, .. } = *self;
        let rest = sum([product([r, kappa, t1]), product([pairs(r), sum([t1, t2])])]);
        // a count of 0 is refused by row 5 whatever stands here
        let n = n.div_ceil(cut.nu.max(1)).max(rest.div_ceil(cut.mu.max(1)));
        let r = sum([product([self.z.count(), cut.nu]), cut.mu]);
        let k = sum([kappa, kappa1, kappa2, 3]);
        NextSizes { n, r, k, whole: product([k, sum([function(d, n, r), d])]) }
    }

    /// Whether the cut makes each chunk of z as long as n', so that none has padding: ν·n' = n. A chain must cut so. With other chunks the next instance can be
    /// solved by a witness whose padding is not zero, though the statement has no solution; nobody sees that padding, and the accepted end of the chain
    /// says nothing of the first statement. No cut that row 5 refuses is full.
    ///
    /// ```
    /// # use lizkarg::{Cut, Sizes, ZDigits};
    /// # let sizes = Sizes { d: 64, n: 12, r: 2, k: 1, l: 0, w: 0, kappa: 1, kappa1: 1, kappa2: 1, z: ZDigits::One, b1: 8, b2: 4, t1: 2, t2: 2, bound: 5, target: 13 };
    /// assert!(sizes.has_full_chunks(Cut { nu: 2, mu: 3 }));
    /// assert!(!sizes.has_full_chunks(Cut { nu: 2, mu: 2 }));
    /// assert!(!sizes.has_full_chunks(Cut { nu: 1, mu: 16 }));
    /// ```
    #[must_use]
    pub fn has_full_chunks(&self, cut: Cut) -> bool {
        let next = self.next(cut);
        cut.nu > 0 && cut.mu > 0 && next.r <= 16 && product([cut.nu, next.n]) == self.n
    }

    pub(crate) fn raw(&self) -> raw::Sizes {
        let Sizes { d, n, r, k, l, w, kappa, kappa1, kappa2, z, b1, b2, t1, t2, bound, target } = *self;
        let b = z.base().unwrap_or(0);
        raw::Sizes { d, n, r, k, l, w, kappa, kappa1, kappa2, b, b1, b2, t1, t2, bound, target, one_digit: self.one_digit() }
    }

    /// The flag of the C interface.
    fn one_digit(&self) -> u8 {
        u8::from(self.z == ZDigits::One)
    }

    pub(crate) fn shape(&self) -> raw::Shape {
        let Sizes { d, n, r, .. } = *self;
        raw::Shape { d, n, r }
    }

    pub(crate) fn commit_sizes(&self) -> raw::CommitSizes {
        let Sizes { d, n, r, kappa, kappa1, b1, b2, t1, t2, .. } = *self;
        raw::CommitSizes { d, n, r, kappa, kappa1, b1, b2, t1, t2 }
    }

    pub(crate) fn garbage_sizes(&self) -> raw::GarbageSizes {
        let Sizes { d, n, r, k, l, w, kappa2, b1, t1, .. } = *self;
        raw::GarbageSizes { d, n, r, k, l, w, kappa2, b1, t1 }
    }

    pub(crate) fn part_sizes(&self, cut: Cut) -> raw::PartSizes {
        let Sizes { d, n, r, kappa, t1, t2, .. } = *self;
        raw::PartSizes { d, n, r, kappa, t1, t2, nu: cut.nu, mu: cut.mu, one_digit: self.one_digit() }
    }
}

/// A list of zeros to write to. Sizes within their limits give no length as large as 2^27; from there on the list is empty, since the call
/// refuses the sizes.
pub(crate) fn room(length: usize) -> Vec<i32> {
    vec![0; if length < 1 << 27 { length } else { 0 }]
}
