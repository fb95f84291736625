use std::error::Error;
use std::fmt;

/// A call was refused: the number of a row of SPECIFICATION 7. Nothing was written.
///
/// ```
/// use lizkarg::{judge_sheet, Refused};
///
/// let refused = judge_sheet(b"no sheet").unwrap_err();
/// assert_eq!(refused, Refused(12));
/// assert_eq!(refused.to_string(), "refused: 12, the text is no sheet, or longer than 65536 bytes");
/// ```
#[derive(Clone, Copy, Debug, PartialEq, Eq, Hash)]
pub struct Refused(
    /// The row's number.
    pub u8,
);

impl Refused {
    /// What the row says, in words.
    #[must_use]
    pub fn reason(self) -> &'static str {
        match self.0 {
            1 => "the degree d is not 2, 4, 8, 16, 32 or 64",
            2 => "n, r, K, L, w or a part or turn number is outside its limits",
            3 => "a commitment rank is not 1 to 8",
            4 => "a base is not 2 to 65536 or a digit count is not 2 to 8",
            5 => "nu or mu is below 1, or they cut into more than 16 parts",
            6 => "a bound is negative or above 999999999999999",
            7 => "a list's length is not what the sizes give",
            8 => "a number is out of range",
            9 => "a projection entry is not -1, 0 or 1",
            10 => "a challenge is outside the rule",
            11 => "the next instance has more than 256 elements to a part",
            12 => "the text is no sheet, or longer than 65536 bytes",
            13 => "the buffer is shorter than the text",
            14 => "a constraint of the bare level has a nonzero a_ij with i < j",
            15 => "a low digit is more than half its base",
            _ => "a row that this binding does not know",
        }
    }
}

impl fmt::Display for Refused {
    fn fmt(&self, f: &mut fmt::Formatter<'_>) -> fmt::Result {
        write!(f, "refused: {}, {}", self.0, self.reason())
    }
}

impl Error for Refused {}

/// A judgement: accepted with its margin, or failed with a check.
///
/// ```
/// use lizkarg::{judge_sheet, Verdict};
///
/// let verdict = judge_sheet(include_bytes!("../../../examples/whole-case-margin.sheet"))?;
/// assert_eq!(verdict, Verdict::Accepted(7));
/// assert_eq!(verdict.margin(), Some(7));
/// assert_eq!(verdict.to_string(), "accepted: all nine checks hold, margin 7");
/// # Ok::<(), lizkarg::Refused>(())
/// ```
#[must_use]
#[derive(Clone, Copy, Debug, PartialEq, Eq, Hash)]
pub enum Verdict {
    /// All nine checks hold. The margin is the target bound minus the squared length of all digits of the opening, from 0 to 999999999999999.
    Accepted(u64),
    /// The first check that fails, from 1 to 9.
    Failed(u8),
}

impl Verdict {
    /// Whether all checks hold.
    #[must_use]
    pub fn is_accepted(self) -> bool {
        self.margin().is_some()
    }

    /// How far the squared length of all digits is below the target bound; none where a check failed.
    #[must_use]
    pub fn margin(self) -> Option<u64> {
        match self {
            Verdict::Accepted(margin) => Some(margin),
            Verdict::Failed(_) => None,
        }
    }

    /// The two numbers that the program prints: 0 accepted, 1 failed; and the margin, or the check.
    #[must_use]
    pub fn code(self) -> (u8, u64) {
        match self {
            Verdict::Accepted(margin) => (0, margin),
            Verdict::Failed(check) => (1, check.into()),
        }
    }
}

/// What a check that fails found, in words.
fn finding(check: u8) -> &'static str {
    match check {
        1 => "the projection p is too long",
        2 => "a constant term of b'' is not what p and the constraints give",
        3 => "u1 does not belong to the t and g digits",
        4 => "u2 does not belong to the h digits",
        5 => "A z is not the sum of the c_i t_i",
        6 => "<z,z> is not what the g digits give",
        7 => "the sum of <phi_i,z> c_i is not what the h digits give",
        8 => "the aggregated constraint does not hold",
        9 => "the digits are longer than the target bound",
        _ => "a check that this binding does not know",
    }
}

impl fmt::Display for Verdict {
    fn fmt(&self, f: &mut fmt::Formatter<'_>) -> fmt::Result {
        match self {
            Verdict::Accepted(margin) => write!(f, "accepted: all nine checks hold, margin {margin}"),
            Verdict::Failed(check) => write!(f, "failed: check {check}, {}", finding(*check)),
        }
    }
}

/// A judgement on the bare level, whose seven checks are its own.
///
/// ```
/// use lizkarg::BareVerdict;
///
/// assert_eq!(BareVerdict::Accepted(7).to_string(), "accepted: all seven checks of the bare level hold, margin 7");
/// assert_eq!(BareVerdict::Failed(4).to_string(), "failed: the bare level's check 4, <z,z> is not what the garbage of z gives");
/// ```
#[must_use]
#[derive(Clone, Copy, Debug, PartialEq, Eq, Hash)]
pub enum BareVerdict {
    /// All seven checks hold. The margin is the bound on z minus the squared length of z, from 0 to 999999999999999.
    Accepted(u64),
    /// The first check that fails, from 1 to 7.
    Failed(u8),
}

impl BareVerdict {
    /// Whether all checks hold.
    #[must_use]
    pub fn is_accepted(self) -> bool {
        self.margin().is_some()
    }

    /// How far the squared length of z is below the bound on z; none where a check failed.
    #[must_use]
    pub fn margin(self) -> Option<u64> {
        match self {
            BareVerdict::Accepted(margin) => Some(margin),
            BareVerdict::Failed(_) => None,
        }
    }

    /// The two numbers of the answer: 0 accepted, 1 failed; and the margin, or the check.
    #[must_use]
    pub fn code(self) -> (u8, u64) {
        match self {
            BareVerdict::Accepted(margin) => (0, margin),
            BareVerdict::Failed(check) => (1, check.into()),
        }
    }
}

/// What a check of the bare level that fails found, in words.
fn bare_finding(check: u8) -> &'static str {
    match check {
        1 | 2 => finding(check),
        3 => "A z is not the sum of the c_i t_i",
        4 => "<z,z> is not what the garbage of z gives",
        5 => "the sum of <phi_i,z> c_i is not what the garbage of phi gives",
        6 => "the aggregated constraint does not hold",
        7 => "z is longer than the bound on z",
        _ => "a check that this binding does not know",
    }
}

impl fmt::Display for BareVerdict {
    fn fmt(&self, f: &mut fmt::Formatter<'_>) -> fmt::Result {
        match self {
            BareVerdict::Accepted(margin) => write!(f, "accepted: all seven checks of the bare level hold, margin {margin}"),
            BareVerdict::Failed(check) => write!(f, "failed: the bare level's check {check}, {}", bare_finding(*check)),
        }
    }
}

/// The answer to a question for the next instance that was not refused. `Written` is no judgement.
#[must_use]
#[derive(Clone, Copy, Debug, PartialEq, Eq, Hash)]
pub enum Next<T = ()> {
    /// The constraints are written; where they come as a value, this is it.
    Written(T),
    /// Check 1 or 2 fails, and nothing is written.
    Failed(u8),
}
