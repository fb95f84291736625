//! What a call answers, in one type for both implementations.
use lizkarg::{BareVerdict, Next, Refused, Verdict};

#[derive(Clone, Copy, Debug, PartialEq, Eq)]
pub enum Answer {
    /// The row's number.
    Refused(u8),
    Judged(Verdict),
    Written,
}

impl Answer {
    /// Kind and number: 0 accepted, 1 failed, 2 refused, 3 written; the margin, the check, the row or 0.
    pub fn code(self) -> (u8, u64) {
        match self {
            Answer::Judged(verdict) => verdict.code(),
            Answer::Refused(number) => (2, number.into()),
            Answer::Written => (3, 0),
        }
    }
}

impl From<Refused> for Answer {
    fn from(refused: Refused) -> Answer {
        Answer::Refused(refused.0)
    }
}

impl From<()> for Answer {
    fn from(_: ()) -> Answer {
        Answer::Written
    }
}

impl From<Verdict> for Answer {
    fn from(verdict: Verdict) -> Answer {
        Answer::Judged(verdict)
    }
}

/// The checks of the bare level are its own; they are numbered alike.
impl From<BareVerdict> for Answer {
    fn from(verdict: BareVerdict) -> Answer {
        Answer::Judged(match verdict {
            BareVerdict::Accepted(margin) => Verdict::Accepted(margin),
            BareVerdict::Failed(check) => Verdict::Failed(check),
        })
    }
}

impl From<Next> for Answer {
    fn from(next: Next) -> Answer {
        match next {
            Next::Written(()) => Answer::Written,
            Next::Failed(check) => Answer::Judged(Verdict::Failed(check)),
        }
    }
}

impl<T: Into<Answer>> From<Result<T, Refused>> for Answer {
    fn from(answer: Result<T, Refused>) -> Answer {
        answer.map_or_else(Answer::from, T::into)
    }
}
