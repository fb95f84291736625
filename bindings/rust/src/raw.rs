//! The C interface, as bindings/c/lizkarg.h declares it, each list as a slice. All that is unsafe in this crate stands in `calls!`.

use crate::{BareVerdict, Element, Refused, Verdict};

#[repr(C)]
#[derive(Clone, Copy)]
pub struct Answer {
    kind: u8,
    number: u64,
}

impl Answer {
    /// The check that failed or the row that refused. Both are far below 256; a larger number would stand for one that nobody knows.
    fn named(self) -> u8 {
        u8::try_from(self.number).unwrap_or(u8::MAX)
    }

    /// Ok where the call has written, and where it has judged.
    fn not_refused(self) -> Result<Answer, Refused> {
        match self.kind {
            2 => Err(Refused(self.named())),
            _ => Ok(self),
        }
    }

    pub fn written(self) -> Result<(), Refused> {
        self.not_refused().map(|_| ())
    }

    pub fn judged(self) -> Result<Verdict, Refused> {
        self.not_refused().map(|answer| match answer.kind {
            0 => Verdict::Accepted(answer.number),
            _ => Verdict::Failed(answer.named()),
        })
    }

    pub fn judged_bare(self) -> Result<BareVerdict, Refused> {
        self.not_refused().map(|answer| match answer.kind {
            0 => BareVerdict::Accepted(answer.number),
            _ => BareVerdict::Failed(answer.named()),
        })
    }

    /// The check that fails, or none where the call has written.
    pub fn written_or_failed(self) -> Result<Option<u8>, Refused> {
        self.not_refused().map(|answer| (answer.kind == 1).then_some(answer.named()))
    }
}

#[repr(C)]
pub struct Shape {
    pub d: usize,
    pub n: usize,
    pub r: usize,
}

#[repr(C)]
pub struct CommitSizes {
    pub d: usize,
    pub n: usize,
    pub r: usize,
    pub kappa: usize,
    pub kappa1: usize,
    pub b1: usize,
    pub b2: usize,
    pub t1: usize,
    pub t2: usize,
}

#[repr(C)]
pub struct GarbageSizes {
    pub d: usize,
    pub n: usize,
    pub r: usize,
    pub k: usize,
    pub l: usize,
    pub w: usize,
    pub kappa2: usize,
    pub b1: usize,
    pub t1: usize,
}

#[repr(C)]
pub struct ConstraintSizes {
    pub d: usize,
    pub n: usize,
    pub r: usize,
    pub k: usize,
    pub l: usize,
    pub w: usize,
}

#[repr(C)]
pub struct BareSizes {
    pub d: usize,
    pub n: usize,
    pub r: usize,
    pub k: usize,
    pub l: usize,
    pub w: usize,
    pub kappa: usize,
    pub bound: u64,
    pub z_bound: u64,
}

#[repr(C)]
pub struct Sizes {
    pub d: usize,
    pub n: usize,
    pub r: usize,
    pub k: usize,
    pub l: usize,
    pub w: usize,
    pub kappa: usize,
    pub kappa1: usize,
    pub kappa2: usize,
    pub b: usize,
    pub b1: usize,
    pub b2: usize,
    pub t1: usize,
    pub t2: usize,
    pub bound: u64,
    pub target: u64,
    pub one_digit: u8,
}

#[repr(C)]
#[derive(Clone, Copy)]
pub struct PartSizes {
    pub d: usize,
    pub n: usize,
    pub r: usize,
    pub kappa: usize,
    pub t1: usize,
    pub t2: usize,
    pub nu: usize,
    pub mu: usize,
    pub one_digit: u8,
}

#[repr(C)]
pub struct Part {
    pub start: usize,
    pub length: usize,
}

#[repr(C)]
pub struct Header {
    pub answer: Answer,
    pub d: usize,
    pub n: usize,
    pub r: usize,
    pub k: usize,
    pub l: usize,
    pub w: usize,
    pub kappa: usize,
    pub kappa1: usize,
    pub kappa2: usize,
    pub b: usize,
    pub b1: usize,
    pub b2: usize,
    pub t1: usize,
    pub t2: usize,
    pub nu: usize,
    pub mu: usize,
    pub bound: u64,
    pub target: u64,
}

#[repr(C)]
pub struct Text {
    pub answer: Answer,
    pub length: usize,
}

#[repr(C)]
pub struct Product {
    pub answer: Answer,
    pub element: Element,
}

/// Calls as `NAME<T>(sizes; lists of T that it reads; lists that it writes, each with its type)`: in C each list is a pointer and a length.
macro_rules! calls {
    ($($name:ident<$t:ty>($($size:ident: $s:ty),*; $($list:ident),*; $($out:ident: $u:ty),*) -> $answer:ty;)*) => {
        mod c {
            use super::*;
            extern "C" {
                $(pub fn $name($($size: $s,)* $($list: *const $t, _: usize,)* $($out: *mut $u, _: usize,)*) -> $answer;)*
            }
        }
        $(
            #[allow(clippy::too_many_arguments)]
            pub fn $name($($size: $s,)* $($list: &[$t],)* $($out: &mut [$u],)*) -> $answer {
                // SAFETY: the library reads and writes within the lengths, which are the slices'; what it writes overlaps no other list,
                // since the borrow is mutable. It keeps no pointer.
                unsafe { c::$name($($size,)* $($list.as_ptr(), $list.len(),)* $($out.as_mut_ptr(), $out.len(),)*) }
            }
        )*
    };
}

calls! {
    lizkarg_multiply<i32>(d: usize, x: Element, y: Element;;) -> Product;
    lizkarg_commit<i32>(sizes: CommitSizes; a_matrix, b_matrix, c_matrix, witness; t: i32, g: i32, u1: i32) -> Answer;
    lizkarg_project<i32>(shape: Shape, w: usize; projections, witness; p: i32) -> Answer;
    lizkarg_aggregate<i32>(shape: Shape, l: usize, w: usize; constant_terms, projections, psi, omega, witness; second_b: i32) -> Answer;
    lizkarg_commit_garbage<i32>(
        sizes: GarbageSizes; whole, constant_terms, projections, psi, omega, alpha, delta, d_matrix, witness; h: i32, u2: i32) -> Answer;
    lizkarg_amortize<i32>(shape: Shape, b: usize; c, witness; z: i32) -> Answer;
    lizkarg_amortize_one_digit<i32>(shape: Shape; c, witness; z: i32) -> Answer;
    lizkarg_verify<i32>(
        sizes: Sizes; a_matrix, b_matrix, c_matrix, d_matrix, whole, constant_terms, u1, projections, p, psi, omega, second_b, alpha, delta,
        u2, c, opening;) -> Answer;
    lizkarg_next_instance<i32>(
        sizes: Sizes, nu: usize, mu: usize; a_matrix, b_matrix, c_matrix, d_matrix, whole, constant_terms, u1, projections, p, psi, omega,
        second_b, alpha, delta, u2, c; out: i32) -> Answer;
    lizkarg_next_part_refusal<i32>(sizes: PartSizes, part: usize; opening;) -> u8;
    lizkarg_next_part<i32>(sizes: PartSizes, part: usize; opening;) -> Part;
    lizkarg_bare_commit<i32>(shape: Shape, kappa: usize; a_matrix, witness; t: i32) -> Answer;
    lizkarg_bare_phi<i32>(
        sizes: ConstraintSizes; whole, constant_terms, projections, psi, omega, alpha, delta; phi: i32) -> Answer;
    lizkarg_bare_turn<i32>(shape: Shape, turn: usize; phi, c, witness; garbage: i32) -> Answer;
    lizkarg_bare_verify<i32>(
        sizes: BareSizes; a_matrix, whole, constant_terms, projections, p, psi, omega, second_b, alpha, delta, c, opening;) -> Answer;
    lizkarg_judge_sheet<u8>(; text;) -> Answer;
    lizkarg_sheet_numbers<u8>(; text;) -> usize;
    lizkarg_read_sheet<u8>(; text; numbers: i32) -> Header;
    lizkarg_sheet_bytes<i32>(sizes: Sizes, nu: usize, mu: usize;;) -> usize;
    lizkarg_write_sheet<i32>(sizes: Sizes, nu: usize, mu: usize; numbers; text: u8) -> Text;
}
