#![doc = include_str!("../README.md")]
#![deny(missing_docs, missing_debug_implementations)]

mod answer;
mod bare;
mod bare_prover;
mod element;
mod proof;
mod prover;
mod raw;
mod sheet;
mod sizes;

pub use answer::{BareVerdict, Next, Refused, Verdict};
pub use bare::{BareLengths, BareMessages, BareProof, BareSizes, BareStatement};
pub use bare_prover::BareProver;
pub use element::Element;
pub use proof::{Draws, Messages, Proof, Statement};
pub use prover::Prover;
pub use sheet::{judge_sheet, read_sheet, sheet_bytes, sheet_numbers, write_sheet, Sheet};
pub use sizes::{Cut, Lengths, NextSizes, Sizes, ZDigits};
