//! The fold once more, written from the specification alone and as one would write it first: vectors of elements, one remainder for each product
//! of numbers, whole functions formed and kept. A ring element is a vector of d centred numbers, lowest power first.
#![forbid(unsafe_code)]

pub mod bare;
pub mod lists;
pub mod messages;
pub mod next;
pub mod refusals;
pub mod ring;
pub mod sheet;
pub mod verdict;
