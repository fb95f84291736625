//! The sizes of a fold and its lists.
use std::ops::{Deref, Range};

/// "Header: d n r K L w κ κ1 κ2 b b1 b2 t1 t2 ν μ β² β'²"; `bound` is β² and `target` is β'². And whether z has one digit: "With one, b is neither taken nor
/// tested".
#[derive(Clone, Copy, Debug, PartialEq, Eq)]
pub struct Sizes {
    pub d: usize,
    pub n: usize,
    pub r: usize,
    pub k: usize,
    pub l: usize,
    pub w: usize,
    pub kappa: usize,
    pub kappa1: usize,
    pub kappa2: usize,
    pub b: usize,
    pub b1: usize,
    pub b2: usize,
    pub t1: usize,
    pub t2: usize,
    pub nu: usize,
    pub mu: usize,
    pub bound: u64,
    pub target: u64,
    pub one_digit: bool,
}

/// The numbers of a header.
pub const SIZES: usize = 18;

// Products and sums that stop at the largest number: sizes that a call does not take are not tested, and no list is so long.
pub(crate) fn product<const N: usize>(factors: [usize; N]) -> usize {
    factors.into_iter().fold(1, usize::saturating_mul)
}

pub(crate) fn sum<const N: usize>(summands: [usize; N]) -> usize {
    summands.into_iter().fold(0, usize::saturating_add)
}

impl Sizes {
    pub fn from_header(header: [u64; SIZES]) -> Sizes {
        let [d, n, r, k, l, w, kappa, kappa1, kappa2, b, b1, b2, t1, t2, nu, mu, _, _] = header.map(|v| v as usize);
        let [.., bound, target] = header;
        Sizes { d, n, r, k, l, w, kappa, kappa1, kappa2, b, b1, b2, t1, t2, nu, mu, bound, target, one_digit: false }
    }

    /// The sizes as a sheet has them: "The sheet keeps two digits". With one there is no base, and 0, which is none, stands in its place.
    pub fn on_sheet(&self) -> Sizes {
        Sizes { b: if self.one_digit { 0 } else { self.b }, one_digit: false, ..*self }
    }

    pub fn header(&self) -> [u64; SIZES] {
        let Sizes { d, n, r, k, l, w, kappa, kappa1, kappa2, b, b1, b2, t1, t2, nu, mu, bound, target, one_digit: _ } = *self;
        let mut all = [d, n, r, k, l, w, kappa, kappa1, kappa2, b, b1, b2, t1, t2, nu, mu, 0, 0].map(|v| v as u64);
        (all[16], all[17]) = (bound, target);
        all
    }

    /// The number of z digits: "z has two, or one".
    pub fn z_digits(&self) -> usize {
        if self.one_digit { 1 } else { 2 }
    }

    /// "(r²+r)/2"
    pub fn pair_count(&self) -> usize {
        product([self.r, sum([self.r, 1])]) / 2
    }

    /// The pairs i ≤ j, by i, then j.
    pub fn pairs(&self) -> Vec<(usize, usize)> {
        (0..self.r).flat_map(|i| (i..self.r).map(move |j| (i, j))).collect()
    }

    /// The numbers of "a (by i, then j), φ (by part)".
    pub fn function(&self) -> usize {
        product([self.d, sum([self.pair_count(), product([self.r, self.n])])])
    }

    /// How many numbers the messages write.
    pub fn room(&self) -> Room {
        Room {
            z: product([self.z_digits(), self.n, self.d]),
            t: product([self.r, self.t1, self.kappa, self.d]),
            g: product([self.pair_count(), self.t2, self.d]),
            h: product([self.pair_count(), self.t1, self.d]),
            u1: product([self.kappa1, self.d]),
            p: self.w,
            second_b: product([5, self.d]),
            u2: product([self.kappa2, self.d]),
        }
    }

    /// The blocks of the opening, "the digits of z, t, g, h".
    pub fn blocks(&self) -> [Block; 4] {
        let (pairs, room) = (self.pair_count(), self.room());
        let (t, g) = (room.z, room.z + room.t);
        [
            Block { start: 0, base: self.b, values: 1, digits: self.z_digits(), width: self.n * self.d },
            Block { start: t, base: self.b1, values: self.r, digits: self.t1, width: self.kappa * self.d },
            Block { start: g, base: self.b2, values: pairs, digits: self.t2, width: self.d },
            Block { start: g + room.g, base: self.b1, values: pairs, digits: self.t1, width: self.d },
        ]
    }

    /// How many numbers each list has.
    pub fn lengths(&self) -> Lists<usize> {
        let room = self.room();
        Lists {
            a_matrix: product([self.kappa, self.n, self.d]),
            b_matrix: product([self.kappa1, room.t]),
            c_matrix: product([self.kappa1, room.g]),
            d_matrix: product([self.kappa2, room.h]),
            whole: product([self.k, sum([self.function(), self.d])]),
            constant_terms: product([self.l, sum([self.function(), 1])]),
            u1: room.u1,
            projections: product([self.w, self.r, self.n, self.d]),
            p: room.p,
            psi: product([5, self.l]),
            omega: product([5, self.w]),
            second_b: room.second_b,
            alpha: product([self.k, self.d]),
            delta: product([5, self.d]),
            u2: room.u2,
            c: product([self.r, self.d]),
            opening: sum([room.z, room.t, room.g, room.h]),
            witness: product([self.r, self.n, self.d]),
        }
    }
}

/// How many numbers the messages write: the digits of z, t, g and h, and u1, p, b'', u2.
#[derive(Clone, Copy, Debug)]
pub struct Room {
    pub z: usize,
    pub t: usize,
    pub g: usize,
    pub h: usize,
    pub u1: usize,
    pub p: usize,
    pub second_b: usize,
    pub u2: usize,
}

/// A block of the opening: where it starts, its base, how many values it has, how many digits a value has, and how many numbers a digit has.
/// The digits of a value follow one another, lowest first.
#[derive(Clone, Copy, Debug)]
pub struct Block {
    pub start: usize,
    pub base: usize,
    pub values: usize,
    pub digits: usize,
    pub width: usize,
}

impl Block {
    /// The places of each value's digits: the low ones, then the top one.
    pub fn places(self) -> impl Iterator<Item = (Range<usize>, Range<usize>)> {
        (0..self.values).map(move |value| {
            let first = self.start + value * self.digits * self.width;
            let top = first + (self.digits - 1) * self.width;
            (first..top, top..top + self.width)
        })
    }
}

/// A list that is owned or lent.
pub trait Numbers: Deref<Target = [i32]> {}
impl<T: Deref<Target = [i32]>> Numbers for T {}

macro_rules! lists {
    ($($name:ident)*) => {
        /// Something for each list: its numbers, or how many it has.
        #[derive(Clone, Debug, PartialEq, Eq)]
        pub struct Lists<T> {
            $(pub $name: T),*
        }

        /// How many lists there are.
        pub const LISTS: usize = [$(stringify!($name)),*].len();

        impl<T> Lists<T> {
            pub fn from_array(all: [T; LISTS]) -> Lists<T> {
                let [$($name),*] = all;
                Lists { $($name),* }
            }

            pub fn each(&self) -> [&T; LISTS] {
                [$(&self.$name),*]
            }

            pub fn each_mut(&mut self) -> [&mut T; LISTS] {
                [$(&mut self.$name),*]
            }
        }
    };
}

// the lists of a sheet, in its order, and the witness
lists! { a_matrix b_matrix c_matrix d_matrix whole constant_terms u1 projections p psi omega second_b alpha delta u2 c opening witness }

impl Lists<Vec<i32>> {
    /// Zeros of the lengths that the sizes give.
    pub fn zeros(s: &Sizes) -> Lists<Vec<i32>> {
        Lists::from_array(s.lengths().each().map(|length| vec![0; *length]))
    }

    /// The numbers of a sheet after its header.
    pub fn in_sheet_order(&self) -> Vec<i32> {
        self.each()[..LISTS - 1].iter().flat_map(|list| list.iter()).copied().collect()
    }

    /// The lists, cut from the numbers of a sheet; the witness is zero.
    pub fn from_sheet_order(s: &Sizes, numbers: &[i32]) -> Lists<Vec<i32>> {
        let mut lists = Lists::zeros(s);
        let mut rest = numbers;
        for list in &mut lists.each_mut()[..LISTS - 1] {
            let (first, others) = rest.split_at(list.len());
            list.copy_from_slice(first);
            rest = others;
        }
        assert!(rest.is_empty());
        lists
    }
}
