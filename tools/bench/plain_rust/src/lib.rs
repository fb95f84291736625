//! The calls of tools/plain for C: sizes as the numbers of a sheet's header, lists in the sheet's order, and the witness after them.
use plain::bare::{self, BareSizes};
use plain::lists::{Lists, Sizes, LISTS, SIZES};
use plain::messages::*;
use plain::verdict::{self, Verdict};
use plain::{next, ring};
use std::slice::from_raw_parts;

/// Sizes and lists as C lends them.
#[repr(C)]
pub struct Case {
    sizes: [u64; SIZES],
    lists: [*const i32; LISTS],
}

impl Case {
    unsafe fn lent(&self) -> (Sizes, Lists<&[i32]>) {
        let s = Sizes::from_header(self.sizes);
        let lengths = s.lengths();
        let mut lengths = lengths.each().into_iter();
        (s, Lists::from_array(self.lists.map(|list| from_raw_parts(list, *lengths.next().unwrap()))))
    }
}

/// The sizes of the bare level, and its lists.
#[repr(C)]
pub struct BareCase {
    sizes: [u64; 9],
    lists: [*const i32; LISTS],
}

impl BareCase {
    unsafe fn lent(&self) -> (BareSizes, Lists<&[i32]>) {
        let [d, n, r, k, l, w, kappa, _, _] = self.sizes.map(|v| v as usize);
        let [.., bound, z_bound] = self.sizes;
        let s = BareSizes { d, n, r, k, l, w, kappa, bound, z_bound };
        let lengths = s.lengths();
        let mut lengths = lengths.each().into_iter();
        (s, Lists::from_array(self.lists.map(|list| from_raw_parts(list, *lengths.next().unwrap()))))
    }
}

unsafe fn store<const N: usize>(lists: [Vec<i32>; N], out: [*mut i32; N]) {
    for (list, out) in lists.iter().zip(out) {
        out.copy_from_nonoverlapping(list.as_ptr(), list.len());
    }
}

#[no_mangle]
pub unsafe extern "C" fn plain_multiply(d: usize, x: *const i32, y: *const i32, out: *mut i32) {
    let [x, y] = [x, y].map(|e| ring::elements(d, from_raw_parts(e, d)).remove(0));
    store([ring::flat(&[ring::mul(&x, &y)])], [out]);
}

#[no_mangle]
pub unsafe extern "C" fn plain_commit(case: &Case, t: *mut i32, g: *mut i32, u1: *mut i32) {
    let (s, l) = case.lent();
    store(message1(&s, &l), [t, g, u1]);
}

#[no_mangle]
pub unsafe extern "C" fn plain_project(case: &Case, p: *mut i32) {
    let (s, l) = case.lent();
    store(message2(&s, &l), [p]);
}

#[no_mangle]
pub unsafe extern "C" fn plain_aggregate(case: &Case, second_b: *mut i32) {
    let (s, l) = case.lent();
    store(message3(&s, &l, &second(&s, &l)), [second_b]);
}

#[no_mangle]
pub unsafe extern "C" fn plain_garbage(case: &Case, h: *mut i32, u2: *mut i32) {
    let (s, l) = case.lent();
    store(message4(&s, &l, &aggregate(&s, &l, &second(&s, &l))), [h, u2]);
}

#[no_mangle]
pub unsafe extern "C" fn plain_amortize(case: &Case, z: *mut i32) {
    let (s, l) = case.lent();
    store(message5(&s, &l), [z]);
}

/// The first check that fails; 0 if none, and then the margin is written.
#[no_mangle]
pub unsafe extern "C" fn plain_verify(case: &Case, margin: *mut u64) -> u8 {
    let (s, l) = case.lent();
    match verdict::verdict(&s, &l, &second(&s, &l)) {
        Verdict::Accepted(left) => {
            *margin = left;
            0
        }
        Verdict::Failed(check) => check,
    }
}

/// The check that fails; 0 where the next instance is written.
#[no_mangle]
pub unsafe extern "C" fn plain_next(case: &Case, out: *mut i32) -> u8 {
    let (s, l) = case.lent();
    match next::instance(&s, &l, &second(&s, &l)) {
        Ok(all) => {
            store([all], [out]);
            0
        }
        Err(check) => check,
    }
}

/// t, φ and all turns; z in the opening is left as it is.
#[no_mangle]
pub unsafe extern "C" fn plain_bare_prove(case: &BareCase, phi: *mut i32, opening: *mut i32) {
    let (s, l) = case.lent();
    let new_phi = bare::phi(&s, &l, &second(&s.fold(), &l));
    let turn = |i: usize| bare::turn(&s, i, &new_phi, &l.c[..(i - 1) * s.d], l.witness);
    let (t, turns) = (bare::commit(&s, &l), (1..=s.r).flat_map(turn).collect());
    store([t, turns, new_phi], [opening, opening.add(s.t() + s.z()), phi]);
}

/// The first check of the bare level that fails; 0 if none, and then the margin is written.
#[no_mangle]
pub unsafe extern "C" fn plain_bare_verify(case: &BareCase, margin: *mut u64) -> u8 {
    let (s, l) = case.lent();
    match bare::verdict(&s, &l, &second(&s.fold(), &l)) {
        Verdict::Accepted(left) => {
            *margin = left;
            0
        }
        Verdict::Failed(check) => check,
    }
}
