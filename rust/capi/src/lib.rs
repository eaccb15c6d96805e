//! The functions that `include/linkwire.h` declares, as a library for processors that the proved one is not built for.
//!
//! It is made of the sources of that library without their contracts. rustc compiles it and its tests are those of
//! `tests/c`; **nothing is proved of it**: not what is made of the sources, and not the pointers here.
#![warn(missing_docs)]

#[path = "generated/mod.rs"]
#[allow(clippy::all, dead_code, missing_docs, non_upper_case_globals, unused_imports, unused_variables)]
mod generated;
#[allow(unused_imports)]
use generated::*;

use link_c::export;
use link_c::list::Attribute;
use link_c::path::Path;
use link_c::refused::Refused;
use rattle::alloc::Global;
use std::mem::zeroed;
use std::os::raw::c_char;
use std::slice::{from_raw_parts, from_raw_parts_mut};

/// What a function writes to its last argument, where it writes: 1 is returned of a step, a fault of a search.
///
/// # Safety
///
/// As linkwire.h has it: the pointer is aligned, and has room for the value.
unsafe fn put<T>(to: *mut T, value: T, is_told: bool) {
    if is_told {
        to.write(value);
    }
}

/// `linkwire_check` of linkwire.h.
///
/// # Safety
///
/// As linkwire.h has it.
#[no_mangle]
pub unsafe extern "C" fn linkwire_check(message: *const u8, len: usize) -> i32 {
    export::linkwire_check(from_raw_parts(message, len))
}

/// `linkwire_canonical_len` of linkwire.h.
///
/// # Safety
///
/// As linkwire.h has it.
#[no_mangle]
pub unsafe extern "C" fn linkwire_canonical_len(message: *const u8, len: usize) -> isize {
    export::linkwire_canonical_len(from_raw_parts(message, len))
}

/// `linkwire_canonical_lenient_len` of linkwire.h.
///
/// # Safety
///
/// As linkwire.h has it.
#[no_mangle]
pub unsafe extern "C" fn linkwire_canonical_lenient_len(message: *const u8, len: usize) -> isize {
    export::linkwire_canonical_lenient_len(from_raw_parts(message, len))
}

/// The functions that write an encoding.
macro_rules! encodings {
    ($($name:ident)*) => {$(
        /// The function of this name of linkwire.h.
        ///
        /// # Safety
        ///
        /// As linkwire.h has it.
        #[no_mangle]
        pub unsafe extern "C" fn $name(message: *const u8, len: usize, out: *mut u8, cap: usize) -> isize {
            export::$name(from_raw_parts(message, len), from_raw_parts_mut(out, cap))
        }
    )*};
}

encodings!(linkwire_canonical linkwire_state linkwire_canonical_lenient linkwire_state_lenient);

/// The functions that compare two messages.
macro_rules! comparisons {
    ($($name:ident)*) => {$(
        /// The function of this name of linkwire.h.
        ///
        /// # Safety
        ///
        /// As linkwire.h has it.
        #[no_mangle]
        pub unsafe extern "C" fn $name(a: *const u8, a_len: usize, b: *const u8, b_len: usize) -> i32 {
            export::$name(Global, from_raw_parts(a, a_len), from_raw_parts(b, b_len))
        }
    )*};
}

comparisons!(linkwire_same_message linkwire_same_state);

/// The functions that return a number.
macro_rules! forms {
    ($($name:ident)*) => {$(
        /// The function of this name of linkwire.h.
        #[no_mangle]
        pub extern "C" fn $name() -> u32 {
            export::$name()
        }
    )*};
}

forms!(linkwire_canonical_form linkwire_state_form linkwire_lenient_form);

/// `linkwire_refusal_next` of linkwire.h.
///
/// # Safety
///
/// As linkwire.h has it.
#[no_mangle]
pub unsafe extern "C" fn linkwire_refusal_next(
    message: *const u8,
    len: usize,
    at: *mut usize,
    refusal: *mut Refused,
) -> i32 {
    let mut found: Refused = zeroed();
    let answer = export::linkwire_refusal_next(from_raw_parts(message, len), &mut *at, &mut found);
    put(refusal, found, answer == 1);
    answer
}

/// `linkwire_order` of linkwire.h.
///
/// # Safety
///
/// As linkwire.h has it.
#[no_mangle]
pub unsafe extern "C" fn linkwire_order(release: *const c_char, len: usize) -> u32 {
    export::linkwire_order(from_raw_parts(release.cast(), len))
}

/// `linkwire_show` of linkwire.h.
///
/// # Safety
///
/// As linkwire.h has it.
#[no_mangle]
pub unsafe extern "C" fn linkwire_show(
    message: *const u8,
    len: usize,
    order: u32,
    flags: u32,
    out: *mut c_char,
    cap: usize,
) -> isize {
    export::linkwire_show(Global, from_raw_parts(message, len), order, flags, from_raw_parts_mut(out.cast(), cap))
}

/// `linkwire_diff` of linkwire.h.
///
/// # Safety
///
/// As linkwire.h has it.
#[no_mangle]
pub unsafe extern "C" fn linkwire_diff(
    old: *const u8,
    old_len: usize,
    new: *const u8,
    new_len: usize,
    order: u32,
    flags: u32,
    out: *mut c_char,
    cap: usize,
) -> isize {
    let (old, new) = (from_raw_parts(old, old_len), from_raw_parts(new, new_len));
    export::linkwire_diff(Global, old, new, order, flags, from_raw_parts_mut(out.cast(), cap))
}

/// `linkwire_next` of linkwire.h.
///
/// # Safety
///
/// As linkwire.h has it.
#[no_mangle]
pub unsafe extern "C" fn linkwire_next(list: *const u8, len: usize, at: *mut usize, attribute: *mut Attribute) -> i32 {
    let mut found: Attribute = zeroed();
    let answer = export::linkwire_next(from_raw_parts(list, len), &mut *at, &mut found);
    put(attribute, found, answer == 1);
    answer
}

/// `linkwire_pick` of linkwire.h.
///
/// # Safety
///
/// As linkwire.h has it.
#[no_mangle]
pub unsafe extern "C" fn linkwire_pick(list: *const u8, len: usize, found: *mut Attribute, count: usize) -> i32 {
    export::linkwire_pick(from_raw_parts(list, len), from_raw_parts_mut(found, count))
}

/// `linkwire_put` of linkwire.h.
///
/// # Safety
///
/// As linkwire.h has it.
#[no_mangle]
pub unsafe extern "C" fn linkwire_put(
    list: *mut u8,
    cap: usize,
    at: *mut usize,
    kind: u16,
    payload: *const u8,
    len: usize,
) -> i32 {
    export::linkwire_put(from_raw_parts_mut(list, cap), &mut *at, kind, from_raw_parts(payload, len))
}

/// `linkwire_fault_at` of linkwire.h.
///
/// # Safety
///
/// As linkwire.h has it.
#[no_mangle]
pub unsafe extern "C" fn linkwire_fault_at(message: *const u8, len: usize, at: *mut usize) -> i32 {
    export::linkwire_fault_at(from_raw_parts(message, len), &mut *at)
}

/// `linkwire_fault_path` of linkwire.h.
///
/// # Safety
///
/// As linkwire.h has it.
#[no_mangle]
pub unsafe extern "C" fn linkwire_fault_path(message: *const u8, len: usize, path: *mut Path) -> i32 {
    let mut found: Path = zeroed();
    let answer = export::linkwire_fault_path(from_raw_parts(message, len), &mut found);
    put(path, found, answer < 0);
    answer
}
