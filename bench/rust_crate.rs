//! The calls of the crate in rust/, for the bench in C: a slice is a pointer and its length.

use linkwire::{canonical, canonical_into, check, Emitable, LinkMessage};
use std::hint::black_box;
use std::slice;

/// 0, or the fault's number below 0.
///
/// # Safety
/// `len` bytes stand at `bytes`.
#[no_mangle]
pub unsafe extern "C" fn cargo_check(bytes: *const u8, len: usize) -> i32 {
    match check(slice::from_raw_parts(bytes, len)) {
        Ok(()) => 0,
        Err(fault) => -i32::from(fault.number()),
    }
}

/// Writes the canonical encoding into a buffer: its length, or -1.
///
/// # Safety
/// `len` bytes stand at `bytes`, and `cap` bytes at `out`.
#[no_mangle]
pub unsafe extern "C" fn cargo_canonical(bytes: *const u8, len: usize, out: *mut u8, cap: usize) -> isize {
    let out = slice::from_raw_parts_mut(out, cap);
    canonical_into(slice::from_raw_parts(bytes, len), out).map_or(-1, |len| len as isize)
}

/// Makes the canonical encoding in memory, and copies it: its length, or -1.
///
/// # Safety
/// `len` bytes stand at `bytes`, and `cap` bytes at `out`.
#[no_mangle]
pub unsafe extern "C" fn cargo_canonical_vec(bytes: *const u8, len: usize, out: *mut u8, cap: usize) -> isize {
    let out = slice::from_raw_parts_mut(out, cap);
    match canonical(slice::from_raw_parts(bytes, len)) {
        Ok(text) if text.len() <= cap => {
            out[..text.len()].copy_from_slice(&text);
            text.len() as isize
        }
        _ => -1,
    }
}

/// Reads a message and drops it: 0, or -1 where it is refused.
///
/// # Safety
/// `len` bytes stand at `bytes`.
#[no_mangle]
pub unsafe extern "C" fn cargo_parse(bytes: *const u8, len: usize) -> isize {
    match LinkMessage::parse(slice::from_raw_parts(bytes, len)) {
        Ok(message) => {
            drop(black_box(message));
            0
        }
        Err(_) => -1,
    }
}

/// Reads a message once, and asks so many times whether it fits and how long it is, and writes it: its length, or -1.
///
/// # Safety
/// `len` bytes stand at `bytes`, and `cap` bytes at `out`.
#[no_mangle]
pub unsafe extern "C" fn cargo_emits(
    bytes: *const u8,
    len: usize,
    out: *mut u8,
    cap: usize,
    times: usize,
) -> isize {
    let out = slice::from_raw_parts_mut(out, cap);
    let Ok(message) = LinkMessage::parse(slice::from_raw_parts(bytes, len)) else {
        return -1;
    };
    let mut written = 0;
    for _ in 0..times {
        written = match emitted(black_box(&message), black_box(&mut *out)) {
            Some(len) => len as isize,
            None => return -1,
        };
    }
    written
}

fn emitted(message: &LinkMessage, out: &mut [u8]) -> Option<usize> {
    if !message.fits() {
        return None;
    }
    let len = message.buffer_len();
    message.emit(out.get_mut(..len)?);
    Some(len)
}
