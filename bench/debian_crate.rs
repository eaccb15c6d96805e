//! Reading and writing by Debian's crate netlink-packet-route, for the bench in C.

use netlink_packet_route::traits::{Emitable, Parseable};
use netlink_packet_route::{LinkMessage, LinkMessageBuffer};
use std::hint::black_box;
use std::panic;
use std::slice;

fn read(bytes: &[u8]) -> Option<LinkMessage> {
    let buffer = LinkMessageBuffer::new_checked(&bytes).ok()?;
    LinkMessage::parse(&buffer).ok()
}

/// Reads a message and drops it: 0, or -1 where it is refused.
///
/// # Safety
/// `len` bytes stand at `bytes`.
#[no_mangle]
pub unsafe extern "C" fn debian_parse(bytes: *const u8, len: usize) -> isize {
    match read(slice::from_raw_parts(bytes, len)) {
        Some(message) => {
            drop(black_box(message));
            0
        }
        None => -1,
    }
}

/// The length of what is written so many times; or none where there is no room, or where writing panics, as it does
/// where a record is longer than the crate knows it.
fn emitted(message: &LinkMessage, out: &mut [u8], times: usize) -> Option<usize> {
    panic::set_hook(Box::new(|_| {}));
    let mut written = 0;
    let all = panic::catch_unwind(panic::AssertUnwindSafe(|| {
        for _ in 0..times {
            written = black_box(message).buffer_len();
            message.emit(black_box(&mut out[..written]));
        }
    }));
    all.ok().map(|()| written)
}

/// Reads a message once, and asks for its length and writes it so many times: the length, or -1.
///
/// # Safety
/// `len` bytes stand at `bytes`, and `cap` bytes at `out`.
#[no_mangle]
pub unsafe extern "C" fn debian_emits(
    bytes: *const u8,
    len: usize,
    out: *mut u8,
    cap: usize,
    times: usize,
) -> isize {
    let out = slice::from_raw_parts_mut(out, cap);
    let Some(message) = read(slice::from_raw_parts(bytes, len)) else {
        return -1;
    };
    emitted(&message, out, times).map_or(-1, |len| len as isize)
}
