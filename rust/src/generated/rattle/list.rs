// Copied from scripts/erase/rattle/list.rs: do not edit here.
//! Lists whose room was taken before.

use alloc::vec::Vec;

/// A list with room for one more value. It is tested before the value is made, so that the value is made at its place
/// in the list, and not made beside it and copied.
///
/// # Panics
///
/// Where the list has no room.
#[cfg_attr(not(debug_assertions), inline(always))]
pub(crate) fn vacant<T>(list: &mut Vec<T>) -> &mut Vec<T> {
    if list.len() == list.capacity() {
        full(list.len())
    }
    list
}

#[cold]
fn full(len: usize) -> ! {
    panic!("the list has no room for another value: {len} are in it")
}
