// Copied from scripts/erase/rattle/number.rs: do not edit here.
//! Casts between numbers, those that came to Rust with 1.87 and those that a length has to pass; and room to write.

use core::slice::SliceIndex;

/// What an unsigned number is in two's complement.
pub(crate) trait Unsigned {
    type Signed;

    fn to_signed(self) -> Self::Signed;
}

/// The bits of a signed number.
pub(crate) trait Signed {
    type Unsigned;

    fn to_unsigned(self) -> Self::Unsigned;
}

macro_rules! casts {
    ($($signed:ident $unsigned:ident),*) => {$(
        impl Unsigned for $unsigned {
            type Signed = $signed;

            #[cfg_attr(not(debug_assertions), inline(always))]
            fn to_signed(self) -> $signed {
                self as $signed
            }
        }

        impl Signed for $signed {
            type Unsigned = $unsigned;

            #[cfg_attr(not(debug_assertions), inline(always))]
            fn to_unsigned(self) -> $unsigned {
                self as $unsigned
            }
        }
    )*};
}

casts!(i8 u8, i16 u16, i32 u32, i64 u64);

/// The most bytes that memory can hold in one piece.
pub(crate) const MOST_LEN: usize = isize::MAX as usize;

/// So many of a number's eight bytes, which are in host order: the lowest.
#[cfg_attr(not(debug_assertions), inline(always))]
pub(crate) fn lowest(bytes: &[u8; 8], count: usize) -> &[u8] {
    if cfg!(target_endian = "little") { &bytes[..count] } else { &bytes[8 - count..] }
}

/// A length as the two bytes of a frame's header have it.
///
/// # Panics
///
/// Where they cannot.
#[cfg_attr(not(debug_assertions), inline(always))]
pub(crate) fn narrow(len: usize) -> u16 {
    match u16::try_from(len) {
        Ok(len) => len,
        Err(_) => too_long(len),
    }
}

#[cold]
fn too_long(len: usize) -> ! {
    panic!("the value does not fit: a frame of {len} bytes, where an attribute holds 65531 and its header")
}

/// A signed number in fewer bytes.
///
/// # Panics
///
/// Where these cannot hold it.
#[cfg_attr(not(debug_assertions), inline(always))]
pub(crate) fn narrow_signed<T: TryFrom<i64>>(number: i64) -> T {
    match T::try_from(number) {
        Ok(number) => number,
        Err(_) => panic!("the value does not fit: the number {number} in fewer than eight bytes"),
    }
}

/// A part of a buffer, to be written.
///
/// # Panics
///
/// Where the buffer has no such part.
#[cfg_attr(not(debug_assertions), inline(always))]
pub(crate) fn room<I: SliceIndex<[u8]>>(buffer: &mut [u8], part: I) -> &mut I::Output {
    let len = buffer.len();
    match buffer.get_mut(part) {
        Some(part) => part,
        None => no_room(len),
    }
}

#[cold]
fn no_room(len: usize) -> ! {
    panic!("the buffer is too short for what is written: {len} bytes of it are left")
}
