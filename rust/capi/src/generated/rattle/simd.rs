// Copied from scripts/erase/std_tests/src/rattle/simd.rs: do not edit here.
//! Vectors as arrays of their lanes: the part of `std::simd` that the crates use, which stable Rust has not.

use std::array::from_fn;
use std::ops::{Add, BitAnd, BitOr, Shl, Shr, Sub};

/// What `use std::simd::prelude::*` brings.
pub mod prelude {
    pub use super::{Mask, Simd, u8x16, u8x32};
}

#[allow(non_camel_case_types)]
pub type u8x16 = Simd<u8, 16>;

#[allow(non_camel_case_types)]
pub type u8x32 = Simd<u8, 32>;

/// N lanes of T.
#[derive(Clone, Copy)]
pub struct Simd<T, const N: usize>([T; N]);

/// What a comparison gives: each lane is all ones or 0.
#[derive(Clone, Copy)]
pub struct Mask<T, const N: usize>([T; N]);

impl<T: Copy, const N: usize> Simd<T, N> {
    /// One value in each lane.
    pub fn splat(value: T) -> Self {
        Simd([value; N])
    }

    /// The first N values.
    pub fn from_slice(slice: &[T]) -> Self {
        Simd(from_fn(|i| slice[i]))
    }

    /// Puts the lanes in place of the first N values.
    pub fn copy_to_slice(self, slice: &mut [T]) {
        slice[..N].copy_from_slice(&self.0);
    }

    /// The lanes of both in turn, the first half and the second.
    pub fn interleave(self, other: Self) -> (Self, Self) {
        let lane = |i: usize| if i % 2 == 0 { self.0[i / 2] } else { other.0[i / 2] };
        (Simd(from_fn(lane)), Simd(from_fn(|i| lane(N + i))))
    }

    /// The lanes at these positions.
    pub fn swizzle<const M: usize>(self, positions: [usize; M]) -> Simd<T, M> {
        Simd(positions.map(|i| self.0[i]))
    }

    /// What is made of each two lanes.
    fn pairs<U>(self, other: Self, lane: impl Fn(T, T) -> U) -> [U; N] {
        from_fn(|i| lane(self.0[i], other.0[i]))
    }
}

impl<const N: usize> Simd<u8, N> {
    /// Which lanes are less than those of another.
    pub fn simd_lt(self, other: Self) -> Mask<i8, N> {
        Mask(self.pairs(other, |a, b| -i8::from(a < b)))
    }

    /// Which lanes are not less than those of another.
    pub fn simd_ge(self, other: Self) -> Mask<i8, N> {
        Mask(self.pairs(other, |a, b| -i8::from(a >= b)))
    }

    /// Which lanes are greater than those of another.
    pub fn simd_gt(self, other: Self) -> Mask<i8, N> {
        Mask(self.pairs(other, |a, b| -i8::from(a > b)))
    }

    /// Which lanes are those of another.
    pub fn simd_eq(self, other: Self) -> Mask<i8, N> {
        Mask(self.pairs(other, |a, b| -i8::from(a == b)))
    }
}

impl<const N: usize> Mask<i8, N> {
    /// The lanes of the first where the mask is set, and of the second where it is not.
    pub fn select<U: Copy>(self, true_values: Simd<U, N>, false_values: Simd<U, N>) -> Simd<U, N> {
        Simd(from_fn(|i| if self.0[i] < 0 { true_values.0[i] } else { false_values.0[i] }))
    }

    /// A bit for each lane, the lowest for the first.
    pub fn to_bitmask(self) -> u64 {
        self.0.iter().rev().fold(0, |bits, lane| bits << 1 | u64::from(*lane < 0))
    }
}

/// The lanes that are set in either.
impl<const N: usize> BitOr for Mask<i8, N> {
    type Output = Self;

    fn bitor(self, other: Self) -> Self {
        Mask(from_fn(|i| self.0[i] | other.0[i]))
    }
}

/// Operators lane by lane. A shift by 8 or more panics: Rattle has no result for it.
macro_rules! operators {
    ($($operator:ident, $call:ident, $lane:expr;)*) => {$(
        impl<const N: usize> $operator for Simd<u8, N> {
            type Output = Self;

            fn $call(self, other: Self) -> Self {
                Simd(self.pairs(other, $lane))
            }
        }
    )*};
}

operators! {
    Add, add, u8::wrapping_add;
    Sub, sub, u8::wrapping_sub;
    BitAnd, bitand, |a, b| a & b;
    BitOr, bitor, |a, b| a | b;
    Shl, shl, |a, b| a << b;
    Shr, shr, |a, b| a >> b;
}

#[cfg(test)]
mod tests {
    use super::*;

    const A: Simd<u8, 4> = Simd([1, 20, 200, 255]);
    const B: Simd<u8, 4> = Simd([2, 20, 100, 1]);

    #[test]
    fn lanes_are_moved() {
        let (front, back) = A.interleave(B);
        assert_eq!((front.0, back.0), ([1, 2, 20, 20], [200, 100, 255, 1]));
        assert_eq!(A.swizzle([3, 0]).0, [255, 1]);
        assert_eq!(A.swizzle([2, 2, 1, 0, 3]).0, [200, 200, 20, 1, 255]);
        let mut bytes = [7; 6];
        A.copy_to_slice(&mut bytes[1..]);
        assert_eq!(bytes, [7, 1, 20, 200, 255, 7]);
        assert_eq!(Simd::<u8, 2>::from_slice(&bytes[2..]).0, [20, 200]);
    }

    #[test]
    fn lanes_are_compared() {
        let (less, not_less) = (A.simd_lt(B), A.simd_ge(B));
        assert_eq!((less.0, not_less.0), ([-1, 0, 0, 0], [0, -1, -1, -1]));
        assert_eq!((less.to_bitmask(), not_less.to_bitmask()), (0b0001, 0b1110));
        assert_eq!(less.select(A, B).0, [1, 20, 100, 1]);
        assert_eq!(not_less.select(A, B).0, [2, 20, 200, 255]);
        assert_eq!(A.simd_gt(B).0, [0, 0, -1, -1]);
        assert_eq!(A.simd_eq(B).0, [0, -1, 0, 0]);
        assert_eq!((less | A.simd_eq(B)).0, [-1, -1, 0, 0]);
    }

    #[test]
    fn operators_wrap() {
        assert_eq!((A + B).0, [3, 40, 44, 0]);
        assert_eq!((A - B).0, [255, 0, 100, 254]);
        assert_eq!((A & B).0, [0, 20, 64, 1]);
        assert_eq!((A | B).0, [3, 20, 236, 255]);
        assert_eq!((A << Simd::splat(4)).0, [16, 64, 128, 240]);
        assert_eq!((A >> Simd::splat(4)).0, [0, 1, 12, 15]);
    }
}
