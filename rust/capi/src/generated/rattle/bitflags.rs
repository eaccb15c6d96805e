// Copied from scripts/erase/std_tests/src/rattle/bitflags.rs: do not edit here.
//! Sets of named bits, after the crate `bitflags`.

use std::fmt::Debug;
use std::ops::{BitAnd, BitOr, BitXor, Not};

/// A flag with its name, which is empty where it has none.
#[derive(Clone, Copy, Debug)]
pub struct Flag<B> {
    pub name: &'static str,
    pub value: B,
}

impl<B> Flag<B> {
    pub fn name(&self) -> &'static str {
        self.name
    }

    pub fn value(&self) -> &B {
        &self.value
    }
}

/// The bits of a set.
pub trait Bits:
    Copy + PartialEq + Debug + BitAnd<Output = Self> + BitOr<Output = Self> + BitXor<Output = Self> + Not<Output = Self>
{
    const EMPTY: Self;
}

impl Bits for u32 {
    const EMPTY: u32 = 0;
}

/// A set of named bits.
pub trait Flags: Sized + 'static {
    type Bits: Bits;

    /// The flags that have been declared.
    fn flags<'a>() -> &'a [Flag<Self>];

    /// The bits of this value.
    fn bits(&self) -> Self::Bits;

    /// A value with exactly these bits.
    fn from_bits_retain(bits: Self::Bits) -> Self;

    /// No bit.
    fn empty() -> Self {
        Self::from_bits_retain(Self::Bits::EMPTY)
    }

    /// Each bit of a declared flag.
    fn all() -> Self {
        let mut bits = Self::Bits::EMPTY;
        for flag in Self::flags() {
            bits = bits | flag.value.bits();
        }
        Self::from_bits_retain(bits)
    }

    /// A value from bits, if each belongs to a declared flag.
    fn from_bits(bits: Self::Bits) -> Option<Self> {
        (bits & Self::all().bits() == bits).then(|| Self::from_bits_retain(bits))
    }

    /// A value from bits, without those of no declared flag.
    fn from_bits_truncate(bits: Self::Bits) -> Self {
        Self::from_bits_retain(bits & Self::all().bits())
    }

    /// The flag of this name.
    fn from_name(name: &str) -> Option<Self> {
        let found = Self::flags().iter().find(|flag| !name.is_empty() && flag.name == name);
        found.map(|flag| Self::from_bits_retain(flag.value.bits()))
    }

    fn is_empty(&self) -> bool {
        self.bits() == Self::Bits::EMPTY
    }

    fn contains(&self, other: Self) -> bool {
        self.bits() & other.bits() == other.bits()
    }

    fn intersects(&self, other: Self) -> bool {
        self.bits() & other.bits() != Self::Bits::EMPTY
    }

    fn insert(&mut self, other: Self) {
        *self = Self::from_bits_retain(self.bits() | other.bits());
    }

    fn remove(&mut self, other: Self) {
        *self = Self::from_bits_retain(self.bits() & !other.bits());
    }

    fn toggle(&mut self, other: Self) {
        *self = Self::from_bits_retain(self.bits() ^ other.bits());
    }

    fn intersection(self, other: Self) -> Self {
        Self::from_bits_retain(self.bits() & other.bits())
    }

    fn union(self, other: Self) -> Self {
        Self::from_bits_retain(self.bits() | other.bits())
    }

    fn difference(self, other: Self) -> Self {
        Self::from_bits_retain(self.bits() & !other.bits())
    }

    fn symmetric_difference(self, other: Self) -> Self {
        Self::from_bits_retain(self.bits() ^ other.bits())
    }

    fn complement(self) -> Self {
        Self::from_bits_truncate(!self.bits())
    }
}
