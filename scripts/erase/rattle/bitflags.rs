//! Sets of named bits.

/// A flag with its name, which is empty where it has none.
#[derive(Clone, Copy, Debug)]
pub struct Flag<F> {
    pub name: &'static str,
    pub value: F,
}

impl<F> Flag<F> {
    pub fn name(&self) -> &'static str {
        self.name
    }

    pub fn value(&self) -> &F {
        &self.value
    }
}

/// A set of named bits, 32 at most.
pub trait Flags: Sized + 'static {
    type Bits;

    /// The flags that have been declared.
    fn flags<'a>() -> &'a [Flag<Self>];

    /// The bits of this value.
    fn bits(&self) -> u32;

    /// A value with exactly these bits.
    fn from_bits_retain(bits: u32) -> Self;

    /// The flag of this name.
    fn from_name(name: &str) -> Option<Self> {
        let found = Self::flags().iter().find(|flag| !name.is_empty() && flag.name == name);
        found.map(|flag| Self::from_bits_retain(flag.value.bits()))
    }
}
