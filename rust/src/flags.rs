//! What a Rust user expects of a set of flags.

use crate::link_msg::{Inet6IfaceFlags, LinkFlags};
use crate::rattle::bitflags::Flags;
use core::fmt;

/// The flags of a set, each as a set of its own, lowest declared first; and then the bits without a name as one.
#[derive(Clone, Debug)]
pub struct Iter<F> {
    names: IterNames<F>,
}

/// The flags of a set that have a name, with their names.
#[derive(Clone, Debug)]
pub struct IterNames<F> {
    left: F,
    place: usize,
}

impl<F: Flags + Copy> IterNames<F> {
    /// The bits that were not given yet.
    ///
    /// [`LinkFlags::iter_names`] has an example.
    #[must_use]
    pub fn remaining(&self) -> F {
        self.left
    }
}

impl<F: Flags + Copy> Iterator for IterNames<F> {
    type Item = (&'static str, F);

    fn next(&mut self) -> Option<(&'static str, F)> {
        while let Some(flag) = F::flags().get(self.place) {
            self.place += 1;
            let (bits, left) = (flag.value().bits(), self.left.bits());
            if !flag.name().is_empty() && bits & left == bits {
                self.left = F::from_bits_retain(left & !bits);
                return Some((flag.name(), *flag.value()));
            }
        }
        None
    }
}

impl<F: Flags + Copy> Iterator for Iter<F> {
    type Item = F;

    fn next(&mut self) -> Option<F> {
        if let Some((_name, flag)) = self.names.next() {
            return Some(flag);
        }
        let rest = self.names.left.bits();
        self.names.left = F::from_bits_retain(0);
        (rest != 0).then(|| F::from_bits_retain(rest))
    }
}

macro_rules! flags {
    ($type:ident) => {
        impl $type {
            /// The flags that are set, each as a set of its own; and then the bits without a name as one.
            ///
            /// [`LinkFlags::iter_names`] has an example.
            #[must_use]
            pub fn iter(&self) -> Iter<$type> {
                Iter { names: self.iter_names() }
            }

            /// The flags that are set and have a name, with their names.
            ///
            /// ```
            /// use linkwire::LinkFlags;
            /// let flags = LinkFlags::Up | LinkFlags::Running | LinkFlags::from_bits_retain(0x8000_0000);
            /// let mut names = flags.iter_names();
            /// assert_eq!(names.by_ref().map(|(name, _)| name).collect::<Vec<_>>(), ["Up", "Running"]);
            /// assert_eq!(names.remaining().bits(), 0x8000_0000);
            /// assert_eq!(flags.iter().collect::<LinkFlags>(), flags);
            /// assert_eq!(flags.iter().count(), 3);
            /// ```
            #[must_use]
            pub fn iter_names(&self) -> IterNames<$type> {
                IterNames { left: *self, place: 0 }
            }
        }

        /// `LinkFlags(Up | LowerUp | 0x80000000)`, as bitflags shows it.
        impl fmt::Debug for $type {
            fn fmt(&self, f: &mut fmt::Formatter<'_>) -> fmt::Result {
                let (mut names, mut bar) = (self.iter_names(), "");
                f.write_str(concat!(stringify!($type), "("))?;
                for (name, _) in names.by_ref() {
                    write!(f, "{bar}{name}")?;
                    bar = " | ";
                }
                let left = names.remaining().bits();
                if left != 0 || self.is_empty() {
                    write!(f, "{bar}{left:#x}")?;
                }
                f.write_str(")")
            }
        }

        impl IntoIterator for $type {
            type Item = $type;
            type IntoIter = Iter<$type>;

            fn into_iter(self) -> Iter<$type> {
                self.iter()
            }
        }

        impl Extend<$type> for $type {
            fn extend<I: IntoIterator<Item = $type>>(&mut self, flags: I) {
                flags.into_iter().for_each(|flag| self.insert(flag));
            }
        }

        impl FromIterator<$type> for $type {
            fn from_iter<I: IntoIterator<Item = $type>>(flags: I) -> $type {
                flags.into_iter().fold($type::empty(), $type::union)
            }
        }

        flags!($type Binary Octal LowerHex UpperHex);
    };
    ($type:ident $($format:ident)*) => {$(
        impl fmt::$format for $type {
            fn fmt(&self, f: &mut fmt::Formatter<'_>) -> fmt::Result {
                fmt::$format::fmt(&self.bits(), f)
            }
        }
    )*};
}

flags!(LinkFlags);
flags!(Inet6IfaceFlags);
