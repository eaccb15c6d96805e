//! The forms of what is made of the tables.

/// A place: an enum with a variant of each row: its number, the kind that it is written with, and its form, a module of
/// `parts`.
macro_rules! place {
    (
        $(#[$doc:meta])*
        $name:ident: $rows:expr;
        $($number:literal $kind:literal $variant:ident($type:ty) $form:ident $text:literal,)*
        flags: $($flag_number:literal $flag:ident $flag_text:literal,)*
    ) => {
        $(#[$doc])*
        #[derive(Clone, Debug, PartialEq, Eq, Hash)]
        #[cfg_attr(feature = "serde", derive(serde::Serialize, serde::Deserialize))]
        #[non_exhaustive]
        pub enum $name {
            $(
                #[doc = concat!("`", $text, "`, number ", $number, ".")]
                $variant($type),
            )*
            $(
                #[doc = concat!("`", $flag_text, "`, number ", $flag_number, ": that it is there says it.")]
                $flag,
            )*
            /// An attribute whose number has no variant, or which would not be written as it was.
            Other(DefaultNla),
        }

        #[allow(unused_variables)]
        impl Typed for $name {
            const ROWS: &'static [Row] = $rows;

            fn other(frame: DefaultNla) -> Self {
                $name::Other(frame)
            }

            #[allow(irrefutable_let_patterns)]
            fn kept(&self) -> Option<&DefaultNla> {
                if let $name::Other(frame) = self { Some(frame) } else { None }
            }

            fn read(kind: u16, payload: &[u8]) -> Option<Self> {
                match kind {
                    $($kind => if let Some(it) = parts::$form::read(payload) {
                        return Some($name::$variant(it));
                    })*
                    $($flag_number if payload.is_empty() => return Some($name::$flag),)*
                    _ => (),
                }
                None
            }

            fn push(&self, out: &mut Vec<u8>) {
                match self {
                    $($name::$variant(it) => parts::$form::push(out, $kind, it),)*
                    $($name::$flag => parts::push_frame(out, $flag_number, &[]),)*
                    $name::Other(frame) => parts::push_frame(out, Nla::kind(frame), frame.value()),
                }
            }
        }

        impl Nla for $name {
            fn value_len(&self) -> usize {
                super::payload(self).len()
            }

            fn kind(&self) -> u16 {
                match self {
                    $($name::$variant(_) => $kind,)*
                    $($name::$flag => $flag_number,)*
                    $name::Other(frame) => Nla::kind(frame),
                }
            }

            fn emit_value(&self, buffer: &mut [u8]) {
                buffer.copy_from_slice(&super::payload(self));
            }
        }

        impl<'a, T: AsRef<[u8]> + ?Sized> Parseable<NlaBuffer<&'a T>> for $name {
            fn parse(buf: &NlaBuffer<&'a T>) -> Result<Self, DecodeError> {
                let frame = buf.frame()?;
                Ok(super::of_frame(frame.kind_with_flags(), frame.value()))
            }
        }
    };
}

/// Numbers with names: an enum, and `Other` for those that have none.
macro_rules! named {
    ($(#[$doc:meta])* $name:ident: $bits:ty; $($number:literal $variant:ident $text:literal,)*) => {
        $(#[$doc])*
        #[derive(Clone, Copy, Debug, PartialEq, Eq, Hash)]
        #[cfg_attr(feature = "serde", derive(serde::Serialize, serde::Deserialize))]
        #[non_exhaustive]
        pub enum $name {
            $(
                #[doc = concat!("`", $text, "`: ", $number, ".")]
                $variant,
            )*
            /// Another number.
            Other($bits),
        }

        impl From<$bits> for $name {
            fn from(number: $bits) -> Self {
                match number {
                    $($number => $name::$variant,)*
                    other => $name::Other(other),
                }
            }
        }

        impl From<$name> for $bits {
            fn from(value: $name) -> Self {
                match value {
                    $($name::$variant => $number,)*
                    $name::Other(other) => other,
                }
            }
        }

        impl fmt::Display for $name {
            fn fmt(&self, f: &mut fmt::Formatter<'_>) -> fmt::Result {
                match self {
                    $($name::$variant => f.write_str($text),)*
                    $name::Other(other) => write!(f, "{other}"),
                }
            }
        }

        impl parts::Part for $name {
            type Bytes = <$bits as parts::Part>::Bytes;

            #[inline]
            fn of(bytes: Self::Bytes) -> Option<Self> {
                <$bits as parts::Part>::of(bytes).map($name::from)
            }

            #[inline]
            fn bytes(&self) -> Self::Bytes {
                parts::Part::bytes(&<$bits>::from(*self))
            }
        }
    };
}

/// A set of flags.
macro_rules! flag_set {
    ($(#[$doc:meta])* $name:ident: $bits:ty; $($bit:literal $flag:ident $text:literal,)*) => {
        $(#[$doc])*
        #[derive(Clone, Copy, Default, PartialEq, Eq, Hash)]
        #[cfg_attr(feature = "serde", derive(serde::Serialize, serde::Deserialize))]
        pub struct $name($bits);

        #[allow(non_upper_case_globals)]
        impl $name {
            $(
                #[doc = concat!("`", $text, "`.")]
                pub const $flag: $name = $name($bit);
            )*

            /// No flag.
            ///
            /// [The module](crate::typed#flags) has an example.
            #[must_use]
            pub const fn empty() -> Self {
                $name(0)
            }

            /// All flags that have a name.
            ///
            /// [The module](crate::typed#flags) has an example.
            #[must_use]
            pub const fn all() -> Self {
                $name(0 $(| $bit)*)
            }

            /// The bits.
            ///
            /// [The module](crate::typed#flags) has an example.
            #[must_use]
            pub const fn bits(self) -> $bits {
                self.0
            }

            /// The set of these bits, those without a name too.
            ///
            /// [The module](crate::typed#flags) has an example.
            #[must_use]
            pub const fn from_bits_retain(bits: $bits) -> Self {
                $name(bits)
            }

            /// The set of those of these bits that have a name.
            ///
            /// [The module](crate::typed#flags) has an example.
            #[must_use]
            pub const fn from_bits_truncate(bits: $bits) -> Self {
                $name(bits & $name::all().0)
            }

            /// Whether it has no flag.
            ///
            /// [The module](crate::typed#flags) has an example.
            #[must_use]
            pub const fn is_empty(self) -> bool {
                self.0 == 0
            }

            /// Whether all of those are in it.
            ///
            /// [The module](crate::typed#flags) has an example.
            #[must_use]
            pub const fn contains(self, other: Self) -> bool {
                self.0 & other.0 == other.0
            }

            /// Adds those.
            ///
            /// [The module](crate::typed#flags) has an example.
            pub fn insert(&mut self, other: Self) {
                self.0 |= other.0;
            }

            /// Takes those away.
            ///
            /// [The module](crate::typed#flags) has an example.
            pub fn remove(&mut self, other: Self) {
                self.0 &= !other.0;
            }

            /// Those that are in one of both.
            ///
            /// [The module](crate::typed#flags) has an example.
            #[must_use]
            pub const fn union(self, other: Self) -> Self {
                $name(self.0 | other.0)
            }
        }

        impl core::ops::BitOr for $name {
            type Output = Self;

            fn bitor(self, other: Self) -> Self {
                self.union(other)
            }
        }

        impl core::ops::BitOrAssign for $name {
            fn bitor_assign(&mut self, other: Self) {
                self.insert(other);
            }
        }

        impl core::ops::BitAnd for $name {
            type Output = Self;

            fn bitand(self, other: Self) -> Self {
                $name(self.0 & other.0)
            }
        }

        impl From<$bits> for $name {
            fn from(bits: $bits) -> Self {
                $name(bits)
            }
        }

        impl From<$name> for $bits {
            fn from(flags: $name) -> Self {
                flags.0
            }
        }

        impl fmt::Debug for $name {
            fn fmt(&self, f: &mut fmt::Formatter<'_>) -> fmt::Result {
                parts::write_flags(f, stringify!($name), self.0.into(), &[$(($bit, stringify!($flag))),*])
            }
        }

        impl parts::Part for $name {
            type Bytes = <$bits as parts::Part>::Bytes;

            #[inline]
            fn of(bytes: Self::Bytes) -> Option<Self> {
                <$bits as parts::Part>::of(bytes).map($name)
            }

            #[inline]
            fn bytes(&self) -> Self::Bytes {
                parts::Part::bytes(&self.0)
            }
        }
    };
}

/// A record: its members in order.
macro_rules! members {
    ($(#[$doc:meta])* $name:ident; $($field:ident: $type:ty, $order:ident $text:literal;)*) => {
        $(#[$doc])*
        #[derive(Clone, Copy, Debug, PartialEq, Eq, Hash)]
        #[cfg_attr(feature = "serde", derive(serde::Serialize, serde::Deserialize))]
        pub struct $name {
            $(
                #[doc = concat!("`", $text, "`.")]
                pub $field: $type,
            )*
        }

        impl parts::Members for $name {
            fn take(left: &mut &[u8]) -> Option<Self> {
                Some($name { $($field: parts::$order::take(left)?,)* })
            }

            fn add(&self, out: &mut Vec<u8>) {
                $(parts::$order::add(out, &self.$field);)*
            }
        }
    };
}
