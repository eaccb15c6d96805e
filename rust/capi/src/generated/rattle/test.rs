// Copied from scripts/erase/std_tests/src/rattle/test.rs: do not edit here.
//! Why a test failed.

/// Why a test failed.
#[derive(Debug)]
pub struct Fail(pub std::string::String);

impl<E: std::error::Error> From<E> for Fail {
    fn from(error: E) -> Fail {
        Fail(error.to_string())
    }
}

#[doc(hidden)]
#[macro_export]
macro_rules! rattle_assert {
    ($rt:expr; $($arguments:tt)*) => { std::assert!($($arguments)*) };
}

#[doc(hidden)]
#[macro_export]
macro_rules! rattle_assert_eq {
    ($rt:expr; $($arguments:tt)*) => { std::assert_eq!($($arguments)*) };
}

#[doc(hidden)]
#[macro_export]
macro_rules! rattle_assert_ne {
    ($rt:expr; $($arguments:tt)*) => { std::assert_ne!($($arguments)*) };
}

#[doc(hidden)]
#[macro_export]
macro_rules! rattle_panic {
    ($rt:expr; $($arguments:tt)*) => { std::panic!($($arguments)*) };
}
