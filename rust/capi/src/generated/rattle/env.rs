// Copied from scripts/erase/std_tests/src/rattle/env.rs: do not edit here.
//! The arguments of a program.

use super::rt::HostRuntime;
use super::string::String;
use std::io::{Error, ErrorKind};

/// The words that a program was called with, its own name first.
pub struct Args(std::vec::IntoIter<String>);

/// The words that the program was called with.
pub fn args(_rt: &HostRuntime) -> Result<Args, Error> {
    let words = std::env::args_os().map(|word| word.into_string().map(String::from));
    let words: Result<std::vec::Vec<String>, _> = words.collect();
    words.map(|words| Args(words.into_iter())).map_err(|_| ErrorKind::InvalidData.into())
}

impl Iterator for Args {
    type Item = String;

    fn next(&mut self) -> Option<String> {
        self.0.next()
    }
}
