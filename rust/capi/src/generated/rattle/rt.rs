// Copied from scripts/erase/std_tests/src/rattle/rt.rs: do not edit here.
//! The runtime that a program's `main` is given.

use super::alloc::Global;
use super::vec::Vec;
use std::fmt;
use std::io::{self, Read, Write};

/// The system. It takes no bytes.
#[derive(Clone, Copy, Debug)]
pub struct HostRuntime;

impl HostRuntime {
    pub fn alloc(&self) -> Global {
        Global
    }

    pub fn stdin(&self) -> Stdin {
        Stdin(io::stdin().lock())
    }

    pub fn stdout(&self) -> Stdout {
        Stdout(io::stdout().lock())
    }
}

/// Standard input.
pub struct Stdin(io::StdinLock<'static>);

impl Stdin {
    /// Adds all that is left to read at the end.
    pub fn read_to_end(&mut self, out: &mut Vec<u8>) -> io::Result<usize> {
        let mut bytes = std::vec::Vec::new();
        self.0.read_to_end(&mut bytes)?;
        out.extend_from_slice(&bytes)?;
        Ok(bytes.len())
    }
}

impl Read for Stdin {
    fn read(&mut self, room: &mut [u8]) -> io::Result<usize> {
        self.0.read(room)
    }
}

/// Standard output, with no bytes that wait: Rust's own holds them back up to the next LF.
pub struct Stdout(io::StdoutLock<'static>);

impl Write for Stdout {
    fn write(&mut self, bytes: &[u8]) -> io::Result<usize> {
        self.0.write_all(bytes)?;
        self.0.flush()?;
        Ok(bytes.len())
    }

    fn flush(&mut self) -> io::Result<()> {
        self.0.flush()
    }
}

/// What may print.
pub trait Print {
    /// Writes to standard output.
    fn print(&self, arguments: fmt::Arguments<'_>) -> io::Result<()>;

    /// Writes to standard error.
    fn eprint(&self, arguments: fmt::Arguments<'_>) -> io::Result<()>;
}

impl<P: Print> Print for &P {
    fn print(&self, arguments: fmt::Arguments<'_>) -> io::Result<()> {
        (*self).print(arguments)
    }

    fn eprint(&self, arguments: fmt::Arguments<'_>) -> io::Result<()> {
        (*self).eprint(arguments)
    }
}

impl Print for HostRuntime {
    fn print(&self, arguments: fmt::Arguments<'_>) -> io::Result<()> {
        self.stdout().write_fmt(arguments)
    }

    fn eprint(&self, arguments: fmt::Arguments<'_>) -> io::Result<()> {
        io::stderr().write_fmt(arguments)
    }
}

/// Writes to standard output.
pub fn print(rt: &HostRuntime, arguments: fmt::Arguments<'_>) -> io::Result<()> {
    rt.stdout().write_fmt(arguments)
}
