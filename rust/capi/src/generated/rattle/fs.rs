// Copied from scripts/erase/std_tests/src/rattle/fs.rs: do not edit here.
//! Files that are read.

use super::rt::HostRuntime;
use std::io::{self, Read};

/// An open file.
pub struct File(std::fs::File);

impl File {
    pub fn open(_rt: &HostRuntime, path: &str) -> io::Result<File> {
        std::fs::File::open(path).map(File)
    }
}

impl Read for File {
    fn read(&mut self, room: &mut [u8]) -> io::Result<usize> {
        self.0.read(room)
    }
}

/// Opens a file.
pub fn open(rt: &HostRuntime, path: &str) -> io::Result<File> {
    File::open(rt, path)
}
