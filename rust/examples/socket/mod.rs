//! A socket of route netlink, by two calls of the C library. A program that has netlink-sys takes the one there.
#![allow(dead_code)] // a program needs a part

use std::fs::File;
use std::io::{Error, Read, Result, Write};
use std::os::unix::io::FromRawFd;

/// The last message of a dump, and the answer to any other request (linux/netlink.h).
pub const NLMSG_DONE: u16 = 3;
pub const NLMSG_ERROR: u16 = 2;

#[repr(C)]
struct Address {
    family: u16,
    padding: u16,
    port: u32,
    groups: u32,
}

extern "C" {
    fn socket(domain: i32, kind: i32, protocol: i32) -> i32;
    fn bind(socket: i32, address: *const Address, len: u32) -> i32;
}

pub struct Socket(File);

impl Socket {
    /// A socket that hears these groups: 1 is that of links.
    pub fn new(groups: u32) -> Result<Socket> {
        let address = Address { family: 16, padding: 0, port: 0, groups };
        // SAFETY: the address is as long as is said, and the descriptor belongs to the file alone
        unsafe {
            let descriptor = socket(16, 3 | 0o2000000, 0); // AF_NETLINK, SOCK_RAW | SOCK_CLOEXEC, NETLINK_ROUTE
            if descriptor < 0 {
                return Err(Error::last_os_error());
            }
            let file = File::from_raw_fd(descriptor);
            if bind(descriptor, &address, 12) < 0 {
                return Err(Error::last_os_error());
            }
            Ok(Socket(file))
        }
    }

    pub fn send(&mut self, packet: &[u8]) -> Result<()> {
        self.0.write_all(packet)
    }

    /// The messages of the next packet: of each its type, and what stands after netlink's header of 16 bytes.
    pub fn receive(&mut self) -> Result<Vec<(u16, Vec<u8>)>> {
        let mut packet = vec![0; 1 << 18];
        let len = self.0.read(&mut packet)?;
        let (mut left, mut messages) = (&packet[..len], Vec::new());
        while left.len() >= 16 {
            let len = u32::from_ne_bytes([left[0], left[1], left[2], left[3]]) as usize;
            let end = len.clamp(16, left.len());
            messages.push((u16::from_ne_bytes([left[4], left[5]]), left[16..end].to_vec()));
            left = &left[((end + 3) & !3).min(left.len())..];
        }
        Ok(messages)
    }
}
