//! Lists the interfaces: of each its index, its name and its MTU.

mod socket;

use linkwire::request::{self, RTM_NEWLINK};
use linkwire::{LinkAttribute, LinkMessage};
use socket::{NLMSG_DONE, NLMSG_ERROR, Socket};

fn show(link: &LinkMessage) {
    let (mut name, mut mtu) = ("?", 0);
    for attribute in &link.attributes {
        match attribute {
            LinkAttribute::IfName(it) => name = it,
            LinkAttribute::Mtu(it) => mtu = *it,
            _ => (),
        }
    }
    println!("{}: {name} mtu {mtu}", link.header.index);
}

fn main() -> Result<(), Box<dyn std::error::Error>> {
    let mut socket = Socket::new(0)?;
    socket.send(&request::dump(&[]).packet(1)?)?;
    loop {
        for (kind, bytes) in socket.receive()? {
            match kind {
                RTM_NEWLINK => show(&LinkMessage::parse_lenient(&bytes)?),
                NLMSG_DONE => return Ok(()),
                NLMSG_ERROR => return Err("the kernel refuses to list the interfaces".into()),
                _ => (),
            }
        }
    }
}
