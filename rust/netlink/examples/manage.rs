//! A dump, a veth pair, an MTU, a name, kinds where the kernel has them, refusals with the kernel's text, and all taken
//! away: blocking, by netlink-sys.
//!
//!     unshare -rn cargo run --example manage
use linkwire::request::{self, Request};
use linkwire::typed::{BondMode, InfoBond, InfoBridge, InfoData, InfoKind, InfoVeth, InfoVlan, LinkInfos};
use linkwire::{LinkAttribute, LinkMessage};
use linkwire_netlink::RouteLink;
use netlink_packet_core::{NLM_F_DUMP_INTR, NetlinkMessage, NetlinkPayload};
use netlink_sys::{Socket, SocketAddr, protocols::NETLINK_ROUTE};
use std::error::Error;
use std::os::unix::io::AsRawFd;

/// Asks for the kernel's text of an error (`NETLINK_EXT_ACK`), which netlink-sys 0.8.3 has no call for.
fn extended_errors(socket: &Socket) -> std::io::Result<()> {
    let on: libc::c_int = 1;
    let (at, len) = (&on as *const _ as *const libc::c_void, std::mem::size_of_val(&on) as libc::socklen_t);
    let answer = unsafe { libc::setsockopt(socket.as_raw_fd(), libc::SOL_NETLINK, libc::NETLINK_EXT_ACK, at, len) };
    if answer == 0 { Ok(()) } else { Err(std::io::Error::last_os_error()) }
}

struct Kernel {
    socket: Socket,
    number: u32,
}

impl Kernel {
    fn new() -> Result<Kernel, Box<dyn Error>> {
        let mut socket = Socket::new(NETLINK_ROUTE)?;
        socket.bind_auto()?;
        socket.connect(&SocketAddr::new(0, 0))?;
        extended_errors(&socket)?;
        Ok(Kernel { socket, number: 0 })
    }

    /// Sends a request, and gives the links of the answer; a dump during which links came or went is asked for again.
    fn ask(&mut self, request: Request) -> Result<Vec<LinkMessage>, Box<dyn Error>> {
        loop {
            if let Some(links) = self.ask_once(&request)? {
                return Ok(links);
            }
        }
    }

    fn ask_once(&mut self, request: &Request) -> Result<Option<Vec<LinkMessage>>, Box<dyn Error>> {
        self.number += 1;
        let is_one = request.flags == request::NLM_F_REQUEST;
        self.socket.send(&request.packet(self.number)?, 0)?;
        let (mut links, mut is_whole) = (Vec::new(), true);
        loop {
            let (datagram, _) = self.socket.recv_from_full()?;
            let mut at = 0;
            while at < datagram.len() {
                let packet = NetlinkMessage::<RouteLink>::deserialize(&datagram[at..])?;
                at += (packet.header.length as usize + 3) / 4 * 4;
                is_whole &= packet.header.flags & NLM_F_DUMP_INTR == 0;
                match packet.payload {
                    NetlinkPayload::Done | NetlinkPayload::Ack(_) => return Ok(is_whole.then_some(links)),
                    NetlinkPayload::Error(error) => return Err(told(&error.header, error.to_io()).into()),
                    NetlinkPayload::InnerMessage(message) => links.push(link_of(message)?),
                    other => return Err(format!("{other:?}").into()),
                }
            }
            if is_one {
                return Ok(Some(links));
            }
        }
    }

    fn one(&mut self, name: &str) -> Result<LinkMessage, Box<dyn Error>> {
        self.ask(request::get(name, &[])?)?.pop().ok_or_else(|| "no answer".into())
    }
}

/// The link of a message. What is refused of it, as an alias in Latin-1, is told, and hides nothing else.
fn link_of(message: RouteLink) -> Result<LinkMessage, Box<dyn Error>> {
    if let RouteLink::Other(_, bytes) = &message {
        LinkMessage::refusals(bytes)?.for_each(|it| println!("refused: {} at byte {}", it.error(), it.offset()));
    }
    match message.lenient() {
        RouteLink::NewLink(link) => Ok(link),
        other => Err(format!("{other:?}").into()),
    }
}

/// The kernel's text, which stands after the request that failed: NLMSGERR_ATTR_MSG is 1, NLMSGERR_ATTR_OFFS 2.
fn told(failed: &[u8], error: std::io::Error) -> String {
    let len = failed.get(..4).map_or(0, |it| u32::from_ne_bytes([it[0], it[1], it[2], it[3]]) as usize);
    let extended = failed.get((len + 3) / 4 * 4..).unwrap_or(&[]);
    let mut text = error.to_string();
    for attribute in linkwire::Attributes::of_list(extended).flatten() {
        match (attribute.number(), attribute.as_str(), attribute.as_u32()) {
            (1, Some(words), _) => text += &format!(": {words}"),
            (2, _, Some(at)) => text += &format!(" (at byte {at})"),
            _ => (),
        }
    }
    text
}

fn name(link: &LinkMessage) -> Option<&str> {
    link.attributes.iter().find_map(|it| match it {
        LinkAttribute::IfName(name) => Some(name.as_str()),
        _ => None,
    })
}

fn data(link: &LinkMessage) -> Option<InfoData> {
    link.attributes.iter().find_map(|it| match it {
        LinkAttribute::LinkInfo(list) => list.info_data()?.ok(),
        _ => None,
    })
}

/// Kinds that a kernel may not have: what is made is read again.
fn kinds(kernel: &mut Kernel, below: u32) -> Result<(), Box<dyn Error>> {
    let vlan = InfoData::Vlan(vec![InfoVlan::Id(10)]);
    let bond = InfoData::Bond(vec![InfoBond::Mode(BondMode::ActiveBackup), InfoBond::MiiMon(100)]);
    let bridge = InfoData::Bridge(vec![InfoBridge::ForwardDelay(400)]);
    for (new, kind, wanted) in
        [("vlan10", InfoKind::Vlan, vlan), ("bond7", InfoKind::Bond, bond), ("br7", InfoKind::Bridge, bridge)]
    {
        let mut add = request::add(new, kind.clone(), Some(wanted))?;
        if kind == InfoKind::Vlan {
            add = add.with(LinkAttribute::Link(below));
        }
        match kernel.ask(add) {
            Ok(_) => {
                let made = kernel.one(new)?;
                println!("made {new}: {:?}", data(&made));
                kernel.ask(request::delete(made.header.index)?)?;
            }
            Err(error) => println!("no {kind} here: {error}"),
        }
    }
    Ok(())
}

fn main() -> Result<(), Box<dyn Error>> {
    let mut kernel = Kernel::new()?;
    for link in kernel.ask(request::dump(&[]))? {
        println!("{}: {}", link.header.index, name(&link).unwrap_or("?"));
    }
    // the other end is described by a message in the data
    let mut peer = LinkMessage::default();
    peer.attributes.push(LinkAttribute::IfName("v1".to_string()));
    kernel.ask(request::add("v0", InfoKind::Veth, Some(InfoData::Veth(vec![InfoVeth::Peer(peer)])))?)?;
    let v0 = kernel.one("v0")?.header.index;
    println!("made v0: index {v0}, the other end {:?}", name(&kernel.one("v1")?));
    kernel.ask(request::mtu(v0, 1400)?)?;
    kernel.ask(request::name(v0, "w0")?)?;
    kernel.ask(request::alias("w0", &"a".repeat(255))?)?;
    kernel.ask(request::add_names("w0", ["uplink of rack 7"])?)?;
    kernel.ask(request::up(v0)?)?;
    let w0 = kernel.one("w0")?;
    println!("now {:?}, {:?}", name(&w0), w0.header.flags);
    kinds(&mut kernel, v0)?;
    let wrong_vlan = InfoData::Vlan(vec![InfoVlan::Id(5000)]);
    for wrong in [request::mtu(v0, 70_000)?, request::add("w0.5", InfoKind::Vlan, Some(wrong_vlan))?] {
        println!("refused: {}", kernel.ask(wrong).expect_err("the kernel refuses it"));
    }
    println!("not sent: {}", request::name(v0, "a name above fifteen").expect_err("it is too long"));
    kernel.ask(request::delete(v0)?)?;
    println!("links left: {}", kernel.ask(request::dump(&[]))?.len());
    Ok(())
}
