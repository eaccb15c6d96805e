//! Typed data of kinds, and a request, by the crate in rust/ and by Debian's netlink-packet-route, in turns: the least
//! times of many turns, and the ratio of the first to the second.

use linkwire::typed::{self, Typed};
use netlink_packet_core::{NetlinkMessage, NLM_F_ACK, NLM_F_REQUEST};
use netlink_packet_route::link::nlas as theirs;
use netlink_packet_route::traits::{Emitable, Parseable};
use netlink_packet_route::RtnlMessage;
use netlink_packet_utils::nla::NlasIterator;
use std::hint::black_box;
use std::time::{Duration, Instant};

const TURNS: usize = 300;
const TIMES: usize = 400;

fn time(what: &mut dyn FnMut()) -> Duration {
    let start = Instant::now();
    for _ in 0..TIMES {
        what();
    }
    start.elapsed()
}

/// The least of the turns, where there is nothing beside it.
fn alone(what: &str, ours: &mut dyn FnMut()) {
    let least = (0..TURNS).map(|_| time(ours)).min().unwrap();
    println!("{what}: {:.0} ns, no peer", least.as_nanos() as f64 / TIMES as f64);
}

/// The least of the turns of both.
fn ratio(what: &str, ours: &mut dyn FnMut(), theirs: &mut dyn FnMut()) {
    let (mut one, mut other) = (Duration::MAX, Duration::MAX);
    for _ in 0..TURNS {
        one = one.min(time(ours));
        other = other.min(time(theirs));
    }
    let nanos = |it: Duration| it.as_nanos() as f64 / TIMES as f64;
    println!("{what}: {:.0} ns, {:.0} ns, {:.2}", nanos(one), nanos(other), nanos(one) / nanos(other));
}

fn their_list<'a, T>(data: &'a [u8]) -> Vec<T>
where
    T: Parseable<netlink_packet_utils::nla::NlaBuffer<&'a [u8]>>,
{
    NlasIterator::new(data).map(|nla| T::parse(&nla.unwrap()).unwrap_or_else(|error| panic!("{error:?}"))).collect()
}

fn kind<'a, Ours, Theirs>(name: &str, data: &'a [u8])
where
    Ours: Typed,
    Theirs: Parseable<netlink_packet_utils::nla::NlaBuffer<&'a [u8]>> + netlink_packet_utils::nla::Nla,
{
    ratio(
        &format!("parse of {name}"),
        &mut || drop(black_box(typed::parse::<Ours>(black_box(data)).unwrap())),
        &mut || drop(black_box(their_list::<Theirs>(black_box(data)))),
    );
    let (ours, others) = (typed::parse::<Ours>(data).unwrap(), their_list::<Theirs>(data));
    ratio(&format!("emit of {name}"), &mut || drop(black_box(typed::emit(black_box(&ours)))), &mut || {
        let list = black_box(others.as_slice());
        let mut out = vec![0; list.buffer_len()];
        list.emit(&mut out);
        drop(black_box(out));
    });
}

fn bytes(digits: &str) -> Vec<u8> {
    let digits: Vec<u8> = digits.chars().filter_map(|it| Some(it.to_digit(16)? as u8)).collect();
    digits.chunks(2).map(|it| it[0] * 16 + it[1]).collect()
}

fn their_message() -> netlink_packet_route::LinkMessage {
    let mut link = netlink_packet_route::LinkMessage::default();
    link.header.index = 7;
    link.nlas.push(theirs::Nla::Mtu(black_box(1400)));
    link
}

fn request() {
    let by_hand = || {
        let mut link = linkwire::LinkMessage::default();
        link.header.index = 7;
        link.attributes.push(linkwire::LinkAttribute::Mtu(black_box(1400)));
        drop(black_box(link.to_vec().unwrap()));
    };
    let ours = || drop(black_box(linkwire::request::mtu(7, black_box(1400)).unwrap().into_message().to_vec().unwrap()));
    let other = || {
        let link = their_message();
        let mut out = vec![0; link.buffer_len()];
        link.emit(&mut out);
        drop(black_box(out));
    };
    ratio("a request of an MTU", &mut { ours }, &mut { other });
    ratio("its message by hand", &mut { by_hand }, &mut { other });
    let ours = || drop(black_box(linkwire::request::mtu(7, black_box(1400)).unwrap().packet(1).unwrap()));
    let other = || {
        let mut packet = NetlinkMessage::from(RtnlMessage::NewLink(their_message()));
        packet.header.flags = NLM_F_REQUEST | NLM_F_ACK;
        packet.header.sequence_number = 1;
        packet.finalize();
        let mut out = vec![0; packet.buffer_len()];
        packet.serialize(&mut out);
        drop(black_box(out));
    };
    ratio("the packet of that request", &mut { ours }, &mut { other });
}

/// Data that netlink-packet-route keeps as bytes.
fn bond() {
    // what Linux 6.12 dumped of one
    let data = bytes(
        "0500010001000000080002005000000008000300640000000800040000000000080005000000000008001c0000000000
         05000600010000000800070000000000080009000000000008000a000000000008000b005000000005000c0000000000
         05000d000100000005000e000000000008000f0001000000050010000100000005001100000000000800120000000000
         0800130001000000080014000100000005001d00010000000500150000000000050016000000000005001b0001000000
         05001e00020000000500200001000000",
    );
    let list = typed::parse::<typed::InfoBond>(&data).unwrap();
    assert!(!list.iter().any(|it| matches!(it, typed::InfoBond::Other(_))));
    alone("parse of a bond", &mut || drop(black_box(typed::parse::<typed::InfoBond>(black_box(&data)).unwrap())));
    alone("emit of a bond", &mut || drop(black_box(typed::emit(black_box(&list)))));
}

fn main() {
    // what Linux 6.12 dumped of a vlan, a bridge and a vxlan
    let vlan = bytes("0600050081000000060001000a0000000c00020006000000ffffffff");
    let bridge = bytes(
        "0c00100000000000000000000c00110000000000000000000c00120000000000000000000c0013006771000000000000
         080001009001000008000200c800000008000300d0070000080004003075000008000500000000000600060000800000
         050007000000000006000900080000000c000b008000dee9c35e65500c000a008000dee9c35e655006000c0000000000
         08000d000000000005000e000000000005000f00000000000a0014000180c20000000000
         0600080088a8000006002700010000000500290000000000
         05002d0000000000050016000100000005001700010000000500180000000000050019000000000005002a0000000000
         08001a001000000008001b000010000008001c000200000008001d000200000005002b000200000005002c0001000000
         0c001e0064000000000000000c001f0090650000000000000c0020009c630000000000000c002100d430000000000000
         0c002200e8030000000000000c002300340c000000000000050024000100000005002500000000000500260000000000",
    );
    let vxlan = bytes(
        "080001002a00000008000200ef010101080003002e000000050005000500000005001c0000000000050006000000000005001d00
         0000000008001a0000000000050007000100000005000b000000000005000c000000000005000d000000000005000e0000000000
         0800080064000000080009000500000006000f0012b5000005001200010000000500130000000000050014000000000005001500
         000000000500160000000000",
    );
    kind::<typed::InfoVlan, theirs::InfoVlan>("a vlan", &vlan);
    kind::<typed::InfoBridge, theirs::InfoBridge>("a bridge", &bridge);
    kind::<typed::InfoVxlan, theirs::InfoVxlan>("a vxlan", &vxlan);
    bond();
    request();
}
