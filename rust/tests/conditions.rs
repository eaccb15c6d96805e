//! What a call does whose condition does not hold: it panics at once, with a message that says what was owed. In a
//! buffer nothing is changed then, but by a message's `emit`. `conditions.txt` lists the public calls with a condition;
//! each line there has a row here, and each row a line.

use linkwire::*;
use std::fmt::Debug;
use std::panic::{AssertUnwindSafe, catch_unwind};

/// The call, words of the line that tells its condition, and the test.
type Row = (&'static str, &'static str, fn());

const ROWS: &[Row] = &[
    ("Emitable::buffer_len", "does not fit", || unfit_values(|it| it.buffer_len())),
    ("Emitable::emit", "does not fit, or the buffer has fewer bytes", || {
        unfit_values(|it| it.emit(&mut vec![0; 1 << 18]));
        values_that_want_room();
    }),
    ("InetDevConf::setting", "is 0", || panics("no setting 0", || InetDevConf::default().setting(0))),
    ("InetDevConf::setting", "above 34", || panics("no setting 35", || InetDevConf::default().setting(35))),
    ("Nla::emit_value", "another length", other_lengths_of_values),
    ("Nla::value_len", "does not fit", || unfit_attributes(|it| it.value_len())),
    ("NlaBuffer::kind", "fewer than four", || cut_short(|it| NlaBuffer::new(it).kind())),
    ("NlaBuffer::length", "fewer than four", || cut_short(|it| NlaBuffer::new(it).length())),
    ("NlaBuffer::nested_flag", "fewer than four", || cut_short(|it| NlaBuffer::new(it).nested_flag())),
    ("NlaBuffer::network_byte_order_flag", "fewer than four", || {
        cut_short(|it| NlaBuffer::new(it).network_byte_order_flag());
    }),
    ("NlaBuffer::set_kind", "fewer than four", || cut_short(|it| NlaBuffer::new(it).set_kind(1))),
    ("NlaBuffer::set_length", "fewer than four", || cut_short(|it| NlaBuffer::new(it).set_length(8))),
    ("NlaBuffer::set_nested_flag", "fewer than four", || cut_short(|it| NlaBuffer::new(it).set_nested_flag())),
    ("NlaBuffer::set_network_byte_order_flag", "fewer than four", || {
        cut_short(|it| NlaBuffer::new(it).set_network_byte_order_flag());
    }),
    ("NlaBuffer::value", "passes the bytes", || wrong_lengths(|it| NlaBuffer::new(&*it).value().len())),
    ("NlaBuffer::value_length", "fewer than four", || {
        cut_short(|it| NlaBuffer::new(it).value_length());
        panics("3", || NlaBuffer::new(&header(3)).value_length());
    }),
    ("NlaBuffer::value_mut", "passes the bytes", || wrong_lengths(|it| NlaBuffer::new(it).value_mut().len())),
];

/// The call panics, and these words stand in what it says.
fn panics<T: Debug>(words: &str, call: impl FnOnce() -> T) {
    panics_with_one_of(&[words], call);
}

fn panics_with_one_of<T: Debug>(words: &[&str], call: impl FnOnce() -> T) {
    let message = match catch_unwind(AssertUnwindSafe(call)) {
        Ok(value) => panic!("no panic with {words:?}: {value:?}"),
        Err(payload) => match payload.downcast::<String>() {
            Ok(message) => *message,
            Err(payload) => payload.downcast::<&str>().unwrap().to_string(),
        },
    };
    assert!(words.iter().any(|it| message.contains(it)), "'{message}' has none of {words:?}");
    for word in ["unreachable", "unwrap", "out of range", "out of bounds", "overflow", "mid >"] {
        assert!(!message.contains(word), "'{message}' is not told in a user's words");
    }
}

#[test]
fn each_condition_has_a_row() {
    let lines = include_str!("../conditions.txt").lines();
    let is_of = |row: &Row, line: &str| line.starts_with(&format!("{}: ", row.0)) && line.contains(row.1);
    for line in lines.clone() {
        assert_eq!(ROWS.iter().filter(|it| is_of(it, line)).count(), 1, "rows of: {line}");
    }
    for row in ROWS {
        assert_eq!(lines.clone().filter(|it| is_of(row, it)).count(), 1, "lines of: {}: {}", row.0, row.1);
    }
}

#[test]
fn each_row_holds() {
    for (call, owed, test) in ROWS {
        println!("{call}: {owed}");
        test();
    }
}

/// Attributes whose values the format can not hold.
fn unfit() -> Vec<LinkAttribute> {
    let long = || vec![b'a'; 70_000];
    let text = || "a".repeat(65_531);
    let counters = || vec![AfSpecInet6::Stats(Inet6Stats::default()); 213];
    let function = VfInfo::Mac(VfInfoMac::default());
    vec![
        LinkAttribute::Address(long()),
        LinkAttribute::IfName(text()),
        LinkAttribute::Other(DefaultNla::new(999, long())),
        LinkAttribute::ExtMask(vec![LinkExtentMask::Other(u32::MAX), LinkExtentMask::Vf]),
        LinkAttribute::PhysPortId(long_id()),
        LinkAttribute::Wireless(WirelessEvent::AssociateRequest(long())),
        LinkAttribute::PropList(vec![Prop::AltIfName(text())]),
        LinkAttribute::AfSpecUnspec(vec![AfSpecUnspec::Inet6(counters())]),
        LinkAttribute::VfInfoList(vec![LinkVfInfo(vec![function; 1_700])]),
    ]
}

fn long_id() -> LinkPhysId {
    let mut id = LinkPhysId::parse(&[7; 32]).unwrap();
    id.len = 33;
    id
}

fn unfit_attributes<T: Debug>(call: impl Fn(&LinkAttribute) -> T) {
    for attribute in &unfit() {
        panics("does not fit: an attribute holds at most 65531 bytes", || call(attribute));
    }
}

/// Attributes, lists of them, messages, events, an id, and an attribute of a user's own, that do not fit.
fn unfit_values<T: Debug>(call: impl Fn(&dyn Emitable) -> T) {
    unfit_attributes(|it| call(it));
    for attribute in unfit() {
        panics("does not fit", || call(&[LinkAttribute::Mtu(1), attribute.clone()].as_slice()));
        let mut message = LinkMessage::default();
        message.attributes.push(attribute);
        assert!(!message.fits());
        assert_eq!(message.to_vec(), Err(CanonError::DoesNotFit));
        panics_with_one_of(&["does not fit", "holds at most", "extent mask", "are the most"], || call(&message));
    }
    for event in [WirelessEvent::Other(vec![0; 65_532]), WirelessEvent::AssociateRequest(vec![0; 65_524])] {
        assert!(!event.fits());
        panics("does not fit: an attribute holds at most 65531 bytes", || call(&event));
    }
    assert!(!long_id().fits());
    panics("33 bytes, where 32 are the most", || call(&long_id()));
    panics("does not fit", || call(&Own(65_532)));
}

/// An attribute of a user's own, with so many bytes of value.
struct Own(usize);

impl Nla for Own {
    fn value_len(&self) -> usize {
        self.0
    }

    fn kind(&self) -> u16 {
        7
    }

    fn emit_value(&self, buffer: &mut [u8]) {
        buffer.fill(1);
    }
}

/// A buffer that is too short is refused with both lengths and stays as it was; of a longer one the rest is kept.
fn wants_room(value: &dyn Emitable) {
    let len = value.buffer_len();
    let mut buffer = vec![0x55; len + 3];
    for short in [0, len / 2, len - 1] {
        panics(&format!(" {short}"), || value.emit(&mut buffer[..short]));
        assert!(buffer.iter().all(|it| *it == 0x55));
    }
    value.emit(&mut buffer);
    assert_eq!(buffer[len..], [0x55; 3]);
    let mut exact = vec![0; len];
    value.emit(&mut exact);
    assert_eq!(buffer[..len], exact);
}

fn values_that_want_room() {
    macro_rules! records {
        ($($type:ident)*) => { $(wants_room(&$type::parse(&[0; 400]).unwrap());)* };
    }
    records! {
        LinkHeader Map Stats Stats64 InetDevConf Inet6DevConf Inet6CacheInfo Icmp6Stats Inet6Stats VfInfoBroadcast
        VfInfoGuid VfInfoLinkState VfInfoMac VfInfoRate VfInfoRssQueryEn VfInfoSpoofCheck VfInfoTrust VfInfoTxRate
        VfInfoVlan VfVlanInfo
    }
    wants_room(&LinkEvent::default());
    wants_room(&LinkPhysId::parse(&[7; 20]).unwrap());
    wants_room(&WirelessEvent::AssociateResponse(vec![1, 2]));
    wants_room(&Own(3));
    let mut message = LinkMessage::new();
    message.attributes = vec![LinkAttribute::Mtu(1500), LinkAttribute::IfName("lo".to_string())];
    wants_room(&message.attributes[1]);
    wants_room(&message.attributes.as_slice());
    for short in 0..message.buffer_len() {
        panics("too short", || message.emit(&mut vec![0; short]));
    }
    let mut buffer = [0x55; 40];
    message.emit(&mut buffer);
    assert_eq!(buffer[..32], message.to_vec().unwrap());
    assert_eq!(buffer[32..], [0x55; 8]);
}

fn other_lengths_of_values() {
    unfit_attributes(|it| it.emit_value(&mut vec![0; 1 << 18]));
    let name = LinkAttribute::IfName("eth0".to_string());
    for len in [0, 4, 6, 400] {
        let mut buffer = vec![0x55; len];
        panics("5 bytes", || name.emit_value(&mut buffer));
        assert_eq!(buffer, vec![0x55; len]);
    }
}

/// Bytes that are no header of a frame; nothing is written to them.
fn cut_short<T: Debug>(call: impl Fn(&mut [u8]) -> T) {
    for len in 0..4 {
        let mut bytes = [0x55; 3];
        panics(&format!("{len} bytes, where the header of a frame has 4"), || call(&mut bytes[..len]));
        assert_eq!(bytes, [0x55; 3]);
    }
}

/// Eight bytes that begin with the length of a frame, in host order.
fn header(length: u16) -> [u8; 8] {
    let mut bytes = [0; 8];
    bytes[..2].copy_from_slice(&length.to_ne_bytes());
    bytes
}

fn wrong_lengths(call: impl Fn(&mut [u8]) -> usize) {
    panics("3", || call(&mut header(3)));
    panics("a frame of 9 bytes, where 8 are left", || call(&mut header(9)));
    panics("3 bytes, where the header of a frame has 4", || call(&mut [4, 0, 0]));
}

/// What refuses by a result leaves the buffer as it was.
#[test]
fn refuses() {
    let mut buffer = [0x55; 8];
    assert!(emit_u16(&mut buffer[..1], 1).is_err());
    assert!(emit_u32(&mut buffer[..3], 1).is_err());
    assert!(emit_i32(&mut buffer[..3], 1).is_err());
    assert!(emit_u64(&mut buffer[..7], 1).is_err());
    assert_eq!(buffer, [0x55; 8]);
    assert!(NlaBuffer::new_checked(&header(9)).is_err());
}
