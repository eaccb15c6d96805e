//! Link data by names: what the calls that are written by hand for this crate return.

use linkwire::DefaultNla;
use linkwire::info::{Fields, Info, InfoError, KINDS, Place, Plain, SLAVE_KINDS, Size, Style, Value};
use linkwire::{LinkAttribute, LinkInfo, LinkMessage};
use std::net::{Ipv4Addr, Ipv6Addr};

/// An attribute of this kind, with its numbers in host order.
fn frame(kind: u16, payload: &[u8]) -> Vec<u8> {
    let mut frame = ((payload.len() + 4) as u16).to_ne_bytes().to_vec();
    frame.extend(kind.to_ne_bytes());
    frame.extend(payload);
    frame.resize(frame.len() + payload.len().wrapping_neg() % 4, 0);
    frame
}

#[test]
fn numbers_of_any_type() {
    let mut vxlan = Info::new("vxlan").unwrap();
    for set in [
        |it: &mut Info| it.set("id", 100u8),
        |it: &mut Info| it.set("id", 100u16),
        |it: &mut Info| it.set("id", 100u32),
        |it: &mut Info| it.set("id", 100u64),
        |it: &mut Info| it.set("id", 100i8),
        |it: &mut Info| it.set("id", 100i16),
        |it: &mut Info| it.set("id", 100),
        |it: &mut Info| it.set("id", 100i64),
    ] {
        vxlan.set("id", 1).unwrap();
        assert_eq!(set(&mut vxlan), Ok(()));
        assert_eq!(vxlan.value("id"), Some(Value::Unsigned(100)));
    }
    assert_eq!(vxlan.set("id", -100), Err(InfoError::NotHeld));
    assert_eq!(vxlan.set("id", 1u64 << 32), Err(InfoError::NotHeld));
    assert_eq!(vxlan.set("ident", 1), Err(InfoError::UnknownName));
    assert_eq!(vxlan.u32("id"), Some(100));
    vxlan.set("id", u32::MAX).unwrap();
    assert_eq!((vxlan.u16("id"), vxlan.i32("id"), vxlan.u32("id")), (None, None, Some(u32::MAX)));
    vxlan.set("learning", false).unwrap();
    assert_eq!((vxlan.u8("learning"), vxlan.u64("learning")), (Some(0), Some(0)));
}

#[test]
fn signed_numbers() {
    let mut macvlan = Info::new("macvlan").unwrap();
    macvlan.set("bc-cutoff", -1).unwrap();
    assert_eq!((macvlan.i32("bc-cutoff"), macvlan.u32("bc-cutoff")), (Some(-1), None));
    macvlan.set("bc-cutoff", 5u8).unwrap();
    assert_eq!(macvlan.value("bc-cutoff"), Some(Value::Signed(5)));
    assert_eq!((macvlan.i32("bc-cutoff"), macvlan.u8("bc-cutoff")), (Some(5), Some(5)));
    assert_eq!(macvlan.set("bc-cutoff", u32::MAX), Err(InfoError::NotHeld));
    assert_eq!(macvlan.set("bc-cutoff", u64::MAX), Err(InfoError::NotHeld));
    assert_eq!(macvlan.i32("bc-cutoff"), Some(5));
}

#[test]
fn addresses_flags_and_bytes() {
    let mut vxlan = Info::new("vxlan").unwrap();
    vxlan.set("group", Ipv4Addr::new(239, 1, 1, 1)).unwrap();
    vxlan.set("group6", Ipv6Addr::LOCALHOST).unwrap();
    vxlan.set("gbp", Value::Flag).unwrap();
    vxlan.set("port-range", &vec![0x12, 0xb5, 0x12, 0xb6]).unwrap();
    assert_eq!(vxlan.ipv4("group"), Some(Ipv4Addr::new(239, 1, 1, 1)));
    assert_eq!(vxlan.ipv6("group6"), Some(Ipv6Addr::LOCALHOST));
    assert_eq!((vxlan.flag("gbp"), vxlan.flag("gpe"), vxlan.flag("group")), (true, false, false));
    assert_eq!(vxlan.bytes("port-range"), Some(&[0x12, 0xb5, 0x12, 0xb6][..]));
    let range: Vec<_> = vxlan.value("port-range").unwrap().members().map(|it| (it.0.name(), it.1)).collect();
    assert_eq!(range, [("low", Value::Unsigned(4789)), ("high", Value::Unsigned(4790))]);
    // each getter, of an attribute that has another value, or none
    assert_eq!((vxlan.ipv4("group6"), vxlan.ipv6("group"), vxlan.mac("group")), (None, None, None));
    assert_eq!((vxlan.u32("group"), vxlan.text("group"), vxlan.bytes("group")), (None, None, None));
    assert_eq!((vxlan.u32("id"), vxlan.named("df"), vxlan.named("id")), (None, None, None));
    assert_eq!(vxlan.set("group", Ipv6Addr::LOCALHOST), Err(InfoError::NotHeld));
    assert_eq!(vxlan.set("group", [0; 6]), Err(InfoError::NotHeld));
    assert_eq!(vxlan.set("group", "239.1.1.1"), Err(InfoError::NotHeld));
    assert_eq!(vxlan.set("group", &[239, 1, 1, 1]), Err(InfoError::NotHeld));
}

#[test]
fn names_of_numbers_and_bits() {
    let mut bond = Info::new("bond").unwrap();
    bond.set("mode", 6).unwrap();
    assert_eq!(bond.named("mode"), Some("balance-alb"));
    bond.set("mode", 7).unwrap();
    assert_eq!((bond.u8("mode"), bond.named("mode")), (Some(7), None));
    let flags = Plain::BigEndianFlags(Size::Two, &[(1, "one"), (2, "two"), (8, "four")]);
    assert_eq!(flags.names_of(0x800a).collect::<Vec<_>>(), ["two", "four"]);
    assert_eq!(Plain::Mac.names_of(1).count(), 0);
    assert_eq!(flags.name_of(1), None);
}

#[test]
fn texts_and_arrays_of_other_places() {
    // a port of a function: its number, and the name of a profile
    let port = [frame(1, &3u32.to_ne_bytes()), frame(2, b"ab\0")].concat();
    let fields: Vec<_> = Fields::new(Place::Port.rows(), &port).map(Result::unwrap).collect();
    assert_eq!((fields[0].name(), fields[0].value()), (Some("vf"), Value::Unsigned(3)));
    assert_eq!((fields[1].name(), fields[1].value()), (Some("profile"), Value::Text("ab")));
    // of AF_INET6 an array of signed numbers
    let rows = Place::Inet6.rows();
    let conf = rows.iter().find(|row| matches!(row.style(), Style::Array(Plain::Signed(_)))).unwrap();
    let inet6 = frame(conf.number(), &[1i32.to_ne_bytes(), (-1i32).to_ne_bytes()].concat());
    let field = Fields::new(rows, &inet6).next().unwrap().unwrap();
    assert_eq!(field.value().elements().collect::<Vec<_>>(), [Value::Signed(1), Value::Signed(-1)]);
    assert_eq!((field.value().members().count(), field.value().fields().is_none()), (0, true));
    // a value that was made by hand of fewer bytes than its members have
    let flags = Place::Vlan.rows()[1].style();
    let members = match flags {
        Style::Record(members) => members,
        _ => panic!("a record"),
    };
    assert_eq!(Value::Record(members, &[1, 0, 0, 0, 2]).members().count(), 1);
    assert_eq!(Value::Array(Plain::Octets(0), &[1]).elements().count(), 0);
    assert_eq!(Value::List(Plain::Ipv4, &[5, 0, 0, 0, 1]).elements().count(), 0);
}

#[test]
fn kinds() {
    for row in KINDS {
        assert_eq!(Place::of_kind(row.kind()), Some(row.place()));
        assert_eq!(Info::new(row.kind()).map(|it| it.place()), Ok(Some(row.place())));
    }
    for row in SLAVE_KINDS {
        assert_eq!(Place::of_slave_kind(row.kind()), Some(row.place()));
    }
    let mut dummy = Info::new("dummy").unwrap();
    assert_eq!((dummy.kind(), dummy.place(), dummy.value("mode")), ("dummy", None, None));
    assert_eq!(dummy.set("mode", 1), Err(InfoError::UnknownName));
    assert_eq!(dummy.list().unwrap(), [LinkInfo::Kind("dummy".to_string())]);
    let kept = DefaultNla::new(2, frame(1, &[7]));
    let list = [LinkInfo::Kind("dummy".to_string()), LinkInfo::Other(kept)];
    assert_eq!(Info::of(&list).unwrap().list().unwrap(), list);
    assert_eq!(Info::of(&list[1..]), Err(InfoError::UnknownKind));
    assert_eq!(InfoError::UnknownKind.to_string(), "no kind of interface is named");
    let mut gre = Info::new("gre").unwrap();
    assert_eq!(gre.set_flags("iflags", &["key", "csum"]), Ok(()));
    assert_eq!((gre.u16("iflags"), gre.set("oflags", "seq")), (Some(0xa000), Ok(())));
    assert_eq!(gre.set_flags("iflags", &["keys"]), Err(InfoError::NotHeld));
    let mut bond = Info::new("bond").unwrap();
    assert_eq!((bond.set("mode", "802.3ad"), bond.u8("mode"), bond.named("mode")), (Ok(()), Some(4), Some("802.3ad")));
    assert_eq!((bond.set("mode", 99), bond.u8("mode"), bond.named("mode")), (Ok(()), Some(99), None));
    assert_eq!(bond.set("mode", "802.3"), Err(InfoError::NotHeld));
    let error: Box<dyn std::error::Error> = InfoError::NotHeld.into();
    assert_eq!(error.to_string(), "the attribute cannot have this value");
}

#[test]
fn lists_of_messages() {
    let mut vlan = Info::new("vlan").unwrap();
    vlan.set("id", 5).unwrap();
    let list = vlan.list().unwrap();
    assert_eq!(Info::of(&list), Ok(vlan.clone()));
    assert_eq!(Info::try_from(&list[..]), Ok(vlan.clone()));
    assert_eq!(Info::of(&list[1..]), Err(InfoError::UnknownKind));
    assert_eq!(Info::of(&list[..1]).unwrap().u16("id"), None);
    // IFLA_INFO_KIND "vlan", and IFLA_INFO_DATA with the id
    let bytes = [frame(1, b"vlan\0"), frame(2, &frame(1, &5u16.to_ne_bytes()))].concat();
    let mut message = LinkMessage::default();
    message.attributes.push(LinkAttribute::LinkInfo(list.clone()));
    assert_eq!(message.to_vec().unwrap()[20..], bytes);
    // data that are no whole attributes, and data that are too long for an attribute
    let damaged = [list[0].clone(), LinkInfo::Other(linkwire::DefaultNla::new(2, frame(1, &[5, 0])[..5].to_vec()))];
    assert_eq!(Info::of(&damaged), Err(InfoError::Damaged));
    let mut netkit = Info::new("netkit").unwrap();
    // a header of four bytes, the payload, and padding up to a multiple of four: 65532 bytes, and 65528
    netkit.set("peer-info", &vec![0; 65525]).unwrap();
    assert_eq!(netkit.list(), Err(InfoError::TooLong));
    netkit.set("peer-info", &vec![0; 65524]).unwrap();
    assert!(netkit.list().is_ok());
    netkit.set("primary", 1).unwrap();
    assert_eq!(netkit.list(), Err(InfoError::TooLong));
}
