//! Views say what `parse` reads, in inner lists too: of the stored lines and the kernels' messages, of each cut short,
//! damaged, and with each attribute repeated. The keys are those of the rows, every one.

use linkwire::typed::{self, LinkInfos};
use linkwire::view::*;
use linkwire::{
    AddressFamily, Attribute, Attributes, Cause, DecodeError, HEADER_SIZE, LinkAttribute, LinkMessage, check,
};
use std::fmt::Debug;
use std::fs;

/// The kernels' messages, captures, the stored lines of the program, and those of the file that `LINKWIRE_LINES` names.
fn stored() -> Vec<Vec<u8>> {
    let mut paths: Vec<String> = ["tests/kernels/messages.txt", "tests/captures.txt", "crates/linkwire/stdin"]
        .iter()
        .map(|it| format!("{}/../{it}", env!("CARGO_MANIFEST_DIR")))
        .collect();
    paths.extend(std::env::var("LINKWIRE_LINES"));
    let text: String = paths.iter().map(|it| fs::read_to_string(it).unwrap()).collect();
    text.lines().filter_map(|line| bytes_of(line.rsplit(' ').next().unwrap())).collect()
}

fn bytes_of(line: &str) -> Option<Vec<u8>> {
    let digits: Option<Vec<u8>> = line.chars().map(|it| it.to_digit(16).map(|digit| digit as u8)).collect();
    let digits = digits.filter(|it| it.len() % 2 == 0)?;
    Some(digits.chunks(2).map(|it| 16 * it[0] + it[1]).collect())
}

// ** the keys of each list

/// A list, its attributes by number, and as they are shown.
type Shown = Vec<(u16, String)>;

trait Checked {
    /// Whether each key says what `iter` says, here and in the lists inside.
    fn keys_agree(&self);
    /// The first fault, front to back.
    fn fault(&self) -> Option<DecodeError>;
}

fn shown<'a, M: Debug>(
    attributes: impl Iterator<Item = Result<Attribute<'a>, DecodeError>>,
    members: impl Iterator<Item = Result<M, DecodeError>>,
) -> Shown {
    let numbers = attributes.map(|it| it.unwrap().number());
    numbers.zip(members.map(|it| format!("{:?}", it.unwrap()))).collect()
}

/// Of a key `get` is the last attribute of its number, if that is its variant.
fn key_agrees<'a, K: Key<'a>>(all: &Shown, name: &str, found: Result<Option<K::Value>, DecodeError>)
where
    K::Value: Debug,
{
    let last = all.iter().rev().find(|it| it.0 == K::NUMBER).map(|it| it.1.as_str());
    let wanted = last.and_then(|it| it.strip_prefix(name)).filter(|it| it.is_empty() || it.starts_with('('));
    let found = found.unwrap().map(|it| format!("({it:?})"));
    assert_eq!(found.as_deref(), wanted.map(|it| if it.is_empty() { "(())" } else { it }), "{name}");
}

/// What is done with a list, if the value is one.
macro_rules! inside {
    (list $value:ident, $call:ident) => {
        $value.$call()
    };
    (some $value:ident, $call:ident) => {
        $value.$call()
    };
    (nest $value:ident, $call:ident) => {
        $value.$call()
    };
    ($how:ident $value:ident, $call:ident) => {{
        let _ = $value;
        Default::default()
    }};
}

macro_rules! keys {
    ($($(#[$docs:meta])+ $name:ident($value:ty) $number:ident $how:ident;)+) => {
        impl Checked for (&[u8], LinkView<'_>) {
            fn keys_agree(&self) {
                let view = &self.1;
                let all = shown(Attributes::of_list(&self.0[HEADER_SIZE..]), view.iter());
                $(
                    key_agrees::<$name>(&all, stringify!($name), view.get($name));
                    let (one, other) = view.get(($name, Mtu)).unwrap();
                    let alone = (view.get($name).unwrap(), view.get(Mtu).unwrap());
                    assert_eq!(format!("{one:?} {other:?}"), format!("{:?} {:?}", alone.0, alone.1));
                )+
                for attribute in view {
                    match attribute.unwrap() {
                        $(AttributeView::$name(it) => inside!($how it, keys_agree),)+
                        _ => {}
                    }
                }
            }

            fn fault(&self) -> Option<DecodeError> {
                self.1.iter().find_map(|it| match it {
                    Err(fault) => Some(fault),
                    $(Ok(AttributeView::$name(it)) => inside!($how it, fault),)+
                    _ => None,
                })
            }
        }
    };
}

macro_rules! members {
    (
        $(#[$docs:meta])+ $module:ident $place:ident $numbers:ident $file:ident::$borrowed:ident;
        $($(#[$row_docs:meta])+ $name:ident($value:ty) $number:ident $how:ident;)*
    ) => {
        impl Checked for ListView<'_, linkwire::$place> {
            fn keys_agree(&self) {
                let all = shown(self.attributes(), self.iter());
                $(key_agrees::<$module::$name>(&all, stringify!($name), self.get($module::$name));)*
                assert_eq!(all.len(), self.attributes().count());
                for member in self {
                    match member.unwrap() {
                        $($module::Member::$name(it) => inside!($how it, keys_agree),)*
                        _ => {}
                    }
                }
            }

            fn fault(&self) -> Option<DecodeError> {
                self.iter().find_map(|it| match it {
                    Err(fault) => Some(fault),
                    $(Ok($module::Member::$name(it)) => inside!($how it, fault),)*
                    _ => None,
                })
            }
        }
    };
}

macro_rules! entries {
    ($place:ident $member:ident) => {
        impl Checked for ListView<'_, linkwire::$place> {
            fn keys_agree(&self) {
                self.iter().for_each(|it| it.unwrap().keys_agree());
            }

            fn fault(&self) -> Option<DecodeError> {
                self.iter().find_map(|it| it.map_or_else(Some, |it| it.fault()))
            }
        }
    };
}

macro_rules! data {
    (
        $(#[$docs:meta])+ $module:ident $place:ident:
        $($number:literal $kind:literal $name:ident($value:ty) $form:ident $text:literal,)*
        flags: $($flag_number:literal $flag:ident $flag_text:literal,)*
    ) => {
        impl Checked for ListView<'_, typed::$place> {
            fn keys_agree(&self) {
                let all = shown(self.attributes(), self.iter());
                $(key_agrees::<$module::$name>(&all, stringify!($name), self.get($module::$name));)*
                $(key_agrees::<$module::$flag>(&all, stringify!($flag), self.get($module::$flag));)*
                assert_eq!(all.len(), self.attributes().count());
                for member in self {
                    match member.unwrap() {
                        $($module::Member::$name(it) => nested!($form it),)*
                        _ => {}
                    }
                }
            }

            fn fault(&self) -> Option<DecodeError> {
                self.iter().find_map(Result::err)
            }
        }
    };
}

/// The lists in the data of a kind are nests alone.
macro_rules! nested {
    (nest $value:ident) => {
        $value.keys_agree()
    };
    ($form:ident $value:ident) => {{
        let _ = $value;
    }};
}

include!("../src/generated/keys.rs");

macro_rules! kinds {
    ($data:ident: $($name:ident)+) => {
        impl Checked for $data<'_> {
            fn keys_agree(&self) {
                match self {
                    $($data::$name(list) => list.keys_agree(),)+
                    other => assert!(format!("{other:?}").starts_with("Other("), "{other:?}"),
                }
            }

            fn fault(&self) -> Option<DecodeError> {
                unreachable!("`new` refuses what is not whole")
            }
        }
    };
}

kinds!(InfoDataView: Vlan Bond Bridge Vxlan Geneve GreTun GreTap ErSpan GreTun6 GreTap6 ErSpan6 IpTunnel SitTun
    Ip6Tunnel Vti Vti6 Xfrm MacVlan MacVtap IpVlan IpVtap MacSec Can Vcan Vrf Tun Netkit Hsr RmNet Gtp BareUdp Amt Wwan
    Ovpn Veth Vxcan Ppp BatAdv Dsa Ipoib Wireguard);
kinds!(InfoPortDataView: BondPort BridgePort VrfPort TeamPort);

// ** views beside what is parsed

/// What is parsed, as its view is shown: kept attributes by their names there, and entries without a name.
fn as_view(text: &str) -> String {
    let text = text.replace("DefaultNla { kind: ", "Attribute { kind: ").replace(", value: [", ", payload: [");
    ["LinkVfInfo", "LinkVfPort"].iter().fold(text, |text, name| without(&text, &format!("{name}(")))
}

/// Without this name and its bracket, and the bracket that closes it.
fn without(text: &str, name: &str) -> String {
    let at = match text.find(name) {
        Some(at) => at,
        None => return text.into(),
    };
    let (mut depth, rest) = (1, &text[at + name.len()..]);
    let end = rest.find(|it| {
        depth += (it == '(') as i32 - (it == ')') as i32;
        depth == 0
    });
    let end = end.unwrap();
    without(&[&text[..at], &rest[..end], &rest[end + 1..]].concat(), name)
}

fn is_of(view: &AttributeView<'_>, attribute: &LinkAttribute) {
    match (view, attribute) {
        (AttributeView::ProtoInfoUnknown(it), LinkAttribute::ProtoInfoUnknown(nla)) => assert_eq!(*it, nla.value()),
        (AttributeView::ExtMask(it), LinkAttribute::ExtMask(flags)) => {
            assert_eq!(*it, flags.iter().map(|flag| u32::from(*flag)).sum::<u32>());
        }
        (AttributeView::AfSpecBridge(it), LinkAttribute::AfSpecBridge(kept)) => {
            let kept: Vec<_> = kept.iter().map(typed::AfSpecBridge::from).collect();
            assert_eq!(format!("{it:?}"), as_view(&format!("{kept:?}")));
        }
        (AttributeView::ProtoInfoBridge(it), LinkAttribute::ProtoInfoBridge(kept)) => {
            let kept: Vec<_> = kept.iter().map(typed::LinkProtoInfoBridge::from).collect();
            assert_eq!(format!("{it:?}"), as_view(&format!("{kept:?}")));
        }
        _ => assert_eq!(format!("{view:?}"), as_view(&format!("{attribute:?}"))),
    }
    if let (AttributeView::LinkInfo(it), LinkAttribute::LinkInfo(list)) = (view, attribute) {
        info_agrees(it, list);
    }
}

/// The data of kinds: `LinkInfos` has what a view has.
fn info_agrees(view: &ListView<'_, linkwire::LinkInfo>, list: &[linkwire::LinkInfo]) {
    let same = |view: String, wanted: String| {
        if !wanted.contains("Peer") {
            assert_eq!(view, as_view(&wanted));
        }
    };
    assert_eq!(view.kind(), Ok(list.info_kind().as_ref().map(|it| it.as_str())));
    assert_eq!(view.port_kind(), Ok(list.port_kind().as_ref().map(|it| it.as_str())));
    same(format!("{:?}", view.data()), format!("{:?}", list.info_data().transpose()));
    same(format!("{:?}", view.port_data()), format!("{:?}", list.port_data().transpose()));
    same(format!("{:?}", view.xstats().unwrap()), format!("{:?}", list.xstats()));
    if let Ok(Some(data)) = view.data() {
        data.keys_agree();
    }
    if let Ok(Some(data)) = view.port_data() {
        data.keys_agree();
    }
}

fn agrees(bytes: &[u8]) {
    let message = match LinkMessage::parse(bytes) {
        Ok(message) => message,
        Err(fault) => return fault_agrees(bytes, fault),
    };
    let view = LinkView::new(bytes).unwrap();
    assert_eq!(view.header(), message.header);
    let views: Vec<_> = view.iter().map(Result::unwrap).collect();
    assert_eq!(views.len(), message.attributes.len());
    views.iter().zip(&message.attributes).for_each(|(view, attribute)| is_of(view, attribute));
    (bytes, view).keys_agree();
}

/// The fault is that of `new`, and what a view that is not checked meets first. That of a frame has no place there.
fn fault_agrees(bytes: &[u8], fault: DecodeError) {
    assert_eq!(LinkView::new(bytes).err(), Some(fault));
    match LinkView::peek(bytes) {
        Ok(view) => assert_eq!((bytes, view).fault().map(|it| it.within(fault.place)), Some(fault)),
        Err(short) => assert!(bytes.len() < HEADER_SIZE && short == fault),
    }
}

/// The stored lines whole and cut; and those that are read with all attributes twice, the second time in turn.
#[test]
fn as_parse() {
    let stored = stored();
    assert!(stored.len() >= 100, "{} lines", stored.len());
    for bytes in stored {
        agrees(&bytes);
        for len in [15, 16, 19, 20, bytes.len() / 2, bytes.len().saturating_sub(1)] {
            agrees(&bytes[..len.min(bytes.len())]);
        }
        if check(&bytes).is_ok() && bytes.len() % 4 == 0 {
            let frames: Vec<_> = Attributes::of_list(&bytes[HEADER_SIZE..]).map(Result::unwrap).collect();
            let mut twice = bytes.clone();
            for it in frames.iter().rev() {
                twice.extend(((it.payload().len() + 4) as u16).to_ne_bytes());
                twice.extend(it.kind().to_ne_bytes());
                twice.extend(it.payload());
                twice.resize((twice.len() + 3) & !3, 0);
            }
            agrees(&twice);
        }
    }
}

/// Each byte damaged: what `parse` refuses is refused with its fault.
#[test]
fn as_parse_of_damaged_messages() {
    let mut refused = 0;
    for mut bytes in stored() {
        for at in 0..bytes.len() {
            let before = bytes[at];
            bytes[at] = before.wrapping_add(1 + at as u8 % 7);
            if let Err(fault) = LinkMessage::parse(&bytes) {
                fault_agrees(&bytes, fault);
                refused += 1;
            }
            bytes[at] = before;
        }
    }
    assert!(refused > 1000, "{refused} were refused");
}

/// What is not asked for is not met.
#[test]
fn of_a_damaged_message() {
    let mut bytes = vec![0; 16];
    bytes.extend(frame(3, b"lo\0"));
    bytes.extend(frame(4, &[0xdc, 5, 0]));
    bytes.extend(frame(20, &[0xe9]));
    let view = LinkView::peek(&bytes).unwrap();
    assert_eq!(view.get(IfName), Ok(Some("lo")));
    assert_eq!(view.get(Mtu), Err(LinkMessage::parse(&bytes).unwrap_err()));
    let fault = view.get(IfAlias).unwrap_err();
    assert_eq!((fault.place, fault.cause), ("IFLA_IFALIAS", Cause::NotUtf8));
    assert_eq!(view.iter().map(|it| it.is_ok()).collect::<Vec<_>>(), [true, false, false]);
    bytes.push(9);
    let view = LinkView::peek(&bytes).unwrap();
    assert_eq!(view.get(IfName).unwrap_err().cause, Cause::FrameShort { left: 1 });
}

/// Of another size, or under another family, the number is another variant.
#[test]
fn by_size_and_family() {
    let mut bytes = vec![0; 16];
    bytes.extend(frame(68, &32u16.to_ne_bytes()));
    bytes.extend(frame(69, &32u32.to_ne_bytes()));
    bytes.extend(frame(26, &frame(12, &[])));
    let view = LinkView::new(&bytes).unwrap();
    assert_eq!(view.get((Headroom, Tailroom)), Ok((Some(32), None)));
    assert_eq!(view.get(AfSpecUnspec).unwrap().unwrap().attributes().next().unwrap().unwrap().number(), 12);
    assert!(view.get(AfSpecBridge).unwrap().is_none() && view.get(AfSpecUnknown).unwrap().is_none());
    bytes[0] = u8::from(AddressFamily::Inet6);
    let view = LinkView::new(&bytes).unwrap();
    assert_eq!(view.get(AfSpecUnknown), Ok(Some(&frame(12, &[])[..])));
}

/// Of functions and ports the entries of another number are dropped unread, and one without attributes is refused in
/// its place; what stands around it is read.
#[test]
fn entries() {
    let (one, other) = (frame(1, &frame(9, &[3, 0, 0, 0, 1, 0, 0, 0])), frame(2, &[7]));
    let fault = Err(("IFLA_VF_INFO", Cause::EmptyList));
    for (entries, wanted) in [
        (vec![&one, &other, &one, &other], vec![Ok(8), Ok(8)]),
        (vec![&other], vec![]),
        (vec![&other, &frame(1, &[]), &other, &one], vec![fault, Ok(8)]),
    ] {
        let list: Vec<u8> = entries.into_iter().flatten().copied().collect();
        let bytes = [vec![0; HEADER_SIZE], frame(22, &list)].concat();
        agrees(&bytes);
        let functions = LinkView::peek(&bytes).unwrap().get(VfInfoList).unwrap().unwrap();
        let found = functions.iter().map(|it| it.map(len).map_err(|it| (it.place, it.cause)));
        assert_eq!(found.collect::<Vec<_>>(), wanted);
        agrees(&[vec![0; HEADER_SIZE], frame(24, &list)].concat());
    }
}

/// How many bytes the first attribute of a list has.
fn len(list: ListView<'_, linkwire::VfInfo>) -> usize {
    list.attributes().next().unwrap().unwrap().payload().len()
}

#[test]
fn keys_of_one_number() {
    let mtu = |it: u32| it.to_ne_bytes();
    let attributes = [frame(4, &mtu(1)), frame(4, &mtu(2)), frame(16, &[6]), frame(13, &[])].concat();
    let bytes = [vec![0; HEADER_SIZE], attributes].concat();
    let view = LinkView::peek(&bytes).unwrap();
    let found = view.get((Mtu, OperState, Mtu, Link)).unwrap();
    assert_eq!(found, (Some(2), Some(linkwire::State::Up), Some(2), None));
    assert_eq!(view.get((TxQueueLen, Mtu)), view.get(TxQueueLen).map(|it| (it, Some(2))));
    assert!(view.get((TxQueueLen, Mtu)).is_err());
}

/// The bytes of an attribute.
fn frame(kind: u16, payload: &[u8]) -> Vec<u8> {
    let mut bytes = ((payload.len() + 4) as u16).to_ne_bytes().to_vec();
    bytes.extend(kind.to_ne_bytes());
    bytes.extend(payload);
    bytes.resize((bytes.len() + 3) & !3, 0);
    bytes
}

/// What the data of a kind would not give back is kept: a kind with flags, a text without a NUL inside of a nest,
/// padding that is not zero, another size, numbers of a list out of turn.
#[test]
fn data_as_typed() {
    let one = frame(1, &[10, 0, 0, 2]);
    let two = frame(0, &[10, 0, 0, 1]);
    let mut padded = frame(1, &[0; 7]);
    *padded.last_mut().unwrap() = 1;
    let text = frame(1, b"x");
    let rows: &[(&str, Vec<u8>)] = &[
        ("vlan", frame(1, &[100, 0])),
        ("vlan", frame(0x8001, &[100, 0])),
        ("vlan", frame(1, &[100, 0, 0])),
        ("vlan", frame(5, &[0x81, 0])),
        ("vlan", frame(5, &[0x81, 1])),
        ("vlan", frame(3, &frame(1, &[1, 0, 0, 0, 2, 0, 0, 0]))),
        ("vlan", frame(3, &padded)),
        ("vlan", frame(3, &[8, 0, 1])),
        ("bond", frame(8, &[&two[..], &one[..]].concat())),
        ("bond", frame(8, &one)),
        ("bond", frame(8, &[])),
        ("bond", frame(23, &[&frame(1, &[7, 0])[..], &text[..]].concat())),
        ("bridge", frame(21, &[])),
        ("bridge", frame(21, &[0])),
        ("bridge", frame(0x802f, &frame(1, &[10, 0, 0, 1]))),
        ("bridge", frame(47, &frame(1, &[10, 0, 0, 1]))),
        ("vxlan", frame(15, &[0x12, 0xb5])),
        ("geneve2", vec![1]),
        ("vlan", vec![9, 0]),
    ];
    for (kind, data) in rows {
        let wanted = typed::InfoData::parse(&typed::InfoKind::from(*kind), data);
        let found = InfoDataView::new(kind, data);
        assert_eq!(format!("{found:?}"), as_view(&format!("{wanted:?}")), "{kind} {data:?}");
        if let Ok(data) = found {
            data.keys_agree();
        }
    }
}

/// A peer of a veth is a message, of which there is a view.
#[test]
fn a_peer() {
    let peer = [&[0; 16][..], &frame(3, b"v1\0")].concat();
    let data = frame(1, &peer);
    match InfoDataView::new("veth", &data) {
        Ok(InfoDataView::Veth(veth)) => {
            let peer = veth.get(info_veth::Peer).unwrap().unwrap();
            assert_eq!(peer.get(IfName), Ok(Some("v1")));
        }
        other => panic!("{other:?}"),
    }
    let data = frame(1, &peer[..15]);
    match InfoDataView::new("veth", &data) {
        Ok(InfoDataView::Veth(veth)) => assert!(veth.get(info_veth::Peer).unwrap().is_none()),
        other => panic!("{other:?}"),
    }
}
