//! Requests that managers of interfaces send: the type and the flags of netlink's header, and the message after it.
//!
//! The types and flags are those of `ip`, which changes an interface by RTM_NEWLINK. What the kernel would refuse, or
//! cut, for its length is an error here, before anything is sent.
//!
//! ```
//! use linkwire::request;
//! use linkwire::typed::{InfoData, InfoKind, InfoVlan};
//! use linkwire::LinkAttribute;
//!
//! // ip link add vl0 link veth0 type vlan id 10, where veth0 has the index 3
//! let vlan = InfoData::Vlan(vec![InfoVlan::Id(10)]);
//! let add = request::add("vl0", InfoKind::Vlan, Some(vlan))?.with(LinkAttribute::Link(3));
//! assert_eq!((add.message_type, add.flags), (16, 0x605));
//! let packet = add.packet(1)?;
//! assert_eq!(packet.len(), 16 + 60);
//!
//! let up = request::up(7)?;
//! assert_eq!(up.packet(2)?[..8], [32, 0, 0, 0, 16, 0, 5, 0]);
//! assert_eq!(request::name(7, "a name above fifteen"), Err(request::RequestError::Name));
//! # Ok::<(), request::RequestError>(())
//! ```

use crate::link_msg::header::HEADER_SIZE;
use crate::link_msg::numbers::{IFLA_IFALIAS, IFLA_IFNAME};
use crate::link_msg::{
    DefaultNla, LinkAttribute, LinkExtentMask, LinkFlags, LinkHeader, LinkInfo, LinkMessage, LinkVfInfo, Prop, VfInfo,
};
use crate::nla_wire::{nlas_measure, nlas_write, padded_len, write_value};
use crate::packet::Nla;
use crate::rattle::number::MOST_LEN;
use crate::typed::{InfoData, InfoKind};
use alloc::string::String;
use alloc::vec;
use alloc::vec::Vec;
use core::fmt;
use core::slice::from_ref;

/// A link is there, or is to be made or changed (linux/rtnetlink.h).
pub const RTM_NEWLINK: u16 = 16;
/// A link is gone, or is to be taken away.
pub const RTM_DELLINK: u16 = 17;
/// A link is asked for, or all.
pub const RTM_GETLINK: u16 = 18;
/// A link is to be changed.
pub const RTM_SETLINK: u16 = 19;
/// Alternative names are to be added.
pub const RTM_NEWLINKPROP: u16 = 108;
/// Alternative names are to be taken away.
pub const RTM_DELLINKPROP: u16 = 109;

/// It is a request (linux/netlink.h).
pub const NLM_F_REQUEST: u16 = 1;
/// An answer is wanted where nothing else would be answered.
pub const NLM_F_ACK: u16 = 4;
/// All are asked for.
pub const NLM_F_DUMP: u16 = 0x300;
/// It is refused where one is there.
pub const NLM_F_EXCL: u16 = 0x200;
/// One is made where none is there.
pub const NLM_F_CREATE: u16 = 0x400;
/// It is added to a list.
pub const NLM_F_APPEND: u16 = 0x800;

/// The longest name of an interface, in bytes (`IFNAMSIZ` with its NUL, linux/if.h).
pub const MOST_NAME: usize = 15;
/// The longest alternative name (`ALTIFNAMSIZ` with its NUL).
pub const MOST_ALT_NAME: usize = 127;
/// The longest alias (`IFALIASZ` with its NUL).
pub const MOST_ALIAS: usize = 255;

/// The bytes of netlink's header.
const NLMSG_HDRLEN: usize = 16;

/// Why a request is not made, or not written.
#[derive(Clone, Copy, Debug, PartialEq, Eq, Hash)]
#[non_exhaustive]
pub enum RequestError {
    /// A name is empty, has a NUL, or has more than 15 bytes; an alternative one may have 127.
    Name,
    /// An alias has a NUL, or more than 255 bytes.
    Alias,
    /// The message does not fit: an attribute holds at most 65531 bytes.
    DoesNotFit,
}

impl fmt::Display for RequestError {
    fn fmt(&self, f: &mut fmt::Formatter<'_>) -> fmt::Result {
        f.write_str(match self {
            RequestError::Name => "the name is empty, or longer than the kernel takes it",
            RequestError::Alias => "the alias is longer than 255 bytes",
            RequestError::DoesNotFit => "the message does not fit: an attribute holds at most 65531 bytes",
        })
    }
}

#[cfg(feature = "std")]
impl std::error::Error for RequestError {}

/// The interface that a request is of, by its index or its name. It comes from a `u32`, and from a reference to any
/// text: a `&str`, a `&String`.
///
/// ```
/// use linkwire::request::Of;
/// let names = vec![String::from("eth0")];
/// assert_eq!((Of::from(7), Of::from("eth0")), (Of::Index(7), Of::Name("eth0")));
/// assert_eq!(Of::from(&names[0]), Of::Name("eth0"));
/// ```
#[derive(Clone, Copy, Debug, PartialEq, Eq, Hash)]
pub enum Of<'a> {
    /// Its index.
    Index(u32),
    /// Its name.
    Name(&'a str),
}

impl From<u32> for Of<'_> {
    fn from(index: u32) -> Self {
        Of::Index(index)
    }
}

impl<'a, T: AsRef<str> + ?Sized> From<&'a T> for Of<'a> {
    fn from(name: &'a T) -> Self {
        Of::Name(name.as_ref())
    }
}

/// A request: the type and the flags of netlink's header, and the message after it.
///
/// The name of the link and one attribute stand in it without memory of their own.
///
/// ```
/// use linkwire::request::{self, Request};
/// use linkwire::{AddressFamily, LinkAttribute};
/// let mut request = request::mtu("eth0", 1400)?;
/// request.header.interface_family = AddressFamily::Unspec;
/// let message = request.message();
/// assert_eq!(message.attributes, [LinkAttribute::IfName("eth0".to_string()), LinkAttribute::Mtu(1400)]);
/// assert_eq!(Request::new(request.message_type, request.flags, message.clone()), request);
/// assert_eq!(request.into_message(), message);
/// # Ok::<(), request::RequestError>(())
/// ```
#[derive(Clone, PartialEq, Eq, Hash)]
pub struct Request {
    /// The type of the message: one of `RTM_*`.
    pub message_type: u16,
    /// The flags: of `NLM_F_*`.
    pub flags: u16,
    /// The header of the message.
    pub header: LinkHeader,
    /// The attributes in their order: a name that stands first, one more, and the others.
    name: Name,
    attribute: Option<LinkAttribute>,
    others: Vec<LinkAttribute>,
}

/// A name of an interface with a NUL after it, or zeros for none.
#[derive(Clone, Copy, Default, PartialEq, Eq, Hash)]
struct Name([u8; MOST_NAME + 1]);

impl Name {
    #[inline]
    fn new(name: &str) -> Result<Name, RequestError> {
        named(name, MOST_NAME)?;
        let mut bytes = [0; MOST_NAME + 1];
        bytes[..name.len()].copy_from_slice(name.as_bytes());
        Ok(Name(bytes))
    }

    /// The name and its NUL.
    #[inline]
    fn payload(&self) -> Option<&[u8]> {
        let len = self.0.iter().position(|it| *it == 0)?;
        if len == 0 { None } else { self.0.get(..=len) }
    }

    fn attribute(&self) -> Option<LinkAttribute> {
        let (_, name) = self.payload()?.split_last()?;
        Some(LinkAttribute::IfName(String::from_utf8_lossy(name).into_owned()))
    }
}

impl fmt::Debug for Request {
    fn fmt(&self, f: &mut fmt::Formatter<'_>) -> fmt::Result {
        let Request { message_type, flags, .. } = self;
        let mut shown = f.debug_struct("Request");
        shown.field("message_type", message_type).field("flags", flags).field("message", &self.message()).finish()
    }
}

impl Request {
    /// A request of this type, these flags, and this message.
    ///
    /// [`Request`] has an example.
    #[must_use]
    pub fn new(message_type: u16, flags: u16, message: LinkMessage) -> Request {
        let LinkMessage { header, attributes } = message;
        let bare = Request { message_type, flags, header, name: Name::default(), attribute: None, others: Vec::new() };
        attributes.into_iter().fold(bare, Request::with)
    }

    /// A request of this link, with one more attribute, if any.
    #[inline]
    fn of(message_type: u16, flags: u16, link: Of<'_>, attribute: Option<LinkAttribute>) -> Result<Self, RequestError> {
        let (mut header, mut name) = (LinkHeader::default(), Name::default());
        match link {
            Of::Index(index) => header.index = index,
            Of::Name(text) => name = Name::new(text)?,
        }
        let flags = flags | NLM_F_REQUEST;
        Ok(Request { message_type, flags, header, name, attribute, others: Vec::new() })
    }

    /// The message.
    ///
    /// [`Request`] has an example.
    #[must_use]
    pub fn message(&self) -> LinkMessage {
        self.clone().into_message()
    }

    /// The message, which is not copied.
    ///
    /// [`Request`] has an example.
    #[must_use]
    pub fn into_message(self) -> LinkMessage {
        let mut attributes = Vec::with_capacity(2 + self.others.len());
        attributes.extend(self.name.attribute());
        attributes.extend(self.attribute);
        attributes.extend(self.others);
        LinkMessage { header: self.header, attributes }
    }

    /// The request with one more attribute at its end.
    ///
    /// [`packet`](Request::packet) has an example.
    #[must_use]
    pub fn with(mut self, attribute: LinkAttribute) -> Request {
        if self.attribute.is_some() {
            self.others.push(attribute);
            return self;
        }
        match &attribute {
            LinkAttribute::IfName(name) if self.name.payload().is_none() => match Name::new(name) {
                Ok(name) => self.name = name,
                Err(_) => self.attribute = Some(attribute),
            },
            _ => self.attribute = Some(attribute),
        }
        self
    }

    /// The attributes but for the name in front.
    fn attributes(&self) -> impl Iterator<Item = &LinkAttribute> {
        self.attribute.iter().chain(&self.others)
    }

    /// Whether it can be sent: all names have a length that the kernel takes, and the message fits.
    ///
    /// [`packet`](Request::packet) has an example.
    ///
    /// # Errors
    ///
    /// The first attribute with a name or alias that is too long; or a message that does not fit, or that holds an
    /// empty list of ports, which has no encoding.
    pub fn check(&self) -> Result<(), RequestError> {
        self.measured().map(|_| ())
    }

    /// The length of the attributes, where `check` has no error.
    fn measured(&self) -> Result<usize, RequestError> {
        for attribute in self.attributes() {
            match attribute {
                LinkAttribute::IfName(name) => named(name, MOST_NAME)?,
                LinkAttribute::IfAlias(alias) if alias.len() >= MOST_ALIAS => return Err(RequestError::Alias),
                LinkAttribute::PropList(list) => list.iter().try_for_each(checked)?,
                LinkAttribute::Other(kept) => kept_text(kept)?,
                _ => (),
            }
        }
        let name = self.name.payload().map_or(0, |name| padded_len(name.len()));
        let one = self.attribute.as_ref().map_or(Some(0), |one| nlas_measure(from_ref(one)));
        let lens = (one, nlas_measure(&self.others).filter(|_| !self.attributes().any(LinkAttribute::is_empty_ports)));
        let len = if let (Some(one), Some(others)) = lens { (name + one).checked_add(others) } else { None };
        len.ok_or(RequestError::DoesNotFit)
    }

    /// The whole packet: netlink's header with this sequence number, and the message. Its memory is taken once.
    ///
    /// # Errors
    ///
    /// Where `check` has one.
    ///
    /// ```
    /// use linkwire::{request, LinkAttribute};
    /// let request = request::mtu(7, 1400)?.with(LinkAttribute::TxQueueLen(100));
    /// assert_eq!(request.check(), Ok(()));
    /// let packet = request.packet(1)?;
    /// assert_eq!((packet.len(), packet[0], packet[4], packet[8]), (16 + 16 + 8 + 8, 48, 16, 1));
    /// # Ok::<(), request::RequestError>(())
    /// ```
    pub fn packet(&self, sequence: u32) -> Result<Vec<u8>, RequestError> {
        let len = self.measured()?.checked_add(NLMSG_HDRLEN + HEADER_SIZE).filter(|len| *len <= MOST_LEN);
        let len = len.ok_or(RequestError::DoesNotFit)?;
        let in_header = u32::try_from(len).map_err(|_| RequestError::DoesNotFit)?;
        let mut packet = Vec::with_capacity(len);
        packet.extend_from_slice(&in_header.to_ne_bytes());
        packet.extend_from_slice(&self.message_type.to_ne_bytes());
        packet.extend_from_slice(&self.flags.to_ne_bytes());
        packet.extend_from_slice(&sequence.to_ne_bytes());
        packet.resize(len, 0);
        self.encode_into(&mut packet[NLMSG_HDRLEN..]);
        Ok(packet)
    }

    /// Writes the message, which was measured.
    fn encode_into(&self, buffer: &mut [u8]) {
        self.header.encode_into(buffer);
        let mut at = HEADER_SIZE;
        if let Some(name) = self.name.payload() {
            at += write_value(IFLA_IFNAME, name, &mut buffer[at..]);
        }
        if let Some(one) = &self.attribute {
            at += nlas_write(from_ref(one), &mut buffer[at..]);
        }
        nlas_write(&self.others, &mut buffer[at..]);
    }
}

/// A name that the kernel takes, of at most so many bytes.
fn named(name: &str, most: usize) -> Result<(), RequestError> {
    if name.is_empty() || name.len() > most || name.contains('\0') { Err(RequestError::Name) } else { Ok(()) }
}

fn checked(prop: &Prop) -> Result<(), RequestError> {
    match prop {
        Prop::AltIfName(name) => named(name, MOST_ALT_NAME),
        Prop::Other(_) => Ok(()),
    }
}

/// A name or an alias that is kept as its bytes, as [`alias`] has it.
fn kept_text(kept: &DefaultNla) -> Result<(), RequestError> {
    match Nla::kind(kept) {
        IFLA_IFALIAS if kept.value().len() > MOST_ALIAS => Err(RequestError::Alias),
        IFLA_IFNAME if kept.value().len() > MOST_NAME + 1 => Err(RequestError::Name),
        _ => Ok(()),
    }
}

fn if_name(name: &str) -> Result<LinkAttribute, RequestError> {
    named(name, MOST_NAME)?;
    Ok(LinkAttribute::IfName(String::from(name)))
}

#[inline]
fn change<'a>(link: impl Into<Of<'a>>) -> Result<Request, RequestError> {
    Request::of(RTM_NEWLINK, NLM_F_ACK, link.into(), None)
}

#[inline]
fn set<'a>(link: impl Into<Of<'a>>, attribute: LinkAttribute) -> Result<Request, RequestError> {
    Request::of(RTM_NEWLINK, NLM_F_ACK, link.into(), Some(attribute))
}

/// What is asked for besides.
fn asked(mask: &[LinkExtentMask]) -> Option<LinkAttribute> {
    (!mask.is_empty()).then(|| LinkAttribute::ExtMask(mask.to_vec()))
}

/// All links: a dump, with what the mask asks for besides, as the settings of virtual functions.
///
/// [`get`] has an example.
#[must_use]
pub fn dump(mask: &[LinkExtentMask]) -> Request {
    let request = Request::new(RTM_GETLINK, NLM_F_REQUEST | NLM_F_DUMP, LinkMessage::default());
    Request { attribute: asked(mask), ..request }
}

/// One link. It is answered by a message of it, or by an error.
///
/// # Errors
///
/// A name that the kernel does not take.
///
/// ```
/// use linkwire::{request, LinkExtentMask};
/// // ip link show, and ip link show dev eth0
/// let all = request::dump(&[LinkExtentMask::Vf]);
/// let one = request::get("eth0", &[LinkExtentMask::Vf])?;
/// assert_eq!((all.message_type, all.flags), (18, 0x301));
/// assert_eq!((one.message_type, one.flags, one.message().attributes.len()), (18, 1, 2));
/// # Ok::<(), request::RequestError>(())
/// ```
pub fn get<'a>(link: impl Into<Of<'a>>, mask: &[LinkExtentMask]) -> Result<Request, RequestError> {
    Request::of(RTM_GETLINK, 0, link.into(), asked(mask))
}

/// The greatest length of a packet, in bytes.
///
/// # Errors
///
/// A name that the kernel does not take.
///
/// ```
/// use linkwire::{request, LinkAttribute};
/// // by its name, or by its index
/// let by_name = request::mtu("eth0", 1400)?;
/// let by_index = request::mtu(7, 1400)?;
/// assert_eq!(by_name.message().attributes[1], LinkAttribute::Mtu(1400));
/// assert_eq!((by_index.header.index, by_index.message().attributes.len()), (7, 1));
/// # Ok::<(), request::RequestError>(())
/// ```
#[inline]
pub fn mtu<'a>(link: impl Into<Of<'a>>, mtu: u32) -> Result<Request, RequestError> {
    set(link, LinkAttribute::Mtu(mtu))
}

/// These flags, of those that the mask has.
///
/// # Errors
///
/// A name that the kernel does not take.
///
/// ```
/// use linkwire::{request, LinkFlags};
/// // ip link set dev eth0 up, down, and promisc on
/// let up = request::up("eth0")?;
/// assert_eq!((up.header.flags, up.header.change_mask), (LinkFlags::Up, LinkFlags::Up));
/// assert_eq!(request::down("eth0")?.header.flags, LinkFlags::empty());
/// let promiscuous = request::flags("eth0", LinkFlags::Promisc, LinkFlags::Promisc)?;
/// assert_eq!(promiscuous.header.change_mask, LinkFlags::Promisc);
/// # Ok::<(), request::RequestError>(())
/// ```
pub fn flags<'a>(link: impl Into<Of<'a>>, flags: LinkFlags, mask: LinkFlags) -> Result<Request, RequestError> {
    let mut request = change(link)?;
    request.header.flags = flags;
    request.header.change_mask = mask;
    Ok(request)
}

/// The link is set up.
///
/// [`flags`] has an example.
///
/// # Errors
///
/// A name that the kernel does not take.
pub fn up<'a>(link: impl Into<Of<'a>>) -> Result<Request, RequestError> {
    flags(link, LinkFlags::Up, LinkFlags::Up)
}

/// The link is set down.
///
/// [`flags`] has an example.
///
/// # Errors
///
/// A name that the kernel does not take.
pub fn down<'a>(link: impl Into<Of<'a>>) -> Result<Request, RequestError> {
    flags(link, LinkFlags::empty(), LinkFlags::Up)
}

/// Another name, of the link with this index.
///
/// # Errors
///
/// A name that the kernel does not take.
///
/// ```
/// use linkwire::request::{self, RequestError};
/// let renamed = request::name(7, "uplink0")?;
/// assert_eq!(request::name(7, "a name above fifteen"), Err(RequestError::Name));
/// let alias = request::alias("uplink0", "to the first switch")?;
/// assert_eq!(request::alias("uplink0", &"a".repeat(256)), Err(RequestError::Alias));
/// # Ok::<(), RequestError>(())
/// ```
pub fn name(index: u32, name: &str) -> Result<Request, RequestError> {
    set(index, if_name(name)?)
}

/// The alias, as its bytes without a NUL: with one, the kernel refuses an alias of 255 bytes.
///
/// [`name`] has an example.
///
/// # Errors
///
/// An alias of more than 255 bytes, or a name that the kernel does not take.
pub fn alias<'a>(link: impl Into<Of<'a>>, alias: &str) -> Result<Request, RequestError> {
    if alias.len() > MOST_ALIAS || alias.contains('\0') {
        return Err(RequestError::Alias);
    }
    set(link, LinkAttribute::Other(DefaultNla::new(IFLA_IFALIAS, Vec::from(alias))))
}

/// The hardware address.
///
/// [`controller`] has an example.
///
/// # Errors
///
/// A name that the kernel does not take.
pub fn address<'a>(link: impl Into<Of<'a>>, address: &[u8]) -> Result<Request, RequestError> {
    set(link, LinkAttribute::Address(address.to_vec()))
}

/// The link that it is a port of, by its index (`IFLA_MASTER`); none takes it from that.
///
/// # Errors
///
/// A name that the kernel does not take.
///
/// ```
/// use linkwire::{request, LinkAttribute};
/// // ip link set dev eth0 master 9, nomaster, address 02:00:00:00:00:01, netns 4711
/// let port = request::controller("eth0", Some(9))?;
/// assert_eq!(port.message().attributes[1], LinkAttribute::Controller(9));
/// assert_eq!(request::controller("eth0", None)?.message().attributes[1], LinkAttribute::Controller(0));
/// let address = request::address("eth0", &[2, 0, 0, 0, 0, 1])?;
/// assert_eq!(address.message().attributes[1], LinkAttribute::Address(vec![2, 0, 0, 0, 0, 1]));
/// let moved = request::namespace_of("eth0", 4711)?;
/// assert_eq!(moved.message().attributes[1], LinkAttribute::NetNsPid(4711));
/// assert_eq!(request::namespace("eth0", 3)?.message().attributes[1], LinkAttribute::NetNsFd(3));
/// # Ok::<(), request::RequestError>(())
/// ```
pub fn controller<'a>(link: impl Into<Of<'a>>, index: Option<u32>) -> Result<Request, RequestError> {
    set(link, LinkAttribute::Controller(index.unwrap_or(0)))
}

/// The link goes to the network namespace of this process.
///
/// [`controller`] has an example.
///
/// # Errors
///
/// A name that the kernel does not take.
pub fn namespace_of<'a>(link: impl Into<Of<'a>>, process: u32) -> Result<Request, RequestError> {
    set(link, LinkAttribute::NetNsPid(process))
}

/// The link goes to the network namespace that this file descriptor is open on.
///
/// [`controller`] has an example.
///
/// # Errors
///
/// A name that the kernel does not take.
pub fn namespace<'a>(link: impl Into<Of<'a>>, descriptor: i32) -> Result<Request, RequestError> {
    set(link, LinkAttribute::NetNsFd(descriptor))
}

/// A link of this name and kind is made, with these data. What else it has, as the link below it, is added by
/// [`Request::with`].
///
/// # Errors
///
/// A name that the kernel does not take.
///
/// ```
/// use linkwire::request;
/// use linkwire::typed::{BridgeStpState, InfoBridge, InfoData, InfoKind};
/// // ip link add br0 type bridge, and then stp_state 1
/// let bridge = request::add("br0", InfoKind::Bridge, None)?;
/// assert_eq!((bridge.message_type, bridge.flags), (16, 0x605));
/// let stp = InfoData::Bridge(vec![InfoBridge::StpState(BridgeStpState::Kernel)]);
/// let change = request::data("br0", InfoKind::Bridge, stp)?;
/// assert_eq!((change.message_type, change.flags), (16, 5));
/// assert_eq!(request::delete("br0")?.message_type, 17);
/// # Ok::<(), request::RequestError>(())
/// ```
pub fn add(name: &str, kind: InfoKind, data: Option<InfoData>) -> Result<Request, RequestError> {
    let flags = NLM_F_ACK | NLM_F_CREATE | NLM_F_EXCL;
    let mut info = vec![LinkInfo::from(kind)];
    info.extend(data.map(LinkInfo::from));
    Request::of(RTM_NEWLINK, flags, Of::Name(name), Some(LinkAttribute::LinkInfo(info)))
}

/// The data of its kind are changed.
///
/// [`add`] has an example.
///
/// # Errors
///
/// A name that the kernel does not take.
pub fn data<'a>(link: impl Into<Of<'a>>, kind: InfoKind, data: InfoData) -> Result<Request, RequestError> {
    set(link, LinkAttribute::LinkInfo(vec![LinkInfo::from(kind), LinkInfo::from(data)]))
}

/// The link is taken away.
///
/// [`add`] has an example.
///
/// # Errors
///
/// A name that the kernel does not take.
pub fn delete<'a>(link: impl Into<Of<'a>>) -> Result<Request, RequestError> {
    Request::of(RTM_DELLINK, NLM_F_ACK, link.into(), None)
}

/// Alternative names, each of at most 127 bytes, are added.
///
/// # Errors
///
/// A name that the kernel does not take.
///
/// ```
/// use linkwire::request;
/// // ip link property add dev eth0 altname uplink, and del
/// let add = request::add_names("eth0", ["uplink"])?;
/// assert_eq!((add.message_type, add.flags), (108, 0xe05));
/// assert_eq!(request::delete_names("eth0", ["uplink"])?.message_type, 109);
/// # Ok::<(), request::RequestError>(())
/// ```
pub fn add_names<'a>(
    link: impl Into<Of<'a>>,
    names: impl IntoIterator<Item = impl AsRef<str>>,
) -> Result<Request, RequestError> {
    let flags = NLM_F_ACK | NLM_F_CREATE | NLM_F_EXCL | NLM_F_APPEND;
    names_of(RTM_NEWLINKPROP, flags, link.into(), names)
}

/// Alternative names are taken away.
///
/// [`add_names`] has an example.
///
/// # Errors
///
/// A name that the kernel does not take.
pub fn delete_names<'a>(
    link: impl Into<Of<'a>>,
    names: impl IntoIterator<Item = impl AsRef<str>>,
) -> Result<Request, RequestError> {
    names_of(RTM_DELLINKPROP, NLM_F_ACK, link.into(), names)
}

fn names_of(
    message_type: u16,
    flags: u16,
    link: Of<'_>,
    names: impl IntoIterator<Item = impl AsRef<str>>,
) -> Result<Request, RequestError> {
    let mut list = Vec::new();
    for name in names {
        named(name.as_ref(), MOST_ALT_NAME)?;
        list.push(Prop::AltIfName(String::from(name.as_ref())));
    }
    Request::of(message_type, flags, link, Some(LinkAttribute::PropList(list)))
}

/// Settings of a virtual function, each of which has its number.
///
/// # Errors
///
/// A name that the kernel does not take.
///
/// ```
/// use linkwire::{request, VfInfo, VfInfoTrust};
/// let trust = request::function("eth0", vec![VfInfo::Trust(VfInfoTrust::new(3, true))])?;
/// assert_eq!(trust.flags, 5);
/// # Ok::<(), request::RequestError>(())
/// ```
pub fn function<'a>(link: impl Into<Of<'a>>, settings: Vec<VfInfo>) -> Result<Request, RequestError> {
    set(link, LinkAttribute::VfInfoList(vec![LinkVfInfo(settings)]))
}
