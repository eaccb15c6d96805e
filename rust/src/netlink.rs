//! Link messages in netlink's envelope, for the release of netlink-packet-core that a program has: the crate depends on
//! none. Release 0.4 is tried.

/// Makes an enum of messages of links that `NetlinkMessage` of this netlink-packet-core can hold: with
/// `NetlinkSerializable` and `NetlinkDeserializable`, so that netlink-sys and netlink-proto send and receive it.
///
/// ```
/// # mod netlink_packet_core {
/// #     pub struct NetlinkHeader {
/// #         pub message_type: u16,
/// #         pub flags: u16,
/// #     }
/// #     pub enum NetlinkPayload<T> {
/// #         InnerMessage(T),
/// #     }
/// #     pub struct NetlinkMessage<T> {
/// #         pub header: NetlinkHeader,
/// #         pub payload: NetlinkPayload<T>,
/// #     }
/// #     impl<T: NetlinkSerializable> From<T> for NetlinkMessage<T> {
/// #         fn from(message: T) -> Self {
/// #             let header = NetlinkHeader { message_type: message.message_type(), flags: 0 };
/// #             NetlinkMessage { header, payload: NetlinkPayload::InnerMessage(message) }
/// #         }
/// #     }
/// #     pub trait NetlinkSerializable {
/// #         fn message_type(&self) -> u16;
/// #         fn buffer_len(&self) -> usize;
/// #         fn serialize(&self, buffer: &mut [u8]);
/// #     }
/// #     pub trait NetlinkDeserializable: Sized {
/// #         type Error;
/// #         fn deserialize(header: &NetlinkHeader, payload: &[u8]) -> Result<Self, Self::Error>;
/// #     }
/// # }
/// linkwire::route_link! {
///     /// Messages of links.
///     pub enum RouteLink of netlink_packet_core
/// }
///
/// let packet = RouteLink::packet(linkwire::request::up(7)?)?;
/// assert_eq!((packet.header.message_type, packet.header.flags), (16, 5));
/// let names = RouteLink::packet(linkwire::request::add_names(7, ["uplink"])?)?;
/// assert_eq!((names.header.message_type, names.header.flags), (108, 0xe05));
/// let netlink_packet_core::NetlinkPayload::InnerMessage(message) = names.payload;
/// assert!(matches!(message, RouteLink::NewLinkProp(_)));
/// assert!(matches!(RouteLink::parse(109, &[0; 16])?, RouteLink::DelLinkProp(_)));
/// let message = RouteLink::parse(17, &[0; 16])?;
/// assert!(matches!(&message, RouteLink::DelLink(_)) && message.link().is_some());
/// // an alias in Latin-1 is refused: such a message came as `Other`, and hides no link where it is read leniently
/// let bytes = b"\0\0\x01\0\x07\0\0\0\0\0\0\0\0\0\0\0\x08\0\x14\0caf\xe9";
/// assert!(RouteLink::parse(16, bytes).is_err());
/// assert!(matches!(RouteLink::Other(16, bytes.to_vec()).lenient(), RouteLink::NewLink(_)));
/// # Ok::<(), Box<dyn std::error::Error>>(())
/// ```
#[macro_export]
macro_rules! route_link {
    ($(#[$attribute:meta])* $visible:vis enum $name:ident of $($core:ident)::+) => {
        $(#[$attribute])*
        #[derive(Clone, Debug, PartialEq, Eq, Hash)]
        #[non_exhaustive]
        $visible enum $name {
            /// `RTM_NEWLINK`: a link is there, or is to be made or changed.
            NewLink($crate::LinkMessage),
            /// `RTM_DELLINK`: a link is gone, or is to be taken away.
            DelLink($crate::LinkMessage),
            /// `RTM_GETLINK`: a link is asked for, or all.
            GetLink($crate::LinkMessage),
            /// `RTM_SETLINK`: a link is to be changed.
            SetLink($crate::LinkMessage),
            /// `RTM_NEWLINKPROP`: alternative names are to be added.
            NewLinkProp($crate::LinkMessage),
            /// `RTM_DELLINKPROP`: alternative names are to be taken away.
            DelLinkProp($crate::LinkMessage),
            /// A message of another type, or one of links that is refused: its type, and the bytes after netlink's
            /// header.
            Other(u16, Vec<u8>),
        }

        impl $name {
            /// The message of this type and these bytes.
            ///
            /// # Errors
            ///
            /// Where a message of links is refused, its first fault.
            $visible fn parse(message_type: u16, payload: &[u8]) -> Result<Self, $crate::DecodeError> {
                match $name::of_type(message_type) {
                    Some(make) => Ok(make($crate::LinkMessage::parse(payload)?)),
                    None => Ok($name::Other(message_type, payload.to_vec())),
                }
            }

            /// A message of links that was refused, read leniently: an attribute at fault is kept as it is, and hides
            /// none of the others. Where that is refused too, and of another message, it is what it was.
            #[must_use]
            $visible fn lenient(self) -> Self {
                let read = match &self {
                    $name::Other(kind, payload) => $name::of_type(*kind)
                        .and_then(|make| $crate::LinkMessage::parse_lenient(payload).ok().map(make)),
                    _ => None,
                };
                read.unwrap_or(self)
            }

            /// What holds a message of links of this type.
            fn of_type(message_type: u16) -> Option<fn($crate::LinkMessage) -> Self> {
                match message_type {
                    16 => Some($name::NewLink),
                    17 => Some($name::DelLink),
                    18 => Some($name::GetLink),
                    19 => Some($name::SetLink),
                    108 => Some($name::NewLinkProp),
                    109 => Some($name::DelLinkProp),
                    _ => None,
                }
            }

            /// A request as a message in netlink's envelope, with its flags. What else the header has, as a sequence
            /// number, is the caller's, or that of netlink-proto.
            ///
            /// # Errors
            ///
            /// Where `Request::check` has one.
            $visible fn packet(
                request: $crate::request::Request,
            ) -> Result<$($core)::+::NetlinkMessage<$name>, $crate::request::RequestError> {
                request.check()?;
                let (kind, flags) = (request.message_type, request.flags);
                let message = match $name::of_type(kind) {
                    Some(make) => make(request.into_message()),
                    None => {
                        let bytes = request.into_message().to_vec();
                        $name::Other(kind, bytes.map_err(|_| $crate::request::RequestError::DoesNotFit)?)
                    }
                };
                let mut packet = $($core)::+::NetlinkMessage::from(message);
                packet.header.flags = flags;
                Ok(packet)
            }

            /// Its message of links, if it is one.
            #[must_use]
            $visible fn link(&self) -> Option<&$crate::LinkMessage> {
                match self {
                    $name::NewLink(link) | $name::DelLink(link) => Some(link),
                    $name::GetLink(link) | $name::SetLink(link) => Some(link),
                    $name::NewLinkProp(link) | $name::DelLinkProp(link) => Some(link),
                    $name::Other(..) => None,
                }
            }
        }

        impl $($core)::+::NetlinkSerializable for $name {
            fn message_type(&self) -> u16 {
                match self {
                    $name::NewLink(_) => 16,
                    $name::DelLink(_) => 17,
                    $name::GetLink(_) => 18,
                    $name::SetLink(_) => 19,
                    $name::NewLinkProp(_) => 108,
                    $name::DelLinkProp(_) => 109,
                    $name::Other(other, _) => *other,
                }
            }

            fn buffer_len(&self) -> usize {
                match self {
                    $name::Other(_, bytes) => bytes.len(),
                    _ => self.link().map_or(0, $crate::Emitable::buffer_len),
                }
            }

            fn serialize(&self, buffer: &mut [u8]) {
                match self {
                    $name::Other(_, bytes) => buffer[..bytes.len()].copy_from_slice(bytes),
                    _ => self.link().map_or((), |link| $crate::Emitable::emit(link, buffer)),
                }
            }
        }

        impl $($core)::+::NetlinkDeserializable for $name {
            type Error = core::convert::Infallible;

            /// A message of links that is refused is kept as `Other`, for `lenient`: netlink-proto drops what is not
            /// read.
            fn deserialize(header: &$($core)::+::NetlinkHeader, payload: &[u8]) -> Result<Self, Self::Error> {
                let kind = header.message_type;
                Ok($name::parse(kind, payload).unwrap_or_else(|_| $name::Other(kind, payload.to_vec())))
            }
        }

        impl From<$name> for $($core)::+::NetlinkPayload<$name> {
            fn from(message: $name) -> Self {
                $($core)::+::NetlinkPayload::InnerMessage(message)
            }
        }
    };
}
