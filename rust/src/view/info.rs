//! The list of IFLA_LINKINFO over borrowed bytes: the kind of the link and its data, and those of the port that it is.

use super::link_info::Kind;
use super::{ListView, read};
use crate::link_view::message_view::last_in;
use crate::nla_wire::NlasIterator;
use crate::typed::kinds::{interface_kinds, port_kinds};
use crate::typed::{self, CanDeviceStats, parts};
use crate::{DecodeError, LinkInfo};

/// `IFLA_INFO_DATA` and its neighbours (linux/if_link.h).
const INFO_DATA: u16 = 2;
const INFO_XSTATS: u16 = 3;
const INFO_SLAVE_KIND: u16 = 4;
const INFO_SLAVE_DATA: u16 = 5;

/// The data of kinds.
macro_rules! data {
    (
        $(#[$docs:meta])+ $name:ident;
        $($kind:ident $data:ident $text:literal $type:ident,)*
        ; $($alone:ident $alone_text:literal,)*
    ) => {
        $(#[$docs])+
        #[derive(Clone, Copy, Debug)]
        #[non_exhaustive]
        pub enum $name<'a> {
            $(
                #[doc = concat!("The data of `", $text, "`.")]
                $data(ListView<'a, typed::$type>),
            )*
            /// The data of a kind that has no type, as they are.
            Other(&'a [u8]),
        }

        impl<'a> $name<'a> {
            /// The data of a kind.
            ///
            /// # Errors
            ///
            /// Refuses data of a kind with a type that are no whole attributes: the first fault.
            ///
            /// [`InfoDataView`] has an example.
            pub fn new(kind: &str, data: &'a [u8]) -> Result<Self, DecodeError> {
                Ok(match kind {
                    $($text => $name::$data(whole(data)?),)*
                    _ => $name::Other(data),
                })
            }
        }
    };
}

interface_kinds! {
    data
    /// The data of a kind of interface over borrowed bytes: a variant for each of [`InfoData`](typed::InfoData). The
    /// keys of a list stand in the module that has the name of its enum.
    ///
    /// ```
    /// use linkwire::view::{info_bridge, InfoDataView};
    /// use linkwire::typed::BridgeStpState;
    ///
    /// let data = InfoDataView::new("bridge", b"\x08\0\x05\0\x01\0\0\0\x06\0\x06\0\0\x80\0\0")?;
    /// if let InfoDataView::Bridge(bridge) = data {
    ///     let (stp, priority) = bridge.get((info_bridge::StpState, info_bridge::Priority))?;
    ///     assert_eq!((stp, priority), (Some(BridgeStpState::Kernel), Some(0x8000)));
    /// }
    /// assert!(matches!(InfoDataView::new("geneve2", b"\x01"), Ok(InfoDataView::Other(b"\x01"))));
    /// # Ok::<(), linkwire::DecodeError>(())
    /// ```
    InfoDataView;
}

port_kinds! {
    data
    /// The data of a kind of port over borrowed bytes: a variant for each of [`InfoPortData`](typed::InfoPortData).
    ///
    /// ```
    /// use linkwire::view::{info_bridge_port, InfoPortDataView};
    /// use linkwire::typed::BridgePortState;
    ///
    /// if let InfoPortDataView::BridgePort(port) = InfoPortDataView::new("bridge", b"\x05\0\x01\0\x03\0\0\0")? {
    ///     assert_eq!(port.get(info_bridge_port::State)?, Some(BridgePortState::Forwarding));
    /// }
    /// # Ok::<(), linkwire::DecodeError>(())
    /// ```
    InfoPortDataView;
}

/// What IFLA_INFO_XSTATS holds over borrowed bytes: a variant for each of [`LinkXstats`](typed::LinkXstats).
#[derive(Clone, Copy, Debug, PartialEq, Eq, Hash)]
#[non_exhaustive]
pub enum LinkXstatsView<'a> {
    /// Those of a CAN interface.
    Can(CanDeviceStats),
    /// Those of a kind that has no type, or of another length, as they are.
    Other(&'a [u8]),
}

/// A list whose frames are whole.
fn whole<P>(list: &[u8]) -> Result<ListView<'_, P>, DecodeError> {
    for frame in NlasIterator::new(list) {
        frame?;
    }
    Ok(ListView::of(list))
}

/// What is said of the interface. Of a member that is repeated it is the last.
///
/// ```
/// use linkwire::view::{info_bridge_port, InfoDataView, InfoPortDataView, LinkInfo, LinkView};
///
/// // A vxlan with the id 7, which is a port of a bridge: it is isolated.
/// let mut bytes = vec![0; 16];
/// bytes.extend(b"\x34\0\x12\0\x0a\0\x01\0vxlan\0\0\0\x0c\0\x02\0\x08\0\x01\0\x07\0\0\0");
/// bytes.extend(b"\x0b\0\x04\0bridge\0\0\x0c\0\x05\0\x05\0\x21\0\x01\0\0\0");
/// let info = LinkView::new(&bytes)?.get(LinkInfo)?.unwrap();
/// assert_eq!((info.kind()?, info.port_kind()?), (Some("vxlan"), Some("bridge")));
/// assert!(matches!(info.data()?, Some(InfoDataView::Vxlan(_))));
/// if let Some(InfoPortDataView::BridgePort(port)) = info.port_data()? {
///     assert_eq!(port.get(info_bridge_port::Isolated)?, Some(1));
/// }
/// assert_eq!(info.xstats()?, None);
/// # Ok::<(), linkwire::DecodeError>(())
/// ```
impl<'a> ListView<'a, LinkInfo> {
    fn payload(&self, number: u16) -> Result<Option<&'a [u8]>, DecodeError> {
        Ok(last_in(self.list, number)?.map(|frame| frame.value()))
    }

    /// The kind of the link (IFLA_INFO_KIND).
    ///
    /// # Errors
    ///
    /// The fault of the frames or of the text; after [`LinkView::new`](super::LinkView::new) there is none.
    ///
    /// [`InfoDataView`] has an example, and so has the page of the module.
    pub fn kind(&self) -> Result<Option<&'a str>, DecodeError> {
        self.get(Kind)
    }

    /// The data of that kind (IFLA_INFO_DATA), if both are there.
    ///
    /// # Errors
    ///
    /// The fault of the frames, of the kind, or of data that are no whole attributes.
    ///
    /// [The page of the module](crate::view) has an example.
    pub fn data(&self) -> Result<Option<InfoDataView<'a>>, DecodeError> {
        match (self.kind()?, self.payload(INFO_DATA)?) {
            (Some(kind), Some(data)) => InfoDataView::new(kind, data).map(Some),
            _ => Ok(None),
        }
    }

    /// The kind of the link that it is a port of (IFLA_INFO_SLAVE_KIND).
    ///
    /// # Errors
    ///
    /// The fault of the frames, or of the text.
    ///
    /// [`InfoPortDataView`] has an example.
    pub fn port_kind(&self) -> Result<Option<&'a str>, DecodeError> {
        self.payload(INFO_SLAVE_KIND)?.map_or(Ok(None), read::text)
    }

    /// The data of that port (IFLA_INFO_SLAVE_DATA), if both are there.
    ///
    /// # Errors
    ///
    /// The fault of the frames, of the kind, or of data that are no whole attributes.
    ///
    /// [`InfoPortDataView`] has an example.
    pub fn port_data(&self) -> Result<Option<InfoPortDataView<'a>>, DecodeError> {
        match (self.port_kind()?, self.payload(INFO_SLAVE_DATA)?) {
            (Some(kind), Some(data)) => InfoPortDataView::new(kind, data).map(Some),
            _ => Ok(None),
        }
    }

    /// The counters of the kind of interface (IFLA_INFO_XSTATS).
    ///
    /// # Errors
    ///
    /// The fault of the frames, or of the kind.
    ///
    /// [`InfoPortDataView`] has an example.
    pub fn xstats(&self) -> Result<Option<LinkXstatsView<'a>>, DecodeError> {
        let (kind, bytes) = match (self.kind()?, self.payload(INFO_XSTATS)?) {
            (Some(kind), Some(bytes)) => (kind, bytes),
            _ => return Ok(None),
        };
        let can = if let "can" | "vcan" = kind { parts::record::read(bytes) } else { None };
        Ok(Some(can.map_or(LinkXstatsView::Other(bytes), LinkXstatsView::Can)))
    }
}
