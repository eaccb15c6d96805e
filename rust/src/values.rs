//! What a Rust user expects of the values of messages.

use crate::link_msg::{Cause, DecodeError, DefaultNla, LinkAttribute, LinkMessage, LinkPhysId};

impl Default for LinkMessage {
    fn default() -> LinkMessage {
        LinkMessage::new()
    }
}

impl Extend<LinkAttribute> for LinkMessage {
    fn extend<I: IntoIterator<Item = LinkAttribute>>(&mut self, attributes: I) {
        self.attributes.extend(attributes);
    }
}

impl From<Cause> for DecodeError {
    fn from(cause: Cause) -> DecodeError {
        DecodeError::new("payload", cause)
    }
}

impl From<DefaultNla> for LinkAttribute {
    fn from(attribute: DefaultNla) -> LinkAttribute {
        LinkAttribute::Other(attribute)
    }
}

impl LinkPhysId {
    /// The bytes that are written.
    ///
    /// # Panics
    ///
    /// Where `len` is above 32, as `fits` tells.
    pub(crate) fn bytes(&self) -> &[u8] {
        match self.id.get(..self.len) {
            Some(bytes) => bytes,
            None => panic!("the value does not fit: a physical id of {} bytes, where 32 are the most", self.len),
        }
    }
}
