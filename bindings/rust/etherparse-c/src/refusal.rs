use crate::err::{Layer, LenError};
use crate::numbered::numbered;
use crate::{sys, LenSource};
use core::fmt;

numbered! {
    /// Kind of an error. If a line mentions a number, [`Refusal::number`] has it.
    pub enum RefusalKind {
        /// A layer needs another number of bytes than there are: see [`Refusal::len_error`].
        Len = REFUSAL_LEN,
        /// Packet type of a cooked capture is the number, above 7.
        SllPacketType = REFUSAL_SLL_PACKET_TYPE,
        /// ARP hardware type of a cooked capture, which is the number, is not supported.
        SllArpHardware = REFUSAL_SLL_ARP_HARDWARE,
        /// Version bit of MACsec is set.
        MacsecVersion = REFUSAL_MACSEC_VERSION,
        /// Unmodified MACsec payload is too short for its ether type.
        MacsecShortLen = REFUSAL_MACSEC_SHORT_LEN,
        /// In a frame that starts with an IP header: the version is the number, neither 4 nor 6.
        IpVersion = REFUSAL_IP_VERSION,
        /// In a frame that starts with an IP header: the IPv4 header length (IHL) is the number, below 5.
        IpIhl = REFUSAL_IP_IHL,
        /// Version after the ether type of IPv4 is the number.
        Ipv4Version = REFUSAL_IPV4_VERSION,
        /// Header length (IHL) after the ether type of IPv4 is the number, below 5.
        Ipv4Ihl = REFUSAL_IPV4_IHL,
        /// Version after the ether type of IPv6 is the number.
        Ipv6Version = REFUSAL_IPV6_VERSION,
        /// Payload length of an authentication header in IPv4 is 0.
        Ipv4Auth = REFUSAL_IPV4_AUTH,
        /// Hop-by-hop options come after another extension header.
        Ipv6HopByHop = REFUSAL_IPV6_HOP_BY_HOP,
        /// Payload length of an authentication header in IPv6 is 0.
        Ipv6Auth = REFUSAL_IPV6_AUTH,
        /// Data offset of TCP is the number, below 5.
        TcpDataOffset = REFUSAL_TCP_DATA_OFFSET,
    }
}

/// Error of bytes that are not a frame: its [`kind`](Refusal::kind) with the values of that kind, and its text.
///
/// ```
/// use etherparse_c::err::{Layer, LenError};
/// use etherparse_c::{LenSource, RefusalKind, SlicedPacket};
///
/// // a total length of 28 bytes, and 24 bytes
/// let cut = [0x45, 0, 0, 28, 0, 0, 0x40, 0, 20, 17, 0, 0, 192, 168, 1, 1, 192, 168, 1, 2, 0, 21, 4, 210];
/// let refusal = SlicedPacket::from_ip(&cut).unwrap_err();
/// assert_eq!(refusal.kind(), Some(RefusalKind::Len));
/// assert_eq!(refusal.len_error(), Some(LenError {
///     required_len: 28,
///     len: 24,
///     len_source: LenSource::Slice,
///     layer: Layer::Ipv4Packet,
///     layer_start_offset: 0,
/// }));
///
/// let refusal = SlicedPacket::from_ip(&[0x50; 20]).unwrap_err();
/// assert_eq!((refusal.kind(), refusal.number()), (Some(RefusalKind::IpVersion), Some(5)));
/// assert_eq!(refusal.len_error(), None);
/// assert_eq!(refusal.to_string(), "UnsupportedIpVersion 5");
/// assert_eq!(format!("{refusal:?}"), "Refusal(IpVersion, 5)");
/// ```
#[derive(Clone, Copy, PartialEq, Eq, Hash)]
#[must_use]
pub struct Refusal(sys::Refusal);

impl From<sys::Refusal> for Refusal {
    fn from(raw: sys::Refusal) -> Refusal {
        Refusal(raw)
    }
}

impl Refusal {
    /// Returns the error as the library's numbers.
    #[must_use]
    pub fn as_raw(&self) -> &sys::Refusal {
        &self.0
    }

    /// Returns the kind of the error, which is known for every error that a call returns.
    #[must_use]
    pub fn kind(&self) -> Option<RefusalKind> {
        RefusalKind::of(self.0.kind)
    }

    /// Returns the invalid value of a field, for the kinds that have one.
    #[must_use]
    pub fn number(&self) -> Option<u32> {
        use RefusalKind::*;
        let kind = self.kind()?;
        let has_number = match kind {
            SllPacketType | SllArpHardware | IpVersion | IpIhl | Ipv4Version | Ipv4Ihl | Ipv6Version
            | TcpDataOffset => true,
            Len | MacsecVersion | MacsecShortLen | Ipv4Auth | Ipv6HopByHop | Ipv6Auth => false,
        };
        has_number.then_some(self.0.number)
    }

    /// Returns the length error, for the kind [`RefusalKind::Len`].
    #[must_use]
    pub fn len_error(&self) -> Option<LenError> {
        if self.kind()? != RefusalKind::Len {
            return None;
        }
        Some(LenError {
            required_len: self.0.required_len,
            len: self.0.len,
            len_source: LenSource::of(self.0.len_source)?,
            layer: Layer::of(self.0.layer)?,
            layer_start_offset: self.0.layer_start_offset,
        })
    }
}

impl fmt::Debug for Refusal {
    /// Formats the kind, or the length error, and the number.
    fn fmt(&self, f: &mut fmt::Formatter<'_>) -> fmt::Result {
        let mut fields = f.debug_tuple("Refusal");
        match (self.len_error(), self.kind()) {
            (Some(error), _) => fields.field(&error),
            (None, Some(kind)) => fields.field(&kind),
            (None, None) => fields.field(&self.0),
        };
        if let Some(number) = self.number() {
            fields.field(&number);
        }
        fields.finish()
    }
}

impl fmt::Display for Refusal {
    fn fmt(&self, f: &mut fmt::Formatter<'_>) -> fmt::Result {
        let mut text = [0; sys::REFUSAL_TEXT_MAX as usize];
        let mut written = 0;
        // SAFETY: all pointers come from references that outlive the call, and none overlap.
        let status = unsafe { sys::etherparse_refusal_text(&self.0, text.as_mut_ptr(), text.len(), &mut written) };
        match status {
            // the text ends with a zero byte
            sys::OK => f.write_str(core::str::from_utf8(&text[..written - 1]).map_err(|_| fmt::Error)?),
            sys::UNKNOWN_CHOICE => write!(f, "unknown refusal {}", self.0.kind),
            _ => f.write_str("out of memory"),
        }
    }
}

impl core::error::Error for Refusal {}
