use crate::{Entry, EtherType, Refusal, SlicedPacket};
use core::ops::Deref;

/// A packet that was truncated by the capture, or whose length fields do not match its bytes, sliced up to the first
/// invalid layer. It dereferences to a [`SlicedPacket`] with these layers. A valid frame has the layers of strict
/// slicing.
///
/// ```
/// use etherparse_c::err::Layer;
/// use etherparse_c::{LaxSlicedPacket, NetSlice, SlicedPacket};
///
/// // an IPv4 header that counts 30 bytes, and 6 of the 8 bytes of a UDP header
/// let cut = [
///     0x45, 0, 0, 30, 0, 0, 0x40, 0, 20, 17, 0xe3, 0x7b, 192, 168, 1, 1, 192, 168, 1, 2, // IPv4
///     0, 21, 4, 210, 0, 10, // UDP
/// ];
/// assert!(SlicedPacket::from_ip(&cut).is_err());
/// let packet = LaxSlicedPacket::from_ip(&cut)?;
/// let Some(NetSlice::Ipv4(ip)) = packet.net() else { panic!() };
/// assert_eq!((ip.header().source(), ip.payload()), ([192, 168, 1, 1], &cut[20..]));
/// assert!(packet.is_incomplete() && packet.transport().is_none());
/// let stop = packet.stop().and_then(|refusal| refusal.len_error()).unwrap();
/// assert_eq!((stop.layer, stop.required_len, stop.len, stop.layer_start_offset), (Layer::UdpHeader, 8, 6, 20));
/// # Ok::<(), etherparse_c::Refusal>(())
/// ```
#[derive(Clone, Copy, Debug, PartialEq, Eq, Hash)]
#[must_use]
pub struct LaxSlicedPacket<'a>(pub(crate) SlicedPacket<'a>);

impl<'a> LaxSlicedPacket<'a> {
    /// Slices a packet that starts with an Ethernet II header.
    ///
    /// # Errors
    ///
    /// The error of that header, if it is invalid.
    #[inline]
    pub fn from_ethernet(bytes: &'a [u8]) -> Result<LaxSlicedPacket<'a>, Refusal> {
        LaxSlicedPacket::from_entry(Entry::Ethernet, bytes)
    }

    /// Slices a packet that starts with a Linux cooked capture header (SLL v1).
    ///
    /// # Errors
    ///
    /// The error of that header, if it is invalid.
    #[inline]
    pub fn from_linux_sll(bytes: &'a [u8]) -> Result<LaxSlicedPacket<'a>, Refusal> {
        LaxSlicedPacket::from_entry(Entry::LinuxSll, bytes)
    }

    /// Slices the payload of an ether type, without a link header.
    ///
    /// # Errors
    ///
    /// None: the error of an invalid layer is in [`LaxSlicedPacket::stop`].
    #[inline]
    pub fn from_ether_type(ether_type: EtherType, bytes: &'a [u8]) -> Result<LaxSlicedPacket<'a>, Refusal> {
        LaxSlicedPacket::from_entry(Entry::EtherType(ether_type), bytes)
    }

    /// Slices an IP packet of either version.
    ///
    /// # Errors
    ///
    /// The error of its header, if it is invalid.
    #[inline]
    pub fn from_ip(bytes: &'a [u8]) -> Result<LaxSlicedPacket<'a>, Refusal> {
        LaxSlicedPacket::from_entry(Entry::Ip, bytes)
    }

    /// Slices a packet whose first header is `entry`.
    ///
    /// # Errors
    ///
    /// The error of the first header, if it is invalid.
    #[inline]
    pub fn from_entry(entry: Entry, bytes: &'a [u8]) -> Result<LaxSlicedPacket<'a>, Refusal> {
        SlicedPacket::lax(entry, bytes).map(LaxSlicedPacket)
    }

    /// Error of the layer after the last one, if a layer must follow and is invalid: the payload starts with its
    /// available bytes.
    #[must_use]
    #[inline]
    pub fn stop(&self) -> Option<Refusal> {
        let refusal = self.0.as_raw().refusal;
        (refusal.kind != 0).then(|| Refusal::from(refusal))
    }

    /// Returns whether bytes of the payload that a length field counts are missing.
    #[must_use]
    #[inline]
    pub fn is_incomplete(&self) -> bool {
        self.0.as_raw().payload.incomplete != 0
    }
}

impl<'a> Deref for LaxSlicedPacket<'a> {
    type Target = SlicedPacket<'a>;

    /// Returns the valid layers. Strict slicing may reject the same bytes.
    #[inline]
    fn deref(&self) -> &SlicedPacket<'a> {
        &self.0
    }
}
