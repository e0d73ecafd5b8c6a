use crate::{Entry, EtherType, LinkExtHeader, LinkHeader, NetHeaders, Refusal, SlicedPacket, TransportHeader};
use core::mem::MaybeUninit;

/// Owned headers of a frame, each with its fields.
///
/// ```
/// use etherparse_c::{NetHeaders, PacketHeaders, TransportHeader};
///
/// let datagram = [
///     0x45, 0, 0, 30, 0, 0, 0x40, 0, 20, 17, 0xe3, 0x7b, 192, 168, 1, 1, 192, 168, 1, 2, // IPv4
///     0, 21, 4, 210, 0, 10, 0, 0, 1, 2, // UDP, and 2 bytes
/// ];
/// let headers = PacketHeaders::from_ip_slice(&datagram)?;
/// let Some(NetHeaders::Ipv4(ip, _)) = headers.net else { panic!() };
/// assert_eq!((ip.time_to_live, ip.header_checksum, ip.destination), (20, 0xe37b, [192, 168, 1, 2]));
/// let Some(TransportHeader::Udp(udp)) = headers.transport else { panic!() };
/// assert_eq!((udp.source_port, udp.length, headers.payload), (21, 10, &[1, 2][..]));
/// # Ok::<(), etherparse_c::Refusal>(())
/// ```
#[derive(Clone, Copy, Debug, PartialEq, Eq, Hash)]
#[non_exhaustive]
#[must_use]
pub struct PacketHeaders<'a> {
    /// Link header.
    pub link: Option<LinkHeader>,
    /// Tags of link extensions from the outermost on; unused entries come last.
    pub link_exts: [Option<LinkExtHeader>; 3],
    /// IP or ARP.
    pub net: Option<NetHeaders<'a>>,
    /// Transport header; none in a fragment.
    pub transport: Option<TransportHeader>,
    /// Payload of the last layer.
    pub payload: &'a [u8],
}

impl<'a> PacketHeaders<'a> {
    /// Parses the headers of a frame that starts with an Ethernet II header.
    ///
    /// # Errors
    ///
    /// The error, if the bytes are not a frame.
    pub fn from_ethernet_slice(frame: &'a [u8]) -> Result<PacketHeaders<'a>, Refusal> {
        SlicedPacket::from_entry(Entry::Ethernet, frame).map(|packet| PacketHeaders::of(&packet))
    }

    /// Parses the headers of the payload of an ether type, without a link header.
    ///
    /// # Errors
    ///
    /// The error, if the bytes are not a frame.
    pub fn from_ether_type(ether_type: EtherType, bytes: &'a [u8]) -> Result<PacketHeaders<'a>, Refusal> {
        SlicedPacket::from_entry(Entry::EtherType(ether_type), bytes).map(|packet| PacketHeaders::of(&packet))
    }

    /// Parses the headers of a Linux cooked capture (SLL v1).
    ///
    /// # Errors
    ///
    /// The error, if the bytes are not a frame.
    pub fn from_linux_sll(frame: &'a [u8]) -> Result<PacketHeaders<'a>, Refusal> {
        SlicedPacket::from_entry(Entry::LinuxSll, frame).map(|packet| PacketHeaders::of(&packet))
    }

    /// Parses the headers of an IP packet of either version.
    ///
    /// # Errors
    ///
    /// The error, if the bytes are not a frame.
    pub fn from_ip_slice(bytes: &'a [u8]) -> Result<PacketHeaders<'a>, Refusal> {
        SlicedPacket::from_entry(Entry::Ip, bytes).map(|packet| PacketHeaders::of(&packet))
    }

    /// Returns the headers of a packet that is already sliced.
    pub fn of(packet: &SlicedPacket<'a>) -> PacketHeaders<'a> {
        let mut fields = MaybeUninit::uninit();
        let fields = packet.read(packet.as_raw(), &mut fields);
        let tag = |index| packet.link_ext_of(fields, index).map(|tag| tag.to_header());
        PacketHeaders {
            link: packet.link_of(fields).map(|link| link.to_header()),
            link_exts: [tag(0), tag(1), tag(2)],
            net: packet.net_of(fields).map(|net| net.to_header()),
            transport: packet.transport_of(fields).map(|transport| transport.to_header()),
            payload: packet.payload(),
        }
    }
}
