//! IP and ARP.

use crate::views::{header, View};
use crate::{sys, EtherType, IpNumber, Options};
use core::fmt;
use core::net::{IpAddr, Ipv4Addr, Ipv6Addr};

/// Network layer of a packet.
#[derive(Clone, Copy, Debug, PartialEq, Eq, Hash)]
#[non_exhaustive]
pub enum NetSlice<'a> {
    /// IPv4.
    Ipv4(Ipv4Slice<'a>),
    /// IPv6.
    Ipv6(Ipv6Slice<'a>),
    /// ARP.
    Arp(ArpPacketSlice<'a>),
}

impl<'a> NetSlice<'a> {
    /// Bytes of the IP header with its extension headers, or of the whole ARP packet.
    #[must_use]
    #[inline]
    pub fn header_slice(&self) -> &'a [u8] {
        match self {
            NetSlice::Ipv4(Ipv4Slice(ip)) | NetSlice::Ipv6(Ipv6Slice(ip)) => ip.headers,
            NetSlice::Arp(arp) => arp.slice(),
        }
    }

    /// Source and destination address of IP.
    #[must_use]
    #[inline]
    pub fn ip_addresses(&self) -> Option<(IpAddr, IpAddr)> {
        match self {
            NetSlice::Ipv4(ip) => Some((ip.header().source_addr().into(), ip.header().destination_addr().into())),
            NetSlice::Ipv6(ip) => Some((ip.header().source_addr().into(), ip.header().destination_addr().into())),
            NetSlice::Arp(_) => None,
        }
    }

    /// Returns the fields of the header as owned values, and the extension headers as in the packet.
    #[must_use]
    #[inline]
    pub fn to_header(&self) -> NetHeaders<'a> {
        match self {
            NetSlice::Ipv4(ip) => NetHeaders::Ipv4(ip.header().to_header(), ip.extensions()),
            NetSlice::Ipv6(ip) => NetHeaders::Ipv6(ip.header().to_header(), ip.extensions()),
            NetSlice::Arp(arp) => NetHeaders::Arp(arp.to_header()),
        }
    }
}

/// Fields of a network layer.
#[derive(Clone, Copy, Debug, PartialEq, Eq, Hash)]
#[non_exhaustive]
pub enum NetHeaders<'a> {
    /// Fields of IPv4, and the bytes of its extension headers.
    Ipv4(Ipv4Header, &'a [u8]),
    /// Fields of IPv6, and the bytes of its extension headers.
    Ipv6(Ipv6Header, &'a [u8]),
    /// Fields of ARP.
    Arp(ArpPacket<'a>),
}

/// IP packet of either version.
#[derive(Clone, Copy, PartialEq, Eq, Hash)]
pub(crate) struct IpPacket<'a> {
    /// Header, without extension headers.
    pub(crate) header: View<'a, sys::IpFields>,
    /// Bytes of the header and its extension headers.
    pub(crate) headers: &'a [u8],
    pub(crate) payload: &'a [u8],
    pub(crate) fragmented: bool,
}

/// Defines the packets of the IP versions, each with the type of its header.
macro_rules! ip_packets {
    ($($(#[$about:meta])* pub struct $packet:ident($header:ident);)*) => {$(
        $(#[$about])*
        #[derive(Clone, Copy, PartialEq, Eq, Hash)]
        pub struct $packet<'a>(pub(crate) IpPacket<'a>);

        impl<'a> $packet<'a> {
            /// Header, without extension headers.
            #[must_use]
            #[inline]
            pub fn header(&self) -> $header<'a> {
                $header(self.0.header)
            }

            /// Bytes of the extension headers.
            #[must_use]
            #[inline]
            pub fn extensions(&self) -> &'a [u8] {
                &self.0.headers[self.0.header.header_len..]
            }

            /// Payload after the headers, limited by the length field of the header.
            #[must_use]
            #[inline]
            pub fn payload(&self) -> &'a [u8] {
                self.0.payload
            }

            /// IP number (protocol) of the payload after the extension headers.
            #[must_use]
            #[inline]
            pub fn payload_ip_number(&self) -> IpNumber {
                IpNumber(self.0.header.fields.number)
            }

            /// Whether the payload is a fragment of a longer one.
            #[must_use]
            #[inline]
            pub fn is_payload_fragmented(&self) -> bool {
                self.0.fragmented
            }
        }

        impl fmt::Debug for $packet<'_> {
            fn fmt(&self, f: &mut fmt::Formatter<'_>) -> fmt::Result {
                let mut fields = f.debug_struct(stringify!($packet));
                fields.field("header", &self.header().to_header()).field("extensions", &self.extensions());
                fields.field("payload", &self.payload()).finish()
            }
        }
    )*};
}

ip_packets! {
    /// IPv4 packet: its headers, and its payload, limited by the total length.
    pub struct Ipv4Slice(Ipv4HeaderSlice);
    /// IPv6 packet: its headers, and its payload, limited by the payload length; if that is 0, the payload extends to
    /// the end of the frame, or of a MACsec payload whose short length is not 0.
    pub struct Ipv6Slice(Ipv6HeaderSlice);
}

header! {
    /// IPv4 header (RFC 791, 3.1): 20 to 60 bytes.
    pub struct Ipv4HeaderSlice(self: IpFields) {
        /// Version, the upper 4 bits of byte 0: 4.
        version: u8 = self.0.fields.version,
        /// Header length (IHL) in units of 4 bytes, the lower 4 bits of byte 0: 5 to 15.
        ihl: u8 = (self.0.header_len / 4) as u8,
        /// Source address.
        source_addr: Ipv4Addr = self.source().into(),
        /// Destination address.
        destination_addr: Ipv4Addr = self.destination().into(),
        /// Fragment offset in units of 8 bytes, the lower 13 bits of bytes 6 and 7.
        fragments_offset: u16 = self.fragment_offset(),
        /// Time to live (TTL), byte 8.
        ttl: u8 = self.time_to_live(),
        /// Options, from byte 20 on.
        options: &'a [u8] = self.0.at(self.0.fields.options),
        /// Whether the payload is a fragment of a longer one.
        is_fragmenting_payload: bool = self.more_fragments() || self.fragments_offset() != 0,
    }
    /// Fields of an IPv4 header (RFC 791, 3.1).
    pub struct Ipv4Header {
        /// Differentiated services code point (DSCP, RFC 2474), the upper 6 bits of byte 1: 0 to 63.
        dscp: u8 = self.0.fields.dscp,
        /// Explicit congestion notification (ECN, RFC 3168), the lowest 2 bits of byte 1: 0 to 3.
        ecn: u8 = self.0.fields.ecn,
        /// Total length of header and payload in bytes, bytes 2 and 3.
        total_len: u16 = self.0.fields.length,
        /// Identification that all fragments of a payload share, bytes 4 and 5.
        identification: u16 = self.0.fields.identification as u16,
        /// DF: don't fragment, bit 6 of byte 6.
        dont_fragment: bool = self.0.fields.dont_fragment != 0,
        /// MF: more fragments, bit 5 of byte 6.
        more_fragments: bool = self.0.fields.more_fragments != 0,
        /// Fragment offset in units of 8 bytes, the lower 13 bits of bytes 6 and 7.
        fragment_offset: u16 = self.0.fields.fragment_offset / 8,
        /// Time to live (TTL), byte 8.
        time_to_live: u8 = self.0.fields.hop_limit,
        /// IP number (protocol) of the next header or payload, byte 9.
        protocol: IpNumber = IpNumber(self.0.fields.next_header),
        /// Header checksum, bytes 10 and 11; not verified.
        header_checksum: u16 = self.0.fields.checksum,
        /// Source address, bytes 12 to 15.
        source: [u8; 4] = first_four(self.0.fields.source),
        /// Destination address, bytes 16 to 19.
        destination: [u8; 4] = first_four(self.0.fields.destination),
    } and {
        /// Options, as in the header.
        options: Options = Options::new(self.options()).unwrap_or_default(),
    }
    debug |f| f.debug_tuple("Ipv4HeaderSlice").field(&self.to_header()).finish();
}

/// Returns the IPv4 address in the first 4 bytes of an address field.
#[inline]
fn first_four([a, b, c, d, ..]: [u8; 16]) -> [u8; 4] {
    [a, b, c, d]
}

header! {
    /// IPv6 header (RFC 8200, 3): 40 bytes.
    pub struct Ipv6HeaderSlice(self: IpFields) {
        /// Version, the upper 4 bits of byte 0: 6.
        version: u8 = self.0.fields.version,
        /// Source address.
        source_addr: Ipv6Addr = self.source().into(),
        /// Destination address.
        destination_addr: Ipv6Addr = self.destination().into(),
    }
    /// Fields of an IPv6 header (RFC 8200, 3).
    pub struct Ipv6Header {
        /// Traffic class (DSCP and ECN), the 8 bits after the version.
        traffic_class: u8 = self.0.fields.dscp << 2 | self.0.fields.ecn,
        /// Flow label, the lower 20 bits of bytes 0 to 3.
        flow_label: u32 = self.0.fields.flow_label,
        /// Payload length, bytes 4 and 5: number of bytes after the header.
        payload_length: u16 = self.0.fields.length,
        /// Next header, byte 6: IP number of the next header or payload.
        next_header: IpNumber = IpNumber(self.0.fields.next_header),
        /// Hop limit, byte 7.
        hop_limit: u8 = self.0.fields.hop_limit,
        /// Source address, bytes 8 to 23.
        source: [u8; 16] = self.0.fields.source,
        /// Destination address, bytes 24 to 39.
        destination: [u8; 16] = self.0.fields.destination,
    }
    debug |f| f.debug_tuple("Ipv6HeaderSlice").field(&self.to_header()).finish();
}

header! {
    /// ARP packet (RFC 826): 8 bytes, and its four addresses.
    pub struct ArpPacketSlice(self: ArpFields) {
        /// Length of a hardware address in bytes, byte 4.
        hw_addr_size: u8 = self.0.fields.hardware_len,
        /// Length of a protocol address in bytes, byte 5.
        protocol_addr_size: u8 = self.0.fields.protocol_len,
        /// Sender protocol address, if it is an IPv4 address.
        sender_ipv4_addr: Option<Ipv4Addr> = ipv4_addr(self.proto_addr_type(), self.sender_protocol_addr()),
        /// Target protocol address, if it is an IPv4 address.
        target_ipv4_addr: Option<Ipv4Addr> = ipv4_addr(self.proto_addr_type(), self.target_protocol_addr()),
    }
    /// Fields of an ARP packet (RFC 826), with its addresses as in the packet.
    pub struct ArpPacket<'a> {
        /// Hardware type, bytes 0 and 1; 1 is Ethernet.
        hw_addr_type: u16 = self.0.fields.hardware_type,
        /// Protocol type of the protocol addresses, bytes 2 and 3.
        proto_addr_type: EtherType = EtherType(self.0.fields.protocol_type),
        /// Operation, bytes 6 and 7: 1 is a request, 2 a reply.
        operation: u16 = self.0.fields.operation,
        /// Sender hardware address.
        sender_hw_addr: &'a [u8] = self.0.at(self.0.fields.sender_hardware),
        /// Sender protocol address.
        sender_protocol_addr: &'a [u8] = self.0.at(self.0.fields.sender_protocol),
        /// Target hardware address.
        target_hw_addr: &'a [u8] = self.0.at(self.0.fields.target_hardware),
        /// Target protocol address.
        target_protocol_addr: &'a [u8] = self.0.at(self.0.fields.target_protocol),
    }
    debug |f| f.debug_tuple("ArpPacketSlice").field(&self.to_header()).finish();
}

/// Returns a protocol address as an IPv4 address, if that is its type.
fn ipv4_addr(ether_type: EtherType, address: &[u8]) -> Option<Ipv4Addr> {
    <[u8; 4]>::try_from(address).ok().filter(|_| ether_type == EtherType::IPV4).map(Ipv4Addr::from)
}
