//! UDP, TCP and ICMP.

use crate::views::{header, layer, View};
use crate::{sys, Options};
use core::fmt;

layer! {
    /// Transport layer of a packet.
    pub enum TransportSlice {
        /// UDP datagram.
        Udp(UdpSlice, UdpHeader),
        /// TCP segment.
        Tcp(TcpSlice, TcpHeader),
        /// ICMP message.
        Icmpv4(IcmpSlice, IcmpHeader),
        /// ICMPv6 message.
        Icmpv6(IcmpSlice, IcmpHeader),
    }
    /// Fields of a transport header.
    pub enum TransportHeader;
}

impl<'a> TransportSlice<'a> {
    /// Returns the datagram, if it is UDP.
    #[must_use]
    #[inline]
    pub fn udp(&self) -> Option<UdpSlice<'a>> {
        match self {
            TransportSlice::Udp(udp) => Some(*udp),
            _ => None,
        }
    }

    /// Returns the segment, if it is TCP.
    #[must_use]
    #[inline]
    pub fn tcp(&self) -> Option<TcpSlice<'a>> {
        match self {
            TransportSlice::Tcp(tcp) => Some(*tcp),
            _ => None,
        }
    }

    /// Payload after the header.
    #[must_use]
    #[inline]
    pub fn payload(&self) -> &'a [u8] {
        match self {
            TransportSlice::Udp(udp) => udp.payload(),
            TransportSlice::Tcp(tcp) => tcp.payload(),
            TransportSlice::Icmpv4(icmp) | TransportSlice::Icmpv6(icmp) => icmp.payload(),
        }
    }
}

header! {
    /// UDP datagram (RFC 768): a header of 8 bytes, and its payload.
    pub struct UdpSlice(self: TransportFields) {
        /// Bytes of the header.
        header_slice: &'a [u8] = self.0.header(),
        /// Payload after the header, limited by the length.
        payload: &'a [u8] = self.0.payload(),
    }
    /// Fields of a UDP header (RFC 768).
    pub struct UdpHeader {
        /// Source port, bytes 0 and 1.
        source_port: u16 = self.0.fields.source_port,
        /// Destination port, bytes 2 and 3.
        destination_port: u16 = self.0.fields.destination_port,
        /// Length of header and payload in bytes, bytes 4 and 5; 0 limits nothing.
        length: u16 = self.0.fields.udp_length,
        /// Checksum, bytes 6 and 7; not verified; 0 is none.
        checksum: u16 = self.0.fields.checksum,
    }
    debug |f| f.debug_struct("UdpSlice").field("header", &self.to_header()).field("payload", &self.payload()).finish();
}

header! {
    /// TCP segment (RFC 9293, 3.1): a header of 20 to 60 bytes, and its payload.
    pub struct TcpSlice(self: TransportFields) {
        /// Bytes of the header with its options.
        header_slice: &'a [u8] = self.0.header(),
        /// Payload after the header.
        payload: &'a [u8] = self.0.payload(),
        /// Data offset in units of 4 bytes, the upper 4 bits of byte 12: 5 to 15.
        data_offset: u8 = self.0.fields.data_offset,
        /// Options, from byte 20 on.
        options: &'a [u8] = self.0.at(self.0.fields.options),
    }
    /// Fields of a TCP header (RFC 9293, 3.1).
    pub struct TcpHeader {
        /// Source port, bytes 0 and 1.
        source_port: u16 = self.0.fields.source_port,
        /// Destination port, bytes 2 and 3.
        destination_port: u16 = self.0.fields.destination_port,
        /// Sequence number of the first payload byte, or of SYN if it is set, bytes 4 to 7.
        sequence_number: u32 = self.0.fields.sequence_number,
        /// Acknowledgment number, bytes 8 to 11: next sequence number that the sender of the segment expects to
        /// receive.
        acknowledgment_number: u32 = self.0.fields.acknowledgment_number,
        /// NS: ECN nonce sum, no longer used (RFC 3540), bit 0 of byte 12.
        ns: bool = self.0.fields.tcp_flags & sys::TCP_NS != 0,
        /// FIN: no more data from the sender, bit 0 of byte 13.
        fin: bool = self.0.fields.tcp_flags & u16::from(sys::TCP_FIN) != 0,
        /// SYN: synchronize sequence numbers, bit 1 of byte 13.
        syn: bool = self.0.fields.tcp_flags & u16::from(sys::TCP_SYN) != 0,
        /// RST: reset the connection, bit 2 of byte 13.
        rst: bool = self.0.fields.tcp_flags & u16::from(sys::TCP_RST) != 0,
        /// PSH: push buffered data to the application, bit 3 of byte 13.
        psh: bool = self.0.fields.tcp_flags & u16::from(sys::TCP_PSH) != 0,
        /// ACK: the acknowledgment number is valid, bit 4 of byte 13.
        ack: bool = self.0.fields.tcp_flags & u16::from(sys::TCP_ACK) != 0,
        /// URG: the urgent pointer is valid, bit 5 of byte 13.
        urg: bool = self.0.fields.tcp_flags & u16::from(sys::TCP_URG) != 0,
        /// ECE: ECN-Echo (RFC 3168), bit 6 of byte 13.
        ece: bool = self.0.fields.tcp_flags & u16::from(sys::TCP_ECE) != 0,
        /// CWR: congestion window reduced (RFC 3168), bit 7 of byte 13.
        cwr: bool = self.0.fields.tcp_flags & u16::from(sys::TCP_CWR) != 0,
        /// Window, bytes 14 and 15: number of bytes that the sender of the segment is willing to receive.
        window_size: u16 = self.0.fields.window_size,
        /// Checksum, bytes 16 and 17; not verified.
        checksum: u16 = self.0.fields.checksum,
        /// Urgent pointer, bytes 18 and 19: end of the urgent data as an offset from the sequence number.
        urgent_pointer: u16 = self.0.fields.urgent_pointer,
    } and {
        /// Options, as in the header.
        options: Options = Options::new(self.options()).unwrap_or_default(),
    }
    debug |f| f.debug_struct("TcpSlice").field("header", &self.to_header()).field("payload", &self.payload()).finish();
}

header! {
    /// Message of ICMP (RFC 792) or ICMPv6 (RFC 4443): a header of 8 bytes, or 20 for ICMP timestamps, and its payload.
    pub struct IcmpSlice(self: TransportFields) {
        /// Bytes of the header.
        header_slice: &'a [u8] = self.0.header(),
        /// Payload after the header.
        payload: &'a [u8] = self.0.payload(),
    }
    /// Fields common to all ICMP messages.
    pub struct IcmpHeader {
        /// Type of the message, byte 0.
        type_u8: u8 = self.0.fields.icmp_type,
        /// Code of the message, byte 1.
        code_u8: u8 = self.0.fields.icmp_code,
        /// Checksum, bytes 2 and 3; not verified.
        checksum: u16 = self.0.fields.checksum,
        /// Bytes 4 to 7, whose meaning depends on the type: for an echo message its identifier and its sequence number.
        bytes5to8: [u8; 4] = self.0.fields.icmp_rest,
    }
    debug |f| f.debug_struct("IcmpSlice").field("header", &self.to_header()).field("payload", &self.payload()).finish();
}
