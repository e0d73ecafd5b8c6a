//! Length errors.

use crate::numbered::numbered;
use crate::{sys, LenSource};
use core::fmt;

numbered! {
    /// Layer that needs another number of bytes than there are.
    pub enum Layer {
        /// Ethernet II header.
        Ethernet2Header = LAYER_ETHERNET2_HEADER,
        /// Linux cooked capture header (SLL v1).
        LinuxSllHeader = LAYER_LINUX_SLL_HEADER,
        /// VLAN tag.
        VlanHeader = LAYER_VLAN_HEADER,
        /// MACsec tag.
        MacsecHeader = LAYER_MACSEC_HEADER,
        /// Bytes that a MACsec short length counts.
        MacsecPacket = LAYER_MACSEC_PACKET,
        /// ARP packet.
        Arp = LAYER_ARP,
        /// IP header of either version.
        IpHeader = LAYER_IP_HEADER,
        /// IPv4 header.
        Ipv4Header = LAYER_IPV4_HEADER,
        /// Bytes that an IPv4 total length counts.
        Ipv4Packet = LAYER_IPV4_PACKET,
        /// Authentication header.
        IpAuthHeader = LAYER_IP_AUTH_HEADER,
        /// IPv6 header.
        Ipv6Header = LAYER_IPV6_HEADER,
        /// Bytes that an IPv6 payload length counts.
        Ipv6Packet = LAYER_IPV6_PACKET,
        /// IPv6 extension header.
        Ipv6ExtHeader = LAYER_IPV6_EXT_HEADER,
        /// IPv6 fragment header.
        Ipv6FragHeader = LAYER_IPV6_FRAG_HEADER,
        /// UDP header.
        UdpHeader = LAYER_UDP_HEADER,
        /// Bytes that a UDP length counts.
        UdpPayload = LAYER_UDP_PAYLOAD,
        /// TCP header.
        TcpHeader = LAYER_TCP_HEADER,
        /// ICMP message.
        Icmpv4 = LAYER_ICMPV4,
        /// ICMP timestamp request.
        Icmpv4Timestamp = LAYER_ICMPV4_TIMESTAMP,
        /// ICMP timestamp reply.
        Icmpv4TimestampReply = LAYER_ICMPV4_TIMESTAMP_REPLY,
        /// ICMPv6 message.
        Icmpv6 = LAYER_ICMPV6,
    }
}

/// Length error: a layer needs more bytes than there are, or, for an ICMP timestamp, exactly 20.
#[derive(Clone, Copy, Debug, PartialEq, Eq, Hash)]
pub struct LenError {
    /// Number of bytes that the layer needs.
    pub required_len: usize,
    /// Number of available bytes.
    pub len: usize,
    /// Length field that limits the available bytes, where a MACsec short length is reported as `Slice`;
    /// `ArpAddrLengths` is the source of `required_len`.
    pub len_source: LenSource,
    /// Layer with the error.
    pub layer: Layer,
    /// Offset of the layer in the frame, in bytes.
    pub layer_start_offset: usize,
}

impl fmt::Display for LenError {
    /// Formats the text of the error.
    fn fmt(&self, f: &mut fmt::Formatter<'_>) -> fmt::Result {
        write!(f, "{:?}: {} bytes needed, {} there ", self.layer, self.required_len, self.len)?;
        write!(f, "(limit {:?}, offset {})", self.len_source, self.layer_start_offset)
    }
}

impl core::error::Error for LenError {}
