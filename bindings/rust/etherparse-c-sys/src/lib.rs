//! Declarations of the calls of `libetherparse_c.a` and of their numbers, as in the C header `etherparse.h`, which
//! documents each call, its statuses and the duties of a caller. `etherparse-c` has safe wrappers of all of them.
//!
//! The exports are named `etherparse_2_slice` and so on, so that declarations of one layout do not link with an archive
//! of another layout. `build.rs` documents where the archive is searched.
#![no_std]
#![warn(missing_docs)]

/// Version of these declarations: 10000 times the major number, plus 100 times the minor one, plus the patch.
pub const VERSION: u32 = 200;
/// Maximum stack that a call needs, in bytes, except calls on pools, on filters and [`etherparse_build_fragment`].
pub const STACK: u32 = 2048;
/// Maximum stack that a call on a pool or filter needs, in bytes.
pub const STACK_OF_POOLS: u32 = 8192;
/// Maximum stack that [`etherparse_build_fragment`] needs, in bytes.
pub const STACK_OF_FRAGMENTS: u32 = 65536;
/// Buffer length that is enough for the text of every error, including its zero byte.
pub const REFUSAL_TEXT_MAX: u32 = 142;
/// Buffer length that is enough for the text of each reason of a filter's error, including its zero byte.
pub const REASON_TEXT_MAX: u32 = 80;

// Statuses of calls.
/// Success.
pub const OK: u32 = 0;
/// The bytes are not a frame; the refusal has the error.
pub const REFUSED: u32 = 1;
/// A number is not one of the allowed choices.
pub const UNKNOWN_CHOICE: u32 = 2;
/// The buffer is too small; the needed length is stored.
pub const TOO_SMALL: u32 = 3;
/// The payload is too long for the headers' length fields.
pub const TOO_LONG: u32 = 4;
/// An allocation failed.
pub const OUT_OF_MEMORY: u32 = 5;
/// A payload is complete, and is in the buffer.
pub const COMPLETE: u32 = 6;
/// The fragment in a frame is rejected; the answer has the reason.
pub const FRAGMENT_REFUSED: u32 = 7;
/// A payload waits in the pool, which takes no frame until it is taken.
pub const PAYLOAD_WAITS: u32 = 8;
/// The stream of a fragment is discarded, since its fragments contradict each other.
pub const DISCARDED: u32 = 9;
/// The stream of a fragment alone needs more memory than the limits allow.
pub const OVER_BUDGET: u32 = 10;

// First header of a frame.
/// Ethernet II header.
pub const ENTRY_ETHERNET: u32 = 0;
/// Linux cooked capture header (SLL v1).
pub const ENTRY_LINUX_SLL: u32 = 1;
/// Payload of an ether type, without a link header.
pub const ENTRY_ETHER_TYPE: u32 = 2;
/// IP header of either version.
pub const ENTRY_IP: u32 = 3;

// Kinds of headers, for each layer. In each layer 0 is none.
/// Ethernet II header.
pub const LINK_ETHERNET2: u32 = 1;
/// Linux cooked capture header (SLL v1).
pub const LINK_LINUX_SLL: u32 = 2;

/// VLAN tag.
pub const EXT_VLAN: u32 = 1;
/// MACsec tag (SecTAG).
pub const EXT_MACSEC: u32 = 2;

/// ARP.
pub const NET_ARP: u32 = 1;
/// IPv4.
pub const NET_IPV4: u32 = 4;
/// IPv6.
pub const NET_IPV6: u32 = 6;

/// ICMP.
pub const TRANSPORT_ICMPV4: u32 = 1;
/// TCP.
pub const TRANSPORT_TCP: u32 = 6;
/// UDP.
pub const TRANSPORT_UDP: u32 = 17;
/// ICMPv6.
pub const TRANSPORT_ICMPV6: u32 = 58;

// Length field that limits some bytes.
/// None: the length that was passed.
pub const END_SLICE: u32 = 0;
/// Short length (SL) of a MACsec tag.
pub const END_MACSEC: u32 = 1;
/// Total length of an IPv4 header.
pub const END_IPV4: u32 = 2;
/// Payload length of an IPv6 header.
pub const END_IPV6: u32 = 3;
/// Length of a UDP header.
pub const END_UDP: u32 = 4;
/// Address lengths of an ARP packet.
pub const END_ARP: u32 = 5;

// Kinds of errors.
/// No error: the bytes are a frame.
pub const REFUSAL_NONE: u32 = 0;
/// A layer needs another number of bytes than there are.
pub const REFUSAL_LEN: u32 = 1;
/// Packet type of a cooked capture is `number`, above 7.
pub const REFUSAL_SLL_PACKET_TYPE: u32 = 2;
/// ARP hardware type of a cooked capture, `number`, is not supported.
pub const REFUSAL_SLL_ARP_HARDWARE: u32 = 3;
/// Version bit of MACsec is set.
pub const REFUSAL_MACSEC_VERSION: u32 = 4;
/// Unmodified MACsec payload is too short for its ether type.
pub const REFUSAL_MACSEC_SHORT_LEN: u32 = 5;
/// Entry IP: version is `number`, neither 4 nor 6.
pub const REFUSAL_IP_VERSION: u32 = 6;
/// Entry IP: IPv4 header length (IHL) is `number`, below 5.
pub const REFUSAL_IP_IHL: u32 = 7;
/// Version after the ether type of IPv4 is `number`.
pub const REFUSAL_IPV4_VERSION: u32 = 8;
/// Header length (IHL) after the ether type of IPv4 is `number`, below 5.
pub const REFUSAL_IPV4_IHL: u32 = 9;
/// Version after the ether type of IPv6 is `number`.
pub const REFUSAL_IPV6_VERSION: u32 = 10;
/// Payload length of an authentication header in IPv4 is 0.
pub const REFUSAL_IPV4_AUTH: u32 = 11;
/// Hop-by-hop options come after another extension header.
pub const REFUSAL_IPV6_HOP_BY_HOP: u32 = 12;
/// Payload length of an authentication header in IPv6 is 0.
pub const REFUSAL_IPV6_AUTH: u32 = 13;
/// Data offset of TCP is `number`, below 5.
pub const REFUSAL_TCP_DATA_OFFSET: u32 = 14;

// Layers of length errors.
/// Ethernet II header.
pub const LAYER_ETHERNET2_HEADER: u32 = 1;
/// Linux cooked capture header.
pub const LAYER_LINUX_SLL_HEADER: u32 = 2;
/// VLAN tag.
pub const LAYER_VLAN_HEADER: u32 = 3;
/// MACsec tag.
pub const LAYER_MACSEC_HEADER: u32 = 4;
/// Bytes that a MACsec short length counts.
pub const LAYER_MACSEC_PACKET: u32 = 5;
/// ARP packet.
pub const LAYER_ARP: u32 = 6;
/// IP header of either version.
pub const LAYER_IP_HEADER: u32 = 7;
/// IPv4 header.
pub const LAYER_IPV4_HEADER: u32 = 8;
/// Bytes that an IPv4 total length counts.
pub const LAYER_IPV4_PACKET: u32 = 9;
/// Authentication header.
pub const LAYER_IP_AUTH_HEADER: u32 = 10;
/// IPv6 header.
pub const LAYER_IPV6_HEADER: u32 = 11;
/// Bytes that an IPv6 payload length counts.
pub const LAYER_IPV6_PACKET: u32 = 12;
/// IPv6 extension header.
pub const LAYER_IPV6_EXT_HEADER: u32 = 13;
/// IPv6 fragment header.
pub const LAYER_IPV6_FRAG_HEADER: u32 = 14;
/// UDP header.
pub const LAYER_UDP_HEADER: u32 = 15;
/// Bytes that a UDP length counts.
pub const LAYER_UDP_PAYLOAD: u32 = 16;
/// TCP header.
pub const LAYER_TCP_HEADER: u32 = 17;
/// ICMP message.
pub const LAYER_ICMPV4: u32 = 18;
/// ICMP timestamp request.
pub const LAYER_ICMPV4_TIMESTAMP: u32 = 19;
/// ICMP timestamp reply.
pub const LAYER_ICMPV4_TIMESTAMP_REPLY: u32 = 20;
/// ICMPv6 message.
pub const LAYER_ICMPV6: u32 = 21;

// Flags of TCP (RFC 9293, 3.1).
/// FIN: no more data from the sender.
pub const TCP_FIN: u8 = 1;
/// SYN: synchronize sequence numbers.
pub const TCP_SYN: u8 = 2;
/// RST: reset the connection.
pub const TCP_RST: u8 = 4;
/// PSH: push buffered data to the application.
pub const TCP_PSH: u8 = 8;
/// ACK: the acknowledgment number is valid.
pub const TCP_ACK: u8 = 16;
/// URG: the urgent pointer is valid.
pub const TCP_URG: u8 = 32;
/// ECE: ECN-Echo (RFC 3168).
pub const TCP_ECE: u8 = 64;
/// CWR: congestion window reduced (RFC 3168).
pub const TCP_CWR: u8 = 128;
/// NS: ECN nonce sum, no longer used (RFC 3540); only in the fields of a packet, not in those of a header to build.
pub const TCP_NS: u16 = 256;

// Flags of a MACsec tag (SecTAG, IEEE 802.1AE), as in its first byte.
/// C: the payload's text is changed.
pub const MACSEC_C: u8 = 4;
/// E: the payload is encrypted.
pub const MACSEC_E: u8 = 8;
/// SCB: single copy broadcast.
pub const MACSEC_SCB: u8 = 16;
/// SC: the tag has a secure channel identifier (SCI).
pub const MACSEC_SC: u8 = 32;
/// ES: end station; the source MAC address identifies the secure channel.
pub const MACSEC_ES: u8 = 64;

// Verdicts on a checksum.
/// There is no such header. For a fragment, the verdict on its transport header is `CHECKSUM_UNKNOWN`.
pub const CHECKSUM_NONE: u32 = 0;
/// The checksum is valid.
pub const CHECKSUM_VALID: u32 = 1;
/// The checksum is invalid.
pub const CHECKSUM_INVALID: u32 = 2;
/// UDP over IPv4 with checksum 0: the sender computed none.
pub const CHECKSUM_ABSENT: u32 = 3;
/// The checksum cannot be verified: the payload is a fragment or incomplete; no length field counts it, as a UDP length
/// of 0, unless the checksum is 0; the IP header has a source route or a routing header; or it is ICMPv6 over IPv4.
pub const CHECKSUM_UNKNOWN: u32 = 4;

// Reasons why a fragment is rejected.
/// Its length is not a multiple of 8, and more fragments follow.
pub const FRAGMENT_UNALIGNED: u32 = 1;
/// It ends after the pool's limit.
pub const FRAGMENT_TOO_BIG: u32 = 2;
/// It ends after the known end, or is the last one and ends before that or before the end of an earlier fragment.
pub const FRAGMENT_CONFLICTING_END: u32 = 3;

// Rules of a bounded pool for fragments that overlap earlier ones of their stream.
/// Each byte is that of the last accepted fragment.
pub const OVERLAP_LAST_WINS: u32 = 0;
/// Each byte is that of the first accepted fragment.
pub const OVERLAP_FIRST_WINS: u32 = 1;
/// A fragment that contradicts earlier ones discards the stream.
pub const OVERLAP_DISCARD: u32 = 2;

// Causes for which a bounded pool evicts or discards a stream.
/// Its first accepted fragment came too long ago, or for `etherparse_bounded_pool_expire` its last one.
pub const EVICTED_EXPIRED: u32 = 1;
/// Two versions of its payload came: it is discarded, and its identifier stays.
pub const EVICTED_OVERLAP: u32 = 2;
/// There were more streams than the limits allow.
pub const EVICTED_STREAMS: u32 = 3;
/// All streams, or this one alone, used more memory than the limits allow.
pub const EVICTED_BYTES: u32 = 4;

// Limits.
/// Maximum payload length in a pool without a limit of its own, in bytes.
pub const MAX_PAYLOAD: u16 = 65535;

// Reasons why a text is not a filter expression.
/// A character that no token contains.
pub const FILTER_CHARACTER: u32 = 1;
/// Arithmetic, which is not supported.
pub const FILTER_ARITHMETIC: u32 = 2;
/// A word of tcpdump that is not supported.
pub const FILTER_NOT_TAKEN: u32 = 3;
/// The text ends before the expression does.
pub const FILTER_END: u32 = 4;
/// A token that is not allowed after the tokens before it.
pub const FILTER_MISPLACED: u32 = 5;
/// A value without `host`, `port` or the like before it.
pub const FILTER_UNQUALIFIED: u32 = 6;
/// A word that begins no primitive.
pub const FILTER_UNKNOWN: u32 = 7;
/// Not an IPv4 or IPv6 address.
pub const FILTER_NOT_AN_ADDRESS: u32 = 8;
/// Not an address or the first numbers of an IPv4 address.
pub const FILTER_NOT_A_NETWORK: u32 = 9;
/// Not a MAC address.
pub const FILTER_NOT_A_STATION: u32 = 10;
/// Not a number up to 65535, and not the name of a port.
pub const FILTER_NOT_A_PORT: u32 = 11;
/// Not a range of ports.
pub const FILTER_NOT_A_RANGE: u32 = 12;
/// Not a number up to 255.
pub const FILTER_NOT_A_PROTOCOL: u32 = 13;
/// Not a number from 1536 to 65535.
pub const FILTER_NOT_AN_ETHER_TYPE: u32 = 14;
/// Not a number up to 4095.
pub const FILTER_NOT_A_VLAN: u32 = 15;
/// Not a number up to 4294967295.
pub const FILTER_NOT_A_NUMBER: u32 = 16;
/// Not 1, 2 or 4.
pub const FILTER_NOT_A_SIZE: u32 = 17;
/// An address of the other IP version.
pub const FILTER_WRONG_FAMILY: u32 = 18;
/// Not a prefix length of the address.
pub const FILTER_NOT_A_LENGTH: u32 = 19;
/// Not an IPv4 mask.
pub const FILTER_NOT_A_MASK: u32 = 20;
/// A bit of the address after the prefix is 1.
pub const FILTER_HOST_BITS: u32 = 21;
/// A prefix length or mask after a host.
pub const FILTER_NET_ONLY: u32 = 22;
/// The 65th `(` or `not` that is open.
pub const FILTER_DEEP: u32 = 23;
/// Bytes after the first 65,536, which may begin within a character.
pub const FILTER_LONG: u32 = 24;
/// The text is not UTF-8.
pub const FILTER_NOT_UTF8: u32 = 25;

/// Kind of a header, its offset in the frame and its length.
#[repr(C)]
#[derive(Clone, Copy, Debug, Default, PartialEq, Eq, Hash)]
pub struct Part {
    /// Kind of the header, a constant of its layer; 0 is none.
    pub kind: u32,
    /// Offset in the frame, in bytes.
    pub offset: usize,
    /// Length in bytes.
    pub len: usize,
}

/// Tag of a link extension.
#[repr(C)]
#[derive(Clone, Copy, Debug, Default, PartialEq, Eq, Hash)]
pub struct LinkExt {
    /// `EXT_VLAN` or `EXT_MACSEC`; 0 is none.
    pub kind: u32,
    /// VLAN identifier (VID); 0 for MACsec.
    pub vlan_id: u16,
    /// Offset in the frame, in bytes; the tag starts after its own ether type.
    pub offset: usize,
    /// Length in bytes, including the ether type of the payload.
    pub len: usize,
}

/// Fields of an IP header and its extension headers.
#[repr(C)]
#[derive(Clone, Copy, Debug, Default, PartialEq, Eq, Hash)]
pub struct Ip {
    /// IP version: 4 or 6; 0 if the packet is not IP.
    pub version: u8,
    /// IP number (protocol) of the payload after the extension headers.
    pub number: u8,
    /// 1 if the payload is a fragment of a longer one.
    pub fragmented: u8,
    /// 1 if "more fragments" is set.
    pub more_fragments: u8,
    /// Offset of the fragment in the reassembled payload, in bytes.
    pub fragment_offset: u16,
    /// Identification that all fragments of a payload share; 0 in IPv6 without a fragment header.
    pub identification: u32,
    /// Length of the IP header without extension headers, in bytes.
    pub header_len: usize,
}

/// Payload of the last layer.
#[repr(C)]
#[derive(Clone, Copy, Debug, Default, PartialEq, Eq, Hash)]
pub struct Payload {
    /// Length field that limits it, a constant `END_`.
    pub len_source: u32,
    /// 1 if bytes that a length field counts are missing (lax slicing only); else 0.
    pub incomplete: u32,
    /// Offset in the frame, in bytes.
    pub offset: usize,
    /// Length in bytes.
    pub len: usize,
}

/// Kinds of errors.
#[repr(C)]
#[derive(Clone, Copy, Debug, Default, PartialEq, Eq, Hash)]
pub struct Refusal {
    /// Kind of the error, a constant `REFUSAL_`.
    pub kind: u32,
    /// Layer of a length error, a constant `LAYER_`.
    pub layer: u32,
    /// Limit of `len` in a length error, a constant `END_`.
    pub len_source: u32,
    /// Invalid value of a field, for the kinds that name it.
    pub number: u32,
    /// Number of bytes that the layer needs, in a length error.
    pub required_len: usize,
    /// Number of available bytes, in a length error.
    pub len: usize,
    /// Offset of the layer in the frame, in a length error.
    pub layer_start_offset: usize,
}

/// Layers of a frame, or the error if the bytes are not a frame.
#[repr(C)]
#[derive(Clone, Copy, Debug, Default, PartialEq, Eq, Hash)]
pub struct Packet {
    /// Link header, with a constant `LINK_`.
    pub link: Part,
    /// Tags of link extensions from the outermost on, then all 0; a fourth is payload.
    pub link_exts: [LinkExt; 3],
    /// Number of tags.
    pub link_ext_count: u32,
    /// Source port of UDP or TCP, else 0.
    pub source_port: u16,
    /// Destination port of UDP or TCP, else 0.
    pub destination_port: u16,
    /// IP header with its extension headers, or whole ARP packet, with a constant `NET_`.
    pub net: Part,
    /// Fields of the IP header; all 0 if there is none.
    pub ip: Ip,
    /// Transport header, with a constant `TRANSPORT_`; none in a fragment.
    pub transport: Part,
    /// Payload of the last layer.
    pub payload: Payload,
    /// Error, if the bytes are not a frame; all 0 for a frame.
    pub refusal: Refusal,
}

/// Place of some bytes, such as the options of a header: their offset in the packet and their length.
#[repr(C)]
#[derive(Clone, Copy, Debug, Default, PartialEq, Eq, Hash)]
pub struct Place {
    /// Offset in the packet, in bytes.
    pub offset: usize,
    /// Length in bytes; 0 if there are none.
    pub len: usize,
}

/// Fields of a link header. The fields of the other kind of header are 0, and all are 0 without a link header.
#[repr(C)]
#[derive(Clone, Copy, Debug, Default, PartialEq, Eq, Hash)]
pub struct LinkFields {
    /// Ethernet II: destination MAC address.
    pub destination: [u8; 6],
    /// Ethernet II: source MAC address.
    pub source: [u8; 6],
    /// Ethernet II: ether type of the payload, which may be that of a tag.
    pub ether_type: u16,
    /// Cooked capture: packet type, 0 to 7; 0 is sent to this host, 4 is sent by this host.
    pub packet_type: u16,
    /// Cooked capture: ARP hardware type of the device (ARPHRD).
    pub hardware_type: u16,
    /// Cooked capture: length of the sender's address in bytes; may be greater than 8.
    pub address_len: u16,
    /// Cooked capture: the sender's link-layer address, padded with zeros.
    pub address: [u8; 8],
    /// Cooked capture: protocol type of the payload, an ether type for most hardware types.
    pub protocol: u16,
}

/// Fields of a tag. The fields of the other kind of tag are 0, and all are 0 without a tag.
#[repr(C)]
#[derive(Clone, Copy, Debug, Default, PartialEq, Eq, Hash)]
pub struct TagFields {
    /// `EXT_VLAN` or `EXT_MACSEC`; 0 is none.
    pub kind: u32,
    /// VLAN: identifier (VID), 0 to 4095.
    pub vlan_id: u16,
    /// Ether type of the payload; 0 if a MACsec payload is modified or encrypted.
    pub ether_type: u16,
    /// VLAN: priority code point (PCP), 0 to 7.
    pub priority: u8,
    /// VLAN: 1 if the drop eligible indicator (DEI) is set.
    pub drop_eligible: u8,
    /// MACsec: sum of the constants `MACSEC_`.
    pub macsec_flags: u8,
    /// MACsec: association number (AN), 0 to 3.
    pub association_number: u8,
    /// MACsec: short length (SL), 0 to 63.
    pub short_len: u8,
    /// MACsec: packet number (PN).
    pub packet_number: u32,
    /// MACsec: secure channel identifier (SCI), or 0 without `MACSEC_SC`.
    pub sci: u64,
}

/// Fields of an IP header; all 0 if the packet is not IP.
#[repr(C)]
#[derive(Clone, Copy, Debug, Default, PartialEq, Eq, Hash)]
pub struct IpFields {
    /// IP version: 4 or 6.
    pub version: u8,
    /// IP number (protocol) of the payload after the extension headers.
    pub number: u8,
    /// IP number of the header or payload directly after the IP header.
    pub next_header: u8,
    /// Time to live (TTL) of IPv4, hop limit of IPv6.
    pub hop_limit: u8,
    /// Differentiated services code point (DSCP), 0 to 63.
    pub dscp: u8,
    /// Explicit congestion notification (ECN), 0 to 3.
    pub ecn: u8,
    /// IPv4: 1 if "don't fragment" (DF) is set.
    pub dont_fragment: u8,
    /// 1 if "more fragments" (MF) is set; in IPv6 of the first fragment header.
    pub more_fragments: u8,
    /// Offset of the fragment in the reassembled payload, in bytes; from the header with "more fragments".
    pub fragment_offset: u16,
    /// Total length of IPv4, payload length of IPv6, in bytes.
    pub length: u16,
    /// IPv4: header checksum.
    pub checksum: u16,
    /// Identification that all fragments of a payload share; 0 in IPv6 without a fragment header.
    pub identification: u32,
    /// IPv6: flow label, 20 bits.
    pub flow_label: u32,
    /// Source address; of IPv4 in the first 4 bytes, and the others are 0.
    pub source: [u8; 16],
    /// Destination address; of IPv4 in the first 4 bytes, and the others are 0.
    pub destination: [u8; 16],
    /// IPv4: options.
    pub options: Place,
}

/// Fields of an ARP packet, and the places of its addresses; all 0 if the packet is not ARP.
#[repr(C)]
#[derive(Clone, Copy, Debug, Default, PartialEq, Eq, Hash)]
pub struct ArpFields {
    /// Hardware type; 1 is Ethernet.
    pub hardware_type: u16,
    /// Protocol type of the protocol addresses, an ether type.
    pub protocol_type: u16,
    /// Length of a hardware address in bytes.
    pub hardware_len: u8,
    /// Length of a protocol address in bytes.
    pub protocol_len: u8,
    /// Operation: 1 is a request, 2 a reply.
    pub operation: u16,
    /// Sender hardware address.
    pub sender_hardware: Place,
    /// Sender protocol address.
    pub sender_protocol: Place,
    /// Target hardware address.
    pub target_hardware: Place,
    /// Target protocol address.
    pub target_protocol: Place,
}

/// Fields of a transport header. Fields that it does not have are 0, and all are 0 without a transport header, except
/// for the ports of a truncated or invalid header of TCP or UDP (lax slicing only), if their 4 bytes are present.
#[repr(C)]
#[derive(Clone, Copy, Debug, Default, PartialEq, Eq, Hash)]
pub struct TransportFields {
    /// UDP, TCP: source port.
    pub source_port: u16,
    /// UDP, TCP: destination port.
    pub destination_port: u16,
    /// Checksum as in the header.
    pub checksum: u16,
    /// UDP: length of header and payload in bytes; 0 limits nothing.
    pub udp_length: u16,
    /// TCP: sequence number of the first payload byte, or of SYN if it is set.
    pub sequence_number: u32,
    /// TCP: next sequence number that the sender of the segment expects to receive, with `TCP_ACK`.
    pub acknowledgment_number: u32,
    /// TCP: sum of the constants `TCP_FIN` and so on.
    pub tcp_flags: u16,
    /// TCP: number of bytes that the sender of the segment is willing to receive.
    pub window_size: u16,
    /// TCP: end of the urgent data as an offset from the sequence number, with `TCP_URG`.
    pub urgent_pointer: u16,
    /// TCP: length of the header in units of 4 bytes.
    pub data_offset: u8,
    /// ICMP, ICMPv6: type of the message.
    pub icmp_type: u8,
    /// ICMP, ICMPv6: code of the message.
    pub icmp_code: u8,
    /// ICMP, ICMPv6: bytes 4 to 7, whose meaning depends on the type.
    pub icmp_rest: [u8; 4],
    /// TCP: options.
    pub options: Place,
}

/// Fields of all headers of a packet.
#[repr(C)]
#[derive(Clone, Copy, Debug, Default, PartialEq, Eq, Hash)]
pub struct Fields {
    /// Fields of the link header.
    pub link: LinkFields,
    /// Fields of the tags from the outermost on, then all 0.
    pub tags: [TagFields; 3],
    /// Fields of the IP header.
    pub ip: IpFields,
    /// Fields of the ARP packet.
    pub arp: ArpFields,
    /// Fields of the transport header.
    pub transport: TransportFields,
    /// Verdict on the checksum of the IPv4 header, a constant `CHECKSUM_`. `etherparse_checksums` sets it;
    /// `etherparse_fields` sets it to 0.
    pub header_checksum: u32,
    /// Verdict on the checksum of the transport header, a constant `CHECKSUM_`. `etherparse_checksums` sets it;
    /// `etherparse_fields` sets it to 0.
    pub transport_checksum: u32,
}

/// Headers before the transport header of a frame to build.
#[repr(C)]
#[derive(Clone, Copy, Debug, Default, PartialEq, Eq, Hash)]
pub struct Route {
    /// IP version: 4 or 6.
    pub version: u8,
    /// 0 if the frame starts with the IP header; otherwise it starts with an Ethernet II header.
    pub with_ethernet: u8,
    /// Time to live (IPv4) or hop limit (IPv6).
    pub hop_limit: u8,
    /// Source MAC address.
    pub ethernet_source: [u8; 6],
    /// Destination MAC address.
    pub ethernet_destination: [u8; 6],
    /// Source IPv4 address, if the version is 4.
    pub ipv4_source: [u8; 4],
    /// Destination IPv4 address, if the version is 4.
    pub ipv4_destination: [u8; 4],
    /// Source IPv6 address, if the version is 6.
    pub ipv6_source: [u8; 16],
    /// Destination IPv6 address, if the version is 6.
    pub ipv6_destination: [u8; 16],
}

/// Fields of a TCP header without options.
#[repr(C)]
#[derive(Clone, Copy, Debug, Default, PartialEq, Eq, Hash)]
pub struct TcpFields {
    /// Source port.
    pub source_port: u16,
    /// Destination port.
    pub destination_port: u16,
    /// Sequence number of the first payload byte, or of SYN if it is set.
    pub sequence_number: u32,
    /// Next sequence number that the sender of the segment expects to receive, with `TCP_ACK`.
    pub acknowledgment_number: u32,
    /// Window: number of bytes that the sender of the segment is willing to receive.
    pub window_size: u16,
    /// End of the urgent data as an offset from the sequence number, with `TCP_URG`.
    pub urgent_pointer: u16,
    /// Sum of the constants `TCP_FIN` and so on.
    pub flags: u8,
}

/// A route with VLAN tags after its Ethernet II header.
#[repr(C)]
#[derive(Clone, Copy, Debug, Default, PartialEq, Eq, Hash)]
pub struct TaggedRoute {
    /// The route; its `with_ethernet` must not be 0 if there are tags.
    pub route: Route,
    /// Number of tags, 0 to 2.
    pub tag_count: u32,
    /// VLAN identifiers, each at most 4095, from the outermost on.
    pub vlan_ids: [u16; 2],
}

/// Fields of a fragment.
#[repr(C)]
#[derive(Clone, Copy, Debug, Default, PartialEq, Eq, Hash)]
pub struct FragmentFields {
    /// IP number (protocol) of the reassembled payload.
    pub ip_number: u8,
    /// 0 if this is the last fragment; otherwise more fragments follow.
    pub more_fragments: u8,
    /// Offset of the fragment in the reassembled payload, in bytes: a multiple of 8.
    pub fragment_offset: u16,
    /// Identification that all fragments of a payload share; in IPv4 at most 65535.
    pub identification: u32,
}

/// A pool of fragments; only its address is used.
#[repr(C)]
#[derive(Debug)]
pub struct Pool {
    _private: [u8; 0],
}

/// Answer of a pool to a frame.
#[repr(C)]
#[derive(Clone, Copy, Debug, Default, PartialEq, Eq, Hash)]
pub struct PoolAnswer {
    /// Error of the bytes, with `REFUSED`.
    pub refusal: Refusal,
    /// Reason why the fragment is rejected, with `FRAGMENT_REFUSED`: a constant `FRAGMENT_`.
    pub fragment_refusal: u32,
    /// Length field of a payload's fragments: `END_IPV4` or `END_IPV6`, by their version.
    pub len_source: u32,
    /// IP number (protocol) of a payload.
    pub ip_number: u8,
    /// Length of a payload in bytes.
    pub len: usize,
}

/// A bounded pool of fragments; only its address is used.
#[repr(C)]
#[derive(Debug)]
pub struct BoundedPool {
    _private: [u8; 0],
}

/// Limits of a bounded pool.
#[repr(C)]
#[derive(Clone, Copy, Debug, Default, PartialEq, Eq, Hash)]
pub struct DefragLimits {
    /// Greatest number of streams, open and discarded ones; 0 counts as 1.
    pub streams: usize,
    /// Greatest memory of all streams in bytes.
    pub bytes: usize,
    /// Time that a stream may stay after its first accepted fragment, in the unit of the timestamps.
    pub age: u64,
    /// Rule for fragments that overlap earlier ones, a constant `OVERLAP_`.
    pub overlap: u32,
    /// Greatest length of a payload in bytes.
    pub payload: u16,
}

/// Counters of a bounded pool since it was created.
#[repr(C)]
#[derive(Clone, Copy, Debug, Default, PartialEq, Eq, Hash)]
pub struct DefragStatistics {
    /// Streams that began with an accepted fragment.
    pub begun: u64,
    /// Streams whose payload was returned.
    pub completed: u64,
    /// Streams that were discarded, since two versions of their payload came.
    pub discarded: u64,
    /// Open streams that were evicted for their age, or by [`etherparse_bounded_pool_expire`].
    pub expired: u64,
    /// Open streams that were evicted, since there were too many.
    pub evicted_for_streams: u64,
    /// Open streams that were evicted, since all or the stream alone used too much memory.
    pub evicted_for_bytes: u64,
    /// Open streams that [`etherparse_bounded_pool_remove`] or [`etherparse_bounded_pool_clear`] removed.
    pub removed: u64,
    /// Fragments that were accepted.
    pub accepted: u64,
    /// Fragments that were rejected as [`FRAGMENT_UNALIGNED`].
    pub rejected_unaligned: u64,
    /// Fragments that were rejected as [`FRAGMENT_TOO_BIG`].
    pub rejected_too_big: u64,
    /// Fragments that were rejected as [`FRAGMENT_CONFLICTING_END`].
    pub rejected_conflicting_end: u64,
    /// Fragments for which an allocation failed.
    pub rejected_out_of_memory: u64,
    /// Fragments that were rejected with [`DISCARDED`].
    pub rejected_discarded: u64,
    /// Fragments that were rejected with [`OVER_BUDGET`].
    pub rejected_over_budget: u64,
}

/// Identifier of a stream: what all its fragments share.
#[repr(C)]
#[derive(Clone, Copy, Debug, Default, PartialEq, Eq, Hash)]
pub struct StreamId {
    /// Channel that was passed with the fragments.
    pub channel: u64,
    /// Identification of the datagram.
    pub identification: u32,
    /// Number of VLAN tags, 0 to 3.
    pub vlan_id_count: u32,
    /// VLAN identifiers from the outermost on, then 0.
    pub vlan_ids: [u16; 3],
    /// IP version: 4 or 6.
    pub version: u8,
    /// IP number (protocol) of the payload.
    pub ip_number: u8,
    /// Source IPv4 address, if the version is 4, else 0.
    pub ipv4_source: [u8; 4],
    /// Destination IPv4 address, if the version is 4, else 0.
    pub ipv4_destination: [u8; 4],
    /// Source IPv6 address, if the version is 6, else 0.
    pub ipv6_source: [u8; 16],
    /// Destination IPv6 address, if the version is 6, else 0.
    pub ipv6_destination: [u8; 16],
}

/// A stream that a bounded pool evicted or discarded.
#[repr(C)]
#[derive(Clone, Copy, Debug, Default, PartialEq, Eq, Hash)]
pub struct EvictedStream {
    /// Identifier of the stream.
    pub id: StreamId,
    /// Timestamp of its first accepted fragment.
    pub first: u64,
    /// Cause, a constant `EVICTED_`.
    pub cause: u32,
}

/// A filter, known only by its address.
#[repr(C)]
pub struct Filter {
    _private: [u8; 0],
}

/// Error of a filter expression: its first token that is not allowed after the tokens before it.
#[repr(C)]
#[derive(Clone, Copy, Debug, Default, PartialEq, Eq, Hash)]
pub struct FilterError {
    /// Reason, a constant `FILTER_`, or 0.
    pub kind: u32,
    /// Offset in bytes at which the token begins.
    pub start: usize,
    /// Offset in bytes at which the token ends.
    pub end: usize,
}

extern "C" {
    /// Returns the version of the archive, to be compared with [`VERSION`].
    #[link_name = "etherparse_2_version"]
    pub fn etherparse_version() -> u32;
    /// Slices the frame in `bytes`, and fills every field of `packet`.
    #[link_name = "etherparse_2_slice"]
    pub fn etherparse_slice(entry: u32, ether_type: u16, bytes: *const u8, len: usize, packet: *mut Packet) -> u32;
    /// Slices a packet that was truncated by the capture, or whose length fields do not match, up to the first invalid
    /// layer.
    #[link_name = "etherparse_2_slice_lax"]
    pub fn etherparse_slice_lax(entry: u32, ether_type: u16, bytes: *const u8, len: usize, packet: *mut Packet) -> u32;
    /// Slices consecutive frames in `bytes`, which end at `ends`.
    #[link_name = "etherparse_2_slice_many"]
    pub fn etherparse_slice_many(
        entry: u32,
        ether_type: u16,
        bytes: *const u8,
        len: usize,
        ends: *const usize,
        ends_len: usize,
        packets: *mut Packet,
        packets_len: usize,
        sliced: *mut usize,
    ) -> u32;
    /// Slices consecutive packets in `bytes`, which end at `ends`, each as `etherparse_slice_lax`.
    #[link_name = "etherparse_2_slice_lax_many"]
    pub fn etherparse_slice_lax_many(
        entry: u32,
        ether_type: u16,
        bytes: *const u8,
        len: usize,
        ends: *const usize,
        ends_len: usize,
        packets: *mut Packet,
        packets_len: usize,
        sliced: *mut usize,
    ) -> u32;
    /// Reads the fields of the headers that `packet` describes from the bytes of the packet; both verdicts on checksums
    /// are set to 0. The number of the IP payload and, for IPv6, the fields of the fragment header are copied from
    /// `packet`. Returns `UNKNOWN_CHOICE`, and all fields are 0, if the described headers are not at their places in
    /// the bytes. No byte outside of `bytes` is read, whatever numbers `packet` has.
    #[link_name = "etherparse_2_fields"]
    pub fn etherparse_fields(packet: *const Packet, bytes: *const u8, len: usize, fields: *mut Fields) -> u32;
    /// Verifies the checksums of the IPv4 header and of the transport header of a packet, which is sliced laxly, and
    /// sets both verdicts in `fields`, whose other fields are unchanged. Both are `CHECKSUM_NONE` if the status is not
    /// `OK`.
    #[link_name = "etherparse_2_checksums"]
    pub fn etherparse_checksums(entry: u32, ether_type: u16, bytes: *const u8, len: usize, fields: *mut Fields) -> u32;
    /// Writes the text of an error and a zero byte to the start of `buffer`.
    #[link_name = "etherparse_2_refusal_text"]
    pub fn etherparse_refusal_text(refusal: *const Refusal, buffer: *mut u8, len: usize, written: *mut usize) -> u32;
    /// Returns the Internet checksum (RFC 1071) of the bytes.
    #[link_name = "etherparse_2_checksum"]
    pub fn etherparse_checksum(bytes: *const u8, len: usize) -> u16;
    /// Writes the frame of a UDP datagram to the start of `buffer`.
    #[link_name = "etherparse_2_build_udp"]
    pub fn etherparse_build_udp(
        route: *const Route,
        source_port: u16,
        destination_port: u16,
        payload: *const u8,
        payload_len: usize,
        buffer: *mut u8,
        buffer_len: usize,
        written: *mut usize,
    ) -> u32;
    /// Writes the frame of a TCP segment to the start of `buffer`.
    #[link_name = "etherparse_2_build_tcp"]
    pub fn etherparse_build_tcp(
        route: *const Route,
        fields: *const TcpFields,
        payload: *const u8,
        payload_len: usize,
        buffer: *mut u8,
        buffer_len: usize,
        written: *mut usize,
    ) -> u32;
    /// Writes the frame of an ICMP or ICMPv6 echo message to the start of `buffer`.
    #[link_name = "etherparse_2_build_icmp_echo"]
    pub fn etherparse_build_icmp_echo(
        route: *const Route,
        is_reply: u8,
        id: u16,
        seq: u16,
        payload: *const u8,
        payload_len: usize,
        buffer: *mut u8,
        buffer_len: usize,
        written: *mut usize,
    ) -> u32;
    /// Writes the frame of a UDP datagram after VLAN tags to the start of `buffer`.
    #[link_name = "etherparse_2_build_tagged_udp"]
    pub fn etherparse_build_tagged_udp(
        route: *const TaggedRoute,
        source_port: u16,
        destination_port: u16,
        payload: *const u8,
        payload_len: usize,
        buffer: *mut u8,
        buffer_len: usize,
        written: *mut usize,
    ) -> u32;
    /// Writes the frame of a TCP segment with options after VLAN tags to the start of `buffer`.
    #[link_name = "etherparse_2_build_tagged_tcp"]
    pub fn etherparse_build_tagged_tcp(
        route: *const TaggedRoute,
        fields: *const TcpFields,
        options: *const u8,
        options_len: usize,
        payload: *const u8,
        payload_len: usize,
        buffer: *mut u8,
        buffer_len: usize,
        written: *mut usize,
    ) -> u32;
    /// Writes the frame of an echo message after VLAN tags to the start of `buffer`.
    #[link_name = "etherparse_2_build_tagged_icmp_echo"]
    pub fn etherparse_build_tagged_icmp_echo(
        route: *const TaggedRoute,
        is_reply: u8,
        id: u16,
        seq: u16,
        payload: *const u8,
        payload_len: usize,
        buffer: *mut u8,
        buffer_len: usize,
        written: *mut usize,
    ) -> u32;
    /// Writes the frame of a fragment of a longer payload to the start of `buffer`.
    #[link_name = "etherparse_2_build_fragment"]
    pub fn etherparse_build_fragment(
        route: *const TaggedRoute,
        fields: *const FragmentFields,
        payload: *const u8,
        payload_len: usize,
        buffer: *mut u8,
        buffer_len: usize,
        written: *mut usize,
    ) -> u32;
    /// Creates an empty pool and stores its address in `pool`.
    #[link_name = "etherparse_2_pool_new"]
    pub fn etherparse_pool_new(pool: *mut *mut Pool) -> u32;
    /// Creates an empty pool with payloads of at most `limit` bytes.
    #[link_name = "etherparse_2_pool_with_limit"]
    pub fn etherparse_pool_with_limit(limit: u16, pool: *mut *mut Pool) -> u32;
    /// Frees a pool, which must not be used again.
    #[link_name = "etherparse_2_pool_free"]
    pub fn etherparse_pool_free(pool: *mut Pool);
    /// Passes a frame to a pool; a payload that it completes is written to the start of `buffer`.
    #[link_name = "etherparse_2_pool_push"]
    pub fn etherparse_pool_push(
        pool: *mut Pool,
        entry: u32,
        ether_type: u16,
        bytes: *const u8,
        len: usize,
        timestamp: u64,
        channel: u64,
        buffer: *mut u8,
        buffer_len: usize,
        answer: *mut PoolAnswer,
    ) -> u32;
    /// Copies the payload that waits in a pool to the start of `buffer`.
    #[link_name = "etherparse_2_pool_take"]
    pub fn etherparse_pool_take(pool: *mut Pool, buffer: *mut u8, buffer_len: usize, answer: *mut PoolAnswer) -> u32;
    /// Discards the payload that waits in a pool.
    #[link_name = "etherparse_2_pool_discard"]
    pub fn etherparse_pool_discard(pool: *mut Pool);
    /// Drops the streams whose last accepted fragment came before `timestamp`.
    #[link_name = "etherparse_2_pool_drop_older"]
    pub fn etherparse_pool_drop_older(pool: *mut Pool, timestamp: u64);
    /// Returns the number of streams in a pool.
    #[link_name = "etherparse_2_pool_streams"]
    pub fn etherparse_pool_streams(pool: *mut Pool) -> usize;
    /// Returns the number of payload bytes in a pool.
    #[link_name = "etherparse_2_pool_bytes"]
    pub fn etherparse_pool_bytes(pool: *mut Pool) -> usize;
    /// Stores the default limits of a bounded pool.
    #[link_name = "etherparse_2_defrag_limits_default"]
    pub fn etherparse_defrag_limits_default(limits: *mut DefragLimits);
    /// Creates an empty bounded pool and stores its address in `pool`. `seed` points to 16 bytes.
    #[link_name = "etherparse_2_bounded_pool_new"]
    pub fn etherparse_bounded_pool_new(
        limits: *const DefragLimits,
        seed: *const u8,
        pool: *mut *mut BoundedPool,
    ) -> u32;
    /// Frees a bounded pool, which must not be used again.
    #[link_name = "etherparse_2_bounded_pool_free"]
    pub fn etherparse_bounded_pool_free(pool: *mut BoundedPool);
    /// Passes a frame to a bounded pool; a payload that it completes is written to the start of `buffer`.
    #[link_name = "etherparse_2_bounded_pool_push"]
    pub fn etherparse_bounded_pool_push(
        pool: *mut BoundedPool,
        entry: u32,
        ether_type: u16,
        bytes: *const u8,
        len: usize,
        timestamp: u64,
        channel: u64,
        buffer: *mut u8,
        buffer_len: usize,
        answer: *mut PoolAnswer,
    ) -> u32;
    /// Copies the payload that waits in a bounded pool to the start of `buffer`.
    #[link_name = "etherparse_2_bounded_pool_take"]
    pub fn etherparse_bounded_pool_take(
        pool: *mut BoundedPool,
        buffer: *mut u8,
        buffer_len: usize,
        answer: *mut PoolAnswer,
    ) -> u32;
    /// Discards the payload that waits in a bounded pool.
    #[link_name = "etherparse_2_bounded_pool_discard"]
    pub fn etherparse_bounded_pool_discard(pool: *mut BoundedPool);
    /// Evicts the streams of a bounded pool that are older than the age of its limits, or that got no fragment for
    /// `idle`, and returns their number.
    #[link_name = "etherparse_2_bounded_pool_expire"]
    pub fn etherparse_bounded_pool_expire(pool: *mut BoundedPool, now: u64, idle: u64) -> usize;
    /// Removes the stream with this identifier from a bounded pool, and returns the number of removed streams, 1 or 0.
    #[link_name = "etherparse_2_bounded_pool_remove"]
    pub fn etherparse_bounded_pool_remove(pool: *mut BoundedPool, id: *const StreamId) -> usize;
    /// Removes all streams from a bounded pool.
    #[link_name = "etherparse_2_bounded_pool_clear"]
    pub fn etherparse_bounded_pool_clear(pool: *mut BoundedPool);
    /// Returns the number of open streams in a bounded pool.
    #[link_name = "etherparse_2_bounded_pool_streams"]
    pub fn etherparse_bounded_pool_streams(pool: *mut BoundedPool) -> usize;
    /// Returns the number of discarded streams in a bounded pool.
    #[link_name = "etherparse_2_bounded_pool_discarded_streams"]
    pub fn etherparse_bounded_pool_discarded_streams(pool: *mut BoundedPool) -> usize;
    /// Returns the memory of all streams in a bounded pool, in bytes.
    #[link_name = "etherparse_2_bounded_pool_held_bytes"]
    pub fn etherparse_bounded_pool_held_bytes(pool: *mut BoundedPool) -> usize;
    /// Stores the limits of a bounded pool, as they were passed to `etherparse_bounded_pool_new`.
    #[link_name = "etherparse_2_bounded_pool_limits"]
    pub fn etherparse_bounded_pool_limits(pool: *mut BoundedPool, limits: *mut DefragLimits);
    /// Stores the counters of a bounded pool.
    #[link_name = "etherparse_2_bounded_pool_statistics"]
    pub fn etherparse_bounded_pool_statistics(pool: *mut BoundedPool, statistics: *mut DefragStatistics);
    /// Returns the number of streams that the last push, expiry, removal or clearing evicted or discarded.
    #[link_name = "etherparse_2_bounded_pool_evicted_count"]
    pub fn etherparse_bounded_pool_evicted_count(pool: *mut BoundedPool) -> usize;
    /// Stores one of the streams that the last push, expiry, removal or clearing evicted or discarded.
    #[link_name = "etherparse_2_bounded_pool_evicted"]
    pub fn etherparse_bounded_pool_evicted(pool: *mut BoundedPool, index: usize, evicted: *mut EvictedStream) -> u32;
    /// Parses a filter expression, and stores the address of the filter in `filter`.
    #[link_name = "etherparse_2_filter_new"]
    pub fn etherparse_filter_new(text: *const u8, len: usize, filter: *mut *mut Filter, error: *mut FilterError)
        -> u32;
    /// Frees a filter, which must not be used again.
    #[link_name = "etherparse_2_filter_free"]
    pub fn etherparse_filter_free(filter: *mut Filter);
    /// Stores in `matches` whether a filter matches a packet, 1 or 0.
    #[link_name = "etherparse_2_filter_matches"]
    pub fn etherparse_filter_matches(
        filter: *mut Filter,
        entry: u32,
        ether_type: u16,
        bytes: *const u8,
        len: usize,
        wire_len: u32,
        matches: *mut u8,
    ) -> u32;
    /// Stores in `matches` for each of consecutive packets in `bytes`, which end at `ends`, whether a filter matches it.
    #[link_name = "etherparse_2_filter_matches_many"]
    pub fn etherparse_filter_matches_many(
        filter: *mut Filter,
        entry: u32,
        ether_type: u16,
        bytes: *const u8,
        len: usize,
        ends: *const usize,
        ends_len: usize,
        wire_lens: *const u32,
        wire_lens_len: usize,
        matches: *mut u8,
        matches_len: usize,
        matched: *mut usize,
    ) -> u32;
    /// Writes the expression of a filter and a zero byte to the start of `buffer`.
    #[link_name = "etherparse_2_filter_text"]
    pub fn etherparse_filter_text(filter: *mut Filter, buffer: *mut u8, len: usize, written: *mut usize) -> u32;
    /// Writes the text of a reason, a constant `FILTER_`, and a zero byte to the start of `buffer`.
    #[link_name = "etherparse_2_filter_error_text"]
    pub fn etherparse_filter_error_text(kind: u32, buffer: *mut u8, len: usize, written: *mut usize) -> u32;
}
