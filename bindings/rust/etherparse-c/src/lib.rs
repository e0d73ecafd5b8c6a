//! Slices network frames into their layers, verifies their checksums, builds and filters frames, and reassembles
//! fragmented payloads, by the static library `libetherparse_c.a`; each of its functions is proved against its
//! contract.
//!
//! These wrappers, which turn offsets into slices and fields of headers into methods, are checked only by the compiler
//! and by their tests; they read no byte of a header themselves. Names are those of the Rust crate `etherparse`, if it
//! has them; fields of a packet there are methods here.
//!
//! ```
//! // Ethernet II, IPv4, UDP from port 21 to 1234, and 2 bytes
//! let frame = [
//!     7, 8, 9, 10, 11, 12, 1, 2, 3, 4, 5, 6, 8, 0, // Ethernet II
//!     0x45, 0, 0, 30, 0, 0, 0x40, 0, 20, 17, 0xe3, 0x7b, 192, 168, 1, 1, 192, 168, 1, 2, // IPv4
//!     0, 21, 4, 210, 0, 10, 0, 0, // UDP
//!     1, 2,
//! ];
//! let packet = etherparse_c::SlicedPacket::from_ethernet(&frame)?;
//! assert_eq!(packet.ports(), Some((21, 1234)));
//! assert_eq!(packet.payload(), [1, 2]);
//!
//! let refusal = etherparse_c::SlicedPacket::from_ethernet(&frame[..40]).unwrap_err();
//! assert_eq!(refusal.to_string(), "Ipv4Packet: 30 bytes needed, 26 there (limit Slice, offset 14)");
//! # Ok::<(), etherparse_c::Refusal>(())
//! ```
//!
//! The crate needs no `std`, but `alloc`; its errors implement `core::error::Error`, which needs Rust 1.81.
#![no_std]
#![warn(missing_docs)]

extern crate alloc;

pub use etherparse_c_sys as sys;

mod bounded_pool;
mod building;
mod checksum_verdict;
pub mod err;
mod fields;
mod filter;
mod headers;
mod lax_sliced_packet;
mod link;
mod many;
mod net;
mod numbered;
mod packet_builder;
mod pool;
mod refusal;
mod sliced_packet;
mod transport;
mod types;
mod views;

pub use bounded_pool::{
    BoundedPool, DefragLimits, DefragStatistics, EvictedStream, EvictionCause, OverlapPolicy, StreamId,
};
pub use building::{
    build_fragment, build_icmp_echo, build_tcp, build_udp, tcp_flag, Addresses, BuildError, FragmentFields, Route,
    TcpFields,
};
pub use checksum_verdict::{ChecksumVerdict, ChecksumVerdicts};
pub use fields::PacketFields;
pub use filter::{Filter, FilterError, FilterErrorKind};
pub use headers::PacketHeaders;
pub use lax_sliced_packet::LaxSlicedPacket;
pub use link::{
    Ethernet2Header, Ethernet2Slice, LinkExtHeader, LinkExtSlice, LinkHeader, LinkSlice, LinuxSllHeader, LinuxSllSlice,
    MacsecHeader, MacsecPType, MacsecSlice, SingleVlanHeader, SingleVlanSlice,
};
pub use many::{slice_lax_many, slice_many, InvalidEnd};
pub use net::{
    ArpPacket, ArpPacketSlice, Ipv4Header, Ipv4HeaderSlice, Ipv4Slice, Ipv6Header, Ipv6HeaderSlice, Ipv6Slice,
    NetHeaders, NetSlice,
};
pub use packet_builder::{EthernetStep, FragmentStep, IcmpEchoStep, IpStep, PacketBuilder, TcpStep, UdpStep};
pub use pool::{OutOfMemory, Payload, Pool, PushError};
pub use refusal::{Refusal, RefusalKind};
pub use sliced_packet::{Ip, LenSource, SlicedPacket};
pub use transport::{IcmpHeader, IcmpSlice, TcpHeader, TcpSlice, TransportHeader, TransportSlice, UdpHeader, UdpSlice};
pub use types::{EtherType, IpNumber, Options};

/// First header of a frame.
#[derive(Clone, Copy, Debug, PartialEq, Eq, Hash)]
#[non_exhaustive]
pub enum Entry {
    /// Ethernet II header.
    Ethernet,
    /// Linux cooked capture header (SLL v1).
    LinuxSll,
    /// Payload of an ether type, without a link header.
    EtherType(EtherType),
    /// IP header of either version.
    Ip,
}

impl Entry {
    /// Returns the number of the entry and its ether type, which is 0 if it is not read.
    #[inline]
    fn numbers(self) -> (u32, u16) {
        match self {
            Entry::Ethernet => (sys::ENTRY_ETHERNET, 0),
            Entry::LinuxSll => (sys::ENTRY_LINUX_SLL, 0),
            Entry::EtherType(ether_type) => (sys::ENTRY_ETHER_TYPE, ether_type.0),
            Entry::Ip => (sys::ENTRY_IP, 0),
        }
    }
}

/// Returns the Internet checksum (RFC 1071) of the bytes.
///
/// ```
/// assert_eq!(etherparse_c::checksum(&[0x00, 0x01, 0xf2, 0x03, 0xf4, 0xf5, 0xf6, 0xf7]), 0x220d);
/// ```
#[must_use]
pub fn checksum(bytes: &[u8]) -> u16 {
    // SAFETY: the pointer comes from a reference that outlives the call.
    unsafe { sys::etherparse_checksum(bytes.as_ptr(), bytes.len()) }
}

/// The example of the readme, tested with the examples here.
#[cfg(doctest)]
#[doc = include_str!("../README.md")]
struct Readme;
