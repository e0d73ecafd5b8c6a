//! Building of a frame by one call, into a buffer.

use crate::{sys, IpNumber, OutOfMemory};
use core::fmt;

/// Reason why no frame was built.
#[derive(Clone, Copy, Debug, PartialEq, Eq, Hash)]
#[non_exhaustive]
pub enum BuildError {
    /// The buffer is too small; the length of the frame.
    TooSmall(usize),
    /// The payload or the options are too long for the headers' length fields.
    TooLong,
    /// A number is not valid for its field: a VLAN identifier above 4095, tags without an Ethernet II header, a
    /// fragment offset that is not a multiple of 8, or an identification above 65535 in IPv4.
    UnknownChoice,
    /// An allocation failed.
    OutOfMemory,
}

impl fmt::Display for BuildError {
    fn fmt(&self, f: &mut fmt::Formatter<'_>) -> fmt::Result {
        match self {
            BuildError::TooSmall(needed) => write!(f, "the frame needs {needed} bytes"),
            BuildError::TooLong => f.write_str("the payload or the options are too long"),
            BuildError::UnknownChoice => f.write_str("a number is not one that its field can have"),
            BuildError::OutOfMemory => OutOfMemory.fmt(f),
        }
    }
}

impl core::error::Error for BuildError {}

/// Addresses of an IP header of either version.
#[derive(Clone, Copy, Debug, PartialEq, Eq, Hash)]
#[non_exhaustive]
pub enum Addresses {
    /// Addresses of IPv4.
    Ipv4 {
        /// Source address.
        source: [u8; 4],
        /// Destination address.
        destination: [u8; 4],
    },
    /// Addresses of IPv6.
    Ipv6 {
        /// Source address.
        source: [u8; 16],
        /// Destination address.
        destination: [u8; 16],
    },
}

/// Headers before the transport header of a frame to build.
#[derive(Clone, Copy, Debug, PartialEq, Eq, Hash)]
pub struct Route {
    /// Source and destination MAC address, if the frame starts with an Ethernet II header.
    pub ethernet: Option<([u8; 6], [u8; 6])>,
    /// VLAN identifiers from the outermost on, each at most 4095; unused entries come last. Tags need an Ethernet II
    /// header before them.
    pub vlan_ids: [Option<u16>; 2],
    /// Addresses of the IP header.
    pub addresses: Addresses,
    /// Time to live (IPv4) or hop limit (IPv6).
    pub hop_limit: u8,
}

impl Route {
    fn to_raw(&self) -> sys::TaggedRoute {
        let mut route = sys::Route { hop_limit: self.hop_limit, ..Default::default() };
        if let Some((source, destination)) = self.ethernet {
            route.with_ethernet = 1;
            route.ethernet_source = source;
            route.ethernet_destination = destination;
        }
        match self.addresses {
            Addresses::Ipv4 { source, destination } => {
                route.version = 4;
                route.ipv4_source = source;
                route.ipv4_destination = destination;
            }
            Addresses::Ipv6 { source, destination } => {
                route.version = 6;
                route.ipv6_source = source;
                route.ipv6_destination = destination;
            }
        }
        let mut tagged = sys::TaggedRoute { route, ..Default::default() };
        for (place, id) in tagged.vlan_ids.iter_mut().zip(self.vlan_ids.iter().flatten()) {
            *place = *id;
            tagged.tag_count += 1;
        }
        tagged
    }

    /// Length of the headers before the transport header, in bytes.
    pub(crate) fn header_len(&self) -> usize {
        let ethernet = if self.ethernet.is_some() { 14 } else { 0 };
        let ip = match self.addresses {
            Addresses::Ipv4 { .. } => 20,
            Addresses::Ipv6 { .. } => 40,
        };
        ethernet + 4 * self.vlan_ids.iter().flatten().count() + ip
    }
}

/// Flags of a TCP header; [`TcpFields`] has their sum.
pub mod tcp_flag {
    use crate::sys;

    /// FIN: no more data from the sender.
    pub const FIN: u8 = sys::TCP_FIN;
    /// SYN: synchronize sequence numbers.
    pub const SYN: u8 = sys::TCP_SYN;
    /// RST: reset the connection.
    pub const RST: u8 = sys::TCP_RST;
    /// PSH: push buffered data to the application.
    pub const PSH: u8 = sys::TCP_PSH;
    /// ACK: the acknowledgment number is valid.
    pub const ACK: u8 = sys::TCP_ACK;
    /// URG: the urgent pointer is valid.
    pub const URG: u8 = sys::TCP_URG;
    /// ECE: ECN-Echo (RFC 3168).
    pub const ECE: u8 = sys::TCP_ECE;
    /// CWR: congestion window reduced (RFC 3168).
    pub const CWR: u8 = sys::TCP_CWR;
}

/// Fields of a TCP header to build, without its options.
pub use crate::sys::TcpFields;

/// Fields of a fragment to build: of the IPv4 header, or of the IPv6 fragment header.
#[derive(Clone, Copy, Debug, PartialEq, Eq, Hash)]
pub struct FragmentFields {
    /// IP number (protocol) of the reassembled payload.
    pub ip_number: IpNumber,
    /// Whether more fragments follow; a receiver then rejects the fragment unless its length is a multiple of 8.
    pub more_fragments: bool,
    /// Offset of the fragment in the reassembled payload, in bytes: a multiple of 8.
    pub fragment_offset: u16,
    /// Identification that all fragments of a payload share; in IPv4 at most 65535.
    pub identification: u32,
}

/// Headers to build after the IP header.
#[derive(Clone, Copy, Debug, PartialEq, Eq)]
pub(crate) enum Behind<'a> {
    Udp { source_port: u16, destination_port: u16 },
    Tcp { fields: TcpFields, options: &'a [u8] },
    IcmpEcho { is_reply: bool, id: u16, seq: u16 },
    Fragment(FragmentFields),
}

/// Memory for a frame to build: `len` bytes at an address, which need not be initialized.
pub(crate) struct Place {
    at: *mut u8,
    len: usize,
}

impl Place {
    /// # Safety
    ///
    /// The `len` bytes at the address are valid for writes as long as the place is used, and nothing else refers to
    /// them.
    pub(crate) unsafe fn new(at: *mut u8, len: usize) -> Place {
        Place { at, len }
    }
}

/// Builds a frame and returns its length; that many bytes are then initialized.
pub(crate) fn build_at(route: &Route, behind: Behind<'_>, payload: &[u8], place: Place) -> Result<usize, BuildError> {
    let route = route.to_raw();
    let (from, len, mut written) = (payload.as_ptr(), payload.len(), 0);
    // SAFETY: all pointers come from references that outlive the call, or from the place, and none overlap. An export
    // does not read from the place.
    let status = unsafe {
        match behind {
            Behind::Udp { source_port, destination_port } if route.tag_count == 0 => sys::etherparse_build_udp(
                &route.route,
                source_port,
                destination_port,
                from,
                len,
                place.at,
                place.len,
                &mut written,
            ),
            Behind::Udp { source_port, destination_port } => sys::etherparse_build_tagged_udp(
                &route,
                source_port,
                destination_port,
                from,
                len,
                place.at,
                place.len,
                &mut written,
            ),
            Behind::Tcp { fields, options: [] } if route.tag_count == 0 => {
                sys::etherparse_build_tcp(&route.route, &fields, from, len, place.at, place.len, &mut written)
            }
            Behind::Tcp { fields, options } => sys::etherparse_build_tagged_tcp(
                &route,
                &fields,
                options.as_ptr(),
                options.len(),
                from,
                len,
                place.at,
                place.len,
                &mut written,
            ),
            Behind::IcmpEcho { is_reply, id, seq } if route.tag_count == 0 => sys::etherparse_build_icmp_echo(
                &route.route,
                u8::from(is_reply),
                id,
                seq,
                from,
                len,
                place.at,
                place.len,
                &mut written,
            ),
            Behind::IcmpEcho { is_reply, id, seq } => sys::etherparse_build_tagged_icmp_echo(
                &route,
                u8::from(is_reply),
                id,
                seq,
                from,
                len,
                place.at,
                place.len,
                &mut written,
            ),
            Behind::Fragment(fields) => {
                let fields = sys::FragmentFields {
                    ip_number: fields.ip_number.0,
                    more_fragments: u8::from(fields.more_fragments),
                    fragment_offset: fields.fragment_offset,
                    identification: fields.identification,
                };
                sys::etherparse_build_fragment(&route, &fields, from, len, place.at, place.len, &mut written)
            }
        }
    };
    match status {
        sys::OK => Ok(written),
        sys::TOO_SMALL => Err(BuildError::TooSmall(written)),
        sys::TOO_LONG => Err(BuildError::TooLong),
        sys::UNKNOWN_CHOICE => Err(BuildError::UnknownChoice),
        _ => Err(BuildError::OutOfMemory),
    }
}

/// Builds a frame at the start of a buffer.
fn build(route: &Route, behind: Behind<'_>, payload: &[u8], buffer: &mut [u8]) -> Result<usize, BuildError> {
    // SAFETY: the place is the buffer, which nothing else refers to.
    let place = unsafe { Place::new(buffer.as_mut_ptr(), buffer.len()) };
    build_at(route, behind, payload, place)
}

/// Writes the frame of a UDP datagram to the start of `buffer`, and returns its length in bytes.
///
/// ```
/// use etherparse_c::{build_udp, Addresses, BuildError, Route, SlicedPacket};
///
/// let route = Route {
///     ethernet: Some(([1, 2, 3, 4, 5, 6], [7, 8, 9, 10, 11, 12])),
///     vlan_ids: [None; 2],
///     addresses: Addresses::Ipv4 { source: [192, 168, 1, 1], destination: [192, 168, 1, 2] },
///     hop_limit: 20,
/// };
/// let mut buffer = [0; 64];
/// let len = build_udp(&route, 21, 1234, b"hello", &mut buffer).unwrap();
/// let packet = SlicedPacket::from_ethernet(&buffer[..len]).unwrap();
/// assert_eq!((packet.ports(), packet.payload()), (Some((21, 1234)), &b"hello"[..]));
/// assert_eq!(build_udp(&route, 21, 1234, b"hello", &mut buffer[..46]), Err(BuildError::TooSmall(47)));
/// ```
///
/// # Errors
///
/// The reason why no frame was built; the buffer is then unchanged.
pub fn build_udp(
    route: &Route,
    source_port: u16,
    destination_port: u16,
    payload: &[u8],
    buffer: &mut [u8],
) -> Result<usize, BuildError> {
    build(route, Behind::Udp { source_port, destination_port }, payload, buffer)
}

/// Writes the frame of a TCP segment to the start of `buffer`, and returns its length in bytes. The options have at
/// most 40 bytes and are padded with zero bytes to a multiple of 4.
///
/// ```
/// use etherparse_c::{build_tcp, tcp_flag, Addresses, Route, SlicedPacket, TcpFields, TransportSlice};
///
/// let route = Route {
///     ethernet: None,
///     vlan_ids: [None; 2],
///     addresses: Addresses::Ipv6 { source: [1; 16], destination: [2; 16] },
///     hop_limit: 64,
/// };
/// let flags = tcp_flag::SYN | tcp_flag::ACK;
/// let fields = TcpFields { source_port: 80, destination_port: 4000, flags, ..Default::default() };
/// let mut buffer = [0; 64];
/// let len = build_tcp(&route, &fields, &[], &[9], &mut buffer).unwrap();
/// let packet = SlicedPacket::from_ip(&buffer[..len]).unwrap();
/// let Some(TransportSlice::Tcp(tcp)) = packet.transport() else { panic!() };
/// assert!(tcp.syn() && tcp.ack() && !tcp.fin());
/// assert_eq!((tcp.destination_port(), tcp.payload()), (4000, &[9][..]));
/// ```
///
/// # Errors
///
/// The reason why no frame was built; the buffer is then unchanged.
pub fn build_tcp(
    route: &Route,
    fields: &TcpFields,
    options: &[u8],
    payload: &[u8],
    buffer: &mut [u8],
) -> Result<usize, BuildError> {
    build(route, Behind::Tcp { fields: *fields, options }, payload, buffer)
}

/// Writes the frame of an echo request or reply, of ICMP or ICMPv6 by the IP version, to the start of `buffer`, and
/// returns its length in bytes.
///
/// ```
/// use etherparse_c::{build_icmp_echo, checksum, Addresses, Route};
///
/// let route = Route {
///     ethernet: None,
///     vlan_ids: [None; 2],
///     addresses: Addresses::Ipv4 { source: [10, 0, 0, 1], destination: [10, 0, 0, 2] },
///     hop_limit: 64,
/// };
/// let mut buffer = [0; 64];
/// let len = build_icmp_echo(&route, false, 1, 2, b"ping", &mut buffer).unwrap();
/// assert_eq!((len, buffer[20], &buffer[24..32]), (32, 8, &[0, 1, 0, 2, b'p', b'i', b'n', b'g'][..]));
/// assert_eq!(checksum(&buffer[20..len]), 0); // the checksum of bytes that include their checksum is 0
/// ```
///
/// # Errors
///
/// The reason why no frame was built; the buffer is then unchanged.
pub fn build_icmp_echo(
    route: &Route,
    is_reply: bool,
    id: u16,
    seq: u16,
    payload: &[u8],
    buffer: &mut [u8],
) -> Result<usize, BuildError> {
    build(route, Behind::IcmpEcho { is_reply, id, seq }, payload, buffer)
}

/// Writes the frame of a fragment of a longer payload to the start of `buffer`, and returns its length in bytes;
/// `payload` is the bytes at `fragment_offset`. This call needs up to [`sys::STACK_OF_FRAGMENTS`] bytes of stack,
/// calls on pools [`sys::STACK_OF_POOLS`], and all others [`sys::STACK`].
///
/// # Errors
///
/// The reason why no frame was built; the buffer is then unchanged.
pub fn build_fragment(
    route: &Route,
    fields: &FragmentFields,
    payload: &[u8],
    buffer: &mut [u8],
) -> Result<usize, BuildError> {
    build(route, Behind::Fragment(*fields), payload, buffer)
}
