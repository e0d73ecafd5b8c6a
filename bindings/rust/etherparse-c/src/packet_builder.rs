use crate::building::{build_at, Behind, Place};
use crate::{tcp_flag, Addresses, BuildError, FragmentFields, Options, Route, TcpFields};
use alloc::vec::Vec;

/// Builds a frame header by header, from the outermost to the innermost. Lengths, checksums, ether types and IP numbers
/// are filled in.
///
/// ```
/// use etherparse_c::PacketBuilder;
///
/// let builder = PacketBuilder::ethernet2([1, 2, 3, 4, 5, 6], [7, 8, 9, 10, 11, 12]) // source, destination
///     .ipv4([192, 168, 1, 1], [192, 168, 1, 2], 20) // source, destination, TTL
///     .udp(21, 1234); // source, destination
/// let payload = [1, 2, 3, 4, 5, 6, 7, 8];
/// let mut frame = Vec::new();
/// builder.write(&mut frame, &payload)?;
/// assert_eq!(frame.len(), builder.size(payload.len()));
/// # Ok::<(), etherparse_c::BuildError>(())
/// ```
#[derive(Clone, Copy, Debug)]
pub struct PacketBuilder;

impl PacketBuilder {
    /// Starts with an Ethernet II header.
    pub fn ethernet2(source: [u8; 6], destination: [u8; 6]) -> EthernetStep {
        EthernetStep { ethernet: (source, destination), vlan_ids: [None; 2] }
    }

    /// Starts with an IPv4 header, with "don't fragment" set.
    pub fn ipv4(source: [u8; 4], destination: [u8; 4], time_to_live: u8) -> IpStep {
        IpStep::new(None, Addresses::Ipv4 { source, destination }, time_to_live)
    }

    /// Starts with an IPv6 header.
    pub fn ipv6(source: [u8; 16], destination: [u8; 16], hop_limit: u8) -> IpStep {
        IpStep::new(None, Addresses::Ipv6 { source, destination }, hop_limit)
    }
}

/// A frame with an Ethernet II header, and up to two VLAN tags.
#[derive(Clone, Copy, Debug, PartialEq, Eq, Hash)]
#[must_use]
pub struct EthernetStep {
    ethernet: ([u8; 6], [u8; 6]),
    vlan_ids: [Option<u16>; 2],
}

impl EthernetStep {
    /// Adds a VLAN tag with this identifier, at most 4095.
    pub fn single_vlan(self, id: u16) -> EthernetStep {
        EthernetStep { vlan_ids: [Some(id), None], ..self }
    }

    /// Adds two VLAN tags with these identifiers, each at most 4095.
    pub fn double_vlan(self, outer: u16, inner: u16) -> EthernetStep {
        EthernetStep { vlan_ids: [Some(outer), Some(inner)], ..self }
    }

    /// Adds an IPv4 header, with "don't fragment" set.
    pub fn ipv4(self, source: [u8; 4], destination: [u8; 4], time_to_live: u8) -> IpStep {
        IpStep::new(Some(self), Addresses::Ipv4 { source, destination }, time_to_live)
    }

    /// Adds an IPv6 header.
    pub fn ipv6(self, source: [u8; 16], destination: [u8; 16], hop_limit: u8) -> IpStep {
        IpStep::new(Some(self), Addresses::Ipv6 { source, destination }, hop_limit)
    }
}

/// A frame with an IP header.
#[derive(Clone, Copy, Debug, PartialEq, Eq, Hash)]
#[must_use]
pub struct IpStep {
    route: Route,
}

impl IpStep {
    fn new(behind: Option<EthernetStep>, addresses: Addresses, hop_limit: u8) -> IpStep {
        let vlan_ids = behind.map_or([None; 2], |step| step.vlan_ids);
        IpStep { route: Route { ethernet: behind.map(|step| step.ethernet), vlan_ids, addresses, hop_limit } }
    }

    /// Adds a UDP header.
    pub fn udp(self, source_port: u16, destination_port: u16) -> UdpStep {
        UdpStep { route: self.route, source_port, destination_port }
    }

    /// Adds a TCP header.
    pub fn tcp(self, source_port: u16, destination_port: u16, sequence_number: u32, window_size: u16) -> TcpStep {
        let fields = TcpFields { source_port, destination_port, sequence_number, window_size, ..Default::default() };
        TcpStep { route: self.route, fields, options: Options::NONE }
    }

    /// Adds the header of an echo request, of ICMP, or of ICMPv6 after an IPv6 header.
    pub fn icmp_echo_request(self, id: u16, seq: u16) -> IcmpEchoStep {
        IcmpEchoStep { route: self.route, is_reply: false, id, seq }
    }

    /// Adds the header of an echo reply, of ICMP, or of ICMPv6 after an IPv6 header.
    pub fn icmp_echo_reply(self, id: u16, seq: u16) -> IcmpEchoStep {
        IcmpEchoStep { route: self.route, is_reply: true, id, seq }
    }

    /// Marks the payload as a fragment of a longer one; IPv6 gets a fragment header.
    pub fn fragment(self, fields: FragmentFields) -> FragmentStep {
        FragmentStep { route: self.route, fields }
    }
}

/// A frame with a UDP header, ready for a payload.
#[derive(Clone, Copy, Debug, PartialEq, Eq, Hash)]
#[must_use]
pub struct UdpStep {
    route: Route,
    source_port: u16,
    destination_port: u16,
}

/// A frame with a TCP header, ready for a payload.
#[derive(Clone, Copy, Debug, PartialEq, Eq, Hash)]
#[must_use]
pub struct TcpStep {
    route: Route,
    fields: TcpFields,
    options: Options,
}

/// A frame with the header of an ICMP echo message, ready for a payload.
#[derive(Clone, Copy, Debug, PartialEq, Eq, Hash)]
#[must_use]
pub struct IcmpEchoStep {
    route: Route,
    is_reply: bool,
    id: u16,
    seq: u16,
}

/// A frame with a fragment, ready for its bytes.
#[derive(Clone, Copy, Debug, PartialEq, Eq, Hash)]
#[must_use]
pub struct FragmentStep {
    route: Route,
    fields: FragmentFields,
}

impl TcpStep {
    /// Sets a flag.
    fn flag(mut self, flag: u8) -> TcpStep {
        self.fields.flags |= flag;
        self
    }

    /// Sets FIN: no more data from the sender.
    pub fn fin(self) -> TcpStep {
        self.flag(tcp_flag::FIN)
    }

    /// Sets SYN: synchronize sequence numbers.
    pub fn syn(self) -> TcpStep {
        self.flag(tcp_flag::SYN)
    }

    /// Sets RST: reset the connection.
    pub fn rst(self) -> TcpStep {
        self.flag(tcp_flag::RST)
    }

    /// Sets PSH: push buffered data to the application.
    pub fn psh(self) -> TcpStep {
        self.flag(tcp_flag::PSH)
    }

    /// Sets ACK and the acknowledgment number.
    pub fn ack(mut self, acknowledgment_number: u32) -> TcpStep {
        self.fields.acknowledgment_number = acknowledgment_number;
        self.flag(tcp_flag::ACK)
    }

    /// Sets URG and the urgent pointer.
    pub fn urg(mut self, urgent_pointer: u16) -> TcpStep {
        self.fields.urgent_pointer = urgent_pointer;
        self.flag(tcp_flag::URG)
    }

    /// Sets ECE: ECN-Echo (RFC 3168).
    pub fn ece(self) -> TcpStep {
        self.flag(tcp_flag::ECE)
    }

    /// Sets CWR: congestion window reduced (RFC 3168).
    pub fn cwr(self) -> TcpStep {
        self.flag(tcp_flag::CWR)
    }

    /// Sets the options, which are padded with zero bytes to a multiple of 4.
    ///
    /// # Errors
    ///
    /// The options have more than 40 bytes.
    pub fn options_raw(self, options: &[u8]) -> Result<TcpStep, BuildError> {
        Ok(TcpStep { options: Options::new(options).ok_or(BuildError::TooLong)?, ..self })
    }
}

/// Calls that complete a frame.
trait Ending {
    fn route(&self) -> &Route;

    /// Length of the headers between the IP header and the payload, in bytes.
    fn header_len(&self) -> usize;

    fn behind(&self) -> Behind<'_>;

    fn frame_len(&self, payload_len: usize) -> usize {
        self.route().header_len() + self.header_len() + payload_len
    }

    fn append(&self, frame: &mut Vec<u8>, payload: &[u8]) -> Result<(), BuildError> {
        frame.try_reserve(self.frame_len(payload.len())).map_err(|_| BuildError::OutOfMemory)?;
        let room = frame.spare_capacity_mut();
        // SAFETY: the place is the spare capacity after the frame's bytes, which nothing else refers to.
        let place = unsafe { Place::new(room.as_mut_ptr().cast(), room.len()) };
        let written = build_at(self.route(), self.behind(), payload, place)?;
        // SAFETY: `written` bytes of the spare capacity are initialized.
        unsafe { frame.set_len(frame.len() + written) };
        Ok(())
    }
}

impl Ending for UdpStep {
    fn route(&self) -> &Route {
        &self.route
    }

    fn header_len(&self) -> usize {
        8
    }

    fn behind(&self) -> Behind<'_> {
        Behind::Udp { source_port: self.source_port, destination_port: self.destination_port }
    }
}

impl Ending for TcpStep {
    fn route(&self) -> &Route {
        &self.route
    }

    fn header_len(&self) -> usize {
        20 + self.options.len().next_multiple_of(4)
    }

    fn behind(&self) -> Behind<'_> {
        Behind::Tcp { fields: self.fields, options: &self.options }
    }
}

impl Ending for IcmpEchoStep {
    fn route(&self) -> &Route {
        &self.route
    }

    fn header_len(&self) -> usize {
        8
    }

    fn behind(&self) -> Behind<'_> {
        Behind::IcmpEcho { is_reply: self.is_reply, id: self.id, seq: self.seq }
    }
}

impl Ending for FragmentStep {
    fn route(&self) -> &Route {
        &self.route
    }

    fn header_len(&self) -> usize {
        match self.route.addresses {
            Addresses::Ipv4 { .. } => 0,
            Addresses::Ipv6 { .. } => 8,
        }
    }

    fn behind(&self) -> Behind<'_> {
        Behind::Fragment(self.fields)
    }
}

/// Defines the calls that complete a frame as methods of a step.
macro_rules! endings {
    ($($step:ident)*) => {$(
        impl $step {
            /// Returns the length of the frame with a payload of `payload_len` bytes.
            #[must_use]
            pub fn size(&self, payload_len: usize) -> usize {
                self.frame_len(payload_len)
            }

            /// Appends the frame with this payload. Allocates if the vector has too little spare capacity.
            ///
            /// # Errors
            ///
            /// The reason why no frame was built; nothing is then appended.
            pub fn write(&self, frame: &mut Vec<u8>, payload: &[u8]) -> Result<(), BuildError> {
                self.append(frame, payload)
            }
        }
    )*};
}

endings! { UdpStep TcpStep IcmpEchoStep FragmentStep }
