use crate::link::{LinkExtSlice, LinkSlice};
use crate::numbered::numbered;
use crate::{sys, Entry, EtherType, IpNumber, NetSlice, Refusal, TransportSlice};
use core::fmt;
use core::mem::MaybeUninit;
use core::net::IpAddr;

numbered! {
    /// Length field that limits some bytes.
    pub enum LenSource {
        /// None: the length of the slice that was passed.
        Slice = END_SLICE,
        /// Short length (SL) of a MACsec tag.
        MacsecShortLength = END_MACSEC,
        /// Total length of an IPv4 header.
        Ipv4HeaderTotalLen = END_IPV4,
        /// Payload length of an IPv6 header.
        Ipv6HeaderPayloadLen = END_IPV6,
        /// Length of a UDP header.
        UdpHeaderLen = END_UDP,
        /// Address lengths of an ARP packet.
        ArpAddrLengths = END_ARP,
    }
}

/// Fields of an IP header and its extension headers.
#[derive(Clone, Copy, Debug, PartialEq, Eq, Hash)]
#[non_exhaustive]
pub struct Ip {
    /// IP version: 4 or 6.
    pub version: u8,
    /// IP number (protocol) of the payload after the extension headers.
    pub number: IpNumber,
    /// Whether the payload is a fragment of a longer one.
    pub fragmented: bool,
    /// Whether "more fragments" is set.
    pub more_fragments: bool,
    /// Offset of the fragment in the reassembled payload, in bytes.
    pub fragment_offset: u16,
    /// Identification that all fragments of a payload share; 0 in IPv6 without a fragment header.
    pub identification: u32,
    /// Length of the IP header without its extension headers, in bytes.
    pub header_len: usize,
}

/// A frame sliced into its layers: the library's description, and the frame. The accessors of layers return slices of
/// the frame with their fields, which the library reads.
///
/// ```
/// use etherparse_c::{NetSlice, SlicedPacket, TransportSlice};
///
/// // Ethernet II, a VLAN tag, IPv4, UDP from port 21 to 1234, and 2 bytes
/// let frame = [
///     7, 8, 9, 10, 11, 12, 1, 2, 3, 4, 5, 6, 0x81, 0, // Ethernet II
///     0, 42, 8, 0, // VLAN
///     0x45, 0, 0, 30, 0, 0, 0x40, 0, 20, 17, 0xe3, 0x7b, 192, 168, 1, 1, 192, 168, 1, 2, // IPv4
///     0, 21, 4, 210, 0, 10, 0, 0, // UDP
///     1, 2,
/// ];
/// let packet = SlicedPacket::from_ethernet(&frame)?;
/// assert!(packet.vlan_ids().eq([42]));
/// let Some(NetSlice::Ipv4(ip)) = packet.net() else { panic!() };
/// assert_eq!((ip.header().ttl(), ip.header().source()), (20, [192, 168, 1, 1]));
/// let Some(TransportSlice::Udp(udp)) = packet.transport() else { panic!() };
/// assert_eq!((udp.source_port(), udp.destination_port(), udp.payload()), (21, 1234, &[1, 2][..]));
/// # Ok::<(), etherparse_c::Refusal>(())
/// ```
#[derive(Clone, Copy)]
#[must_use]
pub struct SlicedPacket<'a> {
    /// Initialized in every packet that is returned.
    description: MaybeUninit<sys::Packet>,
    frame: &'a [u8],
    entry: Entry,
}

impl<'a> SlicedPacket<'a> {
    /// Slices a frame that starts with an Ethernet II header.
    ///
    /// # Errors
    ///
    /// The error, if the bytes are not a frame.
    #[inline]
    pub fn from_ethernet(frame: &'a [u8]) -> Result<SlicedPacket<'a>, Refusal> {
        SlicedPacket::from_entry(Entry::Ethernet, frame)
    }

    /// Slices a frame that starts with a Linux cooked capture header (SLL v1).
    ///
    /// # Errors
    ///
    /// The error, if the bytes are not a frame.
    #[inline]
    pub fn from_linux_sll(frame: &'a [u8]) -> Result<SlicedPacket<'a>, Refusal> {
        SlicedPacket::from_entry(Entry::LinuxSll, frame)
    }

    /// Slices the payload of an ether type, without a link header.
    ///
    /// # Errors
    ///
    /// The error, if the bytes are not a frame.
    #[inline]
    pub fn from_ether_type(ether_type: EtherType, bytes: &'a [u8]) -> Result<SlicedPacket<'a>, Refusal> {
        SlicedPacket::from_entry(Entry::EtherType(ether_type), bytes)
    }

    /// Slices an IP packet of either version.
    ///
    /// # Errors
    ///
    /// The error, if the bytes are not a frame.
    #[inline]
    pub fn from_ip(bytes: &'a [u8]) -> Result<SlicedPacket<'a>, Refusal> {
        SlicedPacket::from_entry(Entry::Ip, bytes)
    }

    /// Slices a frame whose first header is `entry`.
    ///
    /// ```
    /// use etherparse_c::{Entry, EtherType, SlicedPacket};
    ///
    /// let datagram = [
    ///     0x45, 0, 0, 28, 0, 0, 0x40, 0, 20, 17, 0xe3, 0x7d, 192, 168, 1, 1, 192, 168, 1, 2, // IPv4
    ///     0, 21, 4, 210, 0, 8, 0, 0, // UDP
    /// ];
    /// for entry in [Entry::Ip, Entry::EtherType(EtherType::IPV4)] {
    ///     let packet = SlicedPacket::from_entry(entry, &datagram)?;
    ///     assert_eq!(packet.net().map(|net| net.header_slice()), Some(&datagram[..20]));
    ///     assert!(packet.payload().is_empty());
    /// }
    /// # Ok::<(), etherparse_c::Refusal>(())
    /// ```
    ///
    /// # Errors
    ///
    /// The error, if the bytes are not a frame.
    #[inline]
    pub fn from_entry(entry: Entry, frame: &'a [u8]) -> Result<SlicedPacket<'a>, Refusal> {
        let mut packet = SlicedPacket { description: MaybeUninit::uninit(), frame, entry };
        packet.fill_in_by(sys::etherparse_slice)?;
        Ok(packet)
    }

    /// Slices a frame into an existing packet, whose previous content is replaced; if the bytes are not a frame, the
    /// packet has no layers. In a hot loop that passes packets on, this saves a copy of 240 bytes for each frame.
    ///
    /// ```
    /// use etherparse_c::{Entry, SlicedPacket};
    ///
    /// let datagram = [
    ///     0x45, 0, 0, 29, 0, 0, 0x40, 0, 20, 17, 0xe3, 0x7c, 192, 168, 1, 1, 192, 168, 1, 2, // IPv4
    ///     0, 21, 4, 210, 0, 9, 0, 0, 7, // UDP
    /// ];
    /// let mut packet = SlicedPacket::EMPTY;
    /// packet.slice_into(Entry::Ip, &datagram)?;
    /// assert_eq!((packet.ports(), packet.payload()), (Some((21, 1234)), &[7][..]));
    /// assert!(packet.slice_into(Entry::Ip, &datagram[..19]).is_err());
    /// assert!(packet.net().is_none() && packet.payload().is_empty());
    /// # Ok::<(), etherparse_c::Refusal>(())
    /// ```
    ///
    /// # Errors
    ///
    /// The error, if the bytes are not a frame.
    #[inline]
    pub fn slice_into(&mut self, entry: Entry, frame: &'a [u8]) -> Result<(), Refusal> {
        (self.frame, self.entry) = (frame, entry);
        self.fill_in_by(sys::etherparse_slice)
    }

    /// Packet without layers, of no bytes.
    pub const EMPTY: SlicedPacket<'static> =
        SlicedPacket { description: MaybeUninit::zeroed(), frame: &[], entry: Entry::Ethernet };

    /// Returns the packet with this description of the frame, whose first header is `entry`.
    #[inline]
    pub(crate) fn described(description: sys::Packet, frame: &'a [u8], entry: Entry) -> SlicedPacket<'a> {
        SlicedPacket { description: MaybeUninit::new(description), frame, entry }
    }

    /// Slices a packet laxly, whose first header is `entry`.
    #[inline]
    pub(crate) fn lax(entry: Entry, frame: &'a [u8]) -> Result<SlicedPacket<'a>, Refusal> {
        let mut packet = SlicedPacket { description: MaybeUninit::uninit(), frame, entry };
        packet.fill_in_by(sys::etherparse_slice_lax)?;
        Ok(packet)
    }

    /// Fills the description by one of the slicing calls.
    #[inline]
    fn fill_in_by(
        &mut self,
        slice: unsafe extern "C" fn(u32, u16, *const u8, usize, *mut sys::Packet) -> u32,
    ) -> Result<(), Refusal> {
        let (entry, ether_type) = self.entry.numbers();
        let frame = self.frame;
        // SAFETY: both pointers point to memory that outlives the call, and they do not overlap.
        let status = unsafe { slice(entry, ether_type, frame.as_ptr(), frame.len(), self.description.as_mut_ptr()) };
        // By its contract the call wrote each field, whatever its status; the previous content is not read.
        match status {
            sys::OK => Ok(()),
            _ => Err(Refusal::from(self.as_raw().refusal)), // an entry is always known here
        }
    }

    /// Description of the frame, as the library's numbers.
    #[must_use]
    #[inline]
    pub fn as_raw(&self) -> &sys::Packet {
        // SAFETY: the call that filled it wrote each field.
        unsafe { self.description.assume_init_ref() }
    }

    /// Identifiers of the VLAN tags, from the outermost on.
    ///
    /// ```
    /// use etherparse_c::{EtherType, SlicedPacket};
    ///
    /// let tagged = [0, 7, 0x81, 0, 0xe0, 42, 0x88, 0xcc]; // after the ether type of a service tag
    /// let packet = SlicedPacket::from_ether_type(EtherType::PROVIDER_BRIDGING, &tagged)?;
    /// assert!(packet.vlan_ids().eq([7, 42]));
    /// assert_eq!(packet.link_exts()[1].map(|tag| tag.header_slice()), Some(&tagged[4..]));
    /// # Ok::<(), etherparse_c::Refusal>(())
    /// ```
    #[inline]
    pub fn vlan_ids(&self) -> impl Iterator<Item = u16> + 'a {
        let tags = self.as_raw().link_exts.into_iter();
        tags.filter(|tag| tag.kind == sys::EXT_VLAN).map(|tag| tag.vlan_id)
    }

    /// Bytes of the frame.
    #[must_use]
    #[inline]
    pub fn frame(&self) -> &'a [u8] {
        self.frame
    }

    /// First header of the frame.
    #[must_use]
    #[inline]
    pub fn entry(&self) -> Entry {
        self.entry
    }

    /// Link header.
    #[must_use]
    #[inline]
    pub fn link(&self) -> Option<LinkSlice<'a>> {
        let link = self.as_raw().link;
        if link.kind == 0 {
            return None;
        }
        let described = sys::Packet { link, ..Default::default() };
        self.link_of(self.read(&described, &mut MaybeUninit::uninit()))
    }

    /// Tags of link extensions from the outermost on; unused entries come last. A fourth tag is payload.
    #[must_use]
    #[inline]
    pub fn link_exts(&self) -> [Option<LinkExtSlice<'a>>; 3] {
        let link_exts = self.as_raw().link_exts;
        if link_exts[0].kind == 0 {
            return [None; 3];
        }
        let described = sys::Packet { link_exts, ..Default::default() };
        self.link_exts_of(self.read(&described, &mut MaybeUninit::uninit()))
    }

    /// Network layer: IP with its extension headers, or ARP.
    #[must_use]
    #[inline]
    pub fn net(&self) -> Option<NetSlice<'a>> {
        let sys::Packet { link_exts, net, ip, .. } = *self.as_raw();
        if net.kind == 0 {
            return None;
        }
        let described = sys::Packet { link_exts, net, ip, ..Default::default() };
        self.net_of(self.read(&described, &mut MaybeUninit::uninit()))
    }

    /// Fields of the IP header and its extension headers.
    #[must_use]
    #[inline]
    pub fn ip(&self) -> Option<Ip> {
        let ip = &self.as_raw().ip;
        (ip.version != 0).then_some(Ip {
            version: ip.version,
            number: IpNumber(ip.number),
            fragmented: ip.fragmented != 0,
            more_fragments: ip.more_fragments != 0,
            fragment_offset: ip.fragment_offset,
            identification: ip.identification,
            header_len: ip.header_len,
        })
    }

    /// Source and destination address of IP.
    ///
    /// ```
    /// use etherparse_c::SlicedPacket;
    /// use std::net::{IpAddr, Ipv4Addr};
    ///
    /// let fragment = [0x45, 0, 0, 21, 0, 7, 0, 1, 64, 17, 0, 0, 10, 0, 0, 1, 10, 0, 0, 2, 9];
    /// let packet = SlicedPacket::from_ip(&fragment)?;
    /// let address = |last| IpAddr::from(Ipv4Addr::new(10, 0, 0, last));
    /// assert_eq!(packet.ip_addresses(), Some((address(1), address(2))));
    /// assert!(packet.is_ip_payload_fragmented() && packet.transport().is_none());
    /// # Ok::<(), etherparse_c::Refusal>(())
    /// ```
    #[must_use]
    #[inline]
    pub fn ip_addresses(&self) -> Option<(IpAddr, IpAddr)> {
        self.net()?.ip_addresses()
    }

    /// Whether the payload is a fragment of a longer one; false if the packet is not IP.
    #[must_use]
    #[inline]
    pub fn is_ip_payload_fragmented(&self) -> bool {
        self.as_raw().ip.fragmented != 0
    }

    /// Transport layer; none in a fragment.
    #[must_use]
    #[inline]
    pub fn transport(&self) -> Option<TransportSlice<'a>> {
        let transport = self.as_raw().transport;
        if transport.kind == 0 {
            return None;
        }
        let described = sys::Packet { transport, ..Default::default() };
        self.transport_of(self.read(&described, &mut MaybeUninit::uninit()))
    }

    /// Source and destination port of UDP or TCP.
    #[must_use]
    #[inline]
    pub fn ports(&self) -> Option<(u16, u16)> {
        let packet = self.as_raw();
        matches!(packet.transport.kind, sys::TRANSPORT_TCP | sys::TRANSPORT_UDP)
            .then_some((packet.source_port, packet.destination_port))
    }

    /// Payload of the last layer; empty after an ARP packet.
    #[must_use]
    #[inline]
    pub fn payload(&self) -> &'a [u8] {
        &self.frame[self.payload_offset()..self.payload_offset() + self.as_raw().payload.len]
    }

    /// Offset of the payload in the frame, in bytes.
    #[must_use]
    #[inline]
    pub fn payload_offset(&self) -> usize {
        self.as_raw().payload.offset
    }

    /// Length field that limits the payload.
    #[must_use]
    #[inline]
    pub fn payload_len_source(&self) -> LenSource {
        LenSource::of(self.as_raw().payload.len_source).unwrap_or(LenSource::Slice)
    }
}

impl PartialEq for SlicedPacket<'_> {
    /// Compares the bytes and the first headers of the frames.
    fn eq(&self, other: &Self) -> bool {
        self.entry == other.entry && self.frame == other.frame
    }
}

impl Eq for SlicedPacket<'_> {}

impl core::hash::Hash for SlicedPacket<'_> {
    fn hash<H: core::hash::Hasher>(&self, state: &mut H) {
        (self.entry, self.frame).hash(state);
    }
}

impl fmt::Debug for SlicedPacket<'_> {
    /// Formats the layers.
    fn fmt(&self, f: &mut fmt::Formatter<'_>) -> fmt::Result {
        let fields = self.fields();
        let mut shown = f.debug_struct("SlicedPacket");
        shown.field("link", &fields.link()).field("link_exts", &fields.link_exts()).field("net", &fields.net());
        shown.field("transport", &fields.transport()).field("payload", &self.payload()).finish()
    }
}
