use crate::link::{Ethernet2Slice, LinkExtSlice, LinkSlice, LinuxSllSlice, MacsecSlice, SingleVlanSlice};
use crate::net::{ArpPacketSlice, IpPacket, Ipv4Slice, Ipv6Slice, NetSlice};
use crate::transport::{IcmpSlice, TcpSlice, TransportSlice, UdpSlice};
use crate::views::View;
use crate::{sys, IpNumber, SlicedPacket};
use core::mem::MaybeUninit;
use core::net::IpAddr;

/// Fields of all headers of a packet, read by one call ([`SlicedPacket::fields`]).
///
/// ```
/// use etherparse_c::{Entry, LaxSlicedPacket, SlicedPacket};
///
/// let datagram = [
///     0x45, 0, 0, 28, 0, 0, 0x40, 0, 20, 17, 0xe3, 0x7d, 192, 168, 1, 1, 192, 168, 1, 2, // IPv4
///     0, 21, 4, 210, 0, 8, 0, 0, // UDP
/// ];
/// let packet = SlicedPacket::from_ip(&datagram)?;
/// let fields = packet.fields();
/// assert_eq!((fields.as_raw().ip.hop_limit, fields.as_raw().transport.udp_length), (20, 8));
/// assert_eq!((fields.net(), fields.transport()), (packet.net(), packet.transport()));
///
/// let cut = LaxSlicedPacket::from_ip(&datagram[..24])?;
/// assert_eq!((cut.ports(), cut.fields().ports()), (None, Some((21, 1234))));
/// # Ok::<(), etherparse_c::Refusal>(())
/// ```
#[derive(Clone, Copy, Debug)]
#[must_use]
pub struct PacketFields<'p, 'a> {
    packet: &'p SlicedPacket<'a>,
    fields: sys::Fields,
}

impl<'a> PacketFields<'_, 'a> {
    /// Fields as the library's numbers. The verdicts on checksums are 0: [`SlicedPacket::checksums`] returns them.
    #[must_use]
    #[inline]
    pub fn as_raw(&self) -> &sys::Fields {
        &self.fields
    }

    /// Link header.
    #[must_use]
    #[inline]
    pub fn link(&self) -> Option<LinkSlice<'a>> {
        self.packet.link_of(&self.fields)
    }

    /// Tags of link extensions from the outermost on; unused entries come last. A fourth tag is payload.
    #[must_use]
    #[inline]
    pub fn link_exts(&self) -> [Option<LinkExtSlice<'a>>; 3] {
        self.packet.link_exts_of(&self.fields)
    }

    /// Network layer: IP with its extension headers, or ARP.
    #[must_use]
    #[inline]
    pub fn net(&self) -> Option<NetSlice<'a>> {
        self.packet.net_of(&self.fields)
    }

    /// Source and destination address of IP.
    #[must_use]
    #[inline]
    pub fn ip_addresses(&self) -> Option<(IpAddr, IpAddr)> {
        self.net()?.ip_addresses()
    }

    /// Transport layer; none in a fragment.
    #[must_use]
    #[inline]
    pub fn transport(&self) -> Option<TransportSlice<'a>> {
        self.packet.transport_of(&self.fields)
    }

    /// Source and destination port of UDP or TCP, also of a truncated or invalid header (lax slicing only), if their 4
    /// bytes are present.
    #[must_use]
    #[inline]
    pub fn ports(&self) -> Option<(u16, u16)> {
        let sys::Packet { ip, transport, payload, .. } = self.packet.as_raw();
        let is_udp_or_tcp = matches!(IpNumber(ip.number), IpNumber::UDP | IpNumber::TCP) && ip.fragmented == 0;
        // without a transport header, the payload starts with the ports
        let has_ports = is_udp_or_tcp && (transport.kind != 0 || payload.len >= 4);
        has_ports.then_some((self.fields.transport.source_port, self.fields.transport.destination_port))
    }
}

impl<'a> SlicedPacket<'a> {
    /// Reads the fields of all headers in one call.
    ///
    /// In a hot loop that reads fields of more than one layer, use this: each of [`link`](Self::link),
    /// [`link_exts`](Self::link_exts), [`net`](Self::net), [`ip_addresses`](Self::ip_addresses) and
    /// [`transport`](Self::transport) reads the fields of its layer by a call of its own. [`ports`](Self::ports),
    /// [`ip`](Self::ip), [`vlan_ids`](Self::vlan_ids) and [`payload`](Self::payload) need no call.
    #[inline]
    pub fn fields(&self) -> PacketFields<'_, 'a> {
        PacketFields { packet: self, fields: *self.read(self.as_raw(), &mut MaybeUninit::uninit()) }
    }

    /// Reads the fields of the described headers, which must be headers of the packet, into `fields`; those of other
    /// headers are 0. The fewer headers are described, the faster is the call.
    #[inline]
    pub(crate) fn read<'f>(
        &self,
        described: &sys::Packet,
        fields: &'f mut MaybeUninit<sys::Fields>,
    ) -> &'f sys::Fields {
        let frame = self.frame();
        // SAFETY: all pointers point to memory that outlives the call; `fields` overlaps neither the description nor
        // the frame, whose length is passed. By its contract the call wrote each field, whatever its status.
        let (status, fields) = unsafe {
            let status = sys::etherparse_fields(described, frame.as_ptr(), frame.len(), fields.as_mut_ptr());
            (status, fields.assume_init_ref())
        };
        // a packet keeps its frame beside the description, which is private, so none of other bytes is passed
        debug_assert_eq!(status, sys::OK);
        fields
    }

    /// Returns the view of a header without its payload.
    fn view<F>(&self, offset: usize, len: usize, fields: F) -> View<'a, F> {
        let packet = self.frame();
        View { packet, slice: &packet[offset..offset + len], header_len: len, fields }
    }

    #[inline]
    pub(crate) fn link_ext_of(&self, fields: &sys::Fields, index: usize) -> Option<LinkExtSlice<'a>> {
        let part = &self.as_raw().link_exts[index];
        let view = self.view(part.offset, part.len, fields.tags[index]);
        match part.kind {
            sys::EXT_VLAN => Some(LinkExtSlice::Vlan(SingleVlanSlice(view))),
            sys::EXT_MACSEC => Some(LinkExtSlice::Macsec(MacsecSlice(view))),
            _ => None,
        }
    }

    #[inline]
    pub(crate) fn link_exts_of(&self, fields: &sys::Fields) -> [Option<LinkExtSlice<'a>>; 3] {
        [self.link_ext_of(fields, 0), self.link_ext_of(fields, 1), self.link_ext_of(fields, 2)]
    }

    /// Returns the end of the bytes after the tags: limited by the short length of a MACsec tag, or the end of the
    /// frame.
    #[inline]
    fn end_after_tags(&self, fields: &sys::Fields) -> usize {
        let mut end = self.frame().len();
        for (part, tag) in self.as_raw().link_exts.iter().zip(&fields.tags) {
            // the short length counts the bytes after the SecTAG, which has 6 bytes, or 14 with an SCI
            let tag_len = if tag.macsec_flags & sys::MACSEC_SC == 0 { 6 } else { 14 };
            let stated = part.offset + tag_len + usize::from(tag.short_len);
            if tag.short_len != 0 && (part.offset + part.len..=end).contains(&stated) {
                end = stated;
            }
        }
        end
    }

    #[inline]
    pub(crate) fn link_of(&self, fields: &sys::Fields) -> Option<LinkSlice<'a>> {
        let part = &self.as_raw().link;
        let view = self.view(part.offset, part.len, fields.link);
        match part.kind {
            sys::LINK_ETHERNET2 => Some(LinkSlice::Ethernet2(Ethernet2Slice(view))),
            sys::LINK_LINUX_SLL => Some(LinkSlice::LinuxSll(LinuxSllSlice(view))),
            _ => None,
        }
    }

    #[inline]
    pub(crate) fn net_of(&self, fields: &sys::Fields) -> Option<NetSlice<'a>> {
        let (part, ip) = (&self.as_raw().net, &self.as_raw().ip);
        // number of bytes from the header on: available ones, and those that its length field counts
        let available = self.end_after_tags(fields) - part.offset;
        let stated = match (part.kind, usize::from(fields.ip.length)) {
            (sys::NET_IPV4, length) => length,
            (sys::NET_IPV6, length) if length != 0 => ip.header_len + length,
            _ => available,
        };
        let len = if (ip.header_len..=available).contains(&stated) { stated } else { available };
        let (headers, payload) = self.frame()[part.offset..part.offset + len].split_at(part.len);
        let header = self.view(part.offset, ip.header_len, fields.ip);
        let ip = IpPacket { header, headers, payload, fragmented: ip.fragmented != 0 };
        match part.kind {
            sys::NET_ARP => Some(NetSlice::Arp(ArpPacketSlice(self.view(part.offset, part.len, fields.arp)))),
            sys::NET_IPV4 => Some(NetSlice::Ipv4(Ipv4Slice(ip))),
            sys::NET_IPV6 => Some(NetSlice::Ipv6(Ipv6Slice(ip))),
            _ => None,
        }
    }

    #[inline]
    pub(crate) fn transport_of(&self, fields: &sys::Fields) -> Option<TransportSlice<'a>> {
        let (part, payload) = (&self.as_raw().transport, &self.as_raw().payload);
        let whole = self.view(part.offset, payload.offset + payload.len - part.offset, fields.transport);
        let view = View { header_len: part.len, ..whole };
        match part.kind {
            sys::TRANSPORT_UDP => Some(TransportSlice::Udp(UdpSlice(view))),
            sys::TRANSPORT_TCP => Some(TransportSlice::Tcp(TcpSlice(view))),
            sys::TRANSPORT_ICMPV4 => Some(TransportSlice::Icmpv4(IcmpSlice(view))),
            sys::TRANSPORT_ICMPV6 => Some(TransportSlice::Icmpv6(IcmpSlice(view))),
            _ => None,
        }
    }
}
