//! Tests the views of headers: each field over worked frames, and the fields of all headers by one call.

use etherparse_c::sys::{self, Place};
use etherparse_c::{
    Entry, EtherType, IpNumber, Ipv4HeaderSlice, LaxSlicedPacket, LinkExtSlice, LinkSlice, MacsecPType, NetSlice,
    PacketHeaders, SlicedPacket, TransportSlice,
};
use std::net::{IpAddr, Ipv4Addr, Ipv6Addr};

/// Destination and source MAC address of an Ethernet II header.
const STATIONS: [u8; 12] = [7, 8, 9, 10, 11, 12, 1, 2, 3, 4, 5, 6];

/// A UDP datagram with 2 bytes.
const UDP: [u8; 10] = [0, 21, 4, 210, 0, 10, 0x12, 0x34, 1, 2];

/// Returns an Ethernet II header with this ether type, and the bytes after it.
fn ethernet(ether_type: u16, bytes: &[u8]) -> Vec<u8> {
    [&STATIONS[..], &ether_type.to_be_bytes(), bytes].concat()
}

/// Returns an IPv4 packet with these options.
fn ipv4(protocol: u8, options: &[u8], payload: &[u8]) -> Vec<u8> {
    let len = (20 + options.len() + payload.len()) as u8;
    let first = 0x45 + options.len() as u8 / 4;
    let fixed = [first, 0xb6, 0, len, 0x12, 0x34, 0x40, 0, 61, protocol, 0x56, 0x78, 10, 0, 0, 1, 10, 0, 0, 2];
    [&fixed[..], options, payload].concat()
}

/// Returns an IPv6 packet from ::1 to ::2.
fn ipv6(next_header: u8, payload: &[u8]) -> Vec<u8> {
    let mut packet = vec![0x6a, 0xb1, 0x23, 0x45, 0, payload.len() as u8, next_header, 61];
    packet.extend([Ipv6Addr::LOCALHOST.octets(), Ipv6Addr::from(2).octets()].concat());
    packet.extend(payload);
    packet
}

/// Returns the layers by one call, which are those of the accessors, each by its own call.
fn fields_of(packet: &SlicedPacket) -> sys::Fields {
    let fields = packet.fields();
    assert_eq!((fields.link(), fields.link_exts()), (packet.link(), packet.link_exts()));
    assert_eq!((fields.net(), fields.transport()), (packet.net(), packet.transport()));
    assert_eq!(fields.ip_addresses(), packet.ip_addresses());
    assert_eq!(
        format!("{:?}", (fields.link(), fields.link_exts())),
        format!("{:?}", (packet.link(), packet.link_exts()))
    );
    assert_eq!(
        format!("{:?}", (fields.net(), fields.transport())),
        format!("{:?}", (packet.net(), packet.transport()))
    );
    *fields.as_raw()
}

#[test]
fn ethernet_and_tags() {
    let vlan = [&[0b0101_0000, 42, 0x88, 0xe5][..], &[0b0001_1101, 12, 0, 0, 1, 5], &[9; 12]].concat();
    let frame = ethernet(0x8100, &vlan);
    let packet = SlicedPacket::from_ethernet(&frame).unwrap();
    let fields = fields_of(&packet);
    let Some(LinkSlice::Ethernet2(link)) = packet.link() else { panic!("{packet:?}") };
    assert_eq!((link.destination(), link.source()), ([7, 8, 9, 10, 11, 12], [1, 2, 3, 4, 5, 6]));
    assert_eq!((link.ether_type(), link.slice()), (EtherType::VLAN_TAGGED_FRAME, &frame[..14]));
    assert_eq!((fields.link.ether_type, fields.link.packet_type, fields.link.address), (0x8100, 0, [0; 8]));
    let [Some(LinkExtSlice::Vlan(vlan)), Some(LinkExtSlice::Macsec(macsec)), None] = packet.link_exts() else {
        panic!("{packet:?}")
    };
    assert_eq!((vlan.pcp(), vlan.drop_eligible_indicator(), vlan.vlan_identifier()), (2, true, 42));
    assert_eq!((vlan.ether_type(), vlan.slice(), vlan.vlan_id()), (EtherType::MACSEC, &frame[14..18], 42));
    assert_eq!((macsec.ptype(), macsec.next_ether_type(), macsec.sci()), (MacsecPType::Encrypted, None, None));
    assert_eq!((macsec.endstation_id(), macsec.scb(), macsec.an()), (false, true, 1));
    assert_eq!((macsec.short_len(), macsec.packet_nr(), macsec.slice()), (12, 0x105, &frame[18..24]));
    let flags = sys::MACSEC_SCB | sys::MACSEC_E | sys::MACSEC_C;
    assert_eq!((fields.tags[1].macsec_flags, fields.tags[1].ether_type), (flags, 0));
    assert_eq!(fields.tags[2], sys::TagFields::default());

    // an unmodified payload, with and without an SCI
    for (first, sci) in [(0b0110_0000, Some(0x0102_0304_0506_0708)), (0b0100_0000, None)] {
        let identifier: &[u8] = if sci.is_some() { &[1, 2, 3, 4, 5, 6, 7, 8] } else { &[] };
        let tag = [&[first, 0, 0, 0, 0, 9][..], identifier, &[0x88, 0xcc, 7]].concat();
        let packet = SlicedPacket::from_ether_type(EtherType::MACSEC, &tag).unwrap();
        let fields = fields_of(&packet);
        let [Some(LinkExtSlice::Macsec(macsec)), None, None] = packet.link_exts() else { panic!("{packet:?}") };
        assert_eq!((macsec.sci(), macsec.endstation_id(), macsec.scb()), (sci, true, false));
        assert_eq!(macsec.ptype(), MacsecPType::Unmodified(EtherType(0x88cc)));
        assert_eq!((macsec.next_ether_type(), fields.link), (Some(EtherType(0x88cc)), sys::LinkFields::default()));
        assert_eq!((macsec.slice(), packet.payload()), (&tag[..tag.len() - 1], &[7][..]));
    }
}

#[test]
fn three_tags() {
    let tags = [0, 7, 0x91, 0, 0, 8, 0x81, 0, 0x20, 9, 0x81, 0, 0, 10, 0x88, 0xcc]; // the fourth is payload
    let packet = SlicedPacket::from_ether_type(EtherType::PROVIDER_BRIDGING, &tags).unwrap();
    fields_of(&packet);
    let [Some(LinkExtSlice::Vlan(outer)), Some(LinkExtSlice::Vlan(middle)), Some(LinkExtSlice::Vlan(inner))] =
        packet.link_exts()
    else {
        panic!("{packet:?}")
    };
    assert_eq!([outer, middle, inner].map(|tag| tag.vlan_identifier()), [7, 8, 9]);
    assert_eq!((middle.ether_type(), inner.pcp(), inner.slice()), (EtherType::VLAN_TAGGED_FRAME, 1, &tags[8..12]));
    let owned = PacketHeaders::of(&packet);
    assert_eq!(owned.link_exts, packet.link_exts().map(|tag| tag.map(|tag| tag.to_header())));
    assert_eq!(owned.payload, &tags[12..]);
}

#[test]
fn each_bit_of_a_tag() {
    for bit in 0..16 {
        let [first, second] = (1u16 << bit).to_be_bytes();
        let tag = [first, second, 0x88, 0xcc];
        let packet = SlicedPacket::from_ether_type(EtherType::VLAN_TAGGED_FRAME, &tag).unwrap();
        let [Some(LinkExtSlice::Vlan(vlan)), None, None] = packet.link_exts() else { panic!("{packet:?}") };
        assert_eq!(vlan.vlan_identifier(), if bit < 12 { 1 << bit } else { 0 });
        let priority = if bit > 12 { 1 << (bit - 13) } else { 0 };
        assert_eq!((vlan.drop_eligible_indicator(), vlan.pcp()), (bit == 12, priority));
        assert_eq!((vlan.to_header().vlan_id, vlan.to_header().pcp), (vlan.vlan_identifier(), vlan.pcp()));
    }
    for bit in 0..7 {
        let tag = [1 << bit, 0, 0, 0, 0, 7, 1, 2, 3, 4, 5, 6, 7, 8, 0x88, 0xcc];
        let packet = SlicedPacket::from_ether_type(EtherType::MACSEC, &tag).unwrap();
        let [Some(LinkExtSlice::Macsec(macsec)), None, None] = packet.link_exts() else { panic!("{packet:?}") };
        assert_eq!((macsec.endstation_id(), macsec.scb()), (bit == 6, bit == 4));
        assert_eq!(macsec.sci(), (bit == 5).then_some(0x0102_0304_0506_0708));
        assert_eq!((macsec.an(), macsec.packet_nr()), (if bit < 2 { 1 << bit } else { 0 }, 7));
        let ptype = match bit {
            2 => MacsecPType::Modified,
            3 => MacsecPType::EncryptedUnmodified,
            5 => MacsecPType::Unmodified(EtherType(0x88cc)),
            _ => MacsecPType::Unmodified(EtherType(0x0102)),
        };
        assert_eq!((macsec.ptype(), macsec.to_header().ptype), (ptype, ptype));
    }
}

#[test]
fn cooked_capture() {
    let cooked = [&[0, 4, 0, 1, 0, 9, 1, 2, 3, 4, 5, 6, 7, 8, 8, 0][..], &ipv4(17, &[], &UDP)].concat();
    let packet = SlicedPacket::from_linux_sll(&cooked).unwrap();
    let fields = fields_of(&packet);
    let Some(LinkSlice::LinuxSll(link)) = packet.link() else { panic!("{packet:?}") };
    assert_eq!((link.packet_type(), link.arp_hrd_type(), link.sender_address_valid_length()), (4, 1, 9));
    assert_eq!((link.sender_address(), link.protocol_type()), ([1, 2, 3, 4, 5, 6, 7, 8], 0x0800));
    assert_eq!((link.slice(), fields.link.source, fields.link.ether_type), (&cooked[..16], [0; 6], 0));
}

#[test]
fn ipv4_with_options() {
    let options = [1, 1, 1, 1, 7, 3, 4, 0];
    let frame = ethernet(0x0800, &ipv4(17, &options, &UDP));
    let packet = SlicedPacket::from_ethernet(&frame).unwrap();
    let fields = fields_of(&packet);
    let Some(NetSlice::Ipv4(ip)) = packet.net() else { panic!("{packet:?}") };
    let header = ip.header();
    assert_eq!((header.version(), header.ihl(), header.dscp(), header.ecn()), (4, 7, 0b10_1101, 2));
    assert_eq!((header.total_len(), header.identification()), (38, 0x1234));
    assert_eq!((header.ttl(), header.time_to_live()), (61, 61));
    assert_eq!((header.dont_fragment(), header.more_fragments(), header.fragments_offset()), (true, false, 0));
    assert_eq!((header.protocol(), header.header_checksum()), (IpNumber::UDP, 0x5678));
    assert_eq!((header.source(), header.destination()), ([10, 0, 0, 1], [10, 0, 0, 2]));
    assert_eq!(header.source_addr(), Ipv4Addr::new(10, 0, 0, 1));
    assert_eq!(header.destination_addr(), Ipv4Addr::new(10, 0, 0, 2));
    assert_eq!((header.options(), header.slice()), (&options[..], &frame[14..42]));
    assert_eq!((fields.ip.options, fields.ip.flow_label), (Place { offset: 34, len: 8 }, 0));
    assert_eq!((ip.extensions(), ip.payload(), ip.payload_ip_number()), (&[][..], &UDP[..], IpNumber::UDP));
    assert_eq!(&header.to_header().options[..], options);
    let addresses = (IpAddr::from([10, 0, 0, 1]), IpAddr::from([10, 0, 0, 2]));
    assert_eq!(packet.ip_addresses(), Some(addresses));

    // the protocol of the header is not that of the payload after an authentication header
    let authenticated = ipv4(51, &[], &[&[17, 1, 0, 0, 0, 0, 0, 1, 0, 0, 0, 2][..], &UDP].concat());
    let packet = SlicedPacket::from_ip(&authenticated).unwrap();
    fields_of(&packet);
    let Some(NetSlice::Ipv4(ip)) = packet.net() else { panic!("{packet:?}") };
    assert_eq!((ip.header().protocol(), ip.payload_ip_number()), (IpNumber::AUTHENTICATION_HEADER, IpNumber::UDP));
    assert_eq!((ip.extensions(), ip.payload()), (&authenticated[20..32], &UDP[..]));

    // each bit of flags and fragment offset
    for bit in 0..15 {
        let mut fragment = ipv4(17, &[], &[0; 8]);
        fragment[6..8].copy_from_slice(&(1u16 << bit).to_be_bytes());
        let packet = SlicedPacket::from_ip(&fragment).unwrap();
        fields_of(&packet);
        let Some(NetSlice::Ipv4(ip)) = packet.net() else { panic!("{packet:?}") };
        assert_eq!((ip.header().dont_fragment(), ip.header().more_fragments()), (bit == 14, bit == 13));
        assert_eq!(ip.header().fragments_offset(), if bit < 13 { 1 << bit } else { 0 });
        assert_eq!(ip.header().fragment_offset(), ip.header().fragments_offset());
        assert_eq!((ip.header().is_fragmenting_payload(), ip.is_payload_fragmented()), (bit < 14, bit < 14));
    }
}

#[test]
fn ipv6_with_a_fragment_header() {
    for (more, offset) in [(1, 0), (0, 0x1fff), (0, 0)] {
        let place = [(offset >> 5) as u8, (offset << 3) as u8 | more];
        let fragment = [&[17, 0][..], &place, &[0, 1, 2, 3], &UDP].concat();
        let packet = ipv6(44, &fragment);
        let sliced = SlicedPacket::from_ip(&packet).unwrap();
        let fields = fields_of(&sliced);
        let Some(NetSlice::Ipv6(ip)) = sliced.net() else { panic!("{sliced:?}") };
        let header = ip.header();
        assert_eq!((header.version(), header.traffic_class(), header.flow_label()), (6, 0xab, 0x12345));
        assert_eq!((header.payload_length(), header.hop_limit()), (18, 61));
        assert_eq!(header.next_header(), IpNumber::IPV6_FRAGMENTATION_HEADER);
        assert_eq!((header.source_addr(), header.destination_addr()), (Ipv6Addr::LOCALHOST, Ipv6Addr::from(2)));
        assert_eq!((header.source(), header.slice()), (Ipv6Addr::LOCALHOST.octets(), &packet[..40]));
        assert_eq!(header.destination(), Ipv6Addr::from(2).octets());
        assert_eq!((ip.extensions(), ip.payload(), ip.payload_ip_number()), (&fragment[..8], &UDP[..], IpNumber::UDP));
        let is_fragment = more == 1 || offset != 0;
        assert_eq!((ip.is_payload_fragmented(), sliced.transport().is_none()), (is_fragment, is_fragment));
        assert_eq!((fields.ip.more_fragments, fields.ip.fragment_offset), (more, 8 * offset));
        assert_eq!((fields.ip.identification, fields.ip.dscp, fields.ip.ecn), (0x0001_0203, 0b10_1010, 3));
    }
}

#[test]
fn length_fields_limit_ip_payloads() {
    for (ether_type, ip) in [(0x0800, ipv4(17, &[1; 4], &UDP)), (0x86dd, ipv6(17, &UDP))] {
        let padded = ethernet(ether_type, &[&ip[..], &[0; 7]].concat());
        let packet = SlicedPacket::from_ethernet(&padded).unwrap();
        fields_of(&packet);
        let payload = match packet.net() {
            Some(NetSlice::Ipv4(ip)) => ip.payload(),
            Some(NetSlice::Ipv6(ip)) => ip.payload(),
            other => panic!("{other:?}"),
        };
        assert_eq!((payload, packet.payload()), (&UDP[..], &UDP[8..]));
    }
}

fn ipv4_addr(bytes: &[u8]) -> Option<Ipv4Addr> {
    <[u8; 4]>::try_from(bytes).ok().map(Ipv4Addr::from)
}

#[test]
fn arp() {
    for (hardware, protocol) in [(6, 4), (8, 16), (0, 0), (1, 0)] {
        let addresses: Vec<u8> = (1..=2 * (hardware + protocol)).collect();
        let frame = ethernet(0x0806, &[&[0, 1, 8, 0, hardware, protocol, 0, 2][..], &addresses].concat());
        let packet = SlicedPacket::from_ethernet(&frame).unwrap();
        let fields = fields_of(&packet);
        let Some(NetSlice::Arp(arp)) = packet.net() else { panic!("{packet:?}") };
        assert_eq!((arp.hw_addr_type(), arp.proto_addr_type(), arp.operation()), (1, EtherType::IPV4, 2));
        assert_eq!((arp.hw_addr_size(), arp.protocol_addr_size(), arp.slice()), (hardware, protocol, &frame[14..]));
        let (hardware, protocol) = (usize::from(hardware), usize::from(protocol));
        let (sender, target) = addresses.split_at(hardware + protocol);
        assert_eq!((arp.sender_hw_addr(), arp.sender_protocol_addr()), sender.split_at(hardware));
        assert_eq!((arp.target_hw_addr(), arp.target_protocol_addr()), target.split_at(hardware));
        let ipv4_addrs =
            if protocol == 4 { [&sender[hardware..], &target[hardware..]].map(ipv4_addr) } else { [None; 2] };
        assert_eq!([arp.sender_ipv4_addr(), arp.target_ipv4_addr()], ipv4_addrs);
        assert_eq!((fields.ip, packet.ip_addresses()), (sys::IpFields::default(), None));
    }
    // addresses of 4 bytes of another protocol
    let other = [&[0, 1, 0x88, 0xcc, 0, 4, 0, 1][..], &[10, 0, 0, 1, 10, 0, 0, 2]].concat();
    let packet = SlicedPacket::from_ether_type(EtherType::ARP, &other).unwrap();
    let Some(NetSlice::Arp(arp)) = packet.net() else { panic!("{packet:?}") };
    assert_eq!((arp.target_protocol_addr(), arp.target_ipv4_addr()), (&[10, 0, 0, 2][..], None));
}

#[test]
fn udp() {
    for packet in [ipv4(17, &[], &UDP), ipv6(17, &UDP)] {
        let sliced = SlicedPacket::from_ip(&packet).unwrap();
        let fields = fields_of(&sliced);
        let Some(TransportSlice::Udp(udp)) = sliced.transport() else { panic!("{sliced:?}") };
        assert_eq!((udp.source_port(), udp.destination_port(), udp.length(), udp.checksum()), (21, 1234, 10, 0x1234));
        assert_eq!((udp.slice(), udp.header_slice(), udp.payload()), (&UDP[..], &UDP[..8], &UDP[8..]));
        assert_eq!((fields.transport.tcp_flags, fields.transport.icmp_type), (0, 0));
        assert_eq!(sliced.fields().ports(), Some((21, 1234)));
    }
}

#[test]
fn tcp_with_options_and_each_flag() {
    let fixed = [0x11, 0x22, 0x33, 0x44, 1, 2, 3, 4, 5, 6, 7, 8, 0x60, 0, 9, 10, 11, 12, 13, 14];
    let segment = [&fixed[..], &[2, 4, 5, 6], &[99]].concat();
    for bit in 0..12 {
        let [upper, lower] = (1u16 << bit).to_be_bytes();
        let mut segment = segment.clone();
        segment[12] |= upper; // NS, and three reserved bits
        segment[13] |= lower;
        let frame = ethernet(0x86dd, &ipv6(6, &segment));
        let packet = SlicedPacket::from_ethernet(&frame).unwrap();
        let fields = fields_of(&packet);
        let Some(TransportSlice::Tcp(tcp)) = packet.transport() else { panic!("{packet:?}") };
        let flags = [tcp.fin(), tcp.syn(), tcp.rst(), tcp.psh(), tcp.ack(), tcp.urg(), tcp.ece(), tcp.cwr(), tcp.ns()];
        let header = tcp.to_header();
        let owned = [header.fin, header.syn, header.rst, header.psh, header.ack, header.urg, header.ece, header.cwr];
        for (at, is_set) in flags.into_iter().enumerate() {
            assert_eq!(is_set, at == bit, "bit {bit}, flag {at}");
        }
        assert_eq!((&owned[..], header.ns), (&flags[..8], flags[8]));
        assert_eq!(fields.transport.tcp_flags, if bit < 9 { 1 << bit } else { 0 });
        assert_eq!((tcp.source_port(), tcp.destination_port()), (0x1122, 0x3344));
        assert_eq!((tcp.sequence_number(), tcp.acknowledgment_number()), (0x0102_0304, 0x0506_0708));
        assert_eq!((tcp.data_offset(), tcp.window_size(), tcp.checksum()), (6, 0x090a, 0x0b0c));
        assert_eq!((tcp.urgent_pointer(), tcp.options()), (0x0d0e, &[2, 4, 5, 6][..]));
        assert_eq!((tcp.slice(), tcp.header_slice()), (&segment[..], &segment[..24]));
        assert_eq!((tcp.payload(), &header.options[..]), (&[99][..], &[2, 4, 5, 6][..]));
        assert_eq!(fields.transport.options, Place { offset: 74, len: 4 });
    }
}

#[test]
fn icmp() {
    // destination unreachable, a timestamp request, and destination unreachable of ICMPv6
    for (packet, len) in [
        (ipv4(1, &[], &[3, 13, 1, 2, 3, 4, 5, 6, 7, 8]), 8),
        (ipv4(1, &[], &[13, 0, 1, 2, 3, 4, 5, 6, 7, 8, 9, 10, 11, 12, 13, 14, 15, 16, 17, 18]), 20),
        (ipv6(58, &[1, 4, 1, 2, 3, 4, 5, 6, 7, 8]), 8),
    ] {
        let sliced = SlicedPacket::from_ip(&packet).unwrap();
        let fields = fields_of(&sliced);
        let icmp = match sliced.transport() {
            Some(TransportSlice::Icmpv4(icmp)) if packet[0] >> 4 == 4 => icmp,
            Some(TransportSlice::Icmpv6(icmp)) if packet[0] >> 4 == 6 => icmp,
            other => panic!("{other:?}"),
        };
        let message = &packet[packet.len() - icmp.slice().len()..];
        assert_eq!((icmp.type_u8(), icmp.code_u8(), icmp.checksum()), (message[0], message[1], 0x0102));
        assert_eq!((icmp.bytes5to8(), icmp.slice()), ([3, 4, 5, 6], message));
        assert_eq!((icmp.header_slice(), icmp.payload()), message.split_at(len));
        assert_eq!((fields.transport.source_port, sliced.ports(), sliced.fields().ports()), (0, None, None));
    }
}

#[test]
fn truncated_transport_header() {
    let tcp = [&[0, 21, 4, 210][..], &[0; 8], &[0x50, 2, 0, 0, 0, 0, 0, 0]].concat();
    for (packet, start) in
        [(ipv4(6, &[], &tcp), 20), (ipv6(6, &tcp), 40), (ipv4(17, &[], &UDP), 20), (ipv6(17, &UDP), 40)]
    {
        let header_len = if packet[packet.len() - 1] == 0 { 20 } else { 8 };
        for len in start..packet.len() {
            let sliced = LaxSlicedPacket::from_ip(&packet[..len]).unwrap();
            let fields = fields_of(&sliced);
            let is_whole = start + header_len <= len;
            let ports = Some((21, 1234));
            assert_eq!(sliced.ports(), if is_whole { ports } else { None });
            assert_eq!((sliced.transport().is_some(), sliced.stop().is_some()), (is_whole, !is_whole));
            assert_eq!(sliced.fields().ports(), if start + 4 <= len { ports } else { None }, "{len} of {packet:?}");
            assert_eq!(fields.transport.sequence_number, 0);
        }
    }
    // ports 0 of a truncated header, and the ports of an invalid one, whose data offset is too small
    let mut invalid = tcp.clone();
    invalid[12] = 0x40;
    for (transport, ports) in [(&[0; 7][..], (0, 0)), (&[0; 4], (0, 0)), (&invalid, (21, 1234))] {
        for number in [6, 17] {
            let packet = ipv4(number, &[], transport);
            let sliced = LaxSlicedPacket::from_ip(&packet).unwrap();
            let is_udp = transport.len() > 8 && number == 17; // a whole header
            assert_eq!((fields_of(&sliced).transport.udp_length, sliced.transport().is_some()), (0, is_udp));
            assert_eq!(sliced.fields().ports(), Some(ports), "{packet:?}");
        }
    }
    // bytes of another protocol, and of a fragment, are no ports
    let mut fragment = ipv4(17, &[], &UDP);
    fragment[7] = 1;
    for packet in [&ipv4(253, &[], &UDP), &ipv4(1, &[], &UDP), &ipv6(58, &UDP[..7]), &fragment] {
        assert_eq!(LaxSlicedPacket::from_ip(packet).unwrap().fields().ports(), None);
    }
}

fn ipv4_header<'a>(packet: &SlicedPacket<'a>) -> Ipv4HeaderSlice<'a> {
    match packet.net() {
        Some(NetSlice::Ipv4(ip)) => ip.header(),
        other => panic!("{other:?}"),
    }
}

#[test]
fn views_are_equal_by_their_bytes() {
    let ip = ipv4(6, &[1; 4], &[&[0, 0, 0, 0][..], &[0; 8], &[0x60, 2], &[0; 6], &[2, 4, 5, 6], &[99]].concat());
    let tagged = ethernet(0x8100, &[&[0, 42, 8, 0][..], &ip].concat());
    let (alone, tagged) = (SlicedPacket::from_ip(&ip).unwrap(), SlicedPacket::from_ethernet(&tagged).unwrap());
    assert_eq!((alone.net(), alone.transport()), (tagged.net(), tagged.transport()));
    assert_eq!(alone.fields().ports(), Some((0, 0)));
    for at in [1, 20, 27, 45] {
        let mut other = ip.clone();
        other[at] ^= 1;
        let other = SlicedPacket::from_ip(&other).unwrap();
        assert_eq!((alone.net() == other.net(), alone.transport() == other.transport()), (false, at < 24));
        assert_eq!(ipv4_header(&alone) == ipv4_header(&other), at >= 24);
    }
}

#[test]
fn packets_without_headers_have_no_fields() {
    assert_eq!(fields_of(&SlicedPacket::EMPTY), sys::Fields::default());
    let mut packet = SlicedPacket::EMPTY;
    assert!(packet.slice_into(Entry::Ip, &[0x45; 19]).is_err());
    assert_eq!(fields_of(&packet), sys::Fields::default());
    let headers = PacketHeaders::of(&packet);
    assert!(headers.link.is_none() && headers.net.is_none() && headers.transport.is_none());
}

/// Returns the status and the fields of the described headers in some bytes.
fn read(description: &sys::Packet, bytes: &[u8]) -> (u32, sys::Fields) {
    let mut fields = sys::Fields { header_checksum: 9, ..Default::default() };
    // SAFETY: the pointers come from references that outlive the call, and they do not overlap.
    let status = unsafe { sys::etherparse_fields(description, bytes.as_ptr(), bytes.len(), &mut fields) };
    (status, fields)
}

/// A description of other bytes, which only a caller of the declared call can pass, is rejected, or the described
/// headers are at their places in these bytes too.
#[test]
fn descriptions_of_other_bytes() {
    let frame = ethernet(0x0800, &ipv4(17, &[1; 4], &UDP));
    let description = *SlicedPacket::from_ethernet(&frame).unwrap().as_raw();
    assert_eq!(read(&description, &frame).0, sys::OK);
    let rejected = (sys::UNKNOWN_CHOICE, sys::Fields::default());
    for len in 0..frame.len() - 2 {
        assert_eq!(read(&description, &frame[..len]), rejected, "{len} bytes");
    }
    for (at, byte) in [(14, 0x65), (14, 0x44), (14, 0x4f)] {
        let mut other = frame.clone();
        other[at] = byte; // the version or length of the IPv4 header
        assert_eq!(read(&description, &other), rejected);
    }
    for offset in [14, 1 << 20, usize::MAX - 3, usize::MAX] {
        let mut changed = description;
        changed.transport.offset = offset;
        let (status, fields) = read(&changed, &frame);
        assert!(status == sys::OK && offset == 14 || (status, fields) == rejected);
        changed.net.len = offset;
        assert_eq!(read(&changed, &frame), rejected);
    }
    for kind in [2, 3, u32::MAX] {
        let mut changed = description;
        changed.transport.kind = kind;
        assert_eq!(read(&changed, &frame), rejected);
    }
}
