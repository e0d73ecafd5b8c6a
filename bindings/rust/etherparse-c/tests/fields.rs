//! Tests that each field is read from its offset, and that a built frame has the given fields.

use etherparse_c::{
    tcp_flag, Addresses, ArpPacketSlice, BuildError, EtherType, FragmentFields, IpNumber, Ipv4HeaderSlice,
    LinkExtSlice, LinkSlice, MacsecPType, NetHeaders, NetSlice, PacketBuilder, PacketHeaders, Pool, Route,
    SlicedPacket, TcpSlice, TransportHeader, TransportSlice,
};
use std::collections::HashSet;

const FROM: [u8; 6] = [1, 2, 3, 4, 5, 6];
const TO: [u8; 6] = [7, 8, 9, 10, 11, 12];

fn ipv4<'a>(packet: &SlicedPacket<'a>) -> Ipv4HeaderSlice<'a> {
    match packet.net() {
        Some(NetSlice::Ipv4(ip)) => ip.header(),
        other => panic!("{other:?}"),
    }
}

fn tcp<'a>(packet: &SlicedPacket<'a>) -> TcpSlice<'a> {
    packet.transport().and_then(|transport| transport.tcp()).unwrap()
}

fn arp<'a>(packet: &SlicedPacket<'a>) -> ArpPacketSlice<'a> {
    match packet.net() {
        Some(NetSlice::Arp(arp)) => arp,
        other => panic!("{other:?}"),
    }
}

#[test]
fn fields_of_ipv4_and_tcp() {
    // each field has its own value; the reserved bits are set
    let packet: [u8; 49] = [
        0x46,
        0b1011_0110,
        0,
        49,
        0x12,
        0x34,
        0xc0,
        0,
        61,
        6,
        0x56,
        0x78,
        10,
        0,
        0,
        1,
        10,
        0,
        0,
        2,
        1,
        1,
        1,
        0, // IPv4
        0x11,
        0x22,
        0x33,
        0x44,
        1,
        2,
        3,
        4,
        5,
        6,
        7,
        8,
        0x61,
        0b1010_0101,
        9,
        10,
        11,
        12,
        13,
        14,
        2,
        4,
        5,
        6, // TCP
        99,
    ];
    let sliced = SlicedPacket::from_ip(&packet).unwrap();
    let ip = ipv4(&sliced);
    assert_eq!((ip.version(), ip.ihl(), ip.dscp(), ip.ecn(), ip.total_len()), (4, 6, 0b101101, 2, 49));
    assert_eq!((ip.identification(), ip.dont_fragment(), ip.more_fragments()), (0x1234, true, false));
    assert_eq!((ip.fragments_offset(), ip.ttl(), ip.protocol()), (0, 61, IpNumber::TCP));
    assert_eq!((ip.header_checksum(), ip.options(), ip.slice()), (0x5678, &[1, 1, 1, 0][..], &packet[..24]));
    assert_eq!((ip.source(), ip.destination()), ([10, 0, 0, 1], [10, 0, 0, 2]));
    let segment = tcp(&sliced);
    assert_eq!((segment.source_port(), segment.destination_port()), (0x1122, 0x3344));
    assert_eq!((segment.sequence_number(), segment.acknowledgment_number()), (0x0102_0304, 0x0506_0708));
    assert_eq!((segment.data_offset(), segment.ns(), segment.fin(), segment.syn()), (6, true, true, false));
    assert_eq!((segment.rst(), segment.psh(), segment.ack(), segment.urg()), (true, false, false, true));
    assert_eq!((segment.ece(), segment.cwr(), segment.window_size()), (false, true, 0x090a));
    assert_eq!((segment.checksum(), segment.urgent_pointer(), segment.options()), (0x0b0c, 0x0d0e, &[2, 4, 5, 6][..]));
    assert_eq!(
        (segment.header_slice(), segment.payload(), segment.slice()),
        (&packet[24..48], &[99][..], &packet[24..])
    );
    assert_eq!(sliced.ports(), Some((0x1122, 0x3344)));

    let headers = PacketHeaders::from_ip_slice(&packet).unwrap();
    assert_eq!(headers, PacketHeaders::of(&sliced));
    let Some(NetHeaders::Ipv4(by_value, [])) = headers.net else { panic!("{headers:?}") };
    assert_eq!((by_value.dscp, by_value.ecn, by_value.total_len), (ip.dscp(), ip.ecn(), ip.total_len()));
    assert_eq!((by_value.identification, by_value.dont_fragment), (ip.identification(), ip.dont_fragment()));
    assert_eq!((by_value.time_to_live, by_value.protocol, by_value.header_checksum), (61, IpNumber::TCP, 0x5678));
    assert_eq!(
        (by_value.source, by_value.destination, &by_value.options[..]),
        (ip.source(), ip.destination(), ip.options())
    );
    let Some(TransportHeader::Tcp(by_value)) = headers.transport else { panic!("{headers:?}") };
    assert_eq!(by_value, segment.to_header());
    assert_eq!((by_value.sequence_number, by_value.cwr, by_value.syn), (0x0102_0304, true, false));
    assert_eq!((by_value.urgent_pointer, &by_value.options[..]), (0x0d0e, &[2, 4, 5, 6][..]));
    // equal values are one element of a set
    assert_eq!(HashSet::from([headers, PacketHeaders::of(&sliced)]).len(), 1);
    assert_eq!(HashSet::from([sliced, SlicedPacket::from_ip(&packet).unwrap()]).len(), 1);
}

#[test]
fn fields_of_ipv6_and_udp() {
    let mut packet = vec![0x6a, 0xb1, 0x23, 0x45, 0, 19, 17, 61];
    packet.extend([[1; 16], [2; 16]].concat());
    packet.extend([0, 21, 4, 210, 0, 11, 0x12, 0x34, 7, 8, 9, /* after the datagram */ 0, 0, 0, 0, 0, 0, 0, 0]);
    let sliced = SlicedPacket::from_ether_type(EtherType::IPV6, &packet).unwrap();
    let Some(NetSlice::Ipv6(ip)) = sliced.net() else { panic!("{sliced:?}") };
    assert_eq!((ip.extensions(), ip.payload_ip_number(), ip.is_payload_fragmented()), (&[][..], IpNumber::UDP, false));
    assert_eq!(ip.payload(), &packet[40..]); // includes bytes that the datagram does not count
    let header = ip.header();
    assert_eq!((header.version(), header.traffic_class(), header.flow_label()), (6, 0xab, 0x12345));
    assert_eq!((header.payload_length(), header.next_header(), header.hop_limit()), (19, IpNumber::UDP, 61));
    assert_eq!((header.source(), header.destination(), header.slice()), ([1; 16], [2; 16], &packet[..40]));
    let udp = sliced.transport().and_then(|transport| transport.udp()).unwrap();
    assert_eq!((udp.source_port(), udp.destination_port(), udp.length(), udp.checksum()), (21, 1234, 11, 0x1234));
    assert_eq!((udp.payload(), udp.header_slice()), (&[7, 8, 9][..], &packet[40..48]));
    let headers = PacketHeaders::of(&sliced);
    assert_eq!(headers.net, Some(NetHeaders::Ipv6(header.to_header(), &[])));
    assert_eq!(headers.transport, Some(TransportHeader::Udp(udp.to_header())));
    assert_eq!((header.to_header().flow_label, udp.to_header().length), (0x12345, 11));
}

#[test]
fn fields_of_links_tags_and_arp() {
    let frame = [
        &TO[..],
        &FROM,
        &[0x88, 0xe5],                                                  // Ethernet II
        &[0b0111_0010, 0, 0, 0, 0, 5, 1, 2, 3, 4, 5, 6, 7, 8, 0x81, 0], // MACsec with an SCI
        &[0b1011_0000, 42, 8, 6],                                       // VLAN
        &[0, 1, 8, 0, 6, 4, 0, 2, 1, 2, 3, 4, 5, 6, 10, 0, 0, 1, 7, 8, 9, 10, 11, 12, 10, 0, 0, 2], // ARP
    ];
    let frame = frame.concat();
    let sliced = SlicedPacket::from_ethernet(&frame).unwrap();
    let Some(LinkSlice::Ethernet2(link)) = sliced.link() else { panic!("{sliced:?}") };
    assert_eq!((link.source(), link.destination(), link.ether_type()), (FROM, TO, EtherType::MACSEC));
    let [Some(LinkExtSlice::Macsec(macsec)), Some(LinkExtSlice::Vlan(vlan)), None] = sliced.link_exts() else {
        panic!("{sliced:?}")
    };
    assert_eq!((macsec.endstation_id(), macsec.scb(), macsec.an(), macsec.short_len()), (true, true, 2, 0));
    assert_eq!((macsec.packet_nr(), macsec.sci()), (5, Some(0x0102_0304_0506_0708)));
    assert_eq!(macsec.ptype(), MacsecPType::Unmodified(EtherType::VLAN_TAGGED_FRAME));
    assert_eq!((vlan.pcp(), vlan.drop_eligible_indicator(), vlan.vlan_identifier()), (5, true, 42));
    assert_eq!(vlan.ether_type(), EtherType::ARP);
    let packet = arp(&sliced);
    assert_eq!((packet.hw_addr_type(), packet.proto_addr_type(), packet.operation()), (1, EtherType::IPV4, 2));
    assert_eq!((packet.hw_addr_size(), packet.protocol_addr_size()), (6, 4));
    assert_eq!((packet.sender_hw_addr(), packet.sender_protocol_addr()), (&FROM[..], &[10, 0, 0, 1][..]));
    assert_eq!((packet.target_hw_addr(), packet.target_protocol_addr()), (&TO[..], &[10, 0, 0, 2][..]));
    assert_eq!((packet.slice(), sliced.payload()), (&frame[34..], &[][..]));
    let headers = PacketHeaders::from_ethernet_slice(&frame).unwrap();
    assert_eq!(headers.net, Some(NetHeaders::Arp(packet.to_header())));
    assert_eq!(headers.link_exts.map(|tag| tag.is_some()), [true, true, false]);

    for (first, ptype) in
        [(4, MacsecPType::Modified), (8, MacsecPType::EncryptedUnmodified), (12, MacsecPType::Encrypted)]
    {
        let tag = [first, 0, 0, 0, 0, 9, 1, 2];
        let sliced = SlicedPacket::from_ether_type(EtherType::MACSEC, &tag).unwrap();
        let [Some(LinkExtSlice::Macsec(macsec)), None, None] = sliced.link_exts() else { panic!("{sliced:?}") };
        assert_eq!((macsec.ptype(), macsec.next_ether_type(), macsec.sci()), (ptype, None, None));
        assert_eq!((macsec.slice(), sliced.payload()), (&tag[..6], &[1, 2][..]));
    }

    let cooked = [0, 4, 0, 1, 0, 6, 1, 2, 3, 4, 5, 6, 0, 0, 0x88, 0xcc, 9];
    let sliced = SlicedPacket::from_linux_sll(&cooked).unwrap();
    let Some(LinkSlice::LinuxSll(link)) = sliced.link() else { panic!("{sliced:?}") };
    assert_eq!((link.packet_type(), link.arp_hrd_type(), link.sender_address_valid_length()), (4, 1, 6));
    assert_eq!((link.sender_address(), link.protocol_type()), ([1, 2, 3, 4, 5, 6, 0, 0], 0x88cc));
    assert_eq!(sliced.link().map(|link| link.to_header()), PacketHeaders::from_linux_sll(&cooked).unwrap().link);
}

#[test]
fn ipv6_without_a_length_ends_with_what_carries_it() {
    let datagram = [&[0x60, 0, 0, 0, 0, 0, 17, 64][..], &[1; 32], &[0, 21, 4, 210, 0, 9, 0, 0], &[5, 6, 7]].concat();
    let tagged = |short_len: u8| [&[0, short_len, 0, 0, 0, 5, 0x86, 0xdd][..], &datagram].concat();
    for (entry, frame, len) in [(EtherType::IPV6, datagram.clone(), 11), (EtherType::MACSEC, tagged(0), 11)] {
        let sliced = SlicedPacket::from_ether_type(entry, &frame).unwrap();
        let Some(NetSlice::Ipv6(ip)) = sliced.net() else { panic!("{sliced:?}") };
        assert_eq!((ip.payload().len(), sliced.payload()), (len, &[5][..]));
    }
    // a short length is below 48, so only 3 bytes can follow a header of 40 bytes
    let mut none = [&tagged(2 + 40 + 3)[..8], &datagram[..40], &[5, 6, 7, 8]].concat();
    none[14] = 59; // no next header
    let sliced = SlicedPacket::from_ether_type(EtherType::MACSEC, &none).unwrap();
    let Some(NetSlice::Ipv6(ip)) = sliced.net() else { panic!("{sliced:?}") };
    assert_eq!((ip.payload(), sliced.payload()), (&[5, 6, 7][..], &[5, 6, 7][..]));
}

#[test]
fn builders_build() {
    let ethernet = PacketBuilder::ethernet2(FROM, TO);
    let mut frame = b"before".to_vec();
    let builder = ethernet.ipv4([10, 0, 0, 1], [10, 0, 0, 2], 20).tcp(80, 4000, 7, 512);
    let builder = builder.syn().ack(9).urg(3).fin().rst().psh().ece().cwr();
    builder.write(&mut frame, b"hello").unwrap();
    assert_eq!((&frame[..6], frame.len()), (&b"before"[..], 6 + builder.size(5)));
    let sliced = SlicedPacket::from_ethernet(&frame[6..]).unwrap();
    let segment = tcp(&sliced);
    assert_eq!(segment.header_slice()[13], 255);
    assert_eq!((segment.sequence_number(), segment.acknowledgment_number()), (7, 9));
    assert_eq!((segment.window_size(), segment.urgent_pointer(), segment.payload()), (512, 3, &b"hello"[..]));
    assert_eq!(ipv4(&sliced).ttl(), 20);

    // as above, by one call
    let addresses = Addresses::Ipv4 { source: [10, 0, 0, 1], destination: [10, 0, 0, 2] };
    let route = Route { ethernet: Some((FROM, TO)), vlan_ids: [None; 2], addresses, hop_limit: 20 };
    let mut buffer = [0; 100];
    let fields = etherparse_c::TcpFields {
        source_port: 80,
        destination_port: 4000,
        sequence_number: 7,
        acknowledgment_number: 9,
        window_size: 512,
        urgent_pointer: 3,
        flags: 255,
    };
    let len = etherparse_c::build_tcp(&route, &fields, &[], b"hello", &mut buffer).unwrap();
    assert_eq!(buffer[..len], frame[6..]);
    assert_eq!(tcp_flag::FIN | tcp_flag::CWR, 129);

    let mut frame = Vec::new();
    let builder = PacketBuilder::ipv6([1; 16], [2; 16], 64).icmp_echo_reply(1, 2);
    builder.write(&mut frame, b"ping").unwrap();
    assert_eq!(frame.len(), builder.size(4));
    let sliced = SlicedPacket::from_ip(&frame).unwrap();
    let Some(TransportSlice::Icmpv6(echo)) = sliced.transport() else { panic!("{sliced:?}") };
    assert_eq!(
        (echo.type_u8(), echo.code_u8(), echo.bytes5to8(), echo.payload()),
        (129, 0, [0, 1, 0, 2], &b"ping"[..])
    );
    assert_ne!(echo.checksum(), 0);

    let builder = ethernet.ipv4([0; 4], [0; 4], 1).udp(1, 2);
    let mut frame = vec![7];
    assert_eq!(builder.write(&mut frame, &vec![0; 65508]), Err(BuildError::TooLong));
    assert_eq!(frame, [7]);
}

/// Tags, options and fragments, by the exports for them.
#[test]
fn builders_build_tags_options_and_fragments() {
    let ethernet = PacketBuilder::ethernet2(FROM, TO);
    let mut frame = Vec::new();
    for (step, ids) in [(ethernet.single_vlan(42), &[42][..]), (ethernet.double_vlan(7, 4095), &[7, 4095])] {
        frame.clear();
        let builder = step.ipv4([10, 0, 0, 1], [10, 0, 0, 2], 20).udp(21, 1234);
        builder.write(&mut frame, b"hello").unwrap();
        assert_eq!(frame.len(), builder.size(5));
        let sliced = SlicedPacket::from_ethernet(&frame).unwrap();
        assert!(sliced.vlan_ids().eq(ids.iter().copied()), "{sliced:?}");
        assert_eq!((sliced.ports(), sliced.payload()), (Some((21, 1234)), &b"hello"[..]));
    }
    let wrong = ethernet.single_vlan(4096).ipv4([0; 4], [0; 4], 1).udp(1, 2);
    assert_eq!(wrong.write(&mut frame, &[]), Err(BuildError::UnknownChoice));

    frame.clear();
    let builder = PacketBuilder::ipv4([10, 0, 0, 1], [10, 0, 0, 2], 20).tcp(1, 2, 3, 4);
    assert_eq!(builder.options_raw(&[1; 41]), Err(BuildError::TooLong));
    let builder = builder.options_raw(&[2, 4, 5, 6, 1]).unwrap();
    builder.write(&mut frame, &[9]).unwrap();
    assert_eq!(frame.len(), builder.size(1));
    let sliced = SlicedPacket::from_ip(&frame).unwrap();
    assert_eq!(tcp(&sliced).options(), [2, 4, 5, 6, 1, 0, 0, 0]);
    assert_eq!(tcp(&sliced).payload(), [9]);

    // in both IP versions, reassembled from packets that are already sliced
    let payload: Vec<u8> = (0..100).collect();
    for step in [PacketBuilder::ipv4([10, 0, 0, 1], [10, 0, 0, 2], 20), PacketBuilder::ipv6([1; 16], [2; 16], 20)] {
        let mut pool = Pool::with_limit(100).unwrap();
        let mut whole = None;
        for (i, part) in payload.chunks(48).enumerate() {
            let fields = FragmentFields {
                ip_number: IpNumber(253),
                more_fragments: i < 2,
                fragment_offset: 48 * i as u16,
                identification: 7,
            };
            frame.clear();
            let builder = step.fragment(fields);
            builder.write(&mut frame, part).unwrap();
            assert_eq!(frame.len(), builder.size(part.len()));
            let sliced = SlicedPacket::from_ip(&frame).unwrap();
            let ip = sliced.ip().unwrap();
            assert_eq!((ip.more_fragments, ip.fragment_offset, ip.identification), (i < 2, 48 * i as u16, 7));
            assert!(sliced.is_ip_payload_fragmented());
            whole = pool.process_sliced_packet(&sliced, 1, 0).unwrap().map(|payload| payload.bytes.to_vec());
            if i == 0 {
                assert_eq!((pool.streams(), pool.bytes()), (1, 48));
            }
        }
        assert_eq!(whole, Some(payload.clone()));
        assert_eq!((pool.streams(), pool.bytes()), (0, 0));
        // packets without a fragment are ignored
        frame.clear();
        step.udp(1, 2).write(&mut frame, b"hello").unwrap();
        assert_eq!(pool.process_sliced_packet(&SlicedPacket::from_ip(&frame).unwrap(), 2, 0), Ok(None));
    }
}

/// A pool that is sent to another thread keeps its fragments.
#[test]
fn pools_are_handed_on() {
    let fragment = |offset: u8, more: u8, payload: &[u8]| {
        let len = 20 + payload.len() as u8;
        let mut packet = vec![0x45, 0, 0, len, 0, 7, more << 5, offset, 20, 17, 0, 0, 10, 0, 0, 1, 10, 0, 0, 2];
        packet.extend(payload);
        packet
    };
    let mut pool = Pool::with_limit(16).unwrap();
    let last = fragment(1, 0, b"xy");
    let sliced = SlicedPacket::from_ip(&last).unwrap();
    assert_eq!(pool.process_sliced_packet(&sliced, 1, 0), Ok(None));
    let whole = std::thread::spawn(move || {
        let first = fragment(0, 1, b"12345678");
        let sliced = SlicedPacket::from_ip(&first).unwrap();
        let payload = pool.process_sliced_packet(&sliced, 2, 0).unwrap().unwrap();
        payload.bytes.to_vec()
    });
    assert_eq!(whole.join().unwrap(), b"12345678xy");
}
