//! Tests the verdicts on checksums. The packets and their checksums were made by a script, not by the library.

use etherparse_c::ChecksumVerdict::{Absent, Invalid, Unknown, Valid};
use etherparse_c::{slice_lax_many, slice_many, sys};
use etherparse_c::{ChecksumVerdict, ChecksumVerdicts, Entry, EtherType, LaxSlicedPacket, SlicedPacket};

/// A packet in hexadecimal with the verdicts on the checksums of its IPv4 header and of its transport layer.
type Row = (&'static str, Option<ChecksumVerdict>, Option<ChecksumVerdict>);

const IPV4: [Row; 17] = [
    // UDP
    ("4500001f000700004011f6c3c0000201c0000202 0fa00035000b67fd010203", Some(Valid), Some(Valid)),
    // an IPv4 header with another time to live
    ("4500001f000700003f11f6c3c0000201c0000202 0fa00035000b67fd010203", Some(Invalid), Some(Valid)),
    // UDP with another checksum
    ("4500001f000700004011f6c3c0000201c0000202 0fa00035000b67fe010203", Some(Valid), Some(Invalid)),
    // UDP without a checksum
    ("4500001c000700004011f6c6c0000201c0000202 0fa0003500080000", Some(Valid), Some(Absent)),
    // UDP with length 0, whose sum with the length of the IP payload is 65535
    ("4500001f000700004011f6c3c0000201c0000202 0fa0003500006808010203", Some(Valid), Some(Unknown)),
    // UDP with length 0, without a checksum
    ("4500001f000700004011f6c3c0000201c0000202 0fa0003500000000010203", Some(Valid), Some(Absent)),
    // UDP whose length counts 9 of the 11 bytes in the IP packet
    ("4500001f000700004011f6c3c0000201c0000202 0fa0003500096b03010203", Some(Valid), Some(Valid)),
    // TCP
    ("45000029000700004006f6c4c0000201c0000202 0fa0005000000001000000025010040016dd000001", Some(Valid), Some(Valid)),
    // ICMP
    ("4500001c000700004001f6d6c0000201c0000202 0800f7fc00010002", Some(Valid), Some(Valid)),
    // ICMPv6, for which IPv4 has no pseudo header
    ("4500001c00070000403af69dc0000201c0000202 8000fbb500010002", Some(Valid), Some(Unknown)),
    // a fragment
    ("4500001c000720004011d6c6c0000201c0000202 0fa0003500086c05", Some(Valid), Some(Unknown)),
    // another protocol
    ("4500001400070000403bf6a4c0000201c0000202", Some(Valid), None),
    // a loose source route after an option of one byte
    ("470000240007000040012a3ec0000201c000020201830704c0000209 0800f7fc00010002", Some(Valid), Some(Unknown)),
    // a strict source route
    ("460000200007000040016bcfc0000201c000020201018902 0800f7fc00010002", Some(Valid), Some(Unknown)),
    // bytes of a source route after the end of the options
    ("46000020000700004001f24bc0000201c000020200830304 0800f7fc00010002", Some(Valid), Some(Valid)),
    // bytes of a source route after an option with an invalid length
    ("4600002000070000400165cfc0000201c000020207018902 0800f7fc00010002", Some(Valid), Some(Valid)),
    // an option that is longer than the options
    ("460000200007000040016ecdc0000201c000020283050400 0800f7fc00010002", Some(Valid), Some(Valid)),
];

/// Rows with IPv6, where `S` is an address of 16 bytes, and `D` another one.
const IPV6: [Row; 11] = [
    // UDP
    ("6000000000091140SD 0fa000350009939201", None, Some(Valid)),
    // UDP with another checksum
    ("6000000000091140SD 0fa000350009939301", None, Some(Invalid)),
    // UDP without a checksum
    ("6000000000081140SD 0fa0003500080000", None, Some(Invalid)),
    // UDP with checksum 0, whose sum is 65535
    ("60000000000a1140SD 0fa00035000a00009490", None, Some(Invalid)),
    // UDP with length 0, whose sum with the length of the IP payload is 65535
    ("60000000000b1140SD 0fa0003500009097010203", None, Some(Unknown)),
    // UDP with length 0, without a checksum
    ("60000000000b1140SD 0fa0003500000000010203", None, Some(Invalid)),
    // UDP whose length counts 9 of the 11 bytes in the IP packet
    ("60000000000b1140SD 0fa0003500099392010203", None, Some(Valid)),
    // TCP
    ("6000000000140640SD 0fa00050000000010000000250100400406d0000", None, Some(Valid)),
    // ICMPv6 after destination options
    ("6000000000103c40SD 3a00010400000000 8000244500010002", None, Some(Valid)),
    // a routing header
    ("6000000000102b40SD 3a00000000000000 8000244500010002", None, Some(Unknown)),
    // a payload length of 0
    ("6000000000003a40SD 8000244500010002", None, Some(Unknown)),
];

/// Packets that strict slicing rejects, with the verdicts of lax slicing.
const TRUNCATED: [Row; 5] = [
    // the last byte of the payload is missing
    ("4500001f000700004011f6c3c0000201c0000202 0fa00035000b67fd0102", Some(Valid), Some(Unknown)),
    // the last byte of the UDP header is missing
    ("4500001f000700004011f6c3c0000201c0000202 0fa00035000b67", Some(Valid), None),
    // the total length is 0
    ("45000000000700004011f6e2c0000201c0000202 0fa00035000b67fd010203", Some(Valid), Some(Unknown)),
    // the UDP length exceeds the payload of IPv4
    ("4500001f000700004011f6c3c0000201c0000202 0fa00035000c67fd010203", Some(Valid), Some(Unknown)),
    // the last byte of the payload of IPv6 is missing
    ("60000000000b1140SD 0fa00035000b908c0102", None, Some(Unknown)),
];

/// Returns the bytes of a row.
fn bytes(hexadecimal: &str) -> Vec<u8> {
    let text = hexadecimal.replace('S', "20010db8000000000000000000000001").replace(' ', "");
    let text = text.replace('D', "20010db8000000000000000000000002");
    (0..text.len()).step_by(2).map(|at| u8::from_str_radix(&text[at..at + 2], 16).unwrap()).collect()
}

/// Returns frames with an IP packet, each with its first header: alone, after Ethernet, a tag and a cooked header.
fn frames(packet: &[u8]) -> [(Entry, Vec<u8>); 5] {
    let ether_type = if packet[0] >> 4 == 4 { EtherType::IPV4 } else { EtherType::IPV6 };
    let after = |bytes: &[u8]| [bytes, &ether_type.0.to_be_bytes(), packet].concat();
    [
        (Entry::Ip, packet.to_vec()),
        (Entry::EtherType(ether_type), packet.to_vec()),
        (Entry::Ethernet, after(&[1; 12])),
        (Entry::EtherType(EtherType::VLAN_TAGGED_FRAME), after(&[0, 42])),
        (Entry::LinuxSll, after(&[0, 0, 0, 1, 0, 6, 1, 2, 3, 4, 5, 6, 0, 0])),
    ]
}

#[test]
fn verdicts_of_each_row() {
    for (text, ipv4_header, transport) in IPV4.into_iter().chain(IPV6) {
        let verdicts = ChecksumVerdicts { ipv4_header, transport };
        for (entry, frame) in frames(&bytes(text)) {
            let strict = SlicedPacket::from_entry(entry, &frame).unwrap();
            assert_eq!(strict.checksums(), verdicts, "{text} after {entry:?}");
            let lax = LaxSlicedPacket::from_entry(entry, &frame).unwrap();
            assert_eq!(lax.checksums(), verdicts, "{text} after {entry:?}");
        }
    }
}

#[test]
fn verdicts_of_truncated_packets() {
    for (text, ipv4_header, transport) in TRUNCATED {
        let verdicts = ChecksumVerdicts { ipv4_header, transport };
        for (entry, frame) in frames(&bytes(text)) {
            let lax = LaxSlicedPacket::from_entry(entry, &frame).unwrap();
            assert_eq!(lax.checksums(), verdicts, "{text} after {entry:?}");
        }
    }
}

#[test]
fn verdicts_of_many_packets() {
    let rows: Vec<_> = IPV4.into_iter().chain(IPV6).chain(TRUNCATED).collect();
    let (mut all, mut ends) = (Vec::new(), Vec::new());
    for (text, ..) in &rows {
        all.extend(bytes(text));
        ends.push(all.len());
    }
    let strict: Vec<_> = slice_many(Entry::Ip, &all, &ends).unwrap().collect();
    let lax: Vec<_> = slice_lax_many(Entry::Ip, &all, &ends).unwrap().collect();
    for (at, (text, ipv4_header, transport)) in rows.into_iter().enumerate() {
        let verdicts = ChecksumVerdicts { ipv4_header, transport };
        assert_eq!(lax[at].unwrap().checksums(), verdicts, "{text}");
        assert!(strict[at].map_or(true, |packet| packet.checksums() == verdicts), "{text}");
    }
}

/// A changed bit in the bytes that a checksum covers makes it invalid, and no other.
#[test]
fn a_changed_bit_is_found() {
    let packet = bytes(IPV4[0].0);
    let is = |verdict: bool| Some(if verdict { Valid } else { Invalid });
    // the time to live and the addresses, and in UDP all bytes but the length; the pseudo header has the addresses too
    for at in (8..9).chain(12..24).chain(26..packet.len()) {
        for bit in 0..8 {
            let mut changed = packet.clone();
            changed[at] ^= 1 << bit;
            let verdicts = SlicedPacket::from_ip(&changed).unwrap().checksums();
            assert_eq!(verdicts.ipv4_header, is(at >= 20), "bit {bit} of byte {at}");
            assert_eq!(verdicts.transport, is(at == 8), "bit {bit} of byte {at}");
        }
    }
}

#[test]
fn packets_without_checksums() {
    let none = ChecksumVerdicts { ipv4_header: None, transport: None };
    assert_eq!(SlicedPacket::EMPTY.checksums(), none);
    // ARP, a frame without a network layer, and an IPv6 header that is truncated
    let arp = [&[0, 1, 8, 0, 6, 4, 0, 1][..], &[0; 20]].concat();
    for (ether_type, payload) in [(0x0806u16, &arp[..]), (0x88cc, &[7; 40]), (0x86dd, &[0x60; 39])] {
        let frame = [&[1; 12][..], &ether_type.to_be_bytes(), payload].concat();
        assert_eq!(LaxSlicedPacket::from_ethernet(&frame).unwrap().checksums(), none, "{ether_type:#x}");
    }
    // a rejected frame has no layers, although lax slicing finds some
    for (text, ..) in TRUNCATED {
        let (frame, mut packet) = (bytes(text), SlicedPacket::EMPTY);
        let is_rejected = packet.slice_into(Entry::Ip, &frame).is_err();
        assert!(!is_rejected || packet.checksums() == none, "{text}");
    }
}

/// Returns the status of the declared call, and the fields after it.
fn verified(entry: u32, bytes: &[u8], mut fields: sys::Fields) -> (u32, sys::Fields) {
    // SAFETY: the pointers come from references that outlive the call, and they do not overlap.
    let status = unsafe { sys::etherparse_checksums(entry, 0, bytes.as_ptr(), bytes.len(), &mut fields) };
    (status, fields)
}

/// The call sets the verdicts, and nothing else, whatever its status.
#[test]
fn statuses_of_the_call() {
    let packet = bytes(IPV4[3].0);
    let mut fields = *SlicedPacket::from_ip(&packet).unwrap().fields().as_raw();
    assert_eq!((fields.header_checksum, fields.transport_checksum), (sys::CHECKSUM_NONE, sys::CHECKSUM_NONE));
    let with = |header_checksum, transport_checksum| sys::Fields { header_checksum, transport_checksum, ..fields };
    fields.header_checksum = 9;
    let all = with(sys::CHECKSUM_VALID, sys::CHECKSUM_ABSENT);
    assert_eq!(verified(sys::ENTRY_IP, &packet, fields), (sys::OK, all));
    let none = with(sys::CHECKSUM_NONE, sys::CHECKSUM_NONE);
    assert_eq!(verified(sys::ENTRY_IP, &packet[1..], all), (sys::REFUSED, none));
    assert_eq!(verified(sys::ENTRY_IP, &[], all), (sys::REFUSED, none));
    assert_eq!(verified(4, &packet, all), (sys::UNKNOWN_CHOICE, none));
}
