//! Lax slicing of packets that are truncated, or whose length fields do not match.

use etherparse_c::err::Layer;
use etherparse_c::{Entry, EtherType, LaxSlicedPacket, LenSource, NetSlice, PacketHeaders, SlicedPacket};

/// Ethernet II, a MACsec tag whose short length counts all bytes, IPv4 with an authentication header, UDP and 2 bytes.
const MACSEC: [u8; 64] = [
    7, 8, 9, 10, 11, 12, 1, 2, 3, 4, 5, 6, 0x88, 0xe5, 0, 44, 0, 0, 0, 9, 8, 0, // Ethernet II, MACsec
    0x45, 0, 0, 42, 0, 0, 0, 0, 64, 51, 0, 0, 10, 0, 0, 1, 10, 0, 0, 2, // IPv4
    17, 1, 0, 0, 0, 0, 0, 1, 0, 0, 0, 2, // authentication header
    0, 21, 4, 210, 0, 10, 0, 0, 1, 2, // UDP
];

/// Ethernet II, a VLAN tag, IPv6 with a fragment header, UDP and 2 bytes.
const VLAN: [u8; 76] = [
    7, 8, 9, 10, 11, 12, 1, 2, 3, 4, 5, 6, 0x81, 0, 0, 42, 0x86, 0xdd, 0x60, 0, 0, 0, 0, 18, 44, 64, 0, 0, 0, 0, 0, 0,
    0, 0, 0, 0, 0, 0, 0, 0, 0, 1, 0, 0, 0, 0, 0, 0, 0, 0, 0, 0, 0, 0, 0, 0, 0, 2, 17, 0, 0, 0, 0, 0, 0, 9, 0, 21, 4,
    210, 0, 10, 0, 0, 1, 2,
];

/// Asserts that the layers follow one another, and that no accessor panics.
fn look_at(bytes: &[u8]) {
    let Ok(packet) = LaxSlicedPacket::from_ethernet(bytes) else {
        assert!(bytes.len() < 14);
        return;
    };
    let mut parts = Vec::new();
    parts.extend(packet.link().map(|link| link.header_slice()));
    parts.extend(packet.link_exts().into_iter().flatten().map(|tag| tag.header_slice()));
    parts.extend(packet.net().map(|net| net.header_slice()));
    let inside = match packet.net() {
        Some(NetSlice::Ipv4(ip)) => Some(ip.payload()),
        Some(NetSlice::Ipv6(ip)) => Some(ip.payload()),
        _ => None,
    };
    let begins = parts.concat().len();
    assert!(inside.map_or(true, |inside| bytes[begins..].starts_with(inside)));
    parts.extend(packet.transport().map(|transport| transport.header_slice()));
    assert_eq!(packet.payload_offset(), parts.concat().len());
    parts.push(packet.payload());
    assert!(bytes.starts_with(&parts.concat()));
    assert!(inside.map_or(true, |inside| begins + inside.len() >= parts.concat().len()));
    let _ = (PacketHeaders::of(&packet), packet.ip(), packet.ip_addresses(), packet.ports(), format!("{packet:?}"));
    match SlicedPacket::from_ethernet(bytes) {
        Ok(frame) => {
            assert!(packet.stop().is_none() && !packet.is_incomplete());
            assert_eq!(
                (packet.net(), packet.transport(), packet.payload()),
                (frame.net(), frame.transport(), frame.payload())
            );
            assert_eq!(packet.payload_len_source(), frame.payload_len_source());
        }
        Err(_) => assert!(packet.stop().map_or(true, |refusal| !refusal.to_string().is_empty())),
    }
}

#[test]
fn each_cut_and_each_change_is_read() {
    for frame in [&MACSEC[..], &VLAN[..]] {
        for len in 0..=frame.len() {
            look_at(&frame[..len]);
            for at in 12..len {
                for value in [0, 1, 6, 19, 44, 51, 63, 255] {
                    let mut changed = frame[..len].to_vec();
                    changed[at] = value;
                    look_at(&changed);
                }
            }
        }
    }
}

#[test]
fn missing_bytes_are_reported() {
    let packet = LaxSlicedPacket::from_entry(Entry::Ethernet, &VLAN[..72]).unwrap();
    let stop = packet.stop().and_then(|refusal| refusal.len_error()).unwrap();
    assert_eq!((stop.layer, stop.required_len, stop.len, stop.layer_start_offset), (Layer::UdpHeader, 8, 6, 66));
    assert!(packet.is_incomplete() && packet.vlan_ids().eq([42]));
    assert_eq!(packet.payload_len_source(), LenSource::Slice);
    assert!(packet.ip().is_some_and(|ip| ip.identification == 9));

    // the short length counts 2 missing bytes, which are part of the IPv4 packet only if its total length limits
    // nothing
    let mut counted = MACSEC;
    (counted[15], counted[59]) = (46, 0);
    let limit = |bytes: &[u8; 64]| {
        let packet = LaxSlicedPacket::from_ethernet(bytes).unwrap();
        assert!(packet.stop().is_none() && packet.payload() == [1, 2]);
        (packet.payload_len_source(), packet.is_incomplete())
    };
    assert_eq!(limit(&MACSEC), (LenSource::UdpHeaderLen, false));
    assert_eq!(limit(&counted), (LenSource::Ipv4HeaderTotalLen, false));
    counted[25] = 0;
    assert_eq!(limit(&counted), (LenSource::Slice, true));

    assert!(LaxSlicedPacket::from_linux_sll(&[]).is_err() && LaxSlicedPacket::from_ip(&[0x50]).is_err());
    let refused = LaxSlicedPacket::from_ether_type(EtherType::ARP, &[0; 3]).unwrap();
    assert!(refused.stop().is_some() && refused.payload().len() == 3);
}
