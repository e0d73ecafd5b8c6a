//! Tests that the declarations here, in the C header and in the Rattle crate have equal layouts and calls (numbers.rs
//! compares the numbers), and tests the results of the calls.

use etherparse_c::sys::{
    self, ArpFields, DefragLimits, DefragStatistics, EvictedStream, Fields, FilterError, FragmentFields, Ip, IpFields,
    LinkExt, LinkFields, Packet, Part, Payload, Place, PoolAnswer, Refusal, Route, StreamId, TagFields, TaggedRoute,
    TcpFields, TransportFields,
};
use etherparse_c::{Entry, EtherType, IpNumber, SlicedPacket};
use std::collections::{BTreeMap, HashMap};
use std::mem::{offset_of, size_of};

/// Fields of a struct with their offsets, its size and its alignment, by C's rules.
#[derive(Clone, Debug, PartialEq)]
struct Layout {
    fields: Vec<(String, usize)>,
    size: usize,
    align: usize,
}

/// Returns the layout of fields, each with a name, a type and a number of elements.
fn layout(fields: Vec<(String, String, usize)>, known: &HashMap<String, Layout>) -> Layout {
    let (mut end, mut most, mut offsets) = (0usize, 1, Vec::new());
    for (name, kind, count) in fields {
        let (size, align) = match kind.as_str() {
            "u8" | "uint8_t" => (1, 1),
            "u16" | "uint16_t" => (2, 2),
            "u32" | "uint32_t" => (4, 4),
            "u64" | "uint64_t" | "usize" | "size_t" => (8, 8),
            other => {
                let inner = known.get(other).unwrap_or_else(|| panic!("what is {other}?"));
                (inner.size, inner.align)
            }
        };
        let at = end.next_multiple_of(align);
        offsets.push((name, at));
        end = at + size * count;
        most = most.max(align);
    }
    Layout { fields: offsets, size: end.next_multiple_of(most), align: most }
}

/// Returns the layouts of the structs of a Rattle file.
fn of_rattle(text: &str) -> HashMap<String, Layout> {
    let mut known = HashMap::new();
    for part in text.split("pub struct ").skip(1) {
        let (name, rest) = part.split_once(" {").unwrap();
        let body = rest.split("\n}").next().unwrap();
        let fields = body.lines().filter_map(|line| {
            let (name, kind) = line.trim().strip_prefix("pub ")?.trim_end_matches(',').split_once(": ")?;
            let (kind, count) = match kind.strip_prefix('[') {
                Some(array) => {
                    let (kind, count) = array.trim_end_matches(']').split_once("; ").unwrap();
                    (kind, count.parse().unwrap())
                }
                None => (kind, 1),
            };
            Some((name.to_string(), kind.to_string(), count))
        });
        let laid = layout(fields.collect(), &known);
        known.insert(name.to_string(), laid);
    }
    known
}

/// Returns the layouts of the structs of the C header, by their names in Rattle.
fn of_c(text: &str) -> HashMap<String, Layout> {
    let named = |name: &str| -> String {
        name.trim_start_matches("etherparse_").split('_').map(|word| word[..1].to_uppercase() + &word[1..]).collect()
    };
    let mut known = HashMap::new();
    for part in text.split("\nstruct etherparse_").skip(1) {
        let (name, rest) = part.split_once(" {").unwrap_or((part, ""));
        if name.contains(';') || name.contains('(') || name == "block" {
            continue; // an opaque struct, or the result of an allocation
        }
        let body = rest.split("\n}").next().unwrap();
        let fields = body.lines().filter_map(|line| {
            let (kind, name) = line.trim().trim_start_matches("struct ").split(';').next()?.split_once(' ')?;
            let (name, count) = match name.split_once('[') {
                Some((name, count)) => (name, count.trim_end_matches(']').parse().ok()?),
                None => (name, 1),
            };
            let kind = if kind.starts_with("etherparse_") { named(kind) } else { kind.to_string() };
            line.contains(';').then(|| (name.to_string(), kind, count))
        });
        let laid = layout(fields.collect(), &known);
        known.insert(named(name), laid);
    }
    known
}

macro_rules! declared {
    ($($name:ident { $($field:ident),* })*) => {
        HashMap::from([$((stringify!($name).to_string(), Layout {
            fields: vec![$((stringify!($field).to_string(), offset_of!($name, $field))),*],
            size: size_of::<$name>(),
            align: std::mem::align_of::<$name>(),
        })),*])
    };
}

#[test]
fn layouts_are_the_same() {
    let top = concat!(env!("CARGO_MANIFEST_DIR"), "/../../..");
    let read = |path: &str| std::fs::read_to_string(format!("{top}/{path}")).unwrap();
    let files = ["packet", "fields", "route", "pool_answer", "defrag_values", "filter_values"]
        .map(|name| read(&format!("crates/etherparse_c/src/{name}.rt")));
    let rattle = of_rattle(&files.concat());
    let c = of_c(&read("bindings/c/etherparse.h"));
    let here = declared! {
        Part { kind, offset, len }
        LinkExt { kind, vlan_id, offset, len }
        Ip { version, number, fragmented, more_fragments, fragment_offset, identification, header_len }
        Payload { len_source, incomplete, offset, len }
        Refusal { kind, layer, len_source, number, required_len, len, layer_start_offset }
        Route {
            version, with_ethernet, hop_limit, ethernet_source, ethernet_destination, ipv4_source, ipv4_destination,
            ipv6_source, ipv6_destination
        }
        TcpFields {
            source_port, destination_port, sequence_number, acknowledgment_number, window_size, urgent_pointer, flags
        }
        TaggedRoute { route, tag_count, vlan_ids }
        FragmentFields { ip_number, more_fragments, fragment_offset, identification }
        PoolAnswer { refusal, fragment_refusal, len_source, ip_number, len }
        DefragLimits { streams, bytes, age, overlap, payload }
        DefragStatistics {
            begun, completed, discarded, expired, evicted_for_streams, evicted_for_bytes, removed, accepted,
            rejected_unaligned, rejected_too_big, rejected_conflicting_end, rejected_out_of_memory, rejected_discarded,
            rejected_over_budget
        }
        StreamId {
            channel, identification, vlan_id_count, vlan_ids, version, ip_number, ipv4_source, ipv4_destination,
            ipv6_source, ipv6_destination
        }
        EvictedStream { id, first, cause }
        FilterError { kind, start, end }
        Packet {
            link, link_exts, link_ext_count, source_port, destination_port, net, ip, transport, payload, refusal
        }
        Place { offset, len }
        LinkFields {
            destination, source, ether_type, packet_type, hardware_type, address_len, address, protocol
        }
        TagFields {
            kind, vlan_id, ether_type, priority, drop_eligible, macsec_flags, association_number, short_len,
            packet_number, sci
        }
        IpFields {
            version, number, next_header, hop_limit, dscp, ecn, dont_fragment, more_fragments, fragment_offset, length,
            checksum, identification, flow_label, source, destination, options
        }
        ArpFields {
            hardware_type, protocol_type, hardware_len, protocol_len, operation, sender_hardware, sender_protocol,
            target_hardware, target_protocol
        }
        TransportFields {
            source_port, destination_port, checksum, udp_length, sequence_number, acknowledgment_number, tcp_flags,
            window_size, urgent_pointer, data_offset, icmp_type, icmp_code, icmp_rest, options
        }
        Fields { link, tags, ip, arp, transport, header_checksum, transport_checksum }
    };
    assert_eq!(rattle.len(), here.len());
    for (name, layout) in &here {
        assert_eq!(rattle.get(name), Some(layout), "{name} in Rattle");
        assert_eq!(c.get(name), Some(layout), "{name} in C");
    }
}

/// Returns the first word of a text.
fn first_word(text: &str) -> &str {
    text.split(|c: char| !c.is_ascii_alphanumeric()).next().unwrap()
}

/// Calls by name: the parameters, each with how it is passed, and how the result is passed.
type Calls = BTreeMap<String, (Vec<(String, &'static str)>, Option<&'static str>)>;

/// Returns how a value of a type is passed, and for an address whether it may be written to.
fn passed(kind: &str) -> &'static str {
    match kind.split(' ').next().unwrap() {
        _ if kind.contains("&mut") || kind.contains("*mut") => "mut ptr",
        _ if kind.starts_with("const ") || kind.starts_with(['&', '*']) => "const ptr",
        _ if kind.contains('*') => "mut ptr",
        "OwnedPool" | "OwnedBoundedPool" | "OwnedFilter" => "mut ptr", // structs with one address
        "u8" | "uint8_t" => "u8",
        "u16" | "uint16_t" => "u16",
        "u32" | "uint32_t" => "u32",
        "u64" | "uint64_t" => "u64",
        "usize" | "size_t" => "usize",
        other => panic!("what is {other}?"),
    }
}

/// Returns a parameter. A length has no name of its own in Rattle.
fn parameter(name: &str, kind: &str) -> (String, &'static str) {
    let name = match name {
        _ if name.ends_with("len") => "len",
        _ => name,
    };
    (name.to_string(), passed(kind))
}

/// Returns the calls that a Rust or Rattle text declares, each after `word`. A `Global` is not passed; a slice is
/// passed as its address and its length, which is called `len`, and an array of a known length as its address.
fn calls_of(text: &str, word: &str) -> Calls {
    let one = |declared: &str| {
        let (name, rest) = declared.split_once('(').unwrap();
        let (params, rest) = rest.split_once(')').unwrap();
        let params = params.split(',').filter_map(|param| param.trim().split_once(": "));
        let passed_as = params.filter(|(_, kind)| *kind != "Global").flat_map(|(name, kind)| match kind {
            slice if slice.ends_with(']') && !slice.contains(';') => {
                vec![parameter(name, kind), parameter("len", "usize")]
            }
            other => vec![parameter(name, other)],
        });
        let result = rest.trim_start().strip_prefix("-> ").map(|result| passed(first_word(result)));
        (name.to_string(), (passed_as.collect(), result))
    };
    text.split(word).skip(1).map(one).collect()
}

/// Returns the exports that the C header declares, all in one section.
fn calls_of_c(text: &str) -> Calls {
    let (_, linked) = text.split_once("/* ---- What is linked.").unwrap();
    let (linked, _) = linked.split_once("/* The version of the archive").unwrap();
    let (_, declared) = linked.split_once("*/").unwrap();
    let one = |declared: &str| {
        let (head, params) = declared.trim().strip_suffix(')')?.split_once('(')?;
        let (result, name) = head.split_once(' ')?;
        let params = params.split(',').filter(|param| *param != "void").map(|param| {
            let (kind, name) = param.trim().split_at(param.trim().rfind([' ', '*']).unwrap() + 1);
            parameter(name, kind.trim())
        });
        Some((name.to_string(), (params.collect(), (result != "void").then(|| passed(result)))))
    };
    declared.split(';').filter_map(one).collect()
}

/// Returns the exports that the sources of `etherparse-c-sys` declare, by the names that are linked.
fn calls_of_rust(text: &str) -> Calls {
    let calls = calls_of(text, "    pub fn ");
    let linked: Vec<_> = text.split("#[link_name = \"").skip(1).map(|part| part.split('"').next().unwrap()).collect();
    assert_eq!(linked.len(), calls.len());
    let named = calls.into_iter().map(|(name, call)| (name.replacen("etherparse_", "etherparse_2_", 1), call));
    let calls: Calls = named.collect();
    assert!(linked.iter().all(|name| calls.contains_key(*name)));
    calls
}

#[test]
fn calls_are_the_same() {
    let top = concat!(env!("CARGO_MANIFEST_DIR"), "/../../..");
    let read = |path: &str| std::fs::read_to_string(format!("{top}/{path}")).unwrap();
    let c = calls_of_c(&read("bindings/c/etherparse.h"));
    // all sources of the crate
    let sources = std::fs::read_dir(format!("{top}/crates/etherparse_c/src")).unwrap();
    let sources = sources.map(|file| std::fs::read_to_string(file.unwrap().path()).unwrap_or_default());
    let rattle = calls_of(&sources.collect::<String>(), "pub extern \"C\" fn ");
    assert!(c.len() >= 12 && c.keys().all(|name| name.starts_with("etherparse_2_")), "{:?}", c.keys());
    let rust = calls_of_rust(&read("bindings/rust/etherparse-c-sys/src/lib.rs"));
    for name in rattle.keys().chain(rust.keys()).chain(c.keys()) {
        assert_eq!(rattle.get(name), c.get(name), "{name} in Rattle, and in C");
        assert_eq!(rust.get(name), c.get(name), "{name} in Rust, and in C");
    }
}

/// A frame truncated at any byte is accepted or rejected; its parts follow one another within it.
#[test]
fn parts_lie_in_the_frame() {
    let frame = [
        7, 8, 9, 10, 11, 12, 1, 2, 3, 4, 5, 6, 0x81, 0, 0, 42, 0x86, 0xdd, 0x60, 0, 0, 0, 0, 18, 44, 64, 0, 0, 0, 0, 0,
        0, 0, 0, 0, 0, 0, 0, 0, 0, 0, 1, 0, 0, 0, 0, 0, 0, 0, 0, 0, 0, 0, 0, 0, 0, 0, 2, 17, 0, 0, 0, 0, 0, 0, 9, 0,
        21, 4, 210, 0, 10, 0, 0, 1, 2,
    ];
    for len in 0..=frame.len() {
        match SlicedPacket::from_ethernet(&frame[..len]) {
            Ok(packet) => {
                let mut parts = Vec::new();
                parts.extend(packet.link().map(|link| link.header_slice()));
                parts.extend(packet.link_exts().into_iter().flatten().map(|tag| tag.header_slice()));
                parts.extend(packet.net().map(|net| net.header_slice()));
                parts.extend(packet.transport().map(|transport| transport.header_slice()));
                assert_eq!(packet.payload_offset(), parts.concat().len(), "{len} bytes");
                parts.push(packet.payload());
                assert_eq!(parts.concat(), &frame[..len], "{len} bytes");
                let mut at = frame.as_ptr();
                for part in parts {
                    assert_eq!(part.as_ptr(), at, "{len} bytes");
                    at = at.wrapping_add(part.len());
                }
            }
            Err(refusal) => assert!(!refusal.to_string().is_empty() && len < frame.len()),
        }
    }
    let whole = SlicedPacket::from_ethernet(&frame).unwrap();
    let ip = whole.ip().map(|ip| (ip.version, ip.number, ip.identification, ip.header_len));
    assert_eq!(ip, Some((6, IpNumber::UDP, 9, 40)));
    assert_eq!((whole.ports(), whole.payload()), (Some((21, 1234)), &[1u8, 2][..]));
    let (source, destination) = whole.ip_addresses().unwrap();
    assert_eq!((source.to_string(), destination.to_string()), ("::1".into(), "::2".into()));
    assert!(whole.vlan_ids().eq([42]));
}

/// Each kind of layer, and each length source, has its name.
#[test]
fn kinds_have_their_names() {
    use etherparse_c::{LenSource, LinkExtSlice, LinkSlice, NetSlice, TransportSlice};
    let ethernet = |ether_type: u16| [&[7, 8, 9, 10, 11, 12, 1, 2, 3, 4, 5, 6][..], &ether_type.to_be_bytes()].concat();
    let cooked = [0, 0, 0, 1, 0, 6, 1, 2, 3, 4, 5, 6, 0, 0, 8, 0];
    let ipv4 = |number: u8, len: u8| [0x45, 0, 0, 20 + len, 0, 0, 0, 0, 64, number, 0, 0, 10, 0, 0, 1, 10, 0, 0, 2];
    let ipv6 = |number: u8, len: u8| {
        let mut header = [0; 40];
        (header[0], header[5], header[6], header[7]) = (0x60, len, number, 64);
        header
    };
    let arp = [&[0, 1, 8, 0, 6, 4, 0, 1][..], &[0; 20]].concat();
    let segment = [&[0; 12][..], &[0x50, 0, 0, 0, 0, 0, 0, 0]].concat();
    let (datagram, message, open_tag, shut_tag) = ([0, 1, 0, 2, 0, 8, 0, 0], [0; 8], [0; 6], [0x0c, 3, 0, 0, 0, 0]);
    let frame = |parts: &[&[u8]]| parts.concat();
    let frames = [
        (
            Entry::LinuxSll,
            frame(&[&cooked, &ipv4(1, 8), &message]),
            "LinuxSll",
            "",
            "Ipv4",
            "Icmpv4",
            LenSource::Ipv4HeaderTotalLen,
        ),
        (
            Entry::Ethernet,
            frame(&[&ethernet(0x86dd), &ipv6(58, 8), &message]),
            "Ethernet2",
            "",
            "Ipv6",
            "Icmpv6",
            LenSource::Ipv6HeaderPayloadLen,
        ),
        (
            Entry::EtherType(EtherType::IPV4),
            frame(&[&ipv4(6, 20), &segment]),
            "",
            "",
            "Ipv4",
            "Tcp",
            LenSource::Ipv4HeaderTotalLen,
        ),
        (Entry::Ip, frame(&[&ipv6(17, 8), &datagram]), "", "", "Ipv6", "Udp", LenSource::UdpHeaderLen),
        (
            Entry::Ethernet,
            frame(&[&ethernet(0x88e5), &open_tag, &[8, 6], &arp]),
            "Ethernet2",
            "Macsec",
            "Arp",
            "",
            LenSource::ArpAddrLengths,
        ),
        (
            Entry::Ethernet,
            frame(&[&ethernet(0x88e5), &shut_tag, &[1, 2, 3, 4]]),
            "Ethernet2",
            "Macsec",
            "",
            "",
            LenSource::MacsecShortLength,
        ),
        (
            Entry::Ethernet,
            frame(&[&ethernet(0x8100), &[0xe0, 42, 0xff, 0xff]]),
            "Ethernet2",
            "Vlan",
            "",
            "",
            LenSource::Slice,
        ),
    ];
    for (entry, frame, link, tag, net, transport, end) in frames {
        let packet = SlicedPacket::from_entry(entry, &frame).unwrap();
        let link_name = packet.link().map_or("", |link| match link {
            LinkSlice::Ethernet2(_) => "Ethernet2",
            LinkSlice::LinuxSll(_) => "LinuxSll",
            _ => "?",
        });
        let tag_name = packet.link_exts()[0].map_or("", |tag| match tag {
            LinkExtSlice::Vlan(tag) if tag.vlan_identifier() == 42 => "Vlan",
            LinkExtSlice::Macsec(_) => "Macsec",
            _ => "?",
        });
        let net_name = packet.net().map_or("", |net| match net {
            NetSlice::Ipv4(_) => "Ipv4",
            NetSlice::Ipv6(_) => "Ipv6",
            NetSlice::Arp(_) => "Arp",
            _ => "?",
        });
        let transport_name = packet.transport().map_or("", |transport| match transport {
            TransportSlice::Udp(_) => "Udp",
            TransportSlice::Tcp(_) => "Tcp",
            TransportSlice::Icmpv4(_) => "Icmpv4",
            TransportSlice::Icmpv6(_) => "Icmpv6",
            _ => "?",
        });
        assert_eq!((link_name, tag_name, net_name, transport_name), (link, tag, net, transport));
        assert_eq!(packet.payload_len_source(), end);
        // values with a kind are printed with their fields
        let printed = format!("{packet:?}");
        for name in [link, tag, net, transport] {
            assert!(printed.contains(&format!("({name}")) || printed.contains(name), "{name} in {printed}");
        }
    }
}

/// Text of each kind of error.
#[test]
fn refusals_have_their_texts() {
    let kinds = [
        (0, "unknown refusal 0"),
        (2, "UnsupportedPacketTypeField 300"),
        (3, "UnsupportedArpHardwareId 300"),
        (4, "UnexpectedVersion"),
        (5, "InvalidUnmodifiedShortLen"),
        (6, "UnsupportedIpVersion 300"),
        (7, "Ipv4HeaderLengthSmallerThanHeader 300"),
        (8, "UnexpectedVersion 300"),
        (9, "HeaderLengthSmallerThanHeader 300"),
        (10, "UnexpectedVersion 300"),
        (11, "ZeroPayloadLen"),
        (12, "HopByHopNotAtStart"),
        (13, "ZeroPayloadLen"),
        (14, "DataOffsetTooSmall 300"),
        (15, "unknown refusal 15"),
    ];
    for (kind, text) in kinds {
        let refusal = Refusal { kind, number: 300, ..Refusal::default() };
        assert_eq!(etherparse_c::Refusal::from(refusal).to_string(), text);
    }
    let layers = [
        "Ethernet2Header",
        "LinuxSllHeader",
        "VlanHeader",
        "MacsecHeader",
        "MacsecPacket",
        "Arp",
        "IpHeader",
        "Ipv4Header",
        "Ipv4Packet",
        "IpAuthHeader",
        "Ipv6Header",
        "Ipv6Packet",
        "Ipv6ExtHeader",
        "Ipv6FragHeader",
        "UdpHeader",
        "UdpPayload",
        "TcpHeader",
        "Icmpv4",
        "Icmpv4Timestamp",
        "Icmpv4TimestampReply",
        "Icmpv6",
    ];
    let ends =
        ["Slice", "MacsecShortLength", "Ipv4HeaderTotalLen", "Ipv6HeaderPayloadLen", "UdpHeaderLen", "ArpAddrLengths"];
    for (layer, name) in (1..).zip(layers) {
        for (len_source, end) in (0..).zip(ends) {
            let most = usize::MAX;
            let refusal =
                Refusal { kind: 1, layer, len_source, number: 0, required_len: most, len: 0, layer_start_offset: 7 };
            let text = format!("{name}: {most} bytes needed, 0 there (limit {end}, offset 7)");
            let refusal = etherparse_c::Refusal::from(refusal);
            assert_eq!(refusal.to_string(), text);
            let error = refusal.len_error().unwrap();
            assert_eq!((error.required_len, error.len, error.layer_start_offset), (most, 0, 7));
            assert_eq!((format!("{:?}", error.layer), format!("{:?}", error.len_source)), (name.into(), end.into()));
            assert_eq!(error.to_string(), text);
        }
    }
}

/// A frame for each kind of error, with the number of the kind.
#[test]
fn refusals_have_their_kinds() {
    use etherparse_c::err::{Layer, LenError};
    use etherparse_c::{LenSource, RefusalKind};
    let (v4, v6) = (Entry::EtherType(EtherType::IPV4), Entry::EtherType(EtherType::IPV6));
    // IP headers with 12 bytes after them
    let ipv4 = |number: u8, payload: [u8; 12]| {
        [&[0x45, 0, 0, 32, 0, 0, 0, 0, 64, number, 0, 0, 10, 0, 0, 1, 10, 0, 0, 2][..], &payload].concat()
    };
    let ipv6 = |number: u8, payload: &[u8]| {
        let mut header = vec![0x60, 0, 0, 0, 0, payload.len() as u8, number, 64];
        header.resize(40, 0);
        [&header, payload].concat()
    };
    let cooked = |packet_type: u8| vec![0, packet_type, 0xff, 0, 0, 6, 1, 2, 3, 4, 5, 6, 0, 0, 8, 0];
    let tcp = [&[0; 12][..], &[0x40, 0, 0, 0, 0, 0, 0, 0]].concat();
    let refused = [
        (Entry::LinuxSll, cooked(8), RefusalKind::SllPacketType, Some(8)),
        (Entry::LinuxSll, cooked(7), RefusalKind::SllArpHardware, Some(0xff00)),
        (Entry::EtherType(EtherType::MACSEC), vec![0x80, 0, 0, 0, 0, 0, 8, 0], RefusalKind::MacsecVersion, None),
        (Entry::EtherType(EtherType::MACSEC), vec![0, 1, 0, 0, 0, 0, 8, 0], RefusalKind::MacsecShortLen, None),
        (Entry::Ip, vec![0x50; 20], RefusalKind::IpVersion, Some(5)),
        (Entry::Ip, vec![0x44; 20], RefusalKind::IpIhl, Some(4)),
        (v4, vec![0x65; 20], RefusalKind::Ipv4Version, Some(6)),
        (v4, vec![0x43; 20], RefusalKind::Ipv4Ihl, Some(3)),
        (v6, vec![0x40; 40], RefusalKind::Ipv6Version, Some(4)),
        (v4, ipv4(51, [17, 0, 0, 0, 0, 0, 0, 0, 0, 0, 0, 0]), RefusalKind::Ipv4Auth, None),
        (v6, ipv6(60, &[0, 0, 1, 4, 0, 0, 0, 0, 17, 0, 1, 4, 0, 0, 0, 0]), RefusalKind::Ipv6HopByHop, None),
        (v6, ipv6(51, &[17, 0, 0, 0, 0, 0, 0, 0, 0, 0, 0, 0]), RefusalKind::Ipv6Auth, None),
        (v6, ipv6(6, &tcp), RefusalKind::TcpDataOffset, Some(4)),
    ];
    for (entry, bytes, kind, number) in refused {
        let refusal = SlicedPacket::from_entry(entry, &bytes).unwrap_err();
        assert_eq!((refusal.kind(), refusal.number(), refusal.len_error()), (Some(kind), number, None));
    }
    // a total length of IPv4 that ends in a UDP header
    let mut cut = ipv4(17, [0; 12]);
    cut[3] = 25;
    let refusal = SlicedPacket::from_entry(v4, &cut).unwrap_err();
    let error = LenError {
        required_len: 8,
        len: 5,
        len_source: LenSource::Ipv4HeaderTotalLen,
        layer: Layer::UdpHeader,
        layer_start_offset: 20,
    };
    assert_eq!((refusal.kind(), refusal.number(), refusal.len_error()), (Some(RefusalKind::Len), None, Some(error)));
    let none = etherparse_c::Refusal::from(Refusal::default());
    assert_eq!((none.kind(), none.number(), none.len_error()), (None, None, None));
}

/// A text is written if the buffer is large enough; otherwise nothing is written.
#[test]
fn texts_need_room() {
    let refusal = Refusal { kind: 12, ..Refusal::default() };
    for len in 0..30 {
        let mut buffer = [7; 30];
        let mut written = 0;
        // SAFETY: the buffer has at least the passed length.
        let status = unsafe { sys::etherparse_refusal_text(&refusal, buffer.as_mut_ptr(), len, &mut written) };
        let is_there = len >= 19;
        assert_eq!((status, written), (if is_there { 0 } else { 3 }, 19));
        let text: &[u8] = if is_there { b"HopByHopNotAtStart\0" } else { &[] };
        assert_eq!(buffer[..text.len()], *text);
        assert!(buffer[text.len()..].iter().all(|byte| *byte == 7));
    }
}

/// Returns the fragment of an IPv4 packet with this identification, at an offset in units of 8 bytes.
fn fragment(identification: u8, offset: u8, more: bool, payload: &[u8]) -> Vec<u8> {
    let len = 20 + payload.len() as u8;
    let flags = u8::from(more) << 5;
    let mut packet = vec![0x45, 0, 0, len, 0, identification, flags, offset, 64, 17, 0, 0, 10, 0, 0, 1, 10, 0, 0, 2];
    packet.extend(payload);
    packet
}

/// A pool through the declared calls: their results, and the content of the buffer.
#[test]
fn pools_answer() {
    let mut pool = std::ptr::null_mut();
    // SAFETY: the pointers of all calls point to local variables, which do not overlap; the pool is created first and
    // freed last.
    unsafe {
        assert_eq!(sys::etherparse_pool_with_limit(32, &mut pool), 0);
    }
    let push = |entry: u32, frame: &[u8], timestamp: u64, channel: u64, buffer: &mut [u8]| {
        let mut answer = PoolAnswer { fragment_refusal: 9, ip_number: 9, len: 9, ..PoolAnswer::default() };
        let (bytes, len) = (frame.as_ptr(), frame.len());
        let (into, room) = (buffer.as_mut_ptr(), buffer.len());
        let status = unsafe {
            sys::etherparse_pool_push(pool, entry, 0, bytes, len, timestamp, channel, into, room, &mut answer)
        };
        (status, answer)
    };
    let take = |buffer: &mut [u8]| {
        let mut answer = PoolAnswer::default();
        let status = unsafe { sys::etherparse_pool_take(pool, buffer.as_mut_ptr(), buffer.len(), &mut answer) };
        (status, answer.len, answer.ip_number, answer.len_source)
    };
    let nothing = PoolAnswer::default();
    let mut buffer = [7; 20];
    assert_eq!(take(&mut buffer), (0, 0, 0, 0));

    // invalid frame, invalid entry, and a frame without a fragment
    let whole = fragment(1, 0, false, &[0, 21, 4, 210, 0, 8, 0, 0]);
    let (status, answer) = push(3, &whole[..19], 1, 0, &mut buffer);
    assert_eq!((status, answer.refusal.kind, answer.fragment_refusal, answer.len), (1, 1, 0, 0));
    assert_eq!(push(4, &whole, 1, 0, &mut buffer), (2, nothing));
    assert_eq!(push(3, &whole, 1, 0, &mut buffer), (0, nothing));

    // rejected fragments
    let refused = |kind: u32| (7, PoolAnswer { fragment_refusal: kind, ..nothing });
    assert_eq!(push(3, &fragment(1, 0, true, b"1234"), 1, 0, &mut buffer), refused(1));
    assert_eq!(push(3, &fragment(1, 4, false, b"1"), 1, 0, &mut buffer), refused(2));
    assert_eq!(push(3, &fragment(1, 1, false, b"abcd"), 1, 0, &mut buffer), (0, nothing));
    assert_eq!(push(3, &fragment(1, 1, true, b"abcdefgh"), 1, 0, &mut buffer), refused(3));
    assert_eq!(buffer, [7; 20]);

    // two streams; the second one is longer than the buffer
    let complete = |len: usize| PoolAnswer { ip_number: 17, len_source: 2, len, ..nothing };
    assert_eq!(push(3, &fragment(2, 2, false, b"ijklmnop"), 2, 0, &mut buffer), (0, nothing));
    assert_eq!(push(3, &fragment(2, 0, true, b"ABCDEFGH"), 2, 0, &mut buffer), (0, nothing));
    assert_eq!(push(3, &fragment(1, 0, true, b"12345678"), 2, 0, &mut buffer), (6, complete(12)));
    assert_eq!(buffer, *b"12345678abcd\x07\x07\x07\x07\x07\x07\x07\x07");
    buffer = [7; 20];
    assert_eq!(push(3, &fragment(2, 1, true, b"abcdefgh"), 2, 0, &mut buffer), (3, complete(24)));
    assert_eq!(push(3, &fragment(3, 0, true, b"12345678"), 3, 0, &mut buffer), (8, complete(24)));
    assert_eq!(take(&mut buffer), (3, 24, 17, 2));
    assert_eq!(buffer, [7; 20]);
    let mut room = [7; 25];
    assert_eq!(take(&mut room), (6, 24, 17, 2));
    assert_eq!(room, *b"ABCDEFGHabcdefghijklmnop\x07");
    assert_eq!(take(&mut room), (0, 0, 0, 0));

    // a dropped stream starts again, by the time of its last fragment
    assert_eq!(push(3, &fragment(4, 1, false, b"x"), 4, 0, &mut buffer), (0, nothing));
    assert_eq!(push(3, &fragment(4, 1, false, b"x"), 5, 1, &mut buffer), (0, nothing));
    unsafe { sys::etherparse_pool_drop_older(pool, 5) };
    assert_eq!(push(3, &fragment(4, 0, true, b"12345678"), 6, 0, &mut buffer), (0, nothing));
    assert_eq!(push(3, &fragment(4, 0, true, b"12345678"), 6, 1, &mut buffer), (6, complete(9)));
    unsafe { sys::etherparse_pool_free(pool) };
}

/// A pool of the maximum limit, and the wrapper's own buffer.
#[test]
fn pools_return_long_payloads() {
    use etherparse_c::{Pool, PushError};
    use std::error::Error;
    let mut pool = Pool::new().unwrap();
    let refusal = pool.push(Entry::Ip, &[0x45], 0, 0).unwrap_err();
    assert!(matches!(refusal, PushError::Refused(_)));
    assert!(refusal.source().unwrap().to_string().starts_with("Ipv4Header"));
    let last = 255;
    for part in (0..=last).rev() {
        let payload = [part; 8];
        let answer = pool.push(Entry::Ip, &fragment(1, part, part < last, &payload), 0, 0).unwrap();
        match answer {
            Some(payload) => {
                assert_eq!((part, payload.bytes.len()), (0, 2048));
                assert!(payload.bytes.iter().enumerate().all(|(at, byte)| usize::from(*byte) == at / 8));
            }
            None => assert!(part > 0),
        }
    }
}

/// A bounded pool of the wrapper: each rule for overlaps, each cause of an eviction, and its counters.
#[test]
fn bounded_pools_answer() {
    use etherparse_c::{BoundedPool, DefragLimits, EvictionCause, OverlapPolicy, PushError};
    let seed = [7; 16];
    let evicted = |pool: &BoundedPool| -> Vec<_> {
        pool.evicted().map(|gone| (gone.id.identification, gone.cause, gone.first)).collect()
    };
    // the bytes at 8 to 16 come twice, and then the others
    for (overlap, payload) in [
        (OverlapPolicy::LastWins, Some(b"12345678abcdefghx")),
        (OverlapPolicy::FirstWins, Some(b"12345678ABCDEFGHx")),
        (OverlapPolicy::Discard, None),
    ] {
        let mut pool = BoundedPool::new(DefragLimits { overlap, ..DefragLimits::default() }, seed).unwrap();
        assert_eq!(pool.push(Entry::Ip, &fragment(1, 1, true, b"ABCDEFGH"), 1, 0), Ok(None));
        assert_eq!(pool.push(Entry::Ip, &fragment(1, 2, false, b"x"), 2, 0), Ok(None));
        assert!(evicted(&pool).is_empty() && pool.held_bytes() >= 17);
        let answer = pool.push(Entry::Ip, &fragment(1, 1, true, b"abcdefgh"), 3, 0);
        if overlap == OverlapPolicy::Discard {
            assert_eq!(answer, Err(PushError::Discarded));
            assert_eq!(evicted(&pool), [(1, EvictionCause::Overlap, 1)]);
            assert_eq!((pool.streams(), pool.discarded_streams(), pool.held_bytes()), (0, 1, 0));
        } else {
            assert_eq!(answer, Ok(None));
        }
        let answer = pool.push(Entry::Ip, &fragment(1, 0, true, b"12345678"), 4, 0);
        match payload {
            Some(bytes) => assert_eq!(answer.unwrap().unwrap().bytes, bytes),
            None => assert_eq!(answer, Err(PushError::Discarded)),
        }
        assert!(evicted(&pool).is_empty());
    }
    let limits = DefragLimits { streams: 2, bytes: 200, payload: 160, age: 10, ..DefragLimits::default() };
    let mut pool = BoundedPool::new(limits, seed).unwrap();
    assert_eq!(pool.limits(), limits);
    for (identification, time) in [(1, 1), (2, 2), (3, 3)] {
        assert_eq!(pool.push(Entry::Ip, &fragment(identification, 1, true, b"ABCDEFGH"), time, 9), Ok(None));
    }
    assert_eq!(evicted(&pool), [(1, EvictionCause::Streams, 1)]);
    let id = pool.evicted().next().unwrap().id;
    assert_eq!((id.source.to_string(), id.destination.to_string()), ("10.0.0.1".into(), "10.0.0.2".into()));
    assert_eq!((id.ip_number, id.channel, id.vlan_ids()), (IpNumber::UDP, 9, &[][..]));
    assert_eq!(pool.push(Entry::Ip, &fragment(3, 1, true, b"AB"), 3, 9), Err(PushError::Unaligned));
    assert_eq!(pool.push(Entry::Ip, &fragment(3, 20, true, b"ABCDEFGH"), 3, 9), Err(PushError::TooBig));
    assert!(matches!(pool.push(Entry::Ip, &[0x45], 3, 9), Err(PushError::Refused(_))));
    // all streams need too much memory, and one alone
    let long = [0; 120];
    assert_eq!(pool.push(Entry::Ip, &fragment(2, 2, true, &long), 4, 9), Ok(None));
    assert_eq!(pool.push(Entry::Ip, &fragment(3, 2, true, &long), 5, 9), Ok(None));
    assert_eq!(evicted(&pool), [(2, EvictionCause::Bytes, 2)]);
    // a frame without a fragment evicts nothing
    let whole = fragment(1, 0, false, &[0, 21, 4, 210, 0, 8, 0, 0]);
    assert_eq!(pool.process_sliced_packet(&SlicedPacket::from_ip(&whole).unwrap(), 5, 9), Ok(None));
    assert!(evicted(&pool).is_empty());
    // the fragment of an expired stream begins a new one
    let last = fragment(3, 1, true, b"ABCDEFGH");
    assert_eq!(pool.process_sliced_packet(&SlicedPacket::from_ip(&last).unwrap(), 14, 9), Ok(None));
    assert_eq!(evicted(&pool), [(3, EvictionCause::Expired, 3)]);
    assert_eq!((pool.expire(15, 1), pool.expire(16, 1)), (0, 1));
    assert_eq!(evicted(&pool), [(3, EvictionCause::Expired, 14)]);
    assert_eq!(pool.push(Entry::Ip, &fragment(4, 1, true, b"ABCDEFGH"), 17, 9), Ok(None));
    pool.clear();
    assert!(evicted(&pool).is_empty());
    // one of two streams is removed
    for identification in [5, 6] {
        assert_eq!(pool.push(Entry::Ip, &fragment(identification, 1, true, b"ABCDEFGH"), 18, 9), Ok(None));
    }
    let of = |identification, channel, destination: &str| {
        let mut id = id;
        id.identification = identification;
        id.channel = channel;
        id.destination = destination.parse().unwrap();
        id
    };
    for id in [of(4, 9, "10.0.0.2"), of(5, 8, "10.0.0.2"), of(65541, 9, "10.0.0.2"), of(5, 9, "::"), of(5, 9, "::1")] {
        assert!(!pool.remove(&id) && pool.streams() == 2);
    }
    assert!(pool.remove(&of(5, 9, "10.0.0.2")) && pool.streams() == 1 && evicted(&pool).is_empty());
    assert!(!pool.remove(&of(5, 9, "10.0.0.2")) && pool.remove(&of(6, 9, "10.0.0.2")) && pool.held_bytes() == 0);
    let counted = pool.statistics();
    assert_eq!((counted.begun, counted.completed, counted.expired, counted.removed), (7, 0, 2, 3));
    assert_eq!((counted.evicted_for_streams, counted.evicted_for_bytes, counted.accepted), (1, 1, 9));
    assert_eq!((counted.rejected_unaligned, counted.rejected_too_big), (1, 1));
    // one stream alone
    let limits = DefragLimits { bytes: 100, ..DefragLimits::default() };
    let mut pool = BoundedPool::new(limits, seed).unwrap();
    assert_eq!(pool.push(Entry::Ip, &fragment(1, 2, true, &long), 1, 0), Err(PushError::OverBudget));
    assert_eq!(evicted(&pool), [(1, EvictionCause::Bytes, 1)]);
    // an identifier of IPv6, after a VLAN tag
    let limits = DefragLimits { streams: 1, ..DefragLimits::default() };
    let mut pool = BoundedPool::new(limits, seed).unwrap();
    for identification in [8, 9] {
        let frame = [
            &[7, 8, 9, 10, 11, 12, 1, 2, 3, 4, 5, 6, 0x81, 0, 0, 42, 0x86, 0xdd, 0x60, 0, 0, 0, 0, 16, 44, 64][..],
            &[0, 0, 0, 0, 0, 0, 0, 0, 0, 0, 0, 0, 0, 0, 0, 1, 0, 0, 0, 0, 0, 0, 0, 0, 0, 0, 0, 0, 0, 0, 0, 2],
            &[17, 0, 0, 1, 1, 2, 3, identification, 1, 2, 3, 4, 5, 6, 7, 8],
        ];
        assert_eq!(pool.push(Entry::Ethernet, &frame.concat(), 1, 0), Ok(None));
    }
    let id = pool.evicted().next().unwrap().id;
    assert_eq!((id.source.to_string(), id.destination.to_string()), ("::1".into(), "::2".into()));
    assert_eq!((id.identification, id.ip_number, id.vlan_ids()), (0x01020308, IpNumber::UDP, &[42][..]));
    let mut there = id;
    there.identification += 1;
    assert!(!pool.remove(&id) && pool.remove(&there) && pool.streams() == 0);
}
