//! Tests that each number that the C header names is equal in the Rattle sources, in their definitions and here. All
//! are read as texts, so that a changed number is found without a build.

use std::collections::{BTreeMap, BTreeSet};

fn read(path: &str) -> String {
    let path = format!("{}/../../../{path}", env!("CARGO_MANIFEST_DIR"));
    std::fs::read_to_string(&path).unwrap_or_else(|error| panic!("{path}: {error}"))
}

/// Reads a Rattle source or definition of the static library.
fn read_rattle(file: &str) -> String {
    let folder = if file.ends_with(".rt") { "src" } else { "specs" };
    read(&format!("crates/etherparse_c/{folder}/{file}"))
}

/// Returns the first word of a text, after an opening bracket, if any.
fn word(text: &str) -> &str {
    let text = text.trim_start_matches('(');
    let end = text.find(|c: char| c != '_' && !c.is_ascii_alphanumeric()).unwrap_or(text.len());
    &text[..end]
}

fn number(text: &str) -> Option<u32> {
    word(text).replace('_', "").parse().ok()
}

/// Returns for each line with both parts the words after them, if any. An empty part is the start of the line.
fn pairs<'a>(text: &'a str, before: &'a str, between: &'a str) -> impl Iterator<Item = (&'a str, &'a str)> + 'a {
    text.lines().filter_map(move |line| {
        let line = line.trim_start();
        let first = if before.is_empty() { line } else { line.split_once(before)?.1 };
        let (first, second) = (word(first), word(first.split_once(between)?.1));
        (!first.is_empty() && !second.is_empty()).then_some((first, second))
    })
}

/// Returns the numbers that the C header names, without the first word of the names.
fn of_c() -> BTreeMap<String, u32> {
    let header = read("bindings/c/etherparse.h");
    let named = header.split("ETHERPARSE_").skip(1).filter_map(|text| {
        let name = word(text);
        let rest = &text[name.len()..];
        let it = number(rest.strip_prefix(" = ").or(rest.strip_prefix(' '))?)?; // of an enumerator or a definition
        Some((name.to_string(), it))
    });
    named.collect()
}

/// Returns a name as it is compared, in lower case and without underscores.
fn plain(name: &str) -> String {
    name.replace('_', "").to_lowercase()
}

/// Names with a common first word in the C header, and the places of their numbers in the Rattle crate.
struct Named {
    first: &'static str,
    count: usize,
    /// Whether Rattle's names may be longer than C's.
    may_say_more: bool,
    /// A file, the text before the first of name and number, and the text before the second.
    places: &'static [(&'static str, &'static str, &'static str)],
}

const NAMED: [Named; 13] = [
    Named {
        first: "LAYER_",
        count: 21,
        may_say_more: false,
        places: &[
            ("refusing.rt", "Layer::", " => "),
            ("texts.rt", "", " => Some(Layer::"),
            ("RefusalNumbers.antt", "layer_number layer.", " = "),
            ("RefusalTexts.antt", "number == ", " then Some layer."),
        ],
    },
    Named {
        first: "END_",
        count: 6,
        may_say_more: true,
        places: &[
            ("describing.rt", "LenSource::", " => "),
            ("texts.rt", "", " => Some(LenSource::"),
            ("Description.antt", "source_number source.", " = "),
            ("RefusalTexts.antt", "number == ", " then Some source."),
        ],
    },
    Named {
        first: "ENTRY_",
        count: 4,
        may_say_more: false,
        places: &[("slicing.rt", "", " => Some(Entry::"), ("SliceAnswers.antt", "number == ", " then Some ")],
    },
    Named {
        first: "TCP_",
        count: 8,
        may_say_more: false,
        places: &[("building.rt", "", ": fields.flags & "), ("Building.antt", "", " = has_flag fields.flags ")],
    },
    Named {
        first: "FRAGMENT_",
        count: 3,
        may_say_more: true,
        places: &[("pooling.rt", "IpDefragError::", " => "), ("PoolAnswers.antt", "fragment_refusal_number (", ") = ")],
    },
    Named {
        first: "OVERLAP_",
        count: 3,
        may_say_more: false,
        places: &[
            ("defrag_describing.rt", "", " => Some(OverlapPolicy::"),
            ("BoundedPoolAnswers.antt", "number == ", " then Some "),
        ],
    },
    Named {
        first: "EVICTED_",
        count: 4,
        may_say_more: false,
        places: &[
            ("defrag_describing.rt", "EvictionCause::", " => "),
            ("BoundedPoolAnswers.antt", "cause_number ", " = "),
        ],
    },
    Named {
        first: "FILTER_",
        count: 24,
        may_say_more: false,
        places: &[
            ("filtering.rt", "FilterErrorKind::", " => "),
            ("filtering.rt", "", " => Some(FilterErrorKind::"),
            ("FilterAnswers.antt", "kind_number kind.", " = "),
            ("FilterAnswers.antt", "number == ", " then Some kind."),
        ],
    },
    Named {
        first: "CHECKSUM_",
        count: 4,
        may_say_more: false,
        places: &[
            ("verifying.rt", "ChecksumVerdict::", " => "),
            ("VerdictAnswers.antt", "verdict_number (Some verdict.", " = "),
        ],
    },
    Named {
        first: "LINK_",
        count: 2,
        may_say_more: false,
        places: &[("Description.antt", "link_kind (Some (", " = ")],
    },
    Named { first: "EXT_", count: 2, may_say_more: false, places: &[("Description.antt", "tag_kind (", " = ")] },
    Named { first: "NET_", count: 3, may_say_more: false, places: &[("Description.antt", "net_kind (Some (", " = ")] },
    Named {
        first: "TRANSPORT_",
        count: 4,
        may_say_more: false,
        places: &[("Description.antt", "header_kind (transport.", " = ")],
    },
];

/// Each kind of error in a field, and the variants of `SliceError` and of its inner error with its number.
const REFUSALS: [(&str, &str, &str); 13] = [
    ("SLL_PACKET_TYPE", "LinuxSll", "UnsupportedPacketTypeField"),
    ("SLL_ARP_HARDWARE", "LinuxSll", "UnsupportedArpHardwareId"),
    ("MACSEC_VERSION", "Macsec", "UnexpectedVersion"),
    ("MACSEC_SHORT_LEN", "Macsec", "InvalidUnmodifiedShortLen"),
    ("IP_VERSION", "Ip", "UnsupportedIpVersion"),
    ("IP_IHL", "Ip", "Ipv4HeaderLengthSmallerThanHeader"),
    ("IPV4_VERSION", "Ipv4", "UnexpectedVersion"),
    ("IPV4_IHL", "Ipv4", "HeaderLengthSmallerThanHeader"),
    ("IPV6_VERSION", "Ipv6", "UnexpectedVersion"),
    ("IPV4_AUTH", "Ipv4Exts", "ZeroPayloadLen"),
    ("IPV6_HOP_BY_HOP", "Ipv6Exts", "HopByHopNotAtStart"),
    ("IPV6_AUTH", "Ipv6Exts", "ZeroPayloadLen"),
    ("TCP_DATA_OFFSET", "Tcp", "DataOffsetTooSmall"),
];

/// Each flag that only the fields of a packet have: its first and second word in the C header, and its bit in the
/// definitions.
const FLAGS: [(&str, &str, &str); 6] = [
    ("MACSEC_", "ES", "bit tag.endstation_id"),
    ("MACSEC_", "SC", "sci_bit tag.sci"),
    ("MACSEC_", "SCB", "bit tag.scb"),
    ("MACSEC_", "E", "encryption_bit tag.ptype"),
    ("MACSEC_", "C", "changed_text_bit tag.ptype"),
    ("TCP_", "NS", "bit header.ns"),
];

/// Returns the variants and the number of each error in a text. `before` is the text before the outer variant, `inner`
/// before the variant of its inner error, and `before_number` before the number.
fn refusals(text: &str, before: &str, inner: &str, before_number: &str) -> BTreeMap<(String, String), u32> {
    let found = text.split(before).skip(1).filter_map(|case| {
        let (variants, rest) = case.split_once(before_number)?;
        let (_, innermost) = variants.rsplit_once(inner)?;
        Some(((word(variants).to_string(), word(innermost).to_string()), number(rest)?))
    });
    found.collect()
}

/// Returns the number after `kind` in the first record after a text.
fn kind_after(text: &str, before: &str, kind: &str) -> u32 {
    let (_, record) = text.split_once(before).unwrap_or_else(|| panic!("no {before}"));
    number(record.split_once(kind).unwrap().1).unwrap()
}

/// Compares a number, and records that the name of the header was compared.
fn same(c: &BTreeMap<String, u32>, compared: &mut BTreeSet<String>, name: String, number: u32, place: &str) {
    assert_eq!(c.get(&name), Some(&number), "{name} in {place}");
    compared.insert(name);
}

#[test]
fn rattle_has_the_numbers_of_the_c_header() {
    let c = of_c();
    let (mut in_sources, mut in_definitions) = (BTreeSet::new(), BTreeSet::new());
    let text = read_rattle("numbers.rt");
    let constants: BTreeMap<_, _> = pairs(&text, "pub const ", ": u32 = ").collect();
    assert!(constants.len() >= 23 && constants.len() == text.matches("pub const ").count());
    for (name, it) in &constants {
        same(&c, &mut in_sources, name.to_string(), number(it).unwrap(), "numbers.rt");
    }
    // returns a number, or the number of a constant
    let number_of = |it: &str| number(constants.get(it).copied().unwrap_or(it));
    for named in NAMED {
        let names: Vec<_> = c.iter().filter_map(|(name, it)| Some((name.strip_prefix(named.first)?, *it))).collect();
        // the name of a status starts as those of rejected fragments; not each kind of a filter's error is the library's;
        // NS is among FLAGS; NONE is no verdict of the library
        let others = ["REFUSED", "NOT_UTF8", "NS", "NONE"];
        let names: Vec<_> = names.into_iter().filter(|(name, _)| !others.contains(name)).collect();
        assert_eq!(names.len(), named.count, "{}", named.first);
        for (file, before, between) in named.places {
            let text = read_rattle(file).replace("numbers::", "");
            let rows = pairs(&text, before, between).filter_map(|(first, second)| match number(first) {
                Some(it) => Some((second, it)),
                None => Some((first, number_of(second)?)),
            });
            // 0 is none, if it has no name
            let rows: Vec<_> = rows.filter(|(_, it)| *it != 0 || names.iter().any(|(_, other)| *other == 0)).collect();
            assert_eq!(rows.len(), named.count, "{} in {file}: {rows:?}", named.first);
            for (theirs, it) in rows {
                let place = format!("{file}, {theirs}");
                let ours = names.iter().find(|(_, other)| *other == it).unwrap_or_else(|| panic!("{it} in {place}")).0;
                let (ours_plain, theirs_plain) = (plain(ours), plain(theirs));
                let fits =
                    if named.may_say_more { theirs_plain.contains(&ours_plain) } else { theirs_plain == ours_plain };
                assert!(fits, "{it} is {ours} in C, and {place}");
                let compared = if file.ends_with(".rt") { &mut in_sources } else { &mut in_definitions };
                same(&c, compared, format!("{}{ours}", named.first), it, &place);
            }
        }
    }
    let [source, definition] = ["refusing.rt", "RefusalNumbers.antt"].map(read_rattle);
    let [no_source, no_definition] = ["describing.rt", "Description.antt"].map(read_rattle);
    let places = [
        (
            refusals(&source, "SliceError::", "HeaderError::", "content_part("),
            kind_after(&source, "fn len_part(", "kind: "),
            kind_after(&no_source, "fn no_refusal(", "kind: "),
            &mut in_sources,
        ),
        (
            refusals(&definition, "\nrefusal_part (", "_error.", "content_part "),
            kind_after(&definition, "\nlen_part error = ", "kind = "),
            kind_after(&no_definition, "\nno_refusal = ", "kind = "),
            &mut in_definitions,
        ),
    ];
    for (found, len, none, compared) in places {
        assert_eq!(found.len(), REFUSALS.len(), "{found:?}");
        for (name, outer, inner) in REFUSALS {
            let it = found[&(outer.to_string(), inner.to_string())];
            same(&c, compared, format!("REFUSAL_{name}"), it, "numbers of refusals for C");
        }
        same(&c, compared, "REFUSAL_LEN".to_string(), len, "len_part");
        same(&c, compared, "REFUSAL_NONE".to_string(), none, "no_refusal");
    }
    let text = read_rattle("pooling.rt");
    for before in ["new_pool(alloc, ", "IsNewPool "] {
        let it = number(text.split_once(before).unwrap().1).unwrap();
        same(&c, &mut in_sources, "MAX_PAYLOAD".to_string(), it, "pooling.rt");
    }
    let text = read_rattle("FilterAnswers.antt");
    let it = number(text.split_once("\nnot_utf8 = ").unwrap().1).unwrap();
    same(&c, &mut in_definitions, "FILTER_NOT_UTF8".to_string(), it, "FilterAnswers.antt");
    let none =
        [("verifying.rt", "None => ", &mut in_sources), ("VerdictAnswers.antt", " None = ", &mut in_definitions)];
    for (file, before, compared) in none {
        let text = read_rattle(file).replace("numbers::", "");
        let it = number_of(word(text.split_once(before).unwrap().1)).unwrap();
        same(&c, compared, "CHECKSUM_NONE".to_string(), it, file);
    }
    let text = read_rattle("laws.rt");
    for (law, most) in [("text_lengths", "REFUSAL_TEXT_MAX"), ("reason_lengths", "REASON_TEXT_MAX")] {
        let (_, law) = text.split_once(&format!("pub fn {law}()")).unwrap();
        let longest = c[most] - 1; // without its zero byte
        assert!(law.split("pub fn ").next().unwrap().contains(&format!("≤ {longest} ")), "the greatest text");
    }
    let [source, definition] = ["fields.rt", "Fields.antt"].map(read_rattle);
    for (first, flag, bit) in FLAGS {
        let name = format!("{first}{flag}");
        let documented = [format!(" {flag} is {},", c[&name]), format!(" {flag} {}", c[&name])];
        assert!(documented.iter().any(|text| source.contains(text)), "{name} in fields.rt");
        let defined = format!("2 ^ {} * {bit}", c[&name].trailing_zeros());
        assert!(c[&name].is_power_of_two() && definition.contains(&defined), "{name} in Fields.antt");
        same(&c, &mut in_sources, name.clone(), c[&name], "fields.rt");
        same(&c, &mut in_definitions, name.clone(), c[&name], "Fields.antt");
    }
    // defined elsewhere in the sources of the crate, or measured by tests
    let elsewhere = ["REASON_TEXT_MAX", "REFUSAL_TEXT_MAX", "STACK", "STACK_OF_FRAGMENTS", "STACK_OF_POOLS", "VERSION"];
    // every other name was compared; the definitions have statuses as bare numbers, and the limit in a contract
    let all: BTreeSet<_> = c.keys().filter(|name| !elsewhere.contains(&name.as_str())).cloned().collect();
    assert_eq!(in_sources, all);
    let without: BTreeSet<_> = all.difference(&in_definitions).map(String::as_str).collect();
    let statuses = "COMPLETE DISCARDED FRAGMENT_REFUSED MAX_PAYLOAD OK OUT_OF_MEMORY OVER_BUDGET PAYLOAD_WAITS REFUSED";
    assert_eq!(without, statuses.split(' ').chain(["TOO_LONG", "TOO_SMALL", "UNKNOWN_CHOICE"]).collect());
}

#[test]
fn rust_has_the_numbers_of_the_c_header() {
    let text = read("bindings/rust/etherparse-c-sys/src/lib.rs");
    let declared = text.lines().filter_map(|line| {
        let (name, rest) = line.strip_prefix("pub const ")?.split_once(": u")?;
        Some((name.to_string(), number(rest.split_once(" = ")?.1)?))
    });
    assert_eq!(declared.collect::<BTreeMap<_, _>>(), of_c());
}

/// Each kind here has the name of its number.
#[test]
fn rust_kinds_have_the_names_of_their_numbers() {
    let files =
        ["bounded_pool", "building", "checksum_verdict", "err", "fields", "filter", "lib", "refusal", "sliced_packet"]
            .map(|name| read(&format!("bindings/rust/etherparse-c/src/{name}.rs")));
    let text = files.concat();
    // the first word of the header's names, their count, and the text before a kind and before its number
    let named = [
        ("LAYER_", 21, "", " = LAYER_"),
        ("REFUSAL_", 14, "", " = REFUSAL_"),
        ("LINK_", 2, "sys::LINK_", "Some(LinkSlice::"),
        ("NET_", 3, "sys::NET_", "Some(NetSlice::"),
        ("TRANSPORT_", 4, "sys::TRANSPORT_", "Some(TransportSlice::"),
        ("END_", 6, "", " = END_"),
        ("ENTRY_", 4, "Entry::", "(sys::ENTRY_"),
        ("EXT_", 2, "sys::EXT_", " => Some(LinkExtSlice::"),
        ("TCP_", 8, "pub const ", "sys::TCP_"),
        ("OVERLAP_", 3, "", " = OVERLAP_"),
        ("EVICTED_", 4, "", " = EVICTED_"),
        ("CHECKSUM_", 4, "", " = CHECKSUM_"),
        ("FILTER_", 25, "", " = FILTER_"),
    ];
    for (first, count, before, between) in named {
        let kinds: Vec<_> = pairs(&text, before, between).collect();
        assert_eq!(kinds.len(), count, "{first}: {kinds:?}");
        for (kind, name) in kinds {
            let fits = if first == "END_" { plain(kind).contains(&plain(name)) } else { plain(kind) == plain(name) };
            assert!(fits, "{kind} is {first}{name}");
        }
    }
}
