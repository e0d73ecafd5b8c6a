//! Many packets that one call slices, strictly and laxly.

use etherparse_c::{slice_lax_many, slice_many, Entry, EtherType, InvalidEnd, LaxSlicedPacket, SlicedPacket};

/// Ethernet II, a VLAN tag, IPv4, UDP and 2 bytes.
const FRAME: [u8; 48] = [
    7, 8, 9, 10, 11, 12, 1, 2, 3, 4, 5, 6, 0x81, 0, 0, 42, 8, 0, // Ethernet II, VLAN
    0x45, 0, 0, 30, 0, 0, 0x40, 0, 20, 17, 0xe3, 0x7b, 192, 168, 1, 1, 192, 168, 1, 2, // IPv4
    0, 21, 4, 210, 0, 10, 0, 0, 1, 2, // UDP
];

/// A Linux cooked capture header, and the same packet as in `FRAME`.
fn cooked() -> Vec<u8> {
    [&[0, 0, 0, 1, 0, 6, 1, 2, 3, 4, 5, 6, 0, 0, 8, 0][..], &FRAME[18..]].concat()
}

#[test]
fn many_are_sliced_as_one() {
    let entries = [
        (Entry::Ethernet, FRAME.to_vec()),
        (Entry::LinuxSll, cooked()),
        (Entry::EtherType(EtherType::VLAN_TAGGED_FRAME), FRAME[14..].to_vec()),
        (Entry::Ip, FRAME[18..].to_vec()),
    ];
    for (entry, frame) in entries {
        // each cut of the frame, and the frame
        let frames: Vec<_> = (0..=frame.len()).map(|len| &frame[..len]).collect();
        let mut bytes = Vec::new();
        let mut ends = Vec::new();
        for frame in &frames {
            bytes.extend_from_slice(frame);
            ends.push(bytes.len());
        }
        let (strict, lax) = (slice_many(entry, &bytes, &ends).unwrap(), slice_lax_many(entry, &bytes, &ends).unwrap());
        assert_eq!((strict.len(), lax.len()), (frames.len(), frames.len()));
        for ((strict, lax), frame) in strict.zip(lax).zip(frames) {
            let (one, lax_one) = (SlicedPacket::from_entry(entry, frame), LaxSlicedPacket::from_entry(entry, frame));
            assert_eq!(strict.map(|packet| *packet.as_raw()), one.map(|packet| *packet.as_raw()));
            assert_eq!(lax.map(|packet| *packet.as_raw()), lax_one.map(|packet| *packet.as_raw()));
            assert_eq!((strict, lax), (one, lax_one));
        }
    }
}

#[test]
fn ends_ascend_within_the_bytes() {
    for (ends, index) in [(&[49][..], 0), (&[14, 48, 47], 2), (&[14, 49], 1), (&[0, 0, usize::MAX, 48], 2)] {
        let errors = (slice_many(Entry::Ip, &FRAME, ends).err(), slice_lax_many(Entry::Ip, &FRAME, ends).err());
        assert_eq!(errors.0, errors.1);
        assert_eq!(errors.0.map(|error: InvalidEnd| error.index), Some(index));
    }
    let error = slice_lax_many(Entry::Ip, &FRAME, &[49]).err().unwrap();
    assert_eq!(error.to_string(), "end 0 is less than the end before it or greater than the number of bytes");
    assert_eq!(slice_many(Entry::Ip, &[], &[]).unwrap().len(), 0);
    assert_eq!(slice_lax_many(Entry::Ip, &FRAME, &[]).unwrap().len(), 0);
}
