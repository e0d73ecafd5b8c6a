use crate::{sys, Entry, LaxSlicedPacket, Refusal, SlicedPacket};
use alloc::vec::Vec;
use core::fmt;

/// An end that is less than the end before it, or greater than the number of bytes.
#[derive(Clone, Copy, Debug, PartialEq, Eq, Hash)]
#[non_exhaustive]
pub struct InvalidEnd {
    /// Index of the end.
    pub index: usize,
}

impl fmt::Display for InvalidEnd {
    fn fmt(&self, f: &mut fmt::Formatter<'_>) -> fmt::Result {
        write!(f, "end {} is less than the end before it or greater than the number of bytes", self.index)
    }
}

impl core::error::Error for InvalidEnd {}

/// Slices consecutive frames in one call: frame 0 is `bytes[..ends[0]]`, and frame i is `bytes[ends[i - 1]..ends[i]]`.
/// Returns for each frame what [`SlicedPacket::from_entry`] returns. Allocates 240 bytes for each frame.
///
/// ```
/// use etherparse_c::{slice_many, Entry};
///
/// // a UDP datagram without payload, and the first 26 bytes of the next one, in IPv4
/// let datagram = [
///     0x45, 0, 0, 28, 0, 0, 0x40, 0, 20, 17, 0xe3, 0x7d, 192, 168, 1, 1, 192, 168, 1, 2, // IPv4
///     0, 21, 4, 210, 0, 8, 0, 0, // UDP
/// ];
/// let bytes = [&datagram[..], &datagram[..26]].concat();
/// let packets: Vec<_> = slice_many(Entry::Ip, &bytes, &[28, 54])?.collect();
/// assert_eq!(packets[0].as_ref().map(|packet| packet.ports()), Ok(Some((21, 1234))));
/// assert!(packets[1].is_err());
/// # Ok::<(), etherparse_c::InvalidEnd>(())
/// ```
///
/// # Errors
///
/// The first end that is invalid.
pub fn slice_many<'a>(
    entry: Entry,
    bytes: &'a [u8],
    ends: &'a [usize],
) -> Result<impl ExactSizeIterator<Item = Result<SlicedPacket<'a>, Refusal>> + 'a, InvalidEnd> {
    by_call(sys::etherparse_slice_many, entry, bytes, ends, |packet| packet.refusal.kind != 0)
}

/// Slices consecutive packets laxly in one call: packet 0 is `bytes[..ends[0]]`, and packet i is
/// `bytes[ends[i - 1]..ends[i]]`. Returns for each packet what [`LaxSlicedPacket::from_entry`] returns. Allocates 240
/// bytes for each packet.
///
/// ```
/// use etherparse_c::{slice_lax_many, Entry};
///
/// // a UDP datagram without payload, and the first 26 bytes of the next one, in IPv4
/// let datagram = [
///     0x45, 0, 0, 28, 0, 0, 0x40, 0, 20, 17, 0xe3, 0x7d, 192, 168, 1, 1, 192, 168, 1, 2, // IPv4
///     0, 21, 4, 210, 0, 8, 0, 0, // UDP
/// ];
/// let bytes = [&datagram[..], &datagram[..26]].concat();
/// for (packet, is_whole) in slice_lax_many(Entry::Ip, &bytes, &[28, 54])?.zip([true, false]) {
///     let packet = packet?;
///     assert_eq!(packet.ip().map(|ip| ip.version), Some(4));
///     assert_eq!((packet.transport().is_some(), packet.stop().is_none()), (is_whole, is_whole));
/// }
/// # Ok::<(), Box<dyn std::error::Error>>(())
/// ```
///
/// # Errors
///
/// The first end that is invalid.
pub fn slice_lax_many<'a>(
    entry: Entry,
    bytes: &'a [u8],
    ends: &'a [usize],
) -> Result<impl ExactSizeIterator<Item = Result<LaxSlicedPacket<'a>, Refusal>> + 'a, InvalidEnd> {
    // without a link and a network header the first header is invalid, except after an ether type
    let has_first = matches!(entry, Entry::EtherType(_));
    let packets = by_call(sys::etherparse_slice_lax_many, entry, bytes, ends, move |packet| {
        !has_first && packet.link.kind == 0 && packet.net.kind == 0
    })?;
    Ok(packets.map(|packet| packet.map(LaxSlicedPacket)))
}

/// A call that slices many frames.
type SliceMany =
    unsafe extern "C" fn(u32, u16, *const u8, usize, *const usize, usize, *mut sys::Packet, usize, *mut usize) -> u32;

/// Slices frames by one of the calls. `is_refused` returns whether a packet has no layers but the error of its frame.
fn by_call<'a>(
    slice: SliceMany,
    entry: Entry,
    bytes: &'a [u8],
    ends: &'a [usize],
    is_refused: impl Fn(&sys::Packet) -> bool + 'a,
) -> Result<impl ExactSizeIterator<Item = Result<SlicedPacket<'a>, Refusal>> + 'a, InvalidEnd> {
    let (number, ether_type) = entry.numbers();
    let (from, count, mut sliced) = (bytes.as_ptr(), ends.len(), 0);
    let mut packets = Vec::<sys::Packet>::with_capacity(count);
    // SAFETY: the pointers point to memory that outlives the call, with these lengths, and none overlap. The call does
    // not read the packets, and wrote each field of the first `sliced` ones.
    let status = unsafe {
        let into = packets.as_mut_ptr();
        let status = slice(number, ether_type, from, bytes.len(), ends.as_ptr(), count, into, count, &mut sliced);
        packets.set_len(sliced);
        status
    };
    if status != sys::OK {
        return Err(InvalidEnd { index: sliced }); // an entry is always known here
    }
    Ok(packets.into_iter().enumerate().map(move |(index, packet)| {
        let start = if index == 0 { 0 } else { ends[index - 1] };
        if is_refused(&packet) {
            Err(Refusal::from(packet.refusal))
        } else {
            Ok(SlicedPacket::described(packet, &bytes[start..ends[index]], entry))
        }
    }))
}
