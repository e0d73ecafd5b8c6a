use crate::numbered::numbered;
use crate::pool::{buffer_of, pushed};
use crate::{sys, Entry, IpNumber, OutOfMemory, Payload, PushError, SlicedPacket};
use alloc::vec::Vec;
use core::fmt;
use core::net::{IpAddr, Ipv4Addr, Ipv6Addr};
use core::ptr;

pub use sys::DefragStatistics;

numbered! {
    /// Rule of a bounded pool for fragments that overlap earlier ones of their stream.
    pub enum OverlapPolicy {
        /// Each byte is that of the last accepted fragment.
        LastWins = OVERLAP_LAST_WINS,
        /// Each byte is that of the first accepted fragment.
        FirstWins = OVERLAP_FIRST_WINS,
        /// A fragment that contradicts earlier ones discards the stream (RFC 8200, 4.5 and RFC 5722, 4). One that only
        /// repeats bytes is accepted.
        Discard = OVERLAP_DISCARD,
    }

    /// Cause for which a bounded pool evicts or discards a stream.
    pub enum EvictionCause {
        /// Its first accepted fragment came too long ago, or for [`BoundedPool::expire`] its last one.
        Expired = EVICTED_EXPIRED,
        /// Two versions of its payload came: it is discarded, and its identifier stays.
        Overlap = EVICTED_OVERLAP,
        /// There were more streams than the limits allow.
        Streams = EVICTED_STREAMS,
        /// All streams, or this one alone, used more memory than the limits allow.
        Bytes = EVICTED_BYTES,
    }
}

impl OverlapPolicy {
    fn number(self) -> u32 {
        match self {
            OverlapPolicy::LastWins => sys::OVERLAP_LAST_WINS,
            OverlapPolicy::FirstWins => sys::OVERLAP_FIRST_WINS,
            OverlapPolicy::Discard => sys::OVERLAP_DISCARD,
        }
    }
}

/// Limits of a bounded pool.
///
/// ```
/// use etherparse_c::{DefragLimits, OverlapPolicy};
///
/// let limits = DefragLimits { streams: 100, ..DefragLimits::default() };
/// assert_eq!((limits.bytes, limits.age, limits.payload), (32 << 20, 60_000, 65_535));
/// assert_eq!(limits.overlap, OverlapPolicy::Discard);
/// ```
#[derive(Clone, Copy, Debug, PartialEq, Eq, Hash)]
pub struct DefragLimits {
    /// Greatest number of streams, open and discarded ones; 0 counts as 1.
    pub streams: usize,
    /// Greatest memory of all streams in bytes: the capacities of their buffers.
    pub bytes: usize,
    /// Greatest length of a payload in bytes. A fragment that ends above it is rejected.
    pub payload: u16,
    /// Time that a stream may stay after its first accepted fragment, in the unit of the timestamps.
    pub age: u64,
    /// Rule for fragments that overlap earlier ones of their stream.
    pub overlap: OverlapPolicy,
}

impl Default for DefragLimits {
    /// Returns the library's default limits: 4096 streams, 32 MiB, an age of 60 seconds in milliseconds, and streams
    /// with contradicting fragments are discarded.
    fn default() -> DefragLimits {
        let mut limits = sys::DefragLimits::default();
        // SAFETY: the pointer comes from a reference that outlives the call.
        unsafe { sys::etherparse_defrag_limits_default(&mut limits) };
        DefragLimits::from(&limits)
    }
}

impl From<&sys::DefragLimits> for DefragLimits {
    fn from(limits: &sys::DefragLimits) -> DefragLimits {
        DefragLimits {
            streams: limits.streams,
            bytes: limits.bytes,
            payload: limits.payload,
            age: limits.age,
            overlap: OverlapPolicy::of(limits.overlap).unwrap_or(OverlapPolicy::Discard),
        }
    }
}

/// Identifier of a stream: what all its fragments share.
#[derive(Clone, Copy, Debug, PartialEq, Eq, Hash)]
#[non_exhaustive]
pub struct StreamId {
    /// Source address.
    pub source: IpAddr,
    /// Destination address, of the version of the source.
    pub destination: IpAddr,
    /// Identification of the datagram; in IPv4 at most 65535.
    pub identification: u32,
    /// IP number (protocol) of the payload.
    pub ip_number: IpNumber,
    /// Channel that was passed with the fragments.
    pub channel: u64,
    vlan_ids: [u16; 3],
    vlan_id_count: usize,
}

impl StreamId {
    /// Returns the identifier with these fields, or `None` if no stream has one: the addresses are of different IP
    /// versions, there are more than three VLAN identifiers or one above 4095, or the identification is above 65535 in
    /// IPv4.
    ///
    /// ```
    /// use etherparse_c::{IpNumber, StreamId};
    ///
    /// let (source, destination) = ([10, 0, 0, 1].into(), [10, 0, 0, 2].into());
    /// let id = StreamId::new(source, destination, 7, IpNumber(17), &[100], 0).unwrap();
    /// assert_eq!(id.vlan_ids(), [100]);
    /// assert_eq!(StreamId::new(source, destination, 0x10000, IpNumber(17), &[], 0), None);
    /// ```
    #[must_use]
    pub fn new(
        source: IpAddr,
        destination: IpAddr,
        identification: u32,
        ip_number: IpNumber,
        vlan_ids: &[u16],
        channel: u64,
    ) -> Option<StreamId> {
        let greatest = if source.is_ipv4() { u16::MAX.into() } else { u32::MAX };
        if source.is_ipv4() != destination.is_ipv4() || identification > greatest {
            return None;
        }
        let mut ids = [0; 3];
        if vlan_ids.iter().any(|id| *id > 0xfff) {
            return None;
        }
        ids.get_mut(..vlan_ids.len())?.copy_from_slice(vlan_ids);
        Some(StreamId {
            source,
            destination,
            identification,
            ip_number,
            channel,
            vlan_ids: ids,
            vlan_id_count: vlan_ids.len(),
        })
    }

    /// Returns the VLAN identifiers of the packets, from the outermost on.
    #[must_use]
    pub fn vlan_ids(&self) -> &[u16] {
        &self.vlan_ids[..self.vlan_id_count]
    }
}

impl From<&sys::StreamId> for StreamId {
    fn from(raw: &sys::StreamId) -> StreamId {
        let (source, destination) = if raw.version == 4 {
            (IpAddr::V4(Ipv4Addr::from(raw.ipv4_source)), IpAddr::V4(Ipv4Addr::from(raw.ipv4_destination)))
        } else {
            (IpAddr::V6(Ipv6Addr::from(raw.ipv6_source)), IpAddr::V6(Ipv6Addr::from(raw.ipv6_destination)))
        };
        StreamId {
            source,
            destination,
            identification: raw.identification,
            ip_number: IpNumber(raw.ip_number),
            channel: raw.channel,
            vlan_ids: raw.vlan_ids,
            vlan_id_count: (raw.vlan_id_count as usize).min(raw.vlan_ids.len()),
        }
    }
}

impl From<&StreamId> for sys::StreamId {
    fn from(id: &StreamId) -> sys::StreamId {
        let raw = sys::StreamId {
            channel: id.channel,
            identification: id.identification,
            vlan_id_count: id.vlan_id_count as u32,
            vlan_ids: id.vlan_ids,
            ip_number: id.ip_number.0,
            ..sys::StreamId::default()
        };
        match (id.source, id.destination) {
            (IpAddr::V4(source), IpAddr::V4(destination)) => sys::StreamId {
                version: 4,
                ipv4_source: source.octets(),
                ipv4_destination: destination.octets(),
                ..raw
            },
            (IpAddr::V6(source), IpAddr::V6(destination)) => sys::StreamId {
                version: 6,
                ipv6_source: source.octets(),
                ipv6_destination: destination.octets(),
                ..raw
            },
            _ => raw, // the identifier of no stream
        }
    }
}

/// A stream that a bounded pool evicted or discarded, or a discarded one whose identifier it evicted.
#[derive(Clone, Copy, Debug, PartialEq, Eq, Hash)]
#[non_exhaustive]
pub struct EvictedStream {
    /// Identifier of the stream.
    pub id: StreamId,
    /// Cause for which it was evicted or discarded.
    pub cause: EvictionCause,
    /// Timestamp of its first accepted fragment.
    pub first: u64,
}

/// Reassembles the fragmented payloads of hostile traffic: within limits for streams, memory and age, with a rule for
/// fragments that overlap, and with a hash whose seed a sender does not know.
///
/// ```
/// use etherparse_c::{BoundedPool, DefragLimits, Entry, EvictionCause, PushError};
///
/// // fragments of one datagram, in IPv4
/// let fragment = |offset: u8, more: u8, payload: &[u8]| {
///     let len = 20 + payload.len() as u8;
///     let mut packet = vec![0x45, 0, 0, len, 0, 7, more << 5, offset, 20, 17, 0, 0, 10, 0, 0, 1, 10, 0, 0, 2];
///     packet.extend(payload);
///     packet
/// };
/// let seed = [7; 16]; // a program takes random bytes
/// let mut pool = BoundedPool::new(DefragLimits::default(), seed)?;
/// assert_eq!(pool.push(Entry::Ip, &fragment(1, 0, b"xy"), 1, 0), Ok(None));
/// let payload = pool.push(Entry::Ip, &fragment(0, 1, b"12345678"), 2, 0)?.unwrap();
/// assert_eq!(payload.bytes, b"12345678xy");
///
/// // a second version of the same bytes discards the stream
/// assert_eq!(pool.push(Entry::Ip, &fragment(0, 1, b"12345678"), 3, 0), Ok(None));
/// assert_eq!(pool.push(Entry::Ip, &fragment(0, 1, b"abcdefgh"), 4, 0), Err(PushError::Discarded));
/// let evicted: Vec<_> = pool.evicted().collect();
/// assert_eq!((evicted[0].cause, evicted[0].first, evicted[0].id.identification), (EvictionCause::Overlap, 3, 7));
/// assert_eq!((pool.streams(), pool.discarded_streams(), pool.statistics().discarded), (0, 1, 1));
///
/// // after its removal it can begin anew
/// assert!(pool.remove(&evicted[0].id) && !pool.remove(&evicted[0].id));
/// assert_eq!(pool.push(Entry::Ip, &fragment(0, 1, b"abcdefgh"), 5, 0), Ok(None));
/// # Ok::<(), PushError>(())
/// ```
///
/// A pool can be sent to another thread, and is used by one call at a time.
///
/// ```
/// fn sent<T: Send>() {}
/// sent::<etherparse_c::BoundedPool>();
/// ```
///
/// ```compile_fail
/// fn shared<T: Sync>() {}
/// shared::<etherparse_c::BoundedPool>();
/// ```
#[must_use]
pub struct BoundedPool {
    pool: ptr::NonNull<sys::BoundedPool>,
    /// Buffer for returned payloads, as long as the longest payload can be, so that none ever waits in the pool.
    buffer: Vec<u8>,
    /// Whether the last call was passed to the pool, so that its list of evicted streams is that of the call.
    is_reported: bool,
}

// SAFETY: by the header a pool may be passed to another thread between two calls. Calls take it by `&mut`, except for
// those that read, which must not run in two threads at once either: so it is not `Sync`, as its pointer is not.
unsafe impl Send for BoundedPool {}

impl BoundedPool {
    /// Creates an empty bounded pool. `seed` is the secret of its hash: random bytes, from a source that a sender of
    /// frames cannot predict. It allocates a buffer of `limits.payload` bytes for returned payloads.
    ///
    /// # Errors
    ///
    /// An allocation failed.
    pub fn new(limits: DefragLimits, seed: [u8; 16]) -> Result<BoundedPool, OutOfMemory> {
        let buffer = buffer_of(limits.payload)?;
        let raw = sys::DefragLimits {
            streams: limits.streams,
            bytes: limits.bytes,
            age: limits.age,
            overlap: limits.overlap.number(),
            payload: limits.payload,
        };
        let mut pool = ptr::null_mut();
        // SAFETY: the pointers come from references that outlive the call, and the seed has 16 bytes.
        let status = unsafe { sys::etherparse_bounded_pool_new(&raw, seed.as_ptr(), &mut pool) };
        let pool = ptr::NonNull::new(pool).filter(|_| status == sys::OK).ok_or(OutOfMemory)?;
        Ok(BoundedPool { pool, buffer, is_reported: true })
    }

    /// Returns the limits of the pool.
    #[must_use]
    pub fn limits(&self) -> DefragLimits {
        let mut limits = sys::DefragLimits::default();
        // SAFETY: the pool was created and not freed; the other pointer comes from a reference that outlives the call.
        unsafe { sys::etherparse_bounded_pool_limits(self.pool.as_ptr(), &mut limits) };
        DefragLimits::from(&limits)
    }

    /// Passes a frame, which may carry a fragment, to the pool, and returns the payload that it completes, if any.
    /// Streams expire by their timestamps; fragments of different channels are never combined.
    ///
    /// # Errors
    ///
    /// The reason why the frame is not accepted.
    pub fn push(
        &mut self,
        entry: Entry,
        frame: &[u8],
        timestamp: u64,
        channel: u64,
    ) -> Result<Option<Payload<'_>>, PushError> {
        let (entry, ether_type) = entry.numbers();
        let mut answer = sys::PoolAnswer::default();
        self.is_reported = true;
        // SAFETY: the pool was created and not freed. The other pointers come from references that outlive the call,
        // and none overlap.
        let status = unsafe {
            sys::etherparse_bounded_pool_push(
                self.pool.as_ptr(),
                entry,
                ether_type,
                frame.as_ptr(),
                frame.len(),
                timestamp,
                channel,
                self.buffer.as_mut_ptr(),
                self.buffer.len(),
                &mut answer,
            )
        };
        pushed(status, &answer, &self.buffer)
    }

    /// Passes a frame that is already sliced to the pool, and returns the payload that it completes, if any. A frame
    /// without a fragment is not sliced again, since a pool ignores it.
    ///
    /// # Errors
    ///
    /// The reason why the fragment is not accepted.
    pub fn process_sliced_packet(
        &mut self,
        packet: &SlicedPacket<'_>,
        timestamp: u64,
        channel: u64,
    ) -> Result<Option<Payload<'_>>, PushError> {
        if !packet.is_ip_payload_fragmented() {
            self.is_reported = false;
            return Ok(None);
        }
        self.push(packet.entry(), packet.frame(), timestamp, channel)
    }

    /// Evicts each stream that is older than the age of the limits, or whose last accepted fragment came more than
    /// `idle` before `now`, and returns their number. With [`u64::MAX`] for `idle` only the age counts. Iterates over
    /// all streams, so call it once in a while, and not for each packet.
    pub fn expire(&mut self, now: u64, idle: u64) -> usize {
        self.is_reported = true;
        // SAFETY: the pool was created and not freed.
        unsafe { sys::etherparse_bounded_pool_expire(self.pool.as_ptr(), now, idle) }
    }

    /// Removes the stream with this identifier, open or discarded, and returns whether there was one.
    pub fn remove(&mut self, id: &StreamId) -> bool {
        self.is_reported = true;
        // SAFETY: the pool was created and not freed; the other pointer comes from a reference that outlives the call.
        unsafe { sys::etherparse_bounded_pool_remove(self.pool.as_ptr(), &sys::StreamId::from(id)) != 0 }
    }

    /// Removes all streams. The counters stay.
    pub fn clear(&mut self) {
        self.is_reported = true;
        // SAFETY: the pool was created and not freed.
        unsafe { sys::etherparse_bounded_pool_clear(self.pool.as_ptr()) };
    }

    /// Returns the streams that the last call of [`push`](BoundedPool::push),
    /// [`process_sliced_packet`](BoundedPool::process_sliced_packet), [`expire`](BoundedPool::expire),
    /// [`remove`](BoundedPool::remove) or [`clear`](BoundedPool::clear) evicted or discarded: first that of the
    /// fragment, if it had expired, then the others in the order of their last accepted fragments.
    pub fn evicted(&self) -> impl Iterator<Item = EvictedStream> + '_ {
        (0..if self.is_reported { usize::MAX } else { 0 }).map_while(|index| {
            let mut raw = sys::EvictedStream::default();
            // SAFETY: the pool was created and not freed; the other pointer comes from a reference that outlives the
            // call.
            let status = unsafe { sys::etherparse_bounded_pool_evicted(self.pool.as_ptr(), index, &mut raw) };
            if status != sys::OK {
                return None;
            }
            Some(EvictedStream { id: StreamId::from(&raw.id), cause: EvictionCause::of(raw.cause)?, first: raw.first })
        })
    }

    /// Returns the counters since the pool was created.
    #[must_use]
    pub fn statistics(&self) -> DefragStatistics {
        let mut statistics = DefragStatistics::default();
        // SAFETY: the pool was created and not freed; the other pointer comes from a reference that outlives the call.
        unsafe { sys::etherparse_bounded_pool_statistics(self.pool.as_ptr(), &mut statistics) };
        statistics
    }

    /// Returns the number of open streams in the pool: those that are incomplete, and not discarded.
    #[must_use]
    pub fn streams(&self) -> usize {
        // SAFETY: the pool was created and not freed.
        unsafe { sys::etherparse_bounded_pool_streams(self.pool.as_ptr()) }
    }

    /// Returns the number of discarded streams whose identifiers still count as streams of the limits.
    #[must_use]
    pub fn discarded_streams(&self) -> usize {
        // SAFETY: the pool was created and not freed.
        unsafe { sys::etherparse_bounded_pool_discarded_streams(self.pool.as_ptr()) }
    }

    /// Returns the memory of all streams in bytes: the capacities of their buffers.
    #[must_use]
    pub fn held_bytes(&self) -> usize {
        // SAFETY: the pool was created and not freed.
        unsafe { sys::etherparse_bounded_pool_held_bytes(self.pool.as_ptr()) }
    }
}

impl fmt::Debug for BoundedPool {
    /// Formats without the bytes of payloads, and without the seed.
    fn fmt(&self, f: &mut fmt::Formatter<'_>) -> fmt::Result {
        f.debug_struct("BoundedPool").finish_non_exhaustive()
    }
}

impl Drop for BoundedPool {
    fn drop(&mut self) {
        // SAFETY: the pool was created and not freed, and is not used afterwards.
        unsafe { sys::etherparse_bounded_pool_free(self.pool.as_ptr()) };
    }
}
