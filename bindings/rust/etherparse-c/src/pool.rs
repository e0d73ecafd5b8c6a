use crate::{sys, Entry, IpNumber, LenSource, Refusal, SlicedPacket};
use alloc::vec::Vec;
use core::fmt;
use core::ptr;

/// An allocation failed.
#[derive(Clone, Copy, Debug, PartialEq, Eq, Hash)]
pub struct OutOfMemory;

impl fmt::Display for OutOfMemory {
    fn fmt(&self, f: &mut fmt::Formatter<'_>) -> fmt::Result {
        f.write_str("out of memory")
    }
}

impl core::error::Error for OutOfMemory {}

/// Reason why a pool did not accept a frame. Its streams are unchanged, except as [`Discarded`](PushError::Discarded)
/// and [`OverBudget`](PushError::OverBudget) state, and except that a bounded pool evicts the fragment's own stream if
/// it had expired.
#[derive(Clone, Copy, Debug, PartialEq, Eq, Hash)]
#[non_exhaustive]
pub enum PushError {
    /// The bytes are not a frame.
    Refused(Refusal),
    /// The fragment's length is not a multiple of 8, and more fragments follow.
    Unaligned,
    /// The fragment ends after the pool's limit.
    TooBig,
    /// The fragment ends after the known end, or is the last one and ends before that or before the end of an earlier
    /// fragment.
    ConflictingEnd,
    /// An allocation for the fragment failed.
    OutOfMemory,
    /// The stream of the fragment is discarded, by this fragment or an earlier one: two versions of its payload came.
    /// Only a [`BoundedPool`](crate::BoundedPool) returns it.
    Discarded,
    /// The stream of the fragment alone needs more memory than the limits allow, and is evicted with this fragment.
    /// Only a [`BoundedPool`](crate::BoundedPool) returns it.
    OverBudget,
}

impl PushError {
    /// Returns the error of a status and of the reason for a rejected fragment.
    pub(crate) fn of(status: u32, fragment_refusal: u32) -> PushError {
        match (status, fragment_refusal) {
            (sys::FRAGMENT_REFUSED, sys::FRAGMENT_UNALIGNED) => PushError::Unaligned,
            (sys::FRAGMENT_REFUSED, sys::FRAGMENT_TOO_BIG) => PushError::TooBig,
            (sys::FRAGMENT_REFUSED, _) => PushError::ConflictingEnd,
            (sys::OUT_OF_MEMORY, _) => PushError::OutOfMemory,
            (sys::DISCARDED, _) => PushError::Discarded,
            (sys::OVER_BUDGET, _) => PushError::OverBudget,
            (other, _) => unreachable!("a pool answers {other}"),
        }
    }
}

impl From<OutOfMemory> for PushError {
    fn from(_: OutOfMemory) -> PushError {
        PushError::OutOfMemory
    }
}

impl fmt::Display for PushError {
    fn fmt(&self, f: &mut fmt::Formatter<'_>) -> fmt::Result {
        f.write_str(match self {
            PushError::Refused(_) => "the bytes are no frame",
            PushError::Unaligned => "the fragment's length is no multiple of 8",
            PushError::TooBig => "the fragment ends beyond the limit",
            PushError::ConflictingEnd => "the fragment ends elsewhere than others say",
            PushError::OutOfMemory => return OutOfMemory.fmt(f),
            PushError::Discarded => "the stream is discarded, since its fragments contradict each other",
            PushError::OverBudget => "the stream needs more memory than the limits allow",
        })
    }
}

impl core::error::Error for PushError {
    fn source(&self) -> Option<&(dyn core::error::Error + 'static)> {
        match self {
            PushError::Refused(refusal) => Some(refusal),
            _ => None,
        }
    }
}

/// Payload reassembled from fragments.
#[derive(Clone, Copy, Debug, PartialEq, Eq, Hash)]
#[non_exhaustive]
#[must_use]
pub struct Payload<'a> {
    /// IP number (protocol) of the payload.
    pub ip_number: IpNumber,
    /// Total length of IPv4 or payload length of IPv6, by the version of the fragments.
    pub len_source: LenSource,
    /// Bytes of the payload, valid until the pool is used again.
    pub bytes: &'a [u8],
}

/// Reassembles the fragmented payloads of many streams, each as if it were alone.
///
/// ```
/// use etherparse_c::{Entry, IpNumber, Pool, PushError};
///
/// // fragments of one datagram, in IPv4
/// let fragment = |offset: u8, more: u8, payload: &[u8]| {
///     let len = 20 + payload.len() as u8;
///     let mut packet = vec![0x45, 0, 0, len, 0, 7, more << 5, offset, 20, 17, 0, 0, 10, 0, 0, 1, 10, 0, 0, 2];
///     packet.extend(payload);
///     packet
/// };
/// let mut pool = Pool::with_limit(16)?;
/// assert_eq!(pool.push(Entry::Ip, &fragment(1, 0, b"xy"), 1, 0), Ok(None));
/// assert_eq!(pool.push(Entry::Ip, &fragment(0, 1, b"1234"), 2, 0), Err(PushError::Unaligned));
/// assert_eq!(pool.push(Entry::Ip, &fragment(0, 1, b"12345678"), 2, 1), Ok(None)); // on another channel
/// let payload = pool.push(Entry::Ip, &fragment(0, 1, b"12345678"), 2, 0)?.unwrap();
/// assert_eq!((payload.ip_number, payload.bytes), (IpNumber::UDP, &b"12345678xy"[..]));
/// assert_eq!(pool.push(Entry::Ip, &fragment(2, 0, b"z"), 3, 1), Err(PushError::TooBig));
///
/// pool.drop_older(3); // drops the stream of channel 1, whose timestamp is 2
/// assert_eq!(pool.push(Entry::Ip, &fragment(1, 0, b"xy"), 3, 1), Ok(None));
/// # Ok::<(), PushError>(())
/// ```
///
/// A pool can be sent to another thread, and is used by one call at a time.
///
/// ```
/// fn sent<T: Send>() {}
/// sent::<etherparse_c::Pool>();
/// ```
///
/// ```compile_fail
/// fn shared<T: Sync>() {}
/// shared::<etherparse_c::Pool>();
/// ```
#[must_use]
pub struct Pool {
    pool: ptr::NonNull<sys::Pool>,
    /// Buffer for returned payloads, as long as the longest payload can be, so that none ever waits in the pool.
    buffer: Vec<u8>,
}

// SAFETY: by the header a pool may be passed to another thread between two calls. Calls take it by `&mut`, except for
// those that count, which must not run in two threads at once either: so it is not `Sync`, as its pointer is not.
unsafe impl Send for Pool {}

impl Pool {
    /// Creates an empty pool with payloads of at most 65535 bytes. It allocates a buffer of that length for returned
    /// payloads.
    ///
    /// ```
    /// let pool: Result<etherparse_c::Pool, etherparse_c::OutOfMemory> = etherparse_c::Pool::new();
    /// assert!(pool.is_ok());
    /// ```
    ///
    /// # Errors
    ///
    /// An allocation failed.
    pub fn new() -> Result<Pool, OutOfMemory> {
        // SAFETY: the pointer comes from a reference that outlives the call.
        Pool::made(sys::MAX_PAYLOAD, |pool| unsafe { sys::etherparse_pool_new(pool) })
    }

    /// Creates an empty pool with payloads of at most `limit` bytes: a fragment that ends after the limit is rejected.
    /// If frames may be hostile, use a [`BoundedPool`](crate::BoundedPool).
    ///
    /// # Errors
    ///
    /// An allocation failed.
    pub fn with_limit(limit: u16) -> Result<Pool, OutOfMemory> {
        // SAFETY: the pointer comes from a reference that outlives the call.
        Pool::made(limit, |pool| unsafe { sys::etherparse_pool_with_limit(limit, pool) })
    }

    fn made(limit: u16, make: impl FnOnce(&mut *mut sys::Pool) -> u32) -> Result<Pool, OutOfMemory> {
        let buffer = buffer_of(limit)?;
        let mut pool = ptr::null_mut();
        let status = make(&mut pool);
        let pool = ptr::NonNull::new(pool).filter(|_| status == sys::OK).ok_or(OutOfMemory)?;
        Ok(Pool { pool, buffer })
    }

    /// Passes a frame, which may carry a fragment, to the pool, and returns the payload that it completes, if any. The
    /// timestamp is for [`Pool::drop_older`]; fragments of different channels are never combined.
    ///
    /// # Errors
    ///
    /// The reason why the frame is not accepted.
    pub fn push(
        &mut self,
        entry: Entry,
        frame: &[u8],
        timestamp: u64,
        channel: u64,
    ) -> Result<Option<Payload<'_>>, PushError> {
        let (entry, ether_type) = entry.numbers();
        let mut answer = sys::PoolAnswer::default();
        // SAFETY: the pool was created and not freed. The other pointers come from references that outlive the call,
        // and none overlap.
        let status = unsafe {
            sys::etherparse_pool_push(
                self.pool.as_ptr(),
                entry,
                ether_type,
                frame.as_ptr(),
                frame.len(),
                timestamp,
                channel,
                self.buffer.as_mut_ptr(),
                self.buffer.len(),
                &mut answer,
            )
        };
        pushed(status, &answer, &self.buffer)
    }

    /// Passes a frame that is already sliced to the pool, and returns the payload that it completes, if any. A frame
    /// without a fragment is not sliced again, since a pool ignores it.
    ///
    /// # Errors
    ///
    /// The reason why the fragment is not accepted.
    pub fn process_sliced_packet(
        &mut self,
        packet: &SlicedPacket<'_>,
        timestamp: u64,
        channel: u64,
    ) -> Result<Option<Payload<'_>>, PushError> {
        if !packet.is_ip_payload_fragmented() {
            return Ok(None);
        }
        self.push(packet.entry(), packet.frame(), timestamp, channel)
    }

    /// Returns the number of streams in the pool.
    #[must_use]
    pub fn streams(&self) -> usize {
        // SAFETY: the pool was created and not freed.
        unsafe { sys::etherparse_pool_streams(self.pool.as_ptr()) }
    }

    /// Returns the number of payload bytes in the pool: of each stream up to the greatest end of its fragments.
    /// Iterates over all streams.
    #[must_use]
    pub fn bytes(&self) -> usize {
        // SAFETY: the pool was created and not freed.
        unsafe { sys::etherparse_pool_bytes(self.pool.as_ptr()) }
    }

    /// Drops the streams whose last accepted fragment came before `timestamp`. Iterates over all streams, so call it
    /// once in a while, and not for each packet.
    pub fn drop_older(&mut self, timestamp: u64) {
        // SAFETY: the pool was created and not freed.
        unsafe { sys::etherparse_pool_drop_older(self.pool.as_ptr(), timestamp) };
    }
}

/// Returns what pushing a frame returned, by its status. The bytes of a payload are at the start of the buffer.
pub(crate) fn pushed<'a>(
    status: u32,
    answer: &sys::PoolAnswer,
    buffer: &'a [u8],
) -> Result<Option<Payload<'a>>, PushError> {
    match status {
        sys::OK => Ok(None),
        sys::COMPLETE => Ok(Some(Payload {
            ip_number: IpNumber(answer.ip_number),
            len_source: LenSource::of(answer.len_source).unwrap_or(LenSource::Slice),
            bytes: &buffer[..answer.len],
        })),
        sys::REFUSED => Err(PushError::Refused(Refusal::from(answer.refusal))),
        other => Err(PushError::of(other, answer.fragment_refusal)),
    }
}

/// Returns a buffer of this length, or the error if the allocation fails.
pub(crate) fn buffer_of(len: u16) -> Result<Vec<u8>, OutOfMemory> {
    let mut buffer = Vec::new();
    buffer.try_reserve_exact(len.into()).map_err(|_| OutOfMemory)?;
    buffer.resize(len.into(), 0);
    Ok(buffer)
}

impl fmt::Debug for Pool {
    /// Formats without the bytes of payloads.
    fn fmt(&self, f: &mut fmt::Formatter<'_>) -> fmt::Result {
        f.debug_struct("Pool").finish_non_exhaustive()
    }
}

impl Drop for Pool {
    fn drop(&mut self) {
        // SAFETY: the pool was created and not freed, and is not used afterwards.
        unsafe { sys::etherparse_pool_free(self.pool.as_ptr()) };
    }
}
