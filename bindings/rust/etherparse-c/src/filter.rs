use crate::numbered::numbered;
use crate::{sys, Entry, InvalidEnd, OutOfMemory};
use alloc::vec;
use alloc::vec::Vec;
use core::fmt;
use core::ptr::{self, NonNull};
use core::str::FromStr;

numbered! {
    /// Reason why a text is not a filter expression.
    pub enum FilterErrorKind {
        /// A character that no token contains.
        Character = FILTER_CHARACTER,
        /// Arithmetic, which is not supported.
        Arithmetic = FILTER_ARITHMETIC,
        /// A word of tcpdump that is not supported.
        NotTaken = FILTER_NOT_TAKEN,
        /// The text ends before the expression does.
        End = FILTER_END,
        /// A token that is not allowed after the tokens before it.
        Misplaced = FILTER_MISPLACED,
        /// A value without `host`, `port` or the like before it.
        Unqualified = FILTER_UNQUALIFIED,
        /// A word that begins no primitive.
        Unknown = FILTER_UNKNOWN,
        /// Not an IPv4 or IPv6 address.
        NotAnAddress = FILTER_NOT_AN_ADDRESS,
        /// Not an address or the first numbers of an IPv4 address.
        NotANetwork = FILTER_NOT_A_NETWORK,
        /// Not a MAC address.
        NotAStation = FILTER_NOT_A_STATION,
        /// Not a number up to 65535, and not the name of a port.
        NotAPort = FILTER_NOT_A_PORT,
        /// Not a range of ports.
        NotARange = FILTER_NOT_A_RANGE,
        /// Not a number up to 255.
        NotAProtocol = FILTER_NOT_A_PROTOCOL,
        /// Not a number from 1536 to 65535.
        NotAnEtherType = FILTER_NOT_AN_ETHER_TYPE,
        /// Not a number up to 4095.
        NotAVlan = FILTER_NOT_A_VLAN,
        /// Not a number up to 4294967295.
        NotANumber = FILTER_NOT_A_NUMBER,
        /// Not 1, 2 or 4.
        NotASize = FILTER_NOT_A_SIZE,
        /// An address of the other IP version.
        WrongFamily = FILTER_WRONG_FAMILY,
        /// Not a prefix length of the address.
        NotALength = FILTER_NOT_A_LENGTH,
        /// Not an IPv4 mask.
        NotAMask = FILTER_NOT_A_MASK,
        /// A bit of the address after the prefix is 1.
        HostBits = FILTER_HOST_BITS,
        /// A prefix length or mask after a host.
        NetOnly = FILTER_NET_ONLY,
        /// The 65th `(` or `not` that is open.
        Deep = FILTER_DEEP,
        /// Bytes after the first 65,536, which may begin within a character (so use `get`).
        Long = FILTER_LONG,
        /// The text is not UTF-8.
        NotUtf8 = FILTER_NOT_UTF8,
    }
}

impl fmt::Display for FilterErrorKind {
    fn fmt(&self, f: &mut fmt::Formatter<'_>) -> fmt::Result {
        let (mut text, mut written) = ([0; sys::REASON_TEXT_MAX as usize], 0);
        // SAFETY: all pointers come from references that outlive the call, and none overlap.
        let status =
            unsafe { sys::etherparse_filter_error_text(*self as u32, text.as_mut_ptr(), text.len(), &mut written) };
        debug_assert_eq!(status, sys::OK);
        f.write_str(core::str::from_utf8(&text[..written.saturating_sub(1)]).map_err(|_| fmt::Error)?)
    }
}

/// Reason why a text did not become a [`Filter`].
#[derive(Clone, Copy, Debug, PartialEq, Eq, Hash)]
#[non_exhaustive]
pub enum FilterError {
    /// The text is not a filter expression: the bytes from `start` to `end` are its first token that is not allowed
    /// after the tokens before it. If the text ends too early, both are its length. For the kind
    /// [`Long`](FilterErrorKind::Long) `start` may be within a character (so use `get`).
    Wrong {
        /// Reason.
        kind: FilterErrorKind,
        /// Offset in bytes at which the token begins.
        start: usize,
        /// Offset in bytes at which the token ends.
        end: usize,
    },
    /// An allocation failed.
    OutOfMemory,
}

impl fmt::Display for FilterError {
    fn fmt(&self, f: &mut fmt::Formatter<'_>) -> fmt::Result {
        match self {
            FilterError::Wrong { kind, start, end } => write!(f, "{kind} (bytes {start} to {end})"),
            FilterError::OutOfMemory => OutOfMemory.fmt(f),
        }
    }
}

impl core::error::Error for FilterError {}

/// Filter expression of the kind that people type for tcpdump.
///
/// The manual page etherparse-filter(7) of a release (`share/man/man7`) has the language, what each primitive matches,
/// and the differences from tcpdump.
///
/// ```
/// use etherparse_c::{Entry, Filter, FilterError, FilterErrorKind, PacketBuilder};
///
/// let mut frame = Vec::new();
/// PacketBuilder::ethernet2([1, 2, 3, 4, 5, 6], [7, 8, 9, 10, 11, 12])
///     .ipv4([10, 0, 0, 1], [10, 0, 0, 2], 20)
///     .udp(53, 4000)
///     .write(&mut frame, b"hello")?;
/// let filter: Filter = "udp port 53 and not host 10.0.0.3".parse()?;
/// assert!(filter.matches(&frame));
/// assert!(!filter.matches_from(Entry::Ip, &frame, 47));
/// assert_eq!(filter.to_string(), "udp src or dst port 53 and not src or dst host 10.0.0.3");
///
/// let error = "host 10.0.0.1 and hots x".parse::<Filter>().unwrap_err();
/// assert_eq!(error, FilterError::Wrong { kind: FilterErrorKind::NotAnAddress, start: 18, end: 22 });
/// assert_eq!(error.to_string(), "not an IP address (names are not looked up) (bytes 18 to 22)");
/// # Ok::<(), Box<dyn std::error::Error>>(())
/// ```
///
/// A filter may be sent to another thread, but threads cannot share it (it is not `Sync`): each thread parses its own,
/// or they share one in a `Mutex`.
///
/// ```
/// fn sent<T: Send>() {}
/// sent::<etherparse_c::Filter>();
/// ```
///
/// ```compile_fail
/// fn shared<T: Sync>() {}
/// shared::<etherparse_c::Filter>();
/// ```
pub struct Filter {
    raw: NonNull<sys::Filter>,
}

// SAFETY: a filter may go to another thread between two calls. Its calls must not run in two threads at once: so it is
// not `Sync`, as its pointer is not.
unsafe impl Send for Filter {}

impl FromStr for Filter {
    type Err = FilterError;

    /// Parses a filter expression. The empty text is the filter that matches every packet.
    fn from_str(text: &str) -> Result<Filter, FilterError> {
        let (mut raw, mut error) = (ptr::null_mut(), sys::FilterError::default());
        // SAFETY: all pointers come from references that outlive the call, and none overlap.
        let status = unsafe { sys::etherparse_filter_new(text.as_ptr(), text.len(), &mut raw, &mut error) };
        match (NonNull::new(raw), FilterErrorKind::of(error.kind)) {
            (Some(raw), _) => Ok(Filter { raw }),
            (None, Some(kind)) if status == sys::REFUSED => {
                Err(FilterError::Wrong { kind, start: error.start, end: error.end })
            }
            _ => Err(FilterError::OutOfMemory),
        }
    }
}

impl Filter {
    /// Returns whether the filter matches a frame that begins with an Ethernet II header and is not truncated.
    #[must_use]
    pub fn matches(&self, frame: &[u8]) -> bool {
        self.matches_from(Entry::Ethernet, frame, u32::try_from(frame.len()).unwrap_or(u32::MAX))
    }

    /// Returns whether the filter matches a packet with this original length, which is parsed as by
    /// [`LaxSlicedPacket::from_entry`](crate::LaxSlicedPacket::from_entry). A packet whose first header is invalid has
    /// no layers.
    #[must_use]
    pub fn matches_from(&self, entry: Entry, bytes: &[u8], wire_len: u32) -> bool {
        let ((number, ether_type), mut matches) = (entry.numbers(), 0);
        // SAFETY: the filter is used by one call at a time, since it is not `Sync`. The other pointers come from
        // references that outlive the call, and none overlap. An entry is always known here.
        unsafe {
            sys::etherparse_filter_matches(
                self.raw.as_ptr(),
                number,
                ether_type,
                bytes.as_ptr(),
                bytes.len(),
                wire_len,
                &mut matches,
            );
        }
        matches != 0
    }

    /// Returns for each of consecutive packets whether the filter matches it: packet 0 is `bytes[..ends[0]]`, and packet
    /// i is `bytes[ends[i - 1]..ends[i]]`. `wire_lens[i]` is the original length of packet i, or the number of its bytes
    /// if there is no such element.
    ///
    /// ```
    /// use etherparse_c::{Entry, Filter};
    ///
    /// let filter: Filter = "greater 10".parse()?;
    /// assert_eq!(filter.matches_many(Entry::Ethernet, &[0; 25], &[10, 19, 25], &[])?, [true, false, false]);
    /// assert_eq!(filter.matches_many(Entry::Ethernet, &[0; 25], &[10, 19, 25], &[9, 64])?, [false, true, false]);
    /// # Ok::<(), Box<dyn std::error::Error>>(())
    /// ```
    ///
    /// # Errors
    ///
    /// The first end that is invalid.
    pub fn matches_many(
        &self,
        entry: Entry,
        bytes: &[u8],
        ends: &[usize],
        wire_lens: &[u32],
    ) -> Result<Vec<bool>, InvalidEnd> {
        let ((number, ether_type), mut matched) = (entry.numbers(), 0);
        let mut matches = vec![0; ends.len()];
        // SAFETY: as in `matches_from`; each pointer points to memory of its length.
        let status = unsafe {
            sys::etherparse_filter_matches_many(
                self.raw.as_ptr(),
                number,
                ether_type,
                bytes.as_ptr(),
                bytes.len(),
                ends.as_ptr(),
                ends.len(),
                wire_lens.as_ptr(),
                wire_lens.len(),
                matches.as_mut_ptr(),
                matches.len(),
                &mut matched,
            )
        };
        if status != sys::OK {
            return Err(InvalidEnd { index: matched }); // an entry is always known here
        }
        Ok(matches.into_iter().map(|it: u8| it != 0).collect())
    }
}

impl fmt::Display for Filter {
    /// Writes the expression: each primitive with its qualifiers, and no redundant parentheses. Parsing it gives the
    /// same filter, if it has at most 65,536 bytes.
    fn fmt(&self, f: &mut fmt::Formatter<'_>) -> fmt::Result {
        let (mut text, mut written) = (vec![0; 80], 0);
        loop {
            // SAFETY: as in `matches_from`; the buffer has this length.
            let status =
                unsafe { sys::etherparse_filter_text(self.raw.as_ptr(), text.as_mut_ptr(), text.len(), &mut written) };
            match status {
                // the text ends with a zero byte
                sys::OK => return f.write_str(core::str::from_utf8(&text[..written - 1]).map_err(|_| fmt::Error)?),
                sys::TOO_SMALL => text = vec![0; written],
                _ => return Err(fmt::Error),
            }
        }
    }
}

impl fmt::Debug for Filter {
    fn fmt(&self, f: &mut fmt::Formatter<'_>) -> fmt::Result {
        f.debug_tuple("Filter").field(&format_args!("{self}")).finish()
    }
}

impl Drop for Filter {
    fn drop(&mut self) {
        // SAFETY: the filter is not used again.
        unsafe { sys::etherparse_filter_free(self.raw.as_ptr()) };
    }
}
