use crate::numbered::numbered;
use crate::{sys, SlicedPacket};

numbered! {
    /// Verdict on a checksum: that of an IPv4 header, or that of a UDP datagram, TCP segment, ICMP or ICMPv6 message.
    pub enum ChecksumVerdict {
        /// The checksum is valid.
        Valid = CHECKSUM_VALID,
        /// The checksum is invalid, or a UDP datagram over IPv6 has checksum 0, which RFC 8200 (8.1) permits only in
        /// tunnels that are configured for it.
        Invalid = CHECKSUM_INVALID,
        /// UDP datagram over IPv4 with checksum 0: the sender computed no checksum (RFC 768).
        Absent = CHECKSUM_ABSENT,
        /// The checksum cannot be verified: the payload is a fragment or incomplete; no length field counts it, as a
        /// UDP length of 0, unless the checksum is 0; the IP header has a source route or a routing header; or it is
        /// ICMPv6 over IPv4.
        Unknown = CHECKSUM_UNKNOWN,
    }
}

/// Verdicts on the checksums of a packet ([`SlicedPacket::checksums`]).
#[derive(Clone, Copy, Debug, PartialEq, Eq, Hash)]
pub struct ChecksumVerdicts {
    /// Verdict on the checksum of the IPv4 header, `Valid` or `Invalid`; `None` if the packet has no IPv4 header.
    pub ipv4_header: Option<ChecksumVerdict>,
    /// Verdict on the checksum of the transport layer; `None` if the packet has none and carries no fragment. That of a
    /// fragment is `Unknown`.
    pub transport: Option<ChecksumVerdict>,
}

impl SlicedPacket<'_> {
    /// Verifies the checksums of the IPv4 header and of the transport layer by one call, which reads the whole payload.
    ///
    /// A network card may fill in the checksums of outgoing packets after they are captured; those of such packets are
    /// then `Invalid`.
    ///
    /// ```
    /// use etherparse_c::{ChecksumVerdict, LaxSlicedPacket, SlicedPacket};
    ///
    /// let datagram = [
    ///     0x45, 0, 0, 30, 0, 0, 0x40, 0, 20, 17, 0xe3, 0x7b, 192, 168, 1, 1, 192, 168, 1, 2, // IPv4
    ///     0, 21, 4, 210, 0, 10, 0x76, 0x9d, 1, 2, // UDP, and 2 bytes
    /// ];
    /// let verdicts = SlicedPacket::from_ip(&datagram)?.checksums();
    /// assert_eq!(verdicts.ipv4_header, Some(ChecksumVerdict::Valid));
    /// assert_eq!(verdicts.transport, Some(ChecksumVerdict::Valid));
    ///
    /// let truncated = LaxSlicedPacket::from_ip(&datagram[..29])?;
    /// assert_eq!(truncated.checksums().transport, Some(ChecksumVerdict::Unknown));
    /// # Ok::<(), etherparse_c::Refusal>(())
    /// ```
    #[must_use]
    pub fn checksums(&self) -> ChecksumVerdicts {
        let mut fields = sys::Fields::default();
        // the call slices laxly, so it may find layers in a frame that was rejected
        if self.as_raw().net.kind != 0 {
            let ((entry, ether_type), frame) = (self.entry().numbers(), self.frame());
            // SAFETY: both pointers point to memory that outlives the call, and they do not overlap.
            let status =
                unsafe { sys::etherparse_checksums(entry, ether_type, frame.as_ptr(), frame.len(), &mut fields) };
            debug_assert_eq!(status, sys::OK);
        }
        ChecksumVerdicts {
            ipv4_header: ChecksumVerdict::of(fields.header_checksum),
            transport: ChecksumVerdict::of(fields.transport_checksum),
        }
    }
}
