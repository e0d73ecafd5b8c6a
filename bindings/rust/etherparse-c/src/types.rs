//! Named numbers of protocols.

use core::fmt;

/// Ether type: protocol after a link header or a tag (IEEE 802).
#[derive(Clone, Copy, Debug, PartialEq, Eq, PartialOrd, Ord, Hash)]
pub struct EtherType(pub u16);

impl EtherType {
    /// Internet Protocol version 4.
    pub const IPV4: EtherType = EtherType(0x0800);
    /// Internet Protocol version 6.
    pub const IPV6: EtherType = EtherType(0x86dd);
    /// Address Resolution Protocol.
    pub const ARP: EtherType = EtherType(0x0806);
    /// VLAN tag (IEEE 802.1Q).
    pub const VLAN_TAGGED_FRAME: EtherType = EtherType(0x8100);
    /// Service tag (IEEE 802.1ad).
    pub const PROVIDER_BRIDGING: EtherType = EtherType(0x88a8);
    /// Older ether type of a second VLAN tag.
    pub const VLAN_DOUBLE_TAGGED_FRAME: EtherType = EtherType(0x9100);
    /// MACsec tag (IEEE 802.1AE).
    pub const MACSEC: EtherType = EtherType(0x88e5);
}

impl fmt::LowerHex for EtherType {
    fn fmt(&self, f: &mut fmt::Formatter<'_>) -> fmt::Result {
        self.0.fmt(f)
    }
}

/// IP number: protocol of the payload of an IP header or extension header.
#[derive(Clone, Copy, Debug, PartialEq, Eq, PartialOrd, Ord, Hash)]
pub struct IpNumber(pub u8);

impl IpNumber {
    /// Internet Control Message Protocol (RFC 792).
    pub const ICMP: IpNumber = IpNumber(1);
    /// Transmission Control Protocol (RFC 9293).
    pub const TCP: IpNumber = IpNumber(6);
    /// User Datagram Protocol (RFC 768).
    pub const UDP: IpNumber = IpNumber(17);
    /// Fragment header of IPv6 (RFC 8200, 4.5).
    pub const IPV6_FRAGMENTATION_HEADER: IpNumber = IpNumber(44);
    /// Authentication header (RFC 4302).
    pub const AUTHENTICATION_HEADER: IpNumber = IpNumber(51);
    /// ICMP for IPv6 (RFC 4443).
    pub const IPV6_ICMP: IpNumber = IpNumber(58);
}

/// Options of an IPv4 or TCP header: up to 40 bytes, stored inline.
#[derive(Clone, Copy)]
pub struct Options {
    bytes: [u8; 40],
    len: u8,
}

impl Options {
    /// No options.
    pub const NONE: Options = Options { bytes: [0; 40], len: 0 };

    /// Returns these options, or `None` if they have more than 40 bytes.
    ///
    /// ```
    /// use etherparse_c::Options;
    ///
    /// assert_eq!(&Options::new(&[1, 1, 0]).unwrap()[..], [1, 1, 0]);
    /// assert_eq!(Options::new(&[1; 41]), None);
    /// ```
    #[must_use]
    pub fn new(options: &[u8]) -> Option<Options> {
        let mut kept = Options::NONE;
        kept.bytes.get_mut(..options.len())?.copy_from_slice(options);
        kept.len = options.len() as u8;
        Some(kept)
    }
}

impl core::ops::Deref for Options {
    type Target = [u8];

    #[inline]
    fn deref(&self) -> &[u8] {
        &self.bytes[..usize::from(self.len)]
    }
}

impl PartialEq for Options {
    fn eq(&self, other: &Options) -> bool {
        **self == **other
    }
}

impl Eq for Options {}

impl core::hash::Hash for Options {
    fn hash<H: core::hash::Hasher>(&self, state: &mut H) {
        (**self).hash(state);
    }
}

impl Default for Options {
    fn default() -> Options {
        Options::NONE
    }
}

impl fmt::Debug for Options {
    fn fmt(&self, f: &mut fmt::Formatter<'_>) -> fmt::Result {
        (**self).fmt(f)
    }
}
