//! Link headers, and the tags after them.

use crate::views::{header, layer, View};
use crate::{sys, EtherType};
use core::fmt;

layer! {
    /// Link header of a frame.
    pub enum LinkSlice {
        /// Ethernet II header.
        Ethernet2(Ethernet2Slice, Ethernet2Header),
        /// Linux cooked capture header (SLL v1).
        LinuxSll(LinuxSllSlice, LinuxSllHeader),
    }
    /// Fields of a link header.
    pub enum LinkHeader;
}

header! {
    /// Ethernet II header: 14 bytes.
    pub struct Ethernet2Slice(self: LinkFields) {}
    /// Fields of an Ethernet II header.
    pub struct Ethernet2Header {
        /// Source MAC address, bytes 6 to 11.
        source: [u8; 6] = self.0.fields.source,
        /// Destination MAC address, bytes 0 to 5.
        destination: [u8; 6] = self.0.fields.destination,
        /// Ether type of the payload, bytes 12 and 13; may be that of a tag.
        ether_type: EtherType = EtherType(self.0.fields.ether_type),
    }
    debug |f| f.debug_struct("Ethernet2Slice").field("header", &self.to_header()).finish();
}

header! {
    /// Linux cooked capture header (SLL v1): 16 bytes.
    pub struct LinuxSllSlice(self: LinkFields) {}
    /// Fields of a Linux cooked capture header (SLL v1).
    pub struct LinuxSllHeader {
        /// Packet type, bytes 0 and 1: 0 to 7; 0 is sent to this host, 4 is sent by this host.
        packet_type: u16 = self.0.fields.packet_type,
        /// ARP hardware type of the device (ARPHRD), bytes 2 and 3.
        arp_hrd_type: u16 = self.0.fields.hardware_type,
        /// Length of the sender's address in bytes, bytes 4 and 5; may be more than the field of 8 bytes holds.
        sender_address_valid_length: u16 = self.0.fields.address_len,
        /// Sender's link-layer address, padded with zeros, bytes 6 to 13.
        sender_address: [u8; 8] = self.0.fields.address,
        /// Protocol type of the payload, bytes 14 and 15: an ether type for most hardware types.
        protocol_type: u16 = self.0.fields.protocol,
    }
    debug |f| f.debug_struct("LinuxSllSlice").field("header", &self.to_header()).finish();
}

layer! {
    /// Tag of a link extension.
    pub enum LinkExtSlice {
        /// VLAN tag.
        Vlan(SingleVlanSlice, SingleVlanHeader),
        /// MACsec tag.
        Macsec(MacsecSlice, MacsecHeader),
    }
    /// Fields of the tag of a link extension.
    pub enum LinkExtHeader;
}

header! {
    /// VLAN tag (IEEE 802.1Q): 4 bytes, after its own ether type.
    pub struct SingleVlanSlice(self: TagFields) {
        /// VLAN identifier (VID), the lower 12 bits of bytes 0 and 1: 0 to 4095.
        vlan_identifier: u16 = self.vlan_id(),
    }
    /// Fields of a VLAN tag (IEEE 802.1Q).
    pub struct SingleVlanHeader {
        /// Priority code point (PCP), the upper 3 bits of byte 0: 0 to 7.
        pcp: u8 = self.0.fields.priority,
        /// Drop eligible indicator (DEI): the frame may be dropped first under congestion.
        drop_eligible_indicator: bool = self.0.fields.drop_eligible != 0,
        /// VLAN identifier (VID), the lower 12 bits of bytes 0 and 1: 0 to 4095.
        vlan_id: u16 = self.0.fields.vlan_id,
        /// Ether type of the payload, bytes 2 and 3.
        ether_type: EtherType = EtherType(self.0.fields.ether_type),
    }
    debug |f| f.debug_struct("SingleVlanSlice").field("header", &self.to_header()).finish();
}

header! {
    /// MACsec tag (SecTAG, IEEE 802.1AE), after its own ether type: 6 bytes, 8 more with an SCI, and 2 more for the
    /// ether type of an unmodified payload.
    pub struct MacsecSlice(self: TagFields) {
        /// Ether type of the payload, if it is unmodified.
        next_ether_type: Option<EtherType> =
            if let MacsecPType::Unmodified(ether_type) = self.ptype() { Some(ether_type) } else { None },
    }
    /// Fields of a MACsec tag (SecTAG, IEEE 802.1AE).
    pub struct MacsecHeader {
        /// Protection of the payload, bits 3 and 2 of byte 0; the last two bytes are the ether type of an unmodified
        /// payload.
        ptype: MacsecPType = MacsecPType::of(&self.0.fields),
        /// End station (ES), bit 6 of byte 0: the source MAC address identifies the secure channel.
        endstation_id: bool = self.0.fields.macsec_flags & sys::MACSEC_ES != 0,
        /// Single copy broadcast (SCB), bit 4 of byte 0: the frame is a broadcast of an optical network (EPON).
        scb: bool = self.0.fields.macsec_flags & sys::MACSEC_SCB != 0,
        /// Association number of the secure channel (AN), the lowest 2 bits of byte 0: 0 to 3.
        an: u8 = self.0.fields.association_number,
        /// Short length (SL), the lower 6 bits of byte 1: number of bytes after the SecTAG if it is below 48, else 0.
        short_len: u8 = self.0.fields.short_len,
        /// Packet number (PN), bytes 2 to 5.
        packet_nr: u32 = self.0.fields.packet_number,
        /// Secure channel identifier (SCI), bytes 6 to 13, if bit 5 of byte 0 (SC) is set.
        sci: Option<u64> = (self.0.fields.macsec_flags & sys::MACSEC_SC != 0).then_some(self.0.fields.sci),
    }
    debug |f| f.debug_struct("MacsecSlice").field("header", &self.to_header()).finish();
}

/// Protection of the payload of a MACsec tag.
#[derive(Clone, Copy, Debug, PartialEq, Eq, Hash)]
pub enum MacsecPType {
    /// Unmodified payload of this ether type.
    Unmodified(EtherType),
    /// Modified, not encrypted.
    Modified,
    /// Encrypted, otherwise unmodified.
    EncryptedUnmodified,
    /// Encrypted.
    Encrypted,
}

impl MacsecPType {
    /// Returns the protection that the flags of a tag state.
    #[inline]
    fn of(tag: &sys::TagFields) -> MacsecPType {
        match tag.macsec_flags & (sys::MACSEC_E | sys::MACSEC_C) {
            0 => MacsecPType::Unmodified(EtherType(tag.ether_type)),
            sys::MACSEC_C => MacsecPType::Modified,
            sys::MACSEC_E => MacsecPType::EncryptedUnmodified,
            _ => MacsecPType::Encrypted,
        }
    }
}
