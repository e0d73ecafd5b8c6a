"""Slices, builds and filters network frames, and reassembles fragments, by the shared object libetherparse_c.so.

Names are those of the C header etherparse.h, which documents each call in full; the layers of a frame are attributes.
Errors are raised. Any call may be made from any thread; calls on one pool or filter wait for each other.

    >>> import etherparse_c
    >>> route = etherparse_c.Route(version=4, ipv4_source=bytes([10, 0, 0, 1]), ipv4_destination=bytes([10, 0, 0, 2]))
    >>> datagram = etherparse_c.build_udp(route, 21, 1234, b"hello")
    >>> packet = etherparse_c.slice(datagram, etherparse_c.Entry.IP)
    >>> packet.transport.kind == etherparse_c.TransportKind.UDP, packet.destination_port, packet.payload_bytes
    (True, 1234, b'hello')
    >>> packet.source, packet.ttl, packet.tcp_flags
    (IPv4Address('10.0.0.1'), 64, None)
"""

from __future__ import annotations

import builtins
import ctypes
import enum
import itertools
import os
import pathlib
import threading
from array import array
from dataclasses import dataclass
from ipaddress import IPv4Address, IPv6Address
from typing import Any, Iterable, Iterator, NamedTuple, Optional, Sequence, Tuple, Union, overload

__all__ = [
    "VERSION", "MAX_PAYLOAD", "Status", "Entry", "LinkKind", "ExtKind", "NetKind", "TransportKind", "LenSource",
    "RefusalKind", "Layer", "TcpFlag", "MacsecFlag", "ChecksumVerdict", "FragmentRefusal", "OverlapPolicy",
    "EvictionCause", "FilterErrorKind", "IpAddress", "Packet", "Packets", "Part", "LinkExt", "Ip", "Payload", "Refusal",
    "VlanTag", "MacsecTag", "LinuxSll", "Arp", "Checksums", "Fields", "LinkFields", "TagFields", "IpFields",
    "ArpFields", "TransportFields", "Place", "Route", "TcpFields", "FragmentFields", "EtherparseError", "Refused",
    "FragmentRefused", "StreamDiscarded", "OverBudget", "TooLong", "UnknownChoice", "FilterError", "Filter", "Pool",
    "PoolPayload", "BoundedPool", "DefragLimits", "DefragStatistics", "StreamId", "EvictedStream", "slice", "slice_lax",
    "slice_many", "slice_lax_many", "build_udp", "build_tcp", "build_icmp_echo", "build_fragment", "checksum",
    "version",
]

VERSION = 200
"""Version of this module: 10000 times the major number, plus 100 times the minor one, plus the patch."""

MAX_PAYLOAD = 65535
"""Maximum payload length in a pool without a limit of its own, in bytes."""

Bytes = Union[bytes, bytearray, memoryview]
IpAddress = Union[IPv4Address, IPv6Address]


class Status(enum.IntEnum):
    """Status of a call. A caller of this module sees only OK: other statuses are raised, or returned as None."""

    OK = 0
    REFUSED = 1
    UNKNOWN_CHOICE = 2
    TOO_SMALL = 3
    TOO_LONG = 4
    OUT_OF_MEMORY = 5
    COMPLETE = 6
    FRAGMENT_REFUSED = 7
    PAYLOAD_WAITS = 8
    DISCARDED = 9
    OVER_BUDGET = 10


class Entry(enum.IntEnum):
    """First header of a frame."""

    ETHERNET = 0
    LINUX_SLL = 1
    ETHER_TYPE = 2
    IP = 3


class LinkKind(enum.IntEnum):
    """Kind of the link header; 0 is none."""

    ETHERNET2 = 1
    LINUX_SLL = 2


class ExtKind(enum.IntEnum):
    """Kind of the tag of a link extension; 0 is none."""

    VLAN = 1
    MACSEC = 2


class NetKind(enum.IntEnum):
    """Kind of the network layer; 0 is none."""

    ARP = 1
    IPV4 = 4
    IPV6 = 6


class TransportKind(enum.IntEnum):
    """Kind of the transport layer: its IP number; 0 is none."""

    ICMPV4 = 1
    TCP = 6
    UDP = 17
    ICMPV6 = 58


class LenSource(enum.IntEnum):
    """Length field that limits some bytes; SLICE is the length that was passed."""

    SLICE = 0
    MACSEC = 1
    IPV4 = 2
    IPV6 = 3
    UDP = 4
    ARP = 5


class RefusalKind(enum.IntEnum):
    """Kind of an error."""

    NONE = 0
    LEN = 1
    SLL_PACKET_TYPE = 2
    SLL_ARP_HARDWARE = 3
    MACSEC_VERSION = 4
    MACSEC_SHORT_LEN = 5
    IP_VERSION = 6
    IP_IHL = 7
    IPV4_VERSION = 8
    IPV4_IHL = 9
    IPV6_VERSION = 10
    IPV4_AUTH = 11
    IPV6_HOP_BY_HOP = 12
    IPV6_AUTH = 13
    TCP_DATA_OFFSET = 14


class Layer(enum.IntEnum):
    """Layer of a length error; 0 is none."""

    ETHERNET2_HEADER = 1
    LINUX_SLL_HEADER = 2
    VLAN_HEADER = 3
    MACSEC_HEADER = 4
    MACSEC_PACKET = 5
    ARP = 6
    IP_HEADER = 7
    IPV4_HEADER = 8
    IPV4_PACKET = 9
    IP_AUTH_HEADER = 10
    IPV6_HEADER = 11
    IPV6_PACKET = 12
    IPV6_EXT_HEADER = 13
    IPV6_FRAG_HEADER = 14
    UDP_HEADER = 15
    UDP_PAYLOAD = 16
    TCP_HEADER = 17
    ICMPV4 = 18
    ICMPV4_TIMESTAMP = 19
    ICMPV4_TIMESTAMP_REPLY = 20
    ICMPV6 = 21


class TcpFlag(enum.IntFlag):
    """Flags of TCP. NS is only in the fields of a packet, not in those of a header to build."""

    FIN = 1
    SYN = 2
    RST = 4
    PSH = 8
    ACK = 16
    URG = 32
    ECE = 64
    CWR = 128
    NS = 256


class MacsecFlag(enum.IntFlag):
    """Flags of a MACsec tag (SecTAG, IEEE 802.1AE)."""

    C = 4
    """The payload's text is changed."""
    E = 8
    """The payload is encrypted."""
    SCB = 16
    """Single copy broadcast."""
    SC = 32
    """The tag has a secure channel identifier (SCI)."""
    ES = 64
    """End station: the source MAC address identifies the secure channel."""


class ChecksumVerdict(enum.IntEnum):
    """Verdict on a checksum. NONE: the packet has no such header (transport layer: and is no fragment). ABSENT: UDP
    over IPv4 with checksum 0. UNKNOWN: the payload is a fragment, is incomplete, or is counted by no length field; the
    UDP length does not count the datagram, and its checksum is not 0; a source route or routing header may contain the
    destination address; or ICMPv6 over IPv4."""

    NONE = 0
    VALID = 1
    INVALID = 2
    ABSENT = 3
    UNKNOWN = 4


class FragmentRefusal(enum.IntEnum):
    """Reason why a fragment is rejected."""

    UNALIGNED = 1
    TOO_BIG = 2
    CONFLICTING_END = 3


class OverlapPolicy(enum.IntEnum):
    """Rule of a bounded pool for fragments that overlap earlier ones of their stream: each byte is that of the last or
    of the first accepted fragment, or a fragment that contradicts earlier ones discards the stream."""

    LAST_WINS = 0
    FIRST_WINS = 1
    DISCARD = 2


class EvictionCause(enum.IntEnum):
    """Cause for which a bounded pool evicts or discards a stream."""

    EXPIRED = 1
    OVERLAP = 2
    STREAMS = 3
    BYTES = 4


class FilterErrorKind(enum.IntEnum):
    """Reason why a text is not a filter expression."""

    CHARACTER = 1
    ARITHMETIC = 2
    NOT_TAKEN = 3
    END = 4
    MISPLACED = 5
    UNQUALIFIED = 6
    UNKNOWN = 7
    NOT_AN_ADDRESS = 8
    NOT_A_NETWORK = 9
    NOT_A_STATION = 10
    NOT_A_PORT = 11
    NOT_A_RANGE = 12
    NOT_A_PROTOCOL = 13
    NOT_AN_ETHER_TYPE = 14
    NOT_A_VLAN = 15
    NOT_A_NUMBER = 16
    NOT_A_SIZE = 17
    WRONG_FAMILY = 18
    NOT_A_LENGTH = 19
    NOT_A_MASK = 20
    HOST_BITS = 21
    NET_ONLY = 22
    DEEP = 23
    LONG = 24
    NOT_UTF8 = 25


class _Struct(ctypes.Structure):
    """Struct of the header, printed with its fields."""

    def __repr__(self) -> str:
        values = [(field[0], getattr(self, field[0])) for field in self._fields_]
        fields = ", ".join(f"{name}={[*it] if isinstance(it, ctypes.Array) else it!r}" for name, it in values)
        return f"{type(self).__name__}({fields})"


class Part(_Struct):
    """Kind of a header, its offset in the frame and its length. If the frame has none, kind and len are 0."""

    kind: int
    offset: int
    len: int
    _fields_ = [("kind", ctypes.c_uint32), ("offset", ctypes.c_size_t), ("len", ctypes.c_size_t)]


class LinkExt(_Struct):
    """Tag of a link extension; it starts after its own ether type."""

    kind: int
    vlan_id: int
    offset: int
    len: int
    _fields_ = [
        ("kind", ctypes.c_uint32), ("vlan_id", ctypes.c_uint16), ("offset", ctypes.c_size_t), ("len", ctypes.c_size_t),
    ]


class Ip(_Struct):
    """Fields of an IP header and its extension headers; all 0 if the packet is not IP."""

    version: int
    number: int
    fragmented: int
    more_fragments: int
    fragment_offset: int
    identification: int
    header_len: int
    _fields_ = [
        ("version", ctypes.c_uint8), ("number", ctypes.c_uint8), ("fragmented", ctypes.c_uint8),
        ("more_fragments", ctypes.c_uint8), ("fragment_offset", ctypes.c_uint16), ("identification", ctypes.c_uint32),
        ("header_len", ctypes.c_size_t),
    ]


class Payload(_Struct):
    """Payload of the last layer; `incomplete` is 1 if bytes that a length field counts are missing (lax slicing)."""

    len_source: int
    incomplete: int
    offset: int
    len: int
    _fields_ = [
        ("len_source", ctypes.c_uint32), ("incomplete", ctypes.c_uint32), ("offset", ctypes.c_size_t),
        ("len", ctypes.c_size_t),
    ]


class Refusal(_Struct):
    """Error of rejected bytes, or the error at which lax slicing stopped; all 0 for a frame."""

    kind: int
    layer: int
    len_source: int
    number: int
    required_len: int
    len: int
    layer_start_offset: int
    _fields_ = [
        ("kind", ctypes.c_uint32), ("layer", ctypes.c_uint32), ("len_source", ctypes.c_uint32),
        ("number", ctypes.c_uint32), ("required_len", ctypes.c_size_t), ("len", ctypes.c_size_t),
        ("layer_start_offset", ctypes.c_size_t),
    ]

    def __str__(self) -> str:
        """Returns the text of the error."""
        buffer, written = (ctypes.c_uint8 * 142)(), ctypes.c_size_t()
        status = _library.etherparse_2_refusal_text(ctypes.byref(self), buffer, 142, ctypes.byref(written))
        if status == Status.OUT_OF_MEMORY:
            raise MemoryError
        return bytes(buffer[: written.value - 1]).decode("ascii") if status == Status.OK else "no refusal"


class Place(_Struct):
    """Bytes of a packet, as the options of a header: their offset in the packet, and their number."""

    offset: int
    len: int
    _fields_ = [("offset", ctypes.c_size_t), ("len", ctypes.c_size_t)]


class LinkFields(_Struct):
    """Fields of the link header. The fields of the other kind of header are 0, and all without a link header."""

    destination: Sequence[int]
    source: Sequence[int]
    ether_type: int
    packet_type: int
    hardware_type: int
    address_len: int
    address: Sequence[int]
    protocol: int
    _fields_ = [
        ("destination", ctypes.c_uint8 * 6), ("source", ctypes.c_uint8 * 6), ("ether_type", ctypes.c_uint16),
        ("packet_type", ctypes.c_uint16), ("hardware_type", ctypes.c_uint16), ("address_len", ctypes.c_uint16),
        ("address", ctypes.c_uint8 * 8), ("protocol", ctypes.c_uint16),
    ]


class TagFields(_Struct):
    """Fields of a tag. The fields of the other kind of tag are 0, and all without a tag."""

    kind: int
    vlan_id: int
    ether_type: int
    priority: int
    drop_eligible: int
    macsec_flags: int
    association_number: int
    short_len: int
    packet_number: int
    sci: int
    _fields_ = [
        ("kind", ctypes.c_uint32), ("vlan_id", ctypes.c_uint16), ("ether_type", ctypes.c_uint16),
        ("priority", ctypes.c_uint8), ("drop_eligible", ctypes.c_uint8), ("macsec_flags", ctypes.c_uint8),
        ("association_number", ctypes.c_uint8), ("short_len", ctypes.c_uint8), ("packet_number", ctypes.c_uint32),
        ("sci", ctypes.c_uint64),
    ]


class IpFields(_Struct):
    """Fields of the IP header; all 0 if the packet is not IP. An IPv4 address is the first 4 bytes of its array."""

    version: int
    number: int
    next_header: int
    hop_limit: int
    dscp: int
    ecn: int
    dont_fragment: int
    more_fragments: int
    fragment_offset: int
    length: int
    checksum: int
    identification: int
    flow_label: int
    source: Sequence[int]
    destination: Sequence[int]
    options: Place
    _fields_ = [
        ("version", ctypes.c_uint8), ("number", ctypes.c_uint8), ("next_header", ctypes.c_uint8),
        ("hop_limit", ctypes.c_uint8), ("dscp", ctypes.c_uint8), ("ecn", ctypes.c_uint8),
        ("dont_fragment", ctypes.c_uint8), ("more_fragments", ctypes.c_uint8), ("fragment_offset", ctypes.c_uint16),
        ("length", ctypes.c_uint16), ("checksum", ctypes.c_uint16), ("identification", ctypes.c_uint32),
        ("flow_label", ctypes.c_uint32), ("source", ctypes.c_uint8 * 16), ("destination", ctypes.c_uint8 * 16),
        ("options", Place),
    ]


class ArpFields(_Struct):
    """Fields of the ARP packet, and the places of its addresses; all 0 if the packet is not ARP."""

    hardware_type: int
    protocol_type: int
    hardware_len: int
    protocol_len: int
    operation: int
    sender_hardware: Place
    sender_protocol: Place
    target_hardware: Place
    target_protocol: Place
    _fields_ = [
        ("hardware_type", ctypes.c_uint16), ("protocol_type", ctypes.c_uint16), ("hardware_len", ctypes.c_uint8),
        ("protocol_len", ctypes.c_uint8), ("operation", ctypes.c_uint16), ("sender_hardware", Place),
        ("sender_protocol", Place), ("target_hardware", Place), ("target_protocol", Place),
    ]


class TransportFields(_Struct):
    """Fields of the transport header. Those that it does not have are 0, and all without a transport header, except
    for the ports of a truncated or invalid one."""

    source_port: int
    destination_port: int
    checksum: int
    udp_length: int
    sequence_number: int
    acknowledgment_number: int
    tcp_flags: int
    window_size: int
    urgent_pointer: int
    data_offset: int
    icmp_type: int
    icmp_code: int
    icmp_rest: Sequence[int]
    options: Place
    _fields_ = [
        ("source_port", ctypes.c_uint16), ("destination_port", ctypes.c_uint16), ("checksum", ctypes.c_uint16),
        ("udp_length", ctypes.c_uint16), ("sequence_number", ctypes.c_uint32),
        ("acknowledgment_number", ctypes.c_uint32), ("tcp_flags", ctypes.c_uint16), ("window_size", ctypes.c_uint16),
        ("urgent_pointer", ctypes.c_uint16), ("data_offset", ctypes.c_uint8), ("icmp_type", ctypes.c_uint8),
        ("icmp_code", ctypes.c_uint8), ("icmp_rest", ctypes.c_uint8 * 4), ("options", Place),
    ]


class Fields(_Struct):
    """Fields of all headers of a packet, as in the C header. The checksums are fields of `ip` and `transport`; the
    verdicts `header_checksum` and `transport_checksum` are 0, and Packet.checksums has them."""

    link: LinkFields
    tags: Sequence[TagFields]
    ip: IpFields
    arp: ArpFields
    transport: TransportFields
    header_checksum: int
    transport_checksum: int
    _fields_ = [
        ("link", LinkFields), ("tags", TagFields * 3), ("ip", IpFields), ("arp", ArpFields),
        ("transport", TransportFields), ("header_checksum", ctypes.c_uint32), ("transport_checksum", ctypes.c_uint32),
    ]


class VlanTag(NamedTuple):
    """VLAN tag (IEEE 802.1Q)."""

    vlan_id: int
    """VLAN identifier (VID), 0 to 4095."""
    priority: int
    """Priority code point (PCP), 0 to 7."""
    drop_eligible: bool
    """Drop eligible indicator (DEI): the frame may be dropped first under congestion."""
    ether_type: int
    """Ether type of the payload, which may be that of another tag."""


class MacsecTag(NamedTuple):
    """MACsec tag (SecTAG, IEEE 802.1AE)."""

    flags: MacsecFlag
    association_number: int
    """Association number of the secure channel (AN), 0 to 3."""
    short_len: int
    """Short length (SL), 0 to 63: number of bytes after the SecTAG if it is below 48, else 0."""
    packet_number: int
    """Packet number (PN)."""
    sci: Optional[int]
    """Secure channel identifier (SCI), or None without the flag SC."""
    ether_type: Optional[int]
    """Ether type of the payload, or None if the payload is modified or encrypted."""


class LinuxSll(NamedTuple):
    """Linux cooked capture header (SLL v1)."""

    packet_type: int
    """Packet type, 0 to 7: 0 is sent to this host, 4 is sent by this host."""
    hardware_type: int
    """ARP hardware type of the device (ARPHRD)."""
    address: bytes
    """Sender's link-layer address; of a longer one its first 8 bytes."""
    address_len: int
    """Length of the sender's address in bytes; may be greater than 8."""
    protocol: int
    """Protocol of the payload: an ether type for most hardware types."""


class Arp(NamedTuple):
    """ARP packet (RFC 826). Of an IPv4 address, `ipaddress.ip_address` makes an IPv4Address."""

    hardware_type: int
    """Hardware type: 1 is Ethernet."""
    protocol_type: int
    """Protocol type: an ether type."""
    operation: int
    """Operation: 1 is a request, 2 a reply."""
    sender_hardware: bytes
    sender_protocol: bytes
    target_hardware: bytes
    target_protocol: bytes


class Checksums(NamedTuple):
    """Verdicts on the checksums of a packet."""

    header: ChecksumVerdict
    """Verdict on the header checksum of IPv4."""
    transport: ChecksumVerdict
    """Verdict on the checksum of the transport header."""


class Packet(_Struct):
    """Layers of a frame, or the error if the bytes are not a frame.

    The fields of its headers are attributes too: they are read from the bytes once, when the first of them is needed.
    An attribute of a header that the packet does not have is None, or empty if it is a tuple or bytes of any length.
    """

    link: Part
    link_exts: Sequence[LinkExt]
    link_ext_count: int
    source_port: int
    destination_port: int
    net: Part
    ip: Ip
    transport: Part
    payload: Payload
    refusal: Refusal
    frame: bytes
    """Bytes of the frame."""
    _fields_ = [
        ("link", Part), ("link_exts", LinkExt * 3), ("link_ext_count", ctypes.c_uint32),
        ("source_port", ctypes.c_uint16), ("destination_port", ctypes.c_uint16), ("net", Part), ("ip", Ip),
        ("transport", Part), ("payload", Payload), ("refusal", Refusal),
    ]

    _read: Optional[Fields] = None
    _verified: Optional[Checksums] = None
    _entry: Tuple[int, int]

    def _bytes(self, part: Any) -> bytes:
        return self.frame[part.offset : part.offset + part.len]

    @property
    def link_bytes(self) -> bytes:
        """Bytes of the link header."""
        return self._bytes(self.link)

    @property
    def net_bytes(self) -> bytes:
        """Bytes of IP with its extension headers, or of the whole ARP packet."""
        return self._bytes(self.net)

    @property
    def transport_bytes(self) -> bytes:
        """Bytes of the transport header."""
        return self._bytes(self.transport)

    @property
    def payload_bytes(self) -> bytes:
        """Bytes of the payload of the last layer."""
        return self._bytes(self.payload)

    @property
    def is_incomplete(self) -> bool:
        """Whether bytes of the payload that a length field counts are missing (lax slicing only)."""
        return self.payload.incomplete != 0

    @property
    def stop(self) -> Optional[Refusal]:
        """Error of the layer after the last one, if a layer must follow and is invalid (lax slicing only)."""
        return self.refusal if self.refusal.kind else None

    @property
    def fields(self) -> Fields:
        """Fields of all headers as numbers, read from the frame's bytes once; those of absent headers are 0.

        Raises UnknownChoice if the headers are not at their places in the bytes, since one of the two was changed.
        """
        read = self._read
        if read is None:
            read = Fields()
            if _library.etherparse_2_fields(self, self.frame, len(self.frame), read) != Status.OK:
                raise UnknownChoice("the bytes do not have the headers at their places")
            self._read = read  # another thread may do so too, with equal fields
        return read

    @property
    def ethernet_source(self) -> Optional[bytes]:
        """Source MAC address; its method hex(":") returns a text."""
        return bytes(self.fields.link.source) if self.link.kind == LinkKind.ETHERNET2 else None

    @property
    def ethernet_destination(self) -> Optional[bytes]:
        """Destination MAC address."""
        return bytes(self.fields.link.destination) if self.link.kind == LinkKind.ETHERNET2 else None

    @property
    def ether_type(self) -> Optional[int]:
        """Ether type in the Ethernet II header, which may be that of a tag."""
        return self.fields.link.ether_type if self.link.kind == LinkKind.ETHERNET2 else None

    @property
    def linux_sll(self) -> Optional[LinuxSll]:
        """Linux cooked capture header (SLL v1)."""
        if self.link.kind != LinkKind.LINUX_SLL:
            return None
        link = self.fields.link
        address = bytes(link.address)[: link.address_len]
        return LinuxSll(link.packet_type, link.hardware_type, address, link.address_len, link.protocol)

    @property
    def tags(self) -> Tuple[Union[VlanTag, MacsecTag], ...]:
        """VLAN and MACsec tags, from the outermost on."""
        return tuple(_tag(tag) for tag in self.fields.tags if tag.kind) if self.link_ext_count else ()

    @property
    def vlan_ids(self) -> Tuple[int, ...]:
        """Identifiers of the VLAN tags, from the outermost on."""
        return tuple(tag.vlan_id for tag in self.link_exts if tag.kind == ExtKind.VLAN)

    @property
    def vlan_priorities(self) -> Tuple[int, ...]:
        """Priorities (PCP) of the VLAN tags, from the outermost on."""
        return tuple(tag.priority for tag in self.tags if isinstance(tag, VlanTag))

    @property
    def source_bytes(self) -> bytes:
        """Source address of IP: 4 or 16 bytes."""
        ip = self.fields.ip
        return bytes(ip.source)[: _ADDRESS_LENS[ip.version]]

    @property
    def destination_bytes(self) -> bytes:
        """Destination address of IP: 4 or 16 bytes."""
        ip = self.fields.ip
        return bytes(ip.destination)[: _ADDRESS_LENS[ip.version]]

    @property
    def source(self) -> Optional[IpAddress]:
        """Source address of IP, which each access creates anew."""
        return _address(self.source_bytes)

    @property
    def destination(self) -> Optional[IpAddress]:
        """Destination address of IP, which each access creates anew."""
        return _address(self.destination_bytes)

    @property
    def protocol(self) -> Optional[int]:
        """IP number (protocol) of the payload after the extension headers."""
        return self.ip.number if self.ip.version else None

    @property
    def ttl(self) -> Optional[int]:
        """Time to live (TTL) of IPv4, hop limit of IPv6."""
        return self.fields.ip.hop_limit if self.ip.version else None

    @property
    def dscp(self) -> Optional[int]:
        """Differentiated services code point of IP, 0 to 63."""
        return self.fields.ip.dscp if self.ip.version else None

    @property
    def ecn(self) -> Optional[int]:
        """Explicit congestion notification of IP, 0 to 3."""
        return self.fields.ip.ecn if self.ip.version else None

    @property
    def identification(self) -> Optional[int]:
        """Number that all fragments of an IP payload share; 0 in IPv6 without a fragment header."""
        return self.ip.identification if self.ip.version else None

    @property
    def dont_fragment(self) -> Optional[bool]:
        """Whether "don't fragment" (DF) of IPv4 is set."""
        return self.fields.ip.dont_fragment != 0 if self.ip.version == 4 else None

    @property
    def more_fragments(self) -> Optional[bool]:
        """Whether "more fragments" (MF) of IP is set; in IPv6 of the first fragment header."""
        return self.ip.more_fragments != 0 if self.ip.version else None

    @property
    def fragment_offset(self) -> Optional[int]:
        """Offset in the reassembled IP payload, in bytes; in IPv6 of the first fragment header."""
        return self.ip.fragment_offset if self.ip.version else None

    @property
    def flow_label(self) -> Optional[int]:
        """Flow label of IPv6, 20 bits."""
        return self.fields.ip.flow_label if self.ip.version == 6 else None

    @property
    def ip_options(self) -> bytes:
        """Options of IPv4."""
        return self._bytes(self.fields.ip.options) if self.ip.version == 4 else b""

    @property
    def arp(self) -> Optional[Arp]:
        """ARP packet."""
        if self.net.kind != NetKind.ARP:
            return None
        arp = self.fields.arp
        places = arp.sender_hardware, arp.sender_protocol, arp.target_hardware, arp.target_protocol
        return Arp(arp.hardware_type, arp.protocol_type, arp.operation, *map(self._bytes, places))

    @property
    def ports(self) -> Optional[Tuple[int, int]]:
        """Source and destination port of UDP or TCP. Lax slicing also has those of a truncated or invalid header, if
        their 4 bytes are present; in `source_port` and `destination_port` they are 0."""
        if self.transport.kind in _WITH_PORTS:
            return self.source_port, self.destination_port
        if self.ip.number not in _WITH_PORTS or self.ip.fragmented or self.payload.len < 4:
            return None
        return self.fields.transport.source_port, self.fields.transport.destination_port

    @property
    def tcp_flags(self) -> Optional[TcpFlag]:
        """Flags of TCP."""
        return TcpFlag(self.fields.transport.tcp_flags) if self.transport.kind == TransportKind.TCP else None

    @property
    def sequence_number(self) -> Optional[int]:
        """Sequence number of TCP."""
        return self.fields.transport.sequence_number if self.transport.kind == TransportKind.TCP else None

    @property
    def acknowledgment_number(self) -> Optional[int]:
        """Acknowledgment number of TCP, valid with TcpFlag.ACK."""
        return self.fields.transport.acknowledgment_number if self.transport.kind == TransportKind.TCP else None

    @property
    def window_size(self) -> Optional[int]:
        """Window of TCP, not scaled."""
        return self.fields.transport.window_size if self.transport.kind == TransportKind.TCP else None

    @property
    def urgent_pointer(self) -> Optional[int]:
        """Urgent pointer of TCP, valid with TcpFlag.URG."""
        return self.fields.transport.urgent_pointer if self.transport.kind == TransportKind.TCP else None

    @property
    def tcp_options(self) -> bytes:
        """Options of TCP."""
        return self._bytes(self.fields.transport.options) if self.transport.kind == TransportKind.TCP else b""

    @property
    def icmp_type(self) -> Optional[int]:
        """Type of an ICMP or ICMPv6 message."""
        return self.fields.transport.icmp_type if self.transport.kind in _ICMP else None

    @property
    def icmp_code(self) -> Optional[int]:
        """Code of an ICMP or ICMPv6 message."""
        return self.fields.transport.icmp_code if self.transport.kind in _ICMP else None

    @property
    def icmp_rest(self) -> Optional[bytes]:
        """Bytes 4 to 7 of an ICMP or ICMPv6 message, whose meaning depends on the type."""
        return bytes(self.fields.transport.icmp_rest) if self.transport.kind in _ICMP else None

    @property
    def checksums(self) -> Checksums:
        """Verdicts on the checksums of the IPv4 header and the transport header, which read the payload once."""
        verified = self._verified
        if verified is None:
            fields = Fields()  # of this call alone, since it writes them more than once
            if self.net.kind:  # a rejected frame has no headers, although lax slicing may find some
                _library.etherparse_2_checksums(*self._entry, self.frame, len(self.frame), fields)
            verified = self._verified = Checksums(
                ChecksumVerdict(fields.header_checksum), ChecksumVerdict(fields.transport_checksum))
        return verified


_ADDRESS_LENS = {0: 0, 4: 4, 6: 16}  # by the version of IP
_WITH_PORTS = frozenset((6, 17))  # TCP and UDP
_ICMP = frozenset((1, 58))


def _address(packed: bytes) -> Optional[IpAddress]:
    """Returns the IP address of 4 or 16 bytes, or None."""
    if not packed:
        return None
    return IPv4Address(packed) if len(packed) == 4 else IPv6Address(packed)


def _tag(tag: TagFields) -> Union[VlanTag, MacsecTag]:
    if tag.kind == ExtKind.VLAN:
        return VlanTag(tag.vlan_id, tag.priority, tag.drop_eligible != 0, tag.ether_type)
    flags = MacsecFlag(tag.macsec_flags)
    return MacsecTag(
        flags, tag.association_number, tag.short_len, tag.packet_number, tag.sci if flags & MacsecFlag.SC else None,
        None if flags & (MacsecFlag.C | MacsecFlag.E) else tag.ether_type)


class EtherparseError(Exception):
    """Base class of the exceptions of this module."""


class Refused(EtherparseError, ValueError):
    """The bytes are not a frame: has the fields of the error, and its text as the message.

    For kind LEN, `layer` needs `required_len` bytes and has `len`, limited by `len_source`; it starts at
    `layer_start_offset`. For the kinds that name a number, `number` is the invalid value of a field.
    """

    def __init__(self, refusal: Refusal) -> None:
        super().__init__(str(refusal))
        self._refusal = refusal
        self.kind = RefusalKind(refusal.kind)
        self.layer: Optional[Layer] = Layer(refusal.layer) if refusal.layer else None
        self.len_source = LenSource(refusal.len_source)
        self.number: int = refusal.number
        self.required_len: int = refusal.required_len
        self.len: int = refusal.len
        self.layer_start_offset: int = refusal.layer_start_offset

    def __reduce__(self) -> Tuple[Any, ...]:  # so that it can be pickled
        return type(self), (self._refusal,)


class FragmentRefused(EtherparseError, ValueError):
    """A fragment is rejected; the pool is unchanged."""

    def __init__(self, fragment_refusal: int) -> None:
        self.fragment_refusal = FragmentRefusal(fragment_refusal)
        super().__init__(self.fragment_refusal.name.lower().replace("_", " "))

    def __reduce__(self) -> Tuple[Any, ...]:
        return type(self), (int(self.fragment_refusal),)


class StreamDiscarded(EtherparseError, ValueError):
    """The stream of a fragment is discarded, by this fragment or an earlier one: two versions of its payload came."""


class OverBudget(EtherparseError, ValueError):
    """The stream of a fragment alone needs more memory than the limits allow, and is evicted with this fragment."""


class TooLong(EtherparseError, ValueError):
    """The payload or the TCP options are too long for the headers."""


class UnknownChoice(EtherparseError, ValueError):
    """A number is not valid for its field."""


_SPACES = dict.fromkeys((*range(32), *range(127, 160)), " ")  # of control characters


class FilterError(EtherparseError, ValueError):
    """A text is not a filter expression: `kind` is the reason, and text[start:end] the wrong token; both are the length
    of the text if it ends too early. The message has the text with a caret under the token, and a space for each
    control character; for a text of more than 65,536 bytes it has only the reason."""

    def __init__(self, text: str, kind: int, start: int, end: int) -> None:
        self.text, self.kind, self.start, self.end = text, FilterErrorKind(kind), start, end
        buffer, written = (ctypes.c_uint8 * 80)(), ctypes.c_size_t()
        _library.etherparse_2_filter_error_text(kind, buffer, 80, ctypes.byref(written))
        self.reason = bytes(buffer[: max(written.value, 1) - 1]).decode("ascii")
        """Text of the reason."""
        if self.kind == FilterErrorKind.LONG:
            message = self.reason
        else:
            shown = text.translate(_SPACES)
            token = f"{shown[start:end]}: " if start < end else ""
            message = f"{token}{self.reason}\n  {shown}\n  {' ' * start}^"
        super().__init__(message)

    def __reduce__(self) -> Tuple[Any, ...]:
        return type(self), (self.text, int(self.kind), self.start, self.end)


def _number(name: str, value: int, bits: int) -> int:
    """Returns the number if its C type can hold it, since ctypes would truncate it."""
    if not 0 <= value < 1 << bits:
        raise ValueError(f"{name} is {value}, and has {bits} bits")
    return value


@dataclass(frozen=True)
class Route:
    """Headers before the transport header. The addresses of the other IP version are ignored. VLAN tags, at most two
    identifiers from the outermost on, need Ethernet addresses."""

    version: int
    hop_limit: int = 64
    ethernet_source: Optional[bytes] = None
    ethernet_destination: Optional[bytes] = None
    ipv4_source: bytes = bytes(4)
    ipv4_destination: bytes = bytes(4)
    ipv6_source: bytes = bytes(16)
    ipv6_destination: bytes = bytes(16)
    vlan_ids: Tuple[int, ...] = ()

    def _to_c(self) -> _TaggedRoute:
        tagged = _TaggedRoute()
        route = tagged.route
        route.version = _number("version", self.version, 8)
        route.hop_limit = _number("hop_limit", self.hop_limit, 8)
        if (self.ethernet_source is None) != (self.ethernet_destination is None):
            raise ValueError("one Ethernet address is given without the other")
        route.with_ethernet = self.ethernet_source is not None
        for name in ("ethernet_source", "ethernet_destination", "ipv4_source", "ipv4_destination", "ipv6_source",
                     "ipv6_destination"):
            address, place = getattr(self, name), getattr(route, name)
            if address is not None:
                if len(address) != len(place):
                    raise ValueError(f"{name} has {len(address)} bytes, and not {len(place)}")
                place[:] = address
        if len(self.vlan_ids) > 2:
            raise ValueError("there are more than two VLAN tags")
        tagged.tag_count = len(self.vlan_ids)
        for i, vlan_id in enumerate(self.vlan_ids):
            tagged.vlan_ids[i] = _number("vlan_ids", vlan_id, 16)
        return tagged


@dataclass(frozen=True)
class TcpFields:
    """Fields of a TCP header without options."""

    source_port: int
    destination_port: int
    sequence_number: int = 0
    acknowledgment_number: int = 0
    window_size: int = 0
    urgent_pointer: int = 0
    flags: int = 0
    """Sum of TcpFlag."""

    def _to_c(self) -> _TcpFields:
        widths = (16, 16, 32, 32, 16, 16, 8)
        names = [name for name, _ in _TcpFields._fields_]
        return _TcpFields(*(_number(name, getattr(self, name), width) for name, width in zip(names, widths)))


@dataclass(frozen=True)
class FragmentFields:
    """Fields of a fragment: of the IPv4 header, or of the IPv6 fragment header."""

    ip_number: int
    identification: int
    more_fragments: bool = False
    fragment_offset: int = 0
    """Offset of the fragment in the reassembled payload, in bytes: a multiple of 8."""

    def _to_c(self) -> _FragmentFields:
        return _FragmentFields(
            _number("ip_number", self.ip_number, 8), bool(self.more_fragments),
            _number("fragment_offset", self.fragment_offset, 16), _number("identification", self.identification, 32),
        )


class _Route(ctypes.Structure):
    _fields_ = [
        ("version", ctypes.c_uint8), ("with_ethernet", ctypes.c_uint8), ("hop_limit", ctypes.c_uint8),
        ("ethernet_source", ctypes.c_uint8 * 6), ("ethernet_destination", ctypes.c_uint8 * 6),
        ("ipv4_source", ctypes.c_uint8 * 4), ("ipv4_destination", ctypes.c_uint8 * 4),
        ("ipv6_source", ctypes.c_uint8 * 16), ("ipv6_destination", ctypes.c_uint8 * 16),
    ]


class _TaggedRoute(ctypes.Structure):
    _fields_ = [("route", _Route), ("tag_count", ctypes.c_uint32), ("vlan_ids", ctypes.c_uint16 * 2)]


class _TcpFields(ctypes.Structure):
    _fields_ = [
        ("source_port", ctypes.c_uint16), ("destination_port", ctypes.c_uint16), ("sequence_number", ctypes.c_uint32),
        ("acknowledgment_number", ctypes.c_uint32), ("window_size", ctypes.c_uint16),
        ("urgent_pointer", ctypes.c_uint16), ("flags", ctypes.c_uint8),
    ]


class _FragmentFields(ctypes.Structure):
    _fields_ = [
        ("ip_number", ctypes.c_uint8), ("more_fragments", ctypes.c_uint8), ("fragment_offset", ctypes.c_uint16),
        ("identification", ctypes.c_uint32),
    ]


class _PoolAnswer(ctypes.Structure):
    _fields_ = [
        ("refusal", Refusal), ("fragment_refusal", ctypes.c_uint32), ("len_source", ctypes.c_uint32),
        ("ip_number", ctypes.c_uint8), ("len", ctypes.c_size_t),
    ]


class _DefragLimits(ctypes.Structure):
    _fields_ = [
        ("streams", ctypes.c_size_t), ("bytes", ctypes.c_size_t), ("age", ctypes.c_uint64),
        ("overlap", ctypes.c_uint32), ("payload", ctypes.c_uint16),
    ]


class DefragStatistics(_Struct):
    """Counters of a bounded pool since it was created. `begun` is the sum of the six counters after it and the number
    of open streams."""

    begun: int
    """Streams that began with an accepted fragment."""
    completed: int
    """Streams whose payload was returned."""
    discarded: int
    """Streams that were discarded, since two versions of their payload came."""
    expired: int
    """Open streams that were evicted for their age, or by `expire`."""
    evicted_for_streams: int
    """Open streams that were evicted, since there were too many."""
    evicted_for_bytes: int
    """Open streams that were evicted, since all or the stream alone used too much memory."""
    removed: int
    """Open streams that `remove` or `clear` removed."""
    accepted: int
    """Fragments that were accepted."""
    rejected_unaligned: int
    """Fragments that were rejected as FragmentRefusal.UNALIGNED."""
    rejected_too_big: int
    """Fragments that were rejected as FragmentRefusal.TOO_BIG."""
    rejected_conflicting_end: int
    """Fragments that were rejected as FragmentRefusal.CONFLICTING_END."""
    rejected_out_of_memory: int
    """Fragments for which an allocation failed."""
    rejected_discarded: int
    """Fragments that were rejected with StreamDiscarded."""
    rejected_over_budget: int
    """Fragments that were rejected with OverBudget."""
    _fields_ = [
        (name, ctypes.c_uint64) for name in (
            "begun", "completed", "discarded", "expired", "evicted_for_streams", "evicted_for_bytes", "removed",
            "accepted", "rejected_unaligned", "rejected_too_big", "rejected_conflicting_end", "rejected_out_of_memory",
            "rejected_discarded", "rejected_over_budget")
    ]


class _StreamId(ctypes.Structure):
    _fields_ = [
        ("channel", ctypes.c_uint64), ("identification", ctypes.c_uint32), ("vlan_id_count", ctypes.c_uint32),
        ("vlan_ids", ctypes.c_uint16 * 3), ("version", ctypes.c_uint8), ("ip_number", ctypes.c_uint8),
        ("ipv4_source", ctypes.c_uint8 * 4), ("ipv4_destination", ctypes.c_uint8 * 4),
        ("ipv6_source", ctypes.c_uint8 * 16), ("ipv6_destination", ctypes.c_uint8 * 16),
    ]


class _EvictedStream(ctypes.Structure):
    _fields_ = [("id", _StreamId), ("first", ctypes.c_uint64), ("cause", ctypes.c_uint32)]


class _FilterError(ctypes.Structure):
    _fields_ = [("kind", ctypes.c_uint32), ("start", ctypes.c_size_t), ("end", ctypes.c_size_t)]


_u8, _u16, _u32, _u64, _size = ctypes.c_uint8, ctypes.c_uint16, ctypes.c_uint32, ctypes.c_uint64, ctypes.c_size_t
_bytes_in = (ctypes.c_char_p, _size)  # as stored by Python, never null
_bytes_out = (ctypes.POINTER(_u8), _size)
_written = ctypes.POINTER(_size)
_pool = _filter = ctypes.c_void_p
_many = (_u32, _u16, *_bytes_in, ctypes.POINTER(_size), _size, ctypes.POINTER(Packet), _size, _written)

_CALLS: dict[str, tuple[Any, tuple[Any, ...]]] = {
    "version": (_u32, ()),
    "slice": (_u32, (_u32, _u16, *_bytes_in, ctypes.POINTER(Packet))),
    "slice_lax": (_u32, (_u32, _u16, *_bytes_in, ctypes.POINTER(Packet))),
    "slice_many": (_u32, _many),
    "slice_lax_many": (_u32, _many),
    "fields": (_u32, (ctypes.POINTER(Packet), *_bytes_in, ctypes.POINTER(Fields))),
    "checksums": (_u32, (_u32, _u16, *_bytes_in, ctypes.POINTER(Fields))),
    "refusal_text": (_u32, (ctypes.POINTER(Refusal), *_bytes_out, _written)),
    "checksum": (_u16, _bytes_in),
    "build_tagged_udp": (_u32, (ctypes.POINTER(_TaggedRoute), _u16, _u16, *_bytes_in, *_bytes_out, _written)),
    "build_tagged_tcp": (
        _u32,
        (ctypes.POINTER(_TaggedRoute), ctypes.POINTER(_TcpFields), *_bytes_in, *_bytes_in, *_bytes_out, _written)),
    "build_tagged_icmp_echo": (
        _u32, (ctypes.POINTER(_TaggedRoute), _u8, _u16, _u16, *_bytes_in, *_bytes_out, _written)),
    "build_fragment": (
        _u32, (ctypes.POINTER(_TaggedRoute), ctypes.POINTER(_FragmentFields), *_bytes_in, *_bytes_out, _written)),
    "pool_new": (_u32, (ctypes.POINTER(_pool),)),
    "pool_with_limit": (_u32, (_u16, ctypes.POINTER(_pool))),
    "pool_free": (None, (_pool,)),
    "pool_push": (
        _u32, (_pool, _u32, _u16, *_bytes_in, _u64, _u64, *_bytes_out, ctypes.POINTER(_PoolAnswer))),
    "pool_drop_older": (None, (_pool, _u64)),
    "pool_streams": (_size, (_pool,)),
    "pool_bytes": (_size, (_pool,)),
    "defrag_limits_default": (None, (ctypes.POINTER(_DefragLimits),)),
    "bounded_pool_new": (_u32, (ctypes.POINTER(_DefragLimits), ctypes.c_char_p, ctypes.POINTER(_pool))),
    "bounded_pool_free": (None, (_pool,)),
    "bounded_pool_push": (
        _u32, (_pool, _u32, _u16, *_bytes_in, _u64, _u64, *_bytes_out, ctypes.POINTER(_PoolAnswer))),
    "bounded_pool_expire": (_size, (_pool, _u64, _u64)),
    "bounded_pool_remove": (_size, (_pool, ctypes.POINTER(_StreamId))),
    "bounded_pool_clear": (None, (_pool,)),
    "bounded_pool_streams": (_size, (_pool,)),
    "bounded_pool_discarded_streams": (_size, (_pool,)),
    "bounded_pool_held_bytes": (_size, (_pool,)),
    "bounded_pool_limits": (None, (_pool, ctypes.POINTER(_DefragLimits))),
    "bounded_pool_statistics": (None, (_pool, ctypes.POINTER(DefragStatistics))),
    "bounded_pool_evicted_count": (_size, (_pool,)),
    "bounded_pool_evicted": (_u32, (_pool, _size, ctypes.POINTER(_EvictedStream))),
    "filter_new": (_u32, (*_bytes_in, ctypes.POINTER(_filter), ctypes.POINTER(_FilterError))),
    "filter_free": (None, (_filter,)),
    "filter_matches": (_u32, (_filter, _u32, _u16, *_bytes_in, _u32, ctypes.POINTER(_u8))),
    "filter_matches_many": (
        _u32,
        (_filter, _u32, _u16, *_bytes_in, ctypes.POINTER(_size), _size, ctypes.POINTER(_u32), _size, *_bytes_out,
         _written)),
    "filter_text": (_u32, (_filter, *_bytes_out, _written)),
    "filter_error_text": (_u32, (_u32, *_bytes_out, _written)),
}
"""Result and parameter types of each export that is called here, by its name without the first words."""


def _loaded() -> Any:
    """Loads the shared object: that of ETHERPARSE_C_LIBRARY, or one in the folder of this module or in lib of a
    release, or the installed one."""
    here, name = pathlib.Path(__file__).resolve().parent, "libetherparse_c.so.2"
    given = os.environ.get("ETHERPARSE_C_LIBRARY")
    near = [path for path in (here / name, here.parent.parent / "lib" / name) if path.exists()]
    path = given or (str(near[0]) if near else name)
    try:
        library = ctypes.CDLL(path)
        for call, (restype, argtypes) in _CALLS.items():
            function = getattr(library, f"etherparse_2_{call}")
            function.restype, function.argtypes = restype, argtypes
    except (OSError, AttributeError) as error:
        raise ImportError(
            f"etherparse_c: {error}: unpack etherparse-c-VERSION-ARCH-linux.tar.gz and use its folder python, or let "
            "ETHERPARSE_C_LIBRARY name its lib/libetherparse_c.so") from error
    return library


_library = _loaded()


def version() -> int:
    """Returns the version of the shared object, to be compared with VERSION."""
    return int(_library.etherparse_2_version())


def _as_bytes(given: Bytes) -> bytes:
    """Returns the bytes themselves, or a copy of mutable ones."""
    return given if type(given) is bytes else bytes(memoryview(given))


def slice(frame: Bytes, entry: int = 0, ether_type: int = 0) -> Packet:
    """Slices a frame, whose first header is `entry` (0 is Entry.ETHERNET); `ether_type` is read for Entry.ETHER_TYPE
    only.

    Raises Refused if the bytes are not a frame, and UnknownChoice if the entry is unknown.
    """
    return _sliced(_library.etherparse_2_slice, frame, entry, ether_type)


def slice_lax(data: Bytes, entry: int = 0, ether_type: int = 0) -> Packet:
    """Slices a packet that was truncated by the capture, or whose length fields do not match its bytes, up to the first
    invalid layer. The entries are those of slice; a valid frame has the layers of slice. If a layer must follow and is
    invalid, `stop` of the packet is its error, and the payload starts with its available bytes; `is_incomplete` is
    whether bytes of the payload are missing.

    Raises Refused if the first header is invalid, and UnknownChoice if the entry is unknown.
    """
    return _sliced(_library.etherparse_2_slice_lax, data, entry, ether_type)


def _sliced(call: Any, frame: Bytes, entry: int, ether_type: int) -> Packet:
    """Slices a frame by one of the slicing calls."""
    if type(frame) is not bytes:
        frame = _as_bytes(frame)
    if entry >> 32 or ether_type >> 16:
        _number("entry", entry, 32), _number("ether_type", ether_type, 16)
    packet = Packet()
    status = call(entry, ether_type, frame, len(frame), packet)
    if status == 0:
        packet.frame, packet._entry = frame, (entry, ether_type)
        return packet
    if status == Status.REFUSED:
        raise Refused(packet.refusal)
    raise UnknownChoice(f"entry is {entry}")


class Packets(Sequence[Packet]):
    """Result of slice_many and slice_lax_many: a packet for each frame. The kind of its refusal is not 0 if slice_many
    rejected the frame, or if slice_lax_many stopped at an error."""

    def __init__(self, packets: Any, frames: Sequence[bytes], entry: Tuple[int, int]) -> None:
        self._packets, self._frames, self._entry = packets, frames, entry

    def __len__(self) -> int:
        return len(self._frames)

    @overload
    def __getitem__(self, index: int) -> Packet: ...

    @overload
    def __getitem__(self, index: builtins.slice) -> Sequence[Packet]: ...

    def __getitem__(self, index: Any) -> Any:
        if isinstance(index, builtins.slice):
            return [self[i] for i in range(*index.indices(len(self)))]
        packet = self._packets[range(len(self))[index]]
        packet.frame, packet._entry = self._frames[index], self._entry
        return packet

    def __iter__(self) -> Iterator[Packet]:
        return (self[i] for i in range(len(self)))


def slice_many(frames: Iterable[Bytes], entry: int = Entry.ETHERNET, ether_type: int = 0) -> Packets:
    """Slices many frames in one call. Errors are not raised: packet.refusal has the error of a rejected frame."""
    return _sliced_many(_library.etherparse_2_slice_many, frames, entry, ether_type)


def slice_lax_many(frames: Iterable[Bytes], entry: int = Entry.ETHERNET, ether_type: int = 0) -> Packets:
    """Slices many packets in one call, each as slice_lax. Errors are not raised: packet.stop is the error of the first
    invalid layer. If that is the first header, the packet has no layers."""
    return _sliced_many(_library.etherparse_2_slice_lax_many, frames, entry, ether_type)


def _ends(frames: Sequence[bytes]) -> Any:
    """Returns the array of the frames' ends in their joined bytes."""
    ends = array("Q", itertools.accumulate(map(len, frames)))
    return (_size * len(frames)).from_buffer(ends) if frames else (_size * 1)()


def _sliced_many(call: Any, frames: Iterable[Bytes], entry: int, ether_type: int) -> Packets:
    """Slices many frames by one of the calls for many."""
    kept = tuple(frames)
    if not set(map(type, kept)) <= {bytes}:
        kept = tuple(map(_as_bytes, kept))
    joined, count = b"".join(kept), len(kept)
    packets, sliced = (Packet * max(count, 1))(), _size()
    status = call(
        _number("entry", entry, 32), _number("ether_type", ether_type, 16), joined, len(joined), _ends(kept), count,
        packets, count, sliced)
    if status != Status.OK:
        raise UnknownChoice(f"entry is {entry}")
    return Packets(packets, kept, (entry, ether_type))


def checksum(data: Bytes) -> int:
    """Returns the Internet checksum (RFC 1071) of the bytes."""
    data = _as_bytes(data)
    return int(_library.etherparse_2_checksum(data, len(data)))


def _built(call: Any, arguments: tuple[Any, ...], payload: Bytes) -> bytes:
    """Builds a frame by one of the building calls, in a buffer for the longest headers (Ethernet, two tags, IPv6 with a
    fragment header, TCP with options), so that it is never too small."""
    payload = _as_bytes(payload)
    buffer, written = (_u8 * (14 + 8 + 48 + 60 + len(payload)))(), _size()
    status = call(*arguments, payload, len(payload), buffer, len(buffer), written)
    if status == Status.OK:
        return ctypes.string_at(buffer, written.value)
    if status == Status.OUT_OF_MEMORY:
        raise MemoryError
    if status == Status.TOO_LONG:
        raise TooLong(f"{len(payload)} bytes of payload, or the options, are too many")
    raise UnknownChoice("a number of the route or the fields is none of those that its place can have")


def build_udp(route: Route, source_port: int, destination_port: int, payload: Bytes) -> bytes:
    """Returns the frame of a UDP datagram. Raises TooLong and UnknownChoice."""
    ports = _number("source_port", source_port, 16), _number("destination_port", destination_port, 16)
    return _built(_library.etherparse_2_build_tagged_udp, (route._to_c(), *ports), payload)


def build_tcp(route: Route, fields: TcpFields, payload: Bytes, options: Bytes = b"") -> bytes:
    """Returns the frame of a TCP segment; options are padded with zero bytes to a multiple of 4. Raises TooLong and
    UnknownChoice."""
    options = _as_bytes(options)
    arguments = (route._to_c(), fields._to_c(), options, len(options))
    return _built(_library.etherparse_2_build_tagged_tcp, arguments, payload)


def build_icmp_echo(route: Route, is_reply: bool, id: int, seq: int, payload: Bytes) -> bytes:
    """Returns the frame of an ICMP echo message, or ICMPv6 if the version is 6. Raises TooLong and UnknownChoice."""
    arguments = (route._to_c(), bool(is_reply), _number("id", id, 16), _number("seq", seq, 16))
    return _built(_library.etherparse_2_build_tagged_icmp_echo, arguments, payload)


def build_fragment(route: Route, fields: FragmentFields, payload: Bytes) -> bytes:
    """Returns the frame of a fragment of a longer payload. Needs up to 64 KB of stack, all other calls 2. Raises
    TooLong and UnknownChoice."""
    return _built(_library.etherparse_2_build_fragment, (route._to_c(), fields._to_c()), payload)


class PoolPayload(NamedTuple):
    """Reassembled payload."""

    data: bytes
    ip_number: int
    len_source: LenSource


class _AnyPool:
    """Base class of pools and bounded pools. Their calls wait for each other."""

    _push: Any
    _streams: Any
    _free: Any

    def __init__(self, limit: int) -> None:
        self._pool: Optional[int] = None
        self._lock = threading.Lock()
        # as long as the longest payload can be, so that none waits in the pool
        self._buffer = (_u8 * max(limit, 1))()
        self._limit = limit

    def _open(self) -> int:
        if self._pool is None:
            raise ValueError("the pool is closed")
        return self._pool

    def push(self, frame: Bytes, timestamp: int, channel: int = 0, entry: int = Entry.ETHERNET,
             ether_type: int = 0) -> Optional[PoolPayload]:
        """Passes a frame to the pool, and returns the payload that it completes, if any.

        Raises Refused if the bytes are not a frame, FragmentRefused if its fragment is rejected, MemoryError and
        UnknownChoice; the streams are then unchanged. A bounded pool also raises StreamDiscarded and OverBudget, and
        first evicts the stream of the fragment if it had expired.
        """
        frame, answer = _as_bytes(frame), _PoolAnswer()
        arguments = (_number("entry", entry, 32), _number("ether_type", ether_type, 16), frame, len(frame),
                     _number("timestamp", timestamp, 64), _number("channel", channel, 64))
        with self._lock:
            status = self._push(self._open(), *arguments, self._buffer, self._limit, answer)
            if status == Status.COMPLETE:
                data = ctypes.string_at(self._buffer, answer.len)
                return PoolPayload(data, answer.ip_number, LenSource(answer.len_source))
        if status == Status.OK:
            return None
        if status == Status.REFUSED:
            raise Refused(answer.refusal)
        if status == Status.FRAGMENT_REFUSED:
            raise FragmentRefused(answer.fragment_refusal)
        if status == Status.OUT_OF_MEMORY:
            raise MemoryError
        if status == Status.DISCARDED:
            raise StreamDiscarded("its fragments contradict each other")
        if status == Status.OVER_BUDGET:
            raise OverBudget("it needs more memory than the limits allow")
        raise UnknownChoice(f"entry is {entry}")

    def streams(self) -> int:
        """Returns the number of streams; of a bounded pool only the open ones."""
        with self._lock:
            return int(self._streams(self._open()))

    def close(self) -> None:
        """Frees the memory of the pool; further calls do nothing."""
        with self._lock:
            pool, self._pool = self._pool, None
            if pool is not None:
                self._free(pool)

    def __exit__(self, *_: object) -> None:
        self.close()

    def __del__(self) -> None:
        if getattr(self, "_pool", None) is not None and _library is not None:  # as may be the case when Python exits
            self.close()


class Pool(_AnyPool):
    """Reassembles the fragmented payloads of many streams, each as if it were alone.

    If frames may be hostile, use a BoundedPool. Its calls wait for each other. A `with` statement closes it and frees
    its memory at the end; later calls raise ValueError.
    """

    _push, _streams = _library.etherparse_2_pool_push, _library.etherparse_2_pool_streams
    _free = _library.etherparse_2_pool_free

    def __init__(self, limit: int = MAX_PAYLOAD) -> None:
        super().__init__(_number("limit", limit, 16))
        pool = _pool()
        if _library.etherparse_2_pool_with_limit(limit, ctypes.byref(pool)) != Status.OK:
            raise MemoryError
        self._pool = pool.value

    def drop_older(self, timestamp: int) -> None:
        """Drops the streams whose last accepted fragment came before `timestamp`."""
        _number("timestamp", timestamp, 64)
        with self._lock:
            _library.etherparse_2_pool_drop_older(self._open(), timestamp)

    def bytes(self) -> int:
        """Returns the number of payload bytes, of each stream up to the greatest end of its fragments."""
        with self._lock:
            return int(_library.etherparse_2_pool_bytes(self._open()))

    def __enter__(self) -> Pool:
        self._open()
        return self


@dataclass(frozen=True)
class DefragLimits:
    """Limits of a bounded pool. A value that is not given is that of the library."""

    streams: Optional[int] = None
    """Greatest number of streams, open and discarded ones; 0 counts as 1."""
    bytes: Optional[int] = None
    """Greatest memory of all streams in bytes: the capacities of their buffers."""
    payload: Optional[int] = None
    """Greatest length of a payload in bytes. A fragment that ends above it is rejected."""
    age: Optional[int] = None
    """Time that a stream may stay after its first accepted fragment, in the unit of the timestamps."""
    overlap: Optional[int] = None
    """Rule for fragments that overlap earlier ones: an OverlapPolicy."""

    def _to_c(self) -> _DefragLimits:
        limits = _DefragLimits()
        _library.etherparse_2_defrag_limits_default(ctypes.byref(limits))
        for name, bits in (("streams", 64), ("bytes", 64), ("payload", 16), ("age", 64), ("overlap", 32)):
            value = getattr(self, name)
            if value is not None:
                setattr(limits, name, _number(name, value, bits))
        return limits


class StreamId(NamedTuple):
    """Identifier of a stream: what all its fragments share. Addresses have 4 bytes in IPv4, and 16 in IPv6."""

    source: bytes
    destination: bytes
    identification: int
    ip_number: int
    vlan_ids: Tuple[int, ...]
    channel: int

    def _to_c(self) -> _StreamId:
        length = len(self.source)
        if length not in (4, 16) or len(self.destination) != length:
            raise ValueError(f"the addresses have {length} and {len(self.destination)} bytes")
        if len(self.vlan_ids) > 3:
            raise ValueError("there are more than three VLAN tags")
        raw = _StreamId(
            _number("channel", self.channel, 64), _number("identification", self.identification, 32),
            len(self.vlan_ids), version=4 if length == 4 else 6, ip_number=_number("ip_number", self.ip_number, 8))
        for i, vlan_id in enumerate(self.vlan_ids):
            raw.vlan_ids[i] = _number("vlan_ids", vlan_id, 16)
        source, destination = (
            (raw.ipv4_source, raw.ipv4_destination) if length == 4 else (raw.ipv6_source, raw.ipv6_destination))
        source[:], destination[:] = self.source, self.destination
        return raw


class EvictedStream(NamedTuple):
    """Stream that a bounded pool evicted or discarded, or a discarded one whose identifier it evicted; `first` is the
    timestamp of its first accepted fragment."""

    id: StreamId
    cause: EvictionCause
    first: int


def _evicted_stream(raw: _EvictedStream) -> EvictedStream:
    id = raw.id
    source, destination = (
        (id.ipv4_source, id.ipv4_destination) if id.version == 4 else (id.ipv6_source, id.ipv6_destination))
    stream = StreamId(
        bytes(source), bytes(destination), id.identification, id.ip_number, tuple(id.vlan_ids[: id.vlan_id_count]),
        id.channel)
    return EvictedStream(stream, EvictionCause(raw.cause), raw.first)


class BoundedPool(_AnyPool):
    """Reassembles the fragmented payloads of hostile traffic: within limits for streams, memory and age, with a rule
    for fragments that overlap, and with a hash whose seed a sender does not know.

    `seed` is 16 random bytes; without it they come from os.urandom. Its calls wait for each other. A `with` statement
    closes it and frees its memory at the end; later calls raise ValueError.
    """

    _push, _streams = _library.etherparse_2_bounded_pool_push, _library.etherparse_2_bounded_pool_streams
    _free = _library.etherparse_2_bounded_pool_free

    def __init__(self, limits: DefragLimits = DefragLimits(), seed: Optional[Bytes] = None) -> None:
        given = limits._to_c()
        super().__init__(given.payload)
        seed = os.urandom(16) if seed is None else _as_bytes(seed)
        if len(seed) != 16:
            raise ValueError(f"the seed has {len(seed)} bytes, and not 16")
        pool = _pool()
        status = _library.etherparse_2_bounded_pool_new(ctypes.byref(given), seed, ctypes.byref(pool))
        if status == Status.UNKNOWN_CHOICE:
            raise UnknownChoice(f"overlap is {given.overlap}")
        if status != Status.OK:
            raise MemoryError
        self._pool = pool.value

    @property
    def limits(self) -> DefragLimits:
        """Limits of the pool."""
        limits = _DefragLimits()
        with self._lock:
            _library.etherparse_2_bounded_pool_limits(self._open(), ctypes.byref(limits))
        return DefragLimits(limits.streams, limits.bytes, limits.payload, limits.age, limits.overlap)

    def expire(self, now: int, idle: int = (1 << 64) - 1) -> int:
        """Evicts each stream that is older than the age of the limits, or whose last accepted fragment came more than
        `idle` before `now`, and returns their number."""
        _number("now", now, 64), _number("idle", idle, 64)
        with self._lock:
            return int(_library.etherparse_2_bounded_pool_expire(self._open(), now, idle))

    def remove(self, id: StreamId) -> bool:
        """Removes the stream with this identifier, open or discarded, and returns whether there was one."""
        raw = id._to_c()
        with self._lock:
            return bool(_library.etherparse_2_bounded_pool_remove(self._open(), ctypes.byref(raw)))

    def clear(self) -> None:
        """Removes all streams. The counters stay."""
        with self._lock:
            _library.etherparse_2_bounded_pool_clear(self._open())

    def discarded_streams(self) -> int:
        """Returns the number of discarded streams whose identifiers still count as streams of the limits."""
        with self._lock:
            return int(_library.etherparse_2_bounded_pool_discarded_streams(self._open()))

    def held_bytes(self) -> int:
        """Returns the memory of all streams in bytes: the capacities of their buffers."""
        with self._lock:
            return int(_library.etherparse_2_bounded_pool_held_bytes(self._open()))

    def statistics(self) -> DefragStatistics:
        """Returns the counters since the pool was created."""
        statistics = DefragStatistics()
        with self._lock:
            _library.etherparse_2_bounded_pool_statistics(self._open(), statistics)
        return statistics

    def evicted(self) -> Tuple[EvictedStream, ...]:
        """Returns the streams that the last push, expire, remove or clear evicted or discarded, of whatever thread:
        first that of the fragment, if it had expired, then the others in the order of their last accepted fragments.
        Threads that share a pool need a lock of their own around a call and this one."""
        with self._lock:
            pool, raw = self._open(), _EvictedStream()
            streams = []
            for index in range(_library.etherparse_2_bounded_pool_evicted_count(pool)):
                _library.etherparse_2_bounded_pool_evicted(pool, index, raw)
                streams.append(_evicted_stream(raw))
        return tuple(streams)

    def __enter__(self) -> BoundedPool:
        self._open()
        return self


class Filter:
    """Filter expression of the kind that people type for tcpdump, such as "tcp port 443 and not host 10.0.0.1".

    The manual page etherparse-filter(7) of a release (share/man/man7) has the language, what each primitive matches,
    and the differences from tcpdump. Raises FilterError if the text is not a filter expression. `str` of a filter is
    its expression with each qualifier; parsing it gives the same filter, if it has at most 65,536 bytes. Calls on one
    filter wait for each other, so each thread should make its own. A `with` statement closes a filter and frees its
    memory at the end; later calls raise ValueError.

    >>> datagram = build_udp(Route(version=4), 53, 1234, b"")
    >>> Filter("udp port 53").matches(datagram, Entry.IP)
    True
    """

    def __init__(self, text: str) -> None:
        self._filter: Optional[int] = None
        self._lock = threading.Lock()
        given, made, error = text.encode(), _filter(), _FilterError()
        status = _library.etherparse_2_filter_new(given, len(given), ctypes.byref(made), ctypes.byref(error))
        if status == Status.REFUSED:
            start, end = (len(given[:place].decode(errors="ignore")) for place in (error.start, error.end))
            raise FilterError(text, error.kind, start, end)
        if status != Status.OK:
            raise MemoryError
        self._filter = made.value

    def _open(self) -> int:
        if self._filter is None:
            raise ValueError("the filter is closed")
        return self._filter

    def matches(self, frame: Bytes, entry: int = Entry.ETHERNET, ether_type: int = 0,
                wire_len: Optional[int] = None) -> bool:
        """Returns whether the filter matches a packet, which is read as by slice_lax; without a valid first header it
        has no layers. `wire_len` is its original length, and that of the frame if it is not given.

        Raises UnknownChoice if the entry is unknown.
        """
        frame, matched = _as_bytes(frame), _u8()
        length = _number("wire_len", len(frame) if wire_len is None else wire_len, 32)
        arguments = (_number("entry", entry, 32), _number("ether_type", ether_type, 16), frame, len(frame), length)
        with self._lock:
            status = _library.etherparse_2_filter_matches(self._open(), *arguments, ctypes.byref(matched))
        if status != Status.OK:
            raise UnknownChoice(f"entry is {entry}")
        return matched.value != 0

    def matches_many(self, frames: Iterable[Bytes], entry: int = Entry.ETHERNET, ether_type: int = 0,
                     wire_lens: Optional[Iterable[int]] = None) -> Sequence[bool]:
        """Returns for each packet whether the filter matches it, as matches does, in one call. Raises UnknownChoice if
        the entry is unknown, and ValueError if there are not as many original lengths as packets."""
        kept = tuple(map(_as_bytes, frames))
        joined, count = b"".join(kept), len(kept)
        lens = [] if wire_lens is None else [_number("wire_lens", wire_len, 32) for wire_len in wire_lens]
        if wire_lens is not None and len(lens) != count:
            raise ValueError(f"{count} packets have {len(lens)} lengths")
        answers, matched = (_u8 * max(count, 1))(), _size()
        arguments = (_number("entry", entry, 32), _number("ether_type", ether_type, 16), joined, len(joined),
                     _ends(kept), count, (_u32 * max(len(lens), 1))(*lens), len(lens), answers, count)
        with self._lock:
            status = _library.etherparse_2_filter_matches_many(self._open(), *arguments, ctypes.byref(matched))
        if status != Status.OK:
            raise UnknownChoice(f"entry is {entry}")
        return [answer != 0 for answer in answers[:count]]

    def __str__(self) -> str:
        written = _size()
        with self._lock:
            filter, buffer = self._open(), (_u8 * 1)()
            while True:
                status = _library.etherparse_2_filter_text(filter, buffer, len(buffer), ctypes.byref(written))
                if status == Status.OK:
                    return bytes(buffer[: written.value - 1]).decode("ascii")
                if status != Status.TOO_SMALL:
                    raise MemoryError
                buffer = (_u8 * written.value)()

    def __repr__(self) -> str:
        return f"Filter({str(self)!r})" if self._filter is not None else "Filter(closed)"

    def close(self) -> None:
        """Frees the memory of the filter; further calls do nothing."""
        with self._lock:
            filter, self._filter = self._filter, None
            if filter is not None:
                _library.etherparse_2_filter_free(filter)

    def __enter__(self) -> Filter:
        self._open()
        return self

    def __exit__(self, *_: object) -> None:
        self.close()

    def __del__(self) -> None:
        if getattr(self, "_filter", None) is not None and _library is not None:  # as may be the case when Python exits
            self.close()
