"""A second implementation of frame_bench, from the standards' header diagrams and its documents' error tables.

It is written independently of the program, so that the two can be compared (hostile.py): `python3 answers.py < LINES`.
"""

import re
import sys

MOST_LINK_EXTENSIONS = 3
GREATEST_END = 65535


class Refused(Exception):
    """Bytes that are not a frame, with the line that reports why."""


def refuse_if(condition, *words):
    if condition:
        raise Refused(" ".join(["err", *map(str, words)]))


class Picture:
    """A header as in its standard's diagram: names and widths in bits, from the first bit on."""

    def __init__(self, text):
        fields = [field.split(":") for field in text.split()]
        bits = sum(int(width) for _, width in fields)
        assert bits % 8 == 0
        self.length = bits // 8
        self.fields = []
        for name, width in fields:
            bits -= int(width)
            self.fields.append((name, bits, (1 << int(width)) - 1))

    def read(self, data):
        number = int.from_bytes(data[: self.length], "big")
        return {name: number >> shift & mask for name, shift, mask in self.fields}


ETHERNET = Picture("destination:48 source:48 type:16")
# LINKTYPE_LINUX_SLL
COOKED = Picture("packet_type:16 hardware:16 address_length:16 address:64 protocol:16")
# IEEE 802.1Q, 9.6
VLAN = Picture("priority:3 drop:1 id:12 type:16")
# IEEE 802.1AE, 9.3 to 9.7: the tag after its ether type, without the secure channel identifier
MACSEC = Picture(
    "version:1 end_station:1 has_channel:1 broadcast:1 encrypted:1 changed:1 association:2"
    " unused:2 short_length:6 packet_number:32"
)
# RFC 826
ARP = Picture("hardware:16 protocol:16 hardware_length:8 protocol_length:8 operation:16")
# RFC 791, 3.1
IPV4 = Picture(
    "version:4 header_words:4 service:8 total_length:16 identification:16"
    " reserved:1 whole:1 more:1 offset:13 lifetime:8 protocol:8 checksum:16 source:32 destination:32"
)
# RFC 8200, 3
IPV6 = Picture(
    "version:4 traffic_class:8 flow:20 payload_length:16 next:8 hop_limit:8 source:128 destination:128"
)
# RFC 8200, 4.3, 4.4 and 4.6: the fields of an options or routing header that determine its end
OPTIONS = Picture("next:8 further_eights:8 content:48")
# RFC 8200, 4.5
FRAGMENT = Picture("next:8 reserved:8 offset:13 unused:2 more:1 identification:32")
# RFC 4302, 2
AUTHENTICATION = Picture("next:8 words_less_two:8 reserved:16 index:32 sequence:32")
# RFC 768
UDP = Picture("source:16 destination:16 length:16 checksum:16")
# RFC 9293, 3.1
TCP = Picture(
    "source:16 destination:16 sequence:32 acknowledgment:32 header_words:4 reserved:4 flags:8"
    " window:16 checksum:16 urgent:16"
)
# RFC 792 and RFC 4443, 2.1
ICMP = Picture("type:8 code:8 checksum:16 rest:32")

VLAN_TYPES = (0x8100, 0x88A8, 0x9100)
MACSEC_TYPE = 0x88E5
ARP_TYPE = 0x0806
IPV4_TYPE = 0x0800
IPV6_TYPE = 0x86DD

HOP_BY_HOP, ROUTING, FRAGMENTATION, AUTHENTICATED, DESTINATION = 0, 43, 44, 51, 60
NUMBER_OF_UDP, NUMBER_OF_TCP, NUMBER_OF_ICMPV4, NUMBER_OF_ICMPV6 = 17, 6, 1, 58


class Packet:
    """The layers of a frame, named as in the answer, and the fragment that the frame carries, if any."""

    def __init__(self):
        self.link = "-"
        self.extensions = []
        self.vlan_ids = []
        self.net = "-"
        self.transport = "-"
        # Payload of the innermost layer.
        self.payload = b""
        # Stream identifier, offset in units of 8 bytes, whether more fragments follow, and the bytes.
        self.fragment = None

    def text(self):
        extensions = ",".join(self.extensions) or "-"
        return f"ok {self.link} {extensions} {self.net} {self.transport} {self.payload.hex() or '-'}"


def packet_of(entry, data):
    """Returns the layers of a frame that begins with a header of this entry; raises if it is not a frame."""
    packet = Packet()
    if entry == "ip":
        refuse_if(len(data) < 1, "len", 1, 0, "Slice", "IpHeader", 0)
        version = data[0] >> 4
        if version == 4:
            read_ipv4(packet, data, 0, True)
        elif version == 6:
            read_ipv6(packet, data, 0, True)
        else:
            refuse_if(True, "ip-version", version)
        return packet
    if entry == "eth":
        kind = read_ethernet(packet, data)
        offset = ETHERNET.length
    else:
        kind = read_cooked(packet, data)
        offset = COOKED.length
    packet.payload = data[offset:]
    kind, offset = read_extensions(packet, kind, offset)
    if kind == ARP_TYPE:
        read_arp(packet, packet.payload, offset)
    elif kind == IPV4_TYPE:
        read_ipv4(packet, packet.payload, offset, False)
    elif kind == IPV6_TYPE:
        read_ipv6(packet, packet.payload, offset, False)
    return packet


def read_ethernet(packet, data):
    """Reads an Ethernet II header; returns the ether type of its payload."""
    refuse_if(len(data) < 14, "len", 14, len(data), "Slice", "Ethernet2Header", 0)
    packet.link = "eth"
    return ETHERNET.read(data)["type"]


def read_cooked(packet, data):
    """Reads the header of a cooked capture; returns the ether type of its payload, or None for another protocol."""
    refuse_if(len(data) < 16, "len", 16, len(data), "Slice", "LinuxSllHeader", 0)
    header = COOKED.read(data)
    refuse_if(header["packet_type"] > 7, "sll-packet-type", header["packet_type"])
    known = {1, 770, 772, 778, 803, 824}
    refuse_if(header["hardware"] not in known, "sll-arp-hardware", header["hardware"])
    packet.link = "sll"
    if header["hardware"] in (1, 772) and header["protocol"] >= 0x0600:
        return header["protocol"]
    return None


def read_extensions(packet, kind, offset):
    """Reads tags, at most MOST_LINK_EXTENSIONS; returns the ether type and the offset of the bytes after them."""
    while len(packet.extensions) < MOST_LINK_EXTENSIONS:
        data = packet.payload
        if kind in VLAN_TYPES:
            refuse_if(len(data) < 4, "len", 4, len(data), "Slice", "VlanHeader", offset)
            tag = VLAN.read(data)
            packet.extensions.append(f"vlan:{tag['id']}")
            packet.vlan_ids.append(tag["id"])
            packet.payload = data[4:]
            kind = tag["type"]
            offset += 4
        elif kind == MACSEC_TYPE:
            kind, length = read_macsec(packet, data, offset)
            offset += length
        else:
            break
    return kind, offset


def read_macsec(packet, data, offset):
    """Reads a MACsec tag; returns its payload's ether type (None if modified or encrypted) and its length."""
    refuse_if(len(data) < 6, "len", 6, len(data), "Slice", "MacsecHeader", offset)
    tag = MACSEC.read(data)
    refuse_if(tag["version"] == 1, "macsec-version")
    is_plain = tag["encrypted"] == 0 and tag["changed"] == 0
    short = tag["short_length"]
    refuse_if(is_plain and short == 1, "macsec-short-length")
    length = 6 + 8 * tag["has_channel"] + (2 if is_plain else 0)
    refuse_if(len(data) < length, "len", length, len(data), "Slice", "MacsecHeader", offset)
    end = len(data)
    if short > 0:
        # The short length includes the ether type of an unmodified payload, which is part of the header here.
        end = length + short - (2 if is_plain else 0)
        refuse_if(len(data) < end, "len", end, len(data), "Slice", "MacsecPacket", offset)
    packet.extensions.append("macsec")
    packet.payload = data[length:end]
    kind = int.from_bytes(data[length - 2 : length], "big") if is_plain else None
    return kind, length


def read_arp(packet, data, offset):
    refuse_if(len(data) < 8, "len", 8, len(data), "Slice", "Arp", offset)
    header = ARP.read(data)
    length = 8 + 2 * header["hardware_length"] + 2 * header["protocol_length"]
    refuse_if(len(data) < length, "len", length, len(data), "ArpAddrLengths", "Arp", offset)
    packet.net = "arp"
    packet.payload = b""


def read_ipv4(packet, data, offset, is_open):
    """Reads an IPv4 packet; `is_open` if no ether type before it determines the version."""
    refuse_if(len(data) < 20, "len", 20, len(data), "Slice", "Ipv4Header", offset)
    header = IPV4.read(data)
    refuse_if(header["version"] != 4, "ipv4-version", header["version"])
    words = header["header_words"]
    refuse_if(words < 5, "ip-ihl" if is_open else "ipv4-ihl", words)
    length = 4 * words
    refuse_if(len(data) < length, "len", length, len(data), "Slice", "Ipv4Header", offset)
    total = header["total_length"]
    refuse_if(total < length, "len", length, total, "Ipv4HeaderTotalLen", "Ipv4Packet", offset)
    refuse_if(len(data) < total, "len", total, len(data), "Slice", "Ipv4Packet", offset)
    packet.net = "ipv4"
    payload, offset = data[length:total], offset + length
    source = "Ipv4HeaderTotalLen"
    number = header["protocol"]
    if number == AUTHENTICATED:
        number, length = authentication(payload, source, offset, "ipv4-auth-zero")
        payload, offset = payload[length:], offset + length
    is_fragment = header["more"] == 1 or header["offset"] > 0
    if is_fragment:
        stream = (4, header["source"], header["destination"], header["identification"], number)
        packet.fragment = (stream, header["offset"], header["more"] == 1, payload)
    packet.payload = payload
    read_transport(packet, number, is_fragment, source, offset)


def authentication(data, source, offset, zero):
    """Reads an authentication header; returns its next header number and its length."""
    refuse_if(len(data) < 12, "len", 12, len(data), source, "IpAuthHeader", offset)
    header = AUTHENTICATION.read(data)
    refuse_if(header["words_less_two"] == 0, zero)
    length = 4 * (header["words_less_two"] + 2)
    refuse_if(len(data) < length, "len", length, len(data), source, "IpAuthHeader", offset)
    return header["next"], length


def read_ipv6(packet, data, offset, is_open):
    refuse_if(len(data) < 40, "len", 40, len(data), "Slice", "Ipv6Header", offset)
    header = IPV6.read(data)
    refuse_if(header["version"] != 6, "ipv6-version", header["version"])
    end = 40 + header["payload_length"]
    refuse_if(len(data) < end, "len", end, len(data), "Slice", "Ipv6Packet", offset)
    source = "Ipv6HeaderPayloadLen"
    if end == 40 and len(data) > 40:
        # Length 0: the packet extends to the end of the bytes.
        end = len(data)
        source = "Slice"
    packet.net = "ipv6"
    payload, offset = data[40:end], offset + 40
    number = header["next"]
    is_first, is_fragment, first_fragment = True, False, None
    while number in (HOP_BY_HOP, ROUTING, FRAGMENTATION, AUTHENTICATED, DESTINATION):
        have = len(payload)
        if number == FRAGMENTATION:
            refuse_if(have < 8, "len", 8, have, source, "Ipv6FragHeader", offset)
            part = FRAGMENT.read(payload)
            if first_fragment is None:
                first_fragment = part
            is_fragment = is_fragment or part["more"] == 1 or part["offset"] > 0
            number, length = part["next"], 8
        elif number == AUTHENTICATED:
            number, length = authentication(payload, source, offset, "ipv6-auth-zero")
        else:
            refuse_if(number == HOP_BY_HOP and not is_first, "ipv6-hop-by-hop")
            refuse_if(have < 8, "len", 8, have, source, "Ipv6ExtHeader", offset)
            part = OPTIONS.read(payload)
            length = 8 * (part["further_eights"] + 1)
            refuse_if(have < length, "len", length, have, source, "Ipv6ExtHeader", offset)
            number = part["next"]
        is_first = False
        payload, offset = payload[length:], offset + length
    # The pool uses the first fragment header.
    if first_fragment is not None and (first_fragment["more"] == 1 or first_fragment["offset"] > 0):
        stream = (6, header["source"], header["destination"], first_fragment["identification"], number)
        packet.fragment = (stream, first_fragment["offset"], first_fragment["more"] == 1, payload)
    packet.payload = payload
    read_transport(packet, number, is_fragment, source, offset)


def read_transport(packet, number, is_fragment, source, offset):
    """Reads the transport layer in the payload, if that is not a fragment and its protocol is supported."""
    if is_fragment:
        return
    data = packet.payload
    have = len(data)
    if number == NUMBER_OF_UDP:
        refuse_if(have < 8, "len", 8, have, source, "UdpHeader", offset)
        length = UDP.read(data)["length"]
        refuse_if(0 < length < 8, "len", 8, length, "UdpHeaderLen", "UdpHeader", offset)
        refuse_if(length > have, "len", length, have, source, "UdpPayload", offset)
        packet.transport = "udp"
        packet.payload = data[8 : length or have]
    elif number == NUMBER_OF_TCP:
        refuse_if(have < 20, "len", 20, have, source, "TcpHeader", offset)
        words = TCP.read(data)["header_words"]
        refuse_if(words < 5, "tcp-data-offset", words)
        refuse_if(have < 4 * words, "len", 4 * words, have, source, "TcpHeader", offset)
        packet.transport = "tcp"
        packet.payload = data[4 * words :]
    elif number == NUMBER_OF_ICMPV4:
        refuse_if(have < 8, "len", 8, have, source, "Icmpv4", offset)
        header = ICMP.read(data)
        timestamps = {(13, 0): "Icmpv4Timestamp", (14, 0): "Icmpv4TimestampReply"}
        layer = timestamps.get((header["type"], header["code"]))
        refuse_if(layer is not None and have != 20, "len", 20, have, source, layer, offset)
        packet.transport = "icmpv4"
        packet.payload = data[8:] if layer is None else b""
    elif number == NUMBER_OF_ICMPV6:
        refuse_if(have < 8, "len", 8, have, source, "Icmpv6", offset)
        packet.transport = "icmpv6"
        packet.payload = data[8:]


class Stream:
    """The accepted fragments of a stream, in their order, and the timestamp of the last one."""

    def __init__(self):
        # Start, end and bytes of each fragment.
        self.accepted = []
        self.end = None
        self.reach = 0
        self.timestamp = None

    def refusal(self, limit, offset, more, data):
        """Returns the error of a fragment that does not fit into a payload of at most `limit` bytes, or None."""
        end = 8 * offset + len(data)
        if end > limit:
            return f"err too-big {offset} {len(data)} {limit}"
        if more and len(data) % 8 != 0:
            return f"err unaligned {offset} {len(data)}"
        if self.end is not None and (end > self.end or (not more and end != self.end)):
            return f"err conflict {self.end} {end}"
        if self.end is None and not more and end < self.reach:
            return f"err conflict {self.reach} {end}"
        return None

    def accept(self, offset, more, data, timestamp):
        start = 8 * offset
        self.accepted.append((start, start + len(data), data))
        self.reach = max(self.reach, start + len(data))
        self.timestamp = timestamp
        if not more:
            self.end = start + len(data)

    def is_complete(self):
        """Returns whether the end is known and no position below it is missing."""
        if self.end is None:
            return False
        covered = 0
        for start, end in sorted((start, end) for start, end, _ in self.accepted):
            if start > covered:
                break
            covered = max(covered, end)
        return covered >= self.end

    def payload(self):
        """Returns the bytes up to the known end, each from the last fragment that covers it."""
        data = bytearray(self.end)
        for start, end, part in self.accepted:
            data[start:end] = part
        return bytes(data)


class Pool:
    def __init__(self):
        self.begin(GREATEST_END)

    def begin(self, limit):
        """Drops all streams, and continues with this limit."""
        self.limit = limit
        self.streams = {}
        return "ok"

    def take(self, packet, timestamp, channel):
        if packet.fragment is None:
            return "none"
        (version, source, destination, identification, number), offset, more, data = packet.fragment
        name = (tuple(packet.vlan_ids), version, source, destination, identification, number, channel)
        stream = self.streams.get(name) or Stream()
        refusal = stream.refusal(self.limit, offset, more, data)
        if refusal is not None:
            return refusal
        stream.accept(offset, more, data, timestamp)
        if not stream.is_complete():
            self.streams[name] = stream
            return "none"
        self.streams.pop(name, None)
        return f"payload {number} {stream.payload().hex() or '-'}"

    def drop(self, limit):
        self.streams = {name: stream for name, stream in self.streams.items() if stream.timestamp >= limit}
        return "ok"


HEXADECIMAL = re.compile(rb"(?:[0-9a-fA-F][0-9a-fA-F])+")
DECIMAL = re.compile(rb"[0-9]{1,20}")
LIMIT = re.compile(rb"[0-9]{1,5}")


def bytes_said(word):
    """Parses a word of hexadecimal digits; raises ValueError if it is anything else."""
    if word == b"-":
        return b""
    if not HEXADECIMAL.fullmatch(word):
        raise ValueError
    return bytes.fromhex(word.decode("ascii"))


def number_said(word):
    """Parses a number of decimal digits; raises ValueError if it is anything else."""
    if not DECIMAL.fullmatch(word) or int(word) >= 2**64:
        raise ValueError
    return int(word)


def limit_said(word):
    """Parses a limit of decimal digits; raises ValueError if it is anything else."""
    if not LIMIT.fullmatch(word) or int(word) > GREATEST_END:
        raise ValueError
    return int(word)


def entry_said(word):
    if word not in (b"eth", b"sll", b"ip"):
        raise ValueError
    return word.decode("ascii")


def answer(pool, line):
    """Returns the answer to one line, after those that the pool has processed."""
    words = line.split(b" ")
    try:
        if words[0] == b"slice" and len(words) == 3:
            entry, data = entry_said(words[1]), bytes_said(words[2])
            return packet_of(entry, data).text()
        if words[0] == b"frag" and len(words) == 5:
            entry, data = entry_said(words[1]), bytes_said(words[4])
            timestamp, channel = number_said(words[2]), number_said(words[3])
            return pool.take(packet_of(entry, data), timestamp, channel)
        if words[0] == b"drop" and len(words) == 2:
            return pool.drop(number_said(words[1]))
        if words[0] == b"limit" and len(words) == 2:
            return pool.begin(limit_said(words[1]))
    except ValueError:
        pass
    except Refused as refusal:
        return str(refusal)
    return "err line"


def lines_of(text):
    """Returns the lines of a text; a last one without a line feed counts if it is not empty."""
    lines = text.split(b"\n")
    return lines[:-1] if lines[-1] == b"" else lines


def answers_to(text):
    """Returns the answers to the lines of a text, without line feeds."""
    pool = Pool()
    return [answer(pool, line) for line in lines_of(text)]


if __name__ == "__main__":
    for reply in answers_to(sys.stdin.buffer.read()):
        print(reply)
