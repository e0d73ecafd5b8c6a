"""Frames cut to every length, and frames whose lengths lie, to frame_bench: answers are compared with tables by hand.

    python3 compare/cuts.py out/frame_bench

The tables are read from the standards' pictures of headers, and from nothing else. A row of a frame's table is (below,
required, source, layer, start): cut to fewer than `below` bytes, and to no fewer than the row before says, the frame
lacks bytes of the layer that begins at `start`, which needs `required` of them. The last line of output counts the
differences, each of them shown before it.
"""

import argparse
import subprocess
import sys


def joined(*parts):
    """Joins words of hexadecimal digits and bytes."""
    return b"".join(bytes.fromhex(part) if isinstance(part, str) else part for part in parts)


ADDRESSES = "0708090a0b0c010203040506"
DATAGRAM = joined(
    *(ADDRESSES, "0800", "45000024000040001411e375c0a80101c0a80102"),
    *("001504d20010677f", "0102030405060708"),
)
SEGMENT = joined(
    *(ADDRESSES, "0800", "45000030000040001406e374c0a80101c0a80102"),
    *("0015000c000030390000000050000fa0dc7a0000", "0102030405060708"),
)
TAGGED = joined(ADDRESSES, "810000010800", "4500001c000120001411037dc0a80101c0a80102", "0001020304050607")
ARP = joined(ADDRESSES, "0806", "0001080006040001", "010203040506", "0708090a", "0b0c0e0f1011", "12131415")
COOKED = joined(
    *("0003000100060102030405060000", "0800", "45000024000040001411e375c0a80101c0a80102"),
    *("001504d20010677f", "0102030405060708"),
)
FRAGMENT = joined("6000000000182c40", bytes(32), "2c00000000000001", "1100000100000002", "0001020304050607")
OPEN_LENGTH = joined("6000000000003b40", bytes(32), "01020304")
# An authentication header between an IPv4 header and a datagram, and an IPv4 header with four bytes of options.
AUTHENTICATED = joined(
    *("45000034000040001433e352c0a80101c0a80102", "1102000000000001", "0000000200000003"),
    *("001504d200100000", "0102030405060708"),
)
OPTIONS = joined("46000018000040001400e39dc0a80101c0a80102", "01010100")
# Both at once, before four bytes of protocol number 59.
OPTIONS_AND_AUTHENTICATION = joined(
    *("460000280000000040330000c0a80101c0a80102", "01010101"),
    *("3b01000000000002", "00000003", "01020304"),
)
# Hop by hop options, a routing header of 16 bytes, a fragment header, an authentication header and destination options.
EXTENSIONS = joined(
    *("2b00000000000000", "2c01000000000000", "0000000000000000", "3300000000000001"),
    *("3c02000000000001", "0000000000000002", "1100000000000000", "001504d200080000"),
)
# Hop by hop options of 16 bytes, destination options, a routing header, a fragment header, an authentication header
# with a check value, the final destination options, and a datagram without payload.
MORE_EXTENSIONS = joined(
    *("3c01000000000000", "0000000000000000", "2b00000000000000", "2c00000000000000", "3300000000000001"),
    *("3c02000000000002", "00000003aabbccdd", "1100000000000000", "001504d200080000"),
)
TCP_OPTIONS = joined("0015000c0000303900000000", "70000fa0dc7a0000", "0101010101010100")
TIMES = "000000010000000200000003"


def open_packet(number, data):
    """Returns an IPv6 packet of payload length 0, whose data extends to the end of the bytes."""
    return joined(f"600000000000{number:02x}40", bytes(32), data)


def macsec(*parts):
    return joined(ADDRESSES, "88e5", *parts)


def message(number, kind):
    """Returns a message of 20 bytes of this type after an IPv6 header of payload length 0."""
    return open_packet(number, joined(f"{kind:02x}", bytes(19)))


ETHERNET = (14, 14, "Slice", "Ethernet2Header", 0)
VERSION = (1, 1, "Slice", "IpHeader", 0)
IPV4 = (20, 20, "Slice", "Ipv4Header", 0)
IPV6 = (40, 40, "Slice", "Ipv6Header", 0)
TAG = (20, 6, "Slice", "MacsecHeader", 14)
TAG_AND_TYPE = (22, 8, "Slice", "MacsecHeader", 14)


def after_ipv6(required, layer):
    """Returns rows for a packet of payload length 0 that ends with its header: no byte of the next layer is present."""
    return [VERSION, IPV6, (41, required, "Ipv6HeaderPayloadLen", layer, 40)]


def messages(number, kinds, layer):
    """Returns cases of messages with a header of eight bytes."""
    table = [*after_ipv6(8, layer), (48, 8, "Slice", layer, 40)]
    return [("ip", message(number, kind), table) for kind in kinds]


CUTS = [
    ("eth", DATAGRAM, [ETHERNET, (34, 20, "Slice", "Ipv4Header", 14), (50, 36, "Slice", "Ipv4Packet", 14)]),
    ("eth", SEGMENT, [ETHERNET, (34, 20, "Slice", "Ipv4Header", 14), (62, 48, "Slice", "Ipv4Packet", 14)]),
    (
        "eth",
        TAGGED,
        [
            ETHERNET,
            (18, 4, "Slice", "VlanHeader", 14),
            (38, 20, "Slice", "Ipv4Header", 18),
            (46, 28, "Slice", "Ipv4Packet", 18),
        ],
    ),
    ("eth", ARP, [ETHERNET, (22, 8, "Slice", "Arp", 14), (42, 28, "ArpAddrLengths", "Arp", 14)]),
    (
        "sll",
        COOKED,
        [
            (16, 16, "Slice", "LinuxSllHeader", 0),
            (36, 20, "Slice", "Ipv4Header", 16),
            (52, 36, "Slice", "Ipv4Packet", 16),
        ],
    ),
    ("ip", FRAGMENT, [VERSION, IPV6, (64, 64, "Slice", "Ipv6Packet", 0)]),
    ("ip", OPEN_LENGTH, [VERSION, IPV6]),
    (
        "ip",
        open_packet(0, EXTENSIONS),
        [
            *after_ipv6(8, "Ipv6ExtHeader"),
            (48, 8, "Slice", "Ipv6ExtHeader", 40),
            (56, 8, "Slice", "Ipv6ExtHeader", 48),
            (64, 16, "Slice", "Ipv6ExtHeader", 48),
            (72, 8, "Slice", "Ipv6FragHeader", 64),
            (84, 12, "Slice", "IpAuthHeader", 72),
            (88, 16, "Slice", "IpAuthHeader", 72),
            (96, 8, "Slice", "Ipv6ExtHeader", 88),
            (104, 8, "Slice", "UdpHeader", 96),
        ],
    ),
    (
        "ip",
        open_packet(6, TCP_OPTIONS),
        [
            *after_ipv6(20, "TcpHeader"),
            (60, 20, "Slice", "TcpHeader", 40),
            (68, 28, "Slice", "TcpHeader", 40),
        ],
    ),
    # An echo request, a timestamp and its reply of ICMPv4, and an echo request of ICMPv6.
    (
        "ip",
        open_packet(1, "0800000000010002"),
        [*after_ipv6(8, "Icmpv4"), (48, 8, "Slice", "Icmpv4", 40)],
    ),
    (
        "ip",
        open_packet(1, "0d00000000010002" + TIMES),
        [
            *after_ipv6(8, "Icmpv4"),
            (48, 8, "Slice", "Icmpv4", 40),
            (60, 20, "Slice", "Icmpv4Timestamp", 40),
        ],
    ),
    (
        "ip",
        open_packet(1, "0e00000000010002" + TIMES),
        [
            *after_ipv6(8, "Icmpv4"),
            (48, 8, "Slice", "Icmpv4", 40),
            (60, 20, "Slice", "Icmpv4TimestampReply", 40),
        ],
    ),
    (
        "ip",
        open_packet(58, "8000000000010002"),
        [*after_ipv6(8, "Icmpv6"), (48, 8, "Slice", "Icmpv6", 40)],
    ),
    ("ip", AUTHENTICATED, [VERSION, IPV4, (52, 52, "Slice", "Ipv4Packet", 0)]),
    ("ip", OPTIONS, [VERSION, IPV4, (24, 24, "Slice", "Ipv4Header", 0)]),
    # MACsec tags: one before a VLAN tag, and one with a secure channel identifier before an ARP packet; a short length
    # that includes the ether type; a modified payload; an encrypted one after an identifier, and one without a short
    # length.
    (
        "eth",
        macsec("000000000001", "8100", "00011234"),
        [ETHERNET, TAG, TAG_AND_TYPE, (26, 4, "Slice", "VlanHeader", 22)],
    ),
    (
        "eth",
        macsec("200000000001", "0000000000000002", "0806", "0001080000000001"),
        [ETHERNET, TAG, (30, 16, "Slice", "MacsecHeader", 14), (38, 8, "Slice", "Arp", 30)],
    ),
    (
        "eth",
        macsec("000600000001", "8100", "00011234"),
        [ETHERNET, TAG, TAG_AND_TYPE, (26, 12, "Slice", "MacsecPacket", 14)],
    ),
    ("eth", macsec("040300000001", "aabbcc"), [ETHERNET, TAG, (23, 9, "Slice", "MacsecPacket", 14)]),
    (
        "eth",
        macsec("2c0300000001", "0000000000000002", "aabbcc"),
        [ETHERNET, TAG, (28, 14, "Slice", "MacsecHeader", 14), (31, 17, "Slice", "MacsecPacket", 14)],
    ),
    (
        "eth",
        macsec("280300000001", "0000000000000002", "aabbcc"),
        [ETHERNET, TAG, (28, 14, "Slice", "MacsecHeader", 14), (31, 17, "Slice", "MacsecPacket", 14)],
    ),
    ("eth", macsec("0c0000000001"), [ETHERNET, TAG]),
    # ICMPv4: echo reply, destination unreachable, source quench, redirect, time exceeded, parameter problem and an
    # unknown type. ICMPv6: errors, echo reply, the messages of neighbor and router discovery, and an unknown type.
    *messages(1, [0, 3, 4, 5, 11, 12, 42], "Icmpv4"),
    *messages(58, [1, 2, 3, 4, 129, 133, 134, 135, 136, 137, 200], "Icmpv6"),
    # After an ether type, which determines the version.
    (
        "eth",
        joined(ADDRESSES, "0800", OPTIONS_AND_AUTHENTICATION),
        [
            ETHERNET,
            (34, 20, "Slice", "Ipv4Header", 14),
            (38, 24, "Slice", "Ipv4Header", 14),
            (54, 40, "Slice", "Ipv4Packet", 14),
        ],
    ),
    (
        "ip",
        OPTIONS_AND_AUTHENTICATION,
        [VERSION, IPV4, (24, 24, "Slice", "Ipv4Header", 0), (40, 40, "Slice", "Ipv4Packet", 0)],
    ),
    (
        "eth",
        joined(ADDRESSES, "86dd", FRAGMENT),
        [ETHERNET, (54, 40, "Slice", "Ipv6Header", 14), (78, 64, "Slice", "Ipv6Packet", 14)],
    ),
    (
        "eth",
        joined(ADDRESSES, "86dd", open_packet(0, MORE_EXTENSIONS)),
        [
            ETHERNET,
            (54, 40, "Slice", "Ipv6Header", 14),
            (55, 8, "Ipv6HeaderPayloadLen", "Ipv6ExtHeader", 54),
            (62, 8, "Slice", "Ipv6ExtHeader", 54),
            (70, 16, "Slice", "Ipv6ExtHeader", 54),
            (78, 8, "Slice", "Ipv6ExtHeader", 70),
            (86, 8, "Slice", "Ipv6ExtHeader", 78),
            (94, 8, "Slice", "Ipv6FragHeader", 86),
            (106, 12, "Slice", "IpAuthHeader", 94),
            (110, 16, "Slice", "IpAuthHeader", 94),
            (118, 8, "Slice", "Ipv6ExtHeader", 110),
            (126, 8, "Slice", "UdpHeader", 118),
        ],
    ),
]

# Lengths above those of the frames.
LONGER = [63, 64, 255, 256, 1023, 4096, 32767, 32768, 65535]

# Start of an answer `ok` for an Ethernet II frame with IPv4.
OK = "ok eth - ipv4"


def word(number):
    return number.to_bytes(2, "big")


def lying():
    """Yields a frame, a position in it, the bytes that are written there, and the answer."""
    total, udp = "Ipv4HeaderTotalLen", "UdpHeaderLen"
    for length in range(20):
        yield DATAGRAM, 16, word(length), f"err len 20 {length} {total} Ipv4Packet 14"
    for length in range(20, 28):
        yield DATAGRAM, 16, word(length), f"err len 8 {length - 20} {total} UdpHeader 34"
    for length in range(28, 36):
        yield DATAGRAM, 16, word(length), f"err len 16 {length - 20} {total} UdpPayload 34"
    yield DATAGRAM, 16, word(36), f"{OK} udp 0102030405060708"
    for length in [37, 38, *LONGER]:
        yield DATAGRAM, 16, word(length), f"err len {length} 36 Slice Ipv4Packet 14"
    for words in range(5):
        yield DATAGRAM, 14, bytes([0x40 + words]), f"err ipv4-ihl {words}"
    for words in range(10, 16):
        yield DATAGRAM, 14, bytes([0x40 + words]), f"err len {4 * words} 36 Slice Ipv4Header 14"
    for version in [0, 1, 2, 3, *range(5, 16)]:
        yield DATAGRAM, 14, bytes([16 * version + 5]), f"err ipv4-version {version}"
    yield DATAGRAM, 38, word(0), f"{OK} udp 0102030405060708"
    for length in range(1, 8):
        yield DATAGRAM, 38, word(length), f"err len 8 {length} {udp} UdpHeader 34"
    for length in range(8, 17):
        yield DATAGRAM, 38, word(length), f"{OK} udp {DATAGRAM[42 : 34 + length].hex() or '-'}"
    for length in [17, 18, 31, 32, *LONGER[2:]]:
        yield DATAGRAM, 38, word(length), f"err len {length} 16 {total} UdpPayload 34"
    for words in range(5):
        yield SEGMENT, 46, bytes([16 * words]), f"err tcp-data-offset {words}"
    for words in range(5, 8):
        yield SEGMENT, 46, bytes([16 * words]), f"{OK} tcp {SEGMENT[34 + 4 * words :].hex() or '-'}"
    for words in range(8, 16):
        yield SEGMENT, 46, bytes([16 * words]), f"err len {4 * words} 28 {total} TcpHeader 34"


def rows():
    """Yields each line and its answer."""
    for entry, frame, table in CUTS:
        shortest = 0
        for below, required, source, layer, start in table:
            for length in range(shortest, below):
                answer = f"err len {required} {length - start} {source} {layer} {start}"
                yield f"slice {entry} {frame[:length].hex() or '-'}", answer
            shortest = below
    # A payload that no length field limits extends to the end of the bytes.
    for length in range(40, 44):
        yield f"slice ip {OPEN_LENGTH[:length].hex()}", f"ok - - ipv6 - {OPEN_LENGTH[40:length].hex() or '-'}"
    for frame, place, data, answer in lying():
        yield f"slice eth {(frame[:place] + data + frame[place + len(data) :]).hex()}", answer


def main():
    parser = argparse.ArgumentParser(description=__doc__, formatter_class=argparse.RawDescriptionHelpFormatter)
    parser.add_argument("program")
    lines, wanted = zip(*rows())
    text = "".join(f"{line}\n" for line in lines)
    run = subprocess.run([parser.parse_args().program], input=text, capture_output=True, text=True, check=False)
    given = run.stdout.splitlines()
    differences = [row for row in zip(lines, wanted, given) if row[1] != row[2]]
    for line, answer, other in differences:
        print("difference:", line, "wanted:", answer, "given:", other)
    print(f"lines={len(lines)} answers={len(given)} status={run.returncode} differences={len(differences)}")
    return 1 if differences or len(given) != len(lines) or run.returncode != 0 else 0


if __name__ == "__main__":
    sys.exit(main())
