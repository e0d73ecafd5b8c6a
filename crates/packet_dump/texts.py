# Writes a capture with one packet for each text of a line, and the expected lines by the definitions of specs/, also those
# of --strict: python3 texts.py data/texts.pcapng runs/texts.lines runs/strict.lines
import struct
import sys

ETHERNET, RAW, COOKED, OTHER = range(4)  # interface numbers
packets, lax_lines, strict_lines = [], [], []


def row(link, data, text, more=None, kept=None, strict=None):
    """Adds a packet with `kept` captured bytes, its text, the line that --reassemble adds after it, and its
    text with --strict, if different."""
    shown = data[:kept]
    cut = f" cut {len(shown)} of {len(data)}" if len(shown) < len(data) else ""
    number = len(packets) + 1
    packets.append((link, shown, len(data)))
    for lines, own in [(lax_lines, text), (strict_lines, strict or text)]:
        lines.append(f"{number} 0.{number - 1:06} {own}{cut}")
        if more:
            lines.append(f"{number} 0.{number - 1:06} {more}")


HERE = bytes.fromhex("c0a80101")
THERE = bytes.fromhex("c0a80102")
V4 = "ipv4 192.168.1.1 > 192.168.1.2"
V6 = "ipv6 ::1 > ::2"
ETH = "eth 02:00:00:00:00:01 > ff:ff:ff:ff:ff:ff"


def eth(ether_type, data):
    return bytes.fromhex("ffffffffffff020000000001") + struct.pack("!H", ether_type) + data


def v4(number, data, identification=0, fragment=0, total=None, first=0x45):
    total = 20 + len(data) if total is None else total
    return struct.pack("!BBHHHBBH", first, 0, total, identification, fragment, 64, number, 0) + HERE + THERE + data


def v6(number, data, length=None, first=0x60):
    length = len(data) if length is None else length
    return bytes([first, 0, 0, 0]) + struct.pack("!HBB", length, number, 64) + bytes(15) + b"\1" + bytes(15) + b"\2" + data


def udp(data, length=None):
    return struct.pack("!HHHH", 21, 1234, 8 + len(data) if length is None else length, 0) + data


def tcp(flags, data=b"", offset=5):
    return struct.pack("!HHIIHHHH", 80, 4000, 1, 2, offset << 12 | flags, 1000, 0, 0) + data


def icmp(kind, code, rest=bytes(4)):
    return struct.pack("!BBH", kind, code, 0) + rest


def sll(way, hardware=1, length=6, protocol=0x0800, data=v4(17, udp(b""))):
    return struct.pack("!HHH", way, hardware, length) + bytes.fromhex("0200000000010203") + struct.pack("!H", protocol) + data


# Link layers: each direction of a cooked packet, and sender addresses of other lengths.
ways = ["host", "broadcast", "multicast", "other-host", "outgoing", "loopback", "user", "kernel"]
for way, name in enumerate(ways):
    row(COOKED, sll(way), f"sll {name} from 02:00:00:00:00:01 {V4} udp 21 > 1234 len 0")
row(COOKED, sll(0, length=0), f"sll host {V4} udp 21 > 1234 len 0")
row(COOKED, sll(4, length=9), f"sll outgoing from 02:00:00:00:00:01:02:03 {V4} udp 21 > 1234 len 0")
row(COOKED, sll(0, protocol=0x86DD, data=v6(59, b"")), f"sll host from 02:00:00:00:00:01 {V6} protocol 59 len 0")
row(COOKED, sll(1, protocol=0x88CC, data=b"abc"), "sll broadcast from 02:00:00:00:00:01 type 0x88cc len 3")

# Link extensions: VLAN tags, and MACsec with each kind of payload, with and without a channel identifier.
row(ETHERNET, eth(0x8100, b"\0\5\x88\xccab"), f"{ETH} vlan:5 type 0x88cc len 2")
row(ETHERNET, eth(0x88A8, b"\x0f\xff\x81\0\0\1\x91\0\0\2\x86\xdd" + v6(17, udp(b"a"))), f"{ETH} vlan:4095 vlan:1 vlan:2 {V6} udp 21 > 1234 len 1")
row(ETHERNET, eth(0x88E5, b"\0\0\0\0\0\7\x08\0" + v4(17, udp(b""))), f"{ETH} macsec pn 7 {V4} udp 21 > 1234 len 0")
row(ETHERNET, eth(0x88E5, b"\4\0\0\0\0\x08ab"), f"{ETH} macsec pn 8 modified len 2")
row(ETHERNET, eth(0x88E5, b"\x0c\0\0\0\0\x09abc"), f"{ETH} macsec pn 9 encrypted len 3")
row(ETHERNET, eth(0x88E5, b"\x28\0\0\0\0\x0a\2\0\0\0\0\1\0\1a"), f"{ETH} macsec pn 10 sci 0200000000010001 encrypted-unmodified len 1")

# Network layers: extension headers, fragments, and ARP with each operation and with other addresses.
auth = bytes.fromhex("1101000000000001" "00000001")
row(RAW, v4(51, auth + udp(b"ab")), f"{V4} authentication udp 21 > 1234 len 2")
row(RAW, v4(1, b"abc", identification=5, fragment=3), f"{V4} fragment id 5 offset 24 protocol 1 ICMP len 3")
chain = bytes.fromhex("2b00010400000000" "3c00000000000000" "2c00010400000000" "3300000100000009" "3b01000000000001" "00000001")
row(RAW, v6(43, bytes.fromhex("3c00000000000000" "3300010400000000" "3b01000000000001" "00000001")), f"{V6} routing destination-options authentication protocol 59 len 0")
row(RAW, v6(0, bytes.fromhex("2c00010400000000" "11000001deadbeef") + bytes(8)), f"{V6} hop-by-hop fragment id 3735928559 offset 0 more udp 0 > 0 protocol 17 UDP len 8")
row(RAW, v4(99, b"abcd"), f"{V4} protocol 99 len 4")
arp = bytes.fromhex("0001080006040001" "020000000001c0a80101" "000000000000c0a80102")
row(ETHERNET, eth(0x0806, arp), f"{ETH} arp who-has 192.168.1.2 tell 192.168.1.1")
row(ETHERNET, eth(0x0806, arp[:7] + b"\2" + arp[8:]), f"{ETH} arp reply 192.168.1.1 is-at 02:00:00:00:00:01")
row(ETHERNET, eth(0x0806, arp[:7] + b"\3" + arp[8:]), f"{ETH} arp operation 3")
row(ETHERNET, eth(0x0806, bytes.fromhex("0001080402020001" "0a0b0c0d" "0e0f1011")), f"{ETH} arp who-has 10:11 tell 0c:0d")
row(ETHERNET, eth(0x88CC, b"abc"), f"{ETH} type 0x88cc len 3")
row(ETHERNET, eth(0x05DC, b"abc"), f"{ETH} length 1500 len 3")
row(ETHERNET, eth(0x8100, b"\0\5\0\3abc"), f"{ETH} vlan:5 length 3 len 3")
row(COOKED, sll(1, protocol=4, data=b"abc"), "sll broadcast from 02:00:00:00:00:01 len 3")
row(ETHERNET, eth(0x05DD, b"abc"), f"{ETH} type 0x05dd len 3")
row(OTHER, b"abc", "link 105 len 3")

# TCP: each flag alone, and all flags.
for flags, letters in [(0, ""), (2, "S"), (1, "F"), (4, "R"), (8, "P"), (32, "U"), (64, "E"), (128, "C"), (256, "N")]:
    row(RAW, v4(6, tcp(flags)), f"{V4} tcp 80 > 4000 [{letters}] seq 1 len 0")
row(RAW, v6(6, tcp(0x1FF, b"\2\4\5\xb4abc", offset=6)), f"{V6} tcp 80 > 4000 [SFRPAUECN] seq 1 ack 2 len 3")

# UDP with the length field 0.
row(RAW, v4(17, udp(b"abc", length=0)), f"{V4} udp 21 > 1234 length 0 len 3")
row(RAW, v4(17, udp(b"", length=0)), f"{V4} udp 21 > 1234 len 0")

# ICMP messages: each type, and each code that has a name, with their fields.
numbers = b"\0\1\0\2"
times = bytes(12)
icmpv4 = [
    (0, 0, numbers, "echo-reply id 1 seq 2"), (0, 1, numbers, "echo-reply code 1"),
    (3, 0, numbers, "destination-unreachable network"), (3, 1, numbers, "destination-unreachable host"),
    (3, 2, numbers, "destination-unreachable protocol"), (3, 3, numbers, "destination-unreachable port"),
    (3, 4, b"\0\0\x05\x78", "destination-unreachable fragmentation-needed mtu 1400"),
    (3, 5, numbers, "destination-unreachable source-route-failed"),
    (3, 6, numbers, "destination-unreachable network-unknown"), (3, 7, numbers, "destination-unreachable host-unknown"),
    (3, 8, numbers, "destination-unreachable source-isolated"),
    (3, 9, numbers, "destination-unreachable network-prohibited"),
    (3, 10, numbers, "destination-unreachable host-prohibited"),
    (3, 11, numbers, "destination-unreachable network-service"),
    (3, 12, numbers, "destination-unreachable host-service"), (3, 13, numbers, "destination-unreachable prohibited"),
    (3, 14, numbers, "destination-unreachable precedence-violation"),
    (3, 15, numbers, "destination-unreachable precedence-cutoff"), (3, 16, numbers, "destination-unreachable code 16"),
    (4, 0, numbers, "source-quench"), (5, 0, HERE, "redirect network to 192.168.1.1"),
    (5, 1, HERE, "redirect host to 192.168.1.1"), (5, 2, HERE, "redirect network-service to 192.168.1.1"),
    (5, 3, HERE, "redirect host-service to 192.168.1.1"), (5, 4, HERE, "redirect code 4"), (7, 5, numbers, "type 7 code 5"),
    (8, 0, numbers, "echo-request id 1 seq 2"), (9, 0, numbers, "router-advertisement"),
    (10, 0, numbers, "router-solicitation"), (11, 0, numbers, "time-exceeded in-transit"),
    (11, 1, numbers, "time-exceeded reassembly"), (11, 2, numbers, "time-exceeded code 2"),
    (12, 0, b"\x14\0\0\0", "parameter-problem pointer 20"), (12, 1, numbers, "parameter-problem missing-option"),
    (12, 2, numbers, "parameter-problem bad-length"), (12, 3, numbers, "parameter-problem code 3"),
    (13, 0, numbers + times, "timestamp-request id 1 seq 2"), (14, 0, numbers + times, "timestamp-reply id 1 seq 2"),
    (17, 0, numbers, "address-mask-request"), (18, 0, numbers, "address-mask-reply"), (40, 5, numbers, "photuris code 5"),
    (41, 0, numbers, "type 41"), (42, 0, numbers, "extended-echo-request"), (43, 0, numbers, "extended-echo-reply"),
]
for kind, code, rest, name in icmpv4:
    row(RAW, v4(1, icmp(kind, code, rest)), f"{V4} icmpv4 {name} len 0")
icmpv6 = [
    (0, 0, numbers, "type 0"), (1, 0, numbers, "destination-unreachable no-route"),
    (1, 1, numbers, "destination-unreachable prohibited"), (1, 2, numbers, "destination-unreachable beyond-scope"),
    (1, 3, numbers, "destination-unreachable address"), (1, 4, numbers, "destination-unreachable port"),
    (1, 5, numbers, "destination-unreachable source-policy"), (1, 6, numbers, "destination-unreachable reject-route"),
    (1, 7, numbers, "destination-unreachable source-routing-header"), (1, 8, numbers, "destination-unreachable code 8"),
    (2, 0, b"\0\0\x05\x78", "packet-too-big mtu 1400"), (2, 1, numbers, "packet-too-big code 1"),
    (3, 0, numbers, "time-exceeded in-transit"), (3, 1, numbers, "time-exceeded reassembly"),
    (3, 2, numbers, "time-exceeded code 2"), (4, 0, b"\0\0\0\x28", "parameter-problem erroneous-header pointer 40"),
    (4, 1, b"\0\0\0\x28", "parameter-problem unrecognized-next-header pointer 40"),
    (4, 2, b"\0\0\0\x28", "parameter-problem unrecognized-option pointer 40"),
    (4, 3, b"\0\0\0\x28", "parameter-problem incomplete-header-chain"), (4, 4, numbers, "parameter-problem code 4"),
    (127, 0, numbers, "type 127"), (128, 0, numbers, "echo-request id 1 seq 2"), (129, 0, numbers, "echo-reply id 1 seq 2"),
    (129, 1, numbers, "echo-reply code 1"), (130, 0, numbers, "listener-query"), (131, 0, numbers, "listener-report"),
    (132, 0, numbers, "listener-done"), (133, 0, numbers, "router-solicitation"), (134, 0, numbers, "router-advertisement"),
    (135, 0, numbers, "neighbor-solicitation"), (136, 0, numbers, "neighbor-advertisement"), (137, 0, numbers, "redirect"),
    (138, 0, numbers, "type 138"), (140, 1, numbers, "type 140 code 1"), (141, 0, numbers, "inverse-neighbor-solicitation"),
    (142, 0, numbers, "inverse-neighbor-advertisement"), (143, 0, numbers, "listener-report-v2"),
    (144, 0, numbers, "home-agent-address-request"), (145, 0, numbers, "home-agent-address-reply"),
    (146, 0, numbers, "mobile-prefix-solicitation"), (147, 0, numbers, "mobile-prefix-advertisement"),
    (148, 0, numbers, "certification-path-solicitation"), (149, 0, numbers, "certification-path-advertisement"),
    (150, 0, numbers, "type 150"), (151, 0, numbers, "multicast-router-advertisement"),
    (152, 0, numbers, "multicast-router-solicitation"), (153, 0, numbers, "multicast-router-termination"),
    (160, 0, numbers, "extended-echo-request"), (161, 0, numbers, "extended-echo-reply"), (162, 0, numbers, "type 162"),
]
for kind, code, rest, name in icmpv6:
    row(RAW, v6(58, icmp(kind, code, rest)), f"{V6} icmpv6 {name} len 0")


# Errors: each layer with too few bytes, by each limit of their number, and each other error. There may be other layers
# before it, and some packets are rejected only with --strict.
def wrong(link, data, why, front="", lax=None, kept=None):
    text = lax or (f"{front} stopped {why}" if front else f"refused {why}")
    row(link, data, text, None, kept, f"refused {why}")


def short(link, data, layer, needed, there, limit, offset, front="", lax=None, kept=None):
    why = f"{layer}: {needed} bytes needed, {there} there (limit {limit}, offset {offset})"
    wrong(link, data, why, front, lax, kept)


short(ETHERNET, b"ab", "Ethernet2Header", 14, 2, "Slice", 0)
short(COOKED, sll(0)[:15], "LinuxSllHeader", 16, 15, "Slice", 0)
wrong(COOKED, sll(8), "LinuxSll UnsupportedPacketTypeField 8")
row(COOKED, sll(0, hardware=530), f"sll host from 02:00:00:00:00:01 {V4} udp 21 > 1234 len 0")
row(COOKED, sll(0, hardware=530, data=v4(17, b"")[:10]), "sll host from 02:00:00:00:00:01 stopped Ipv4Header: 20 bytes needed, 10 there (limit Slice, offset 0)", strict="sll host from 02:00:00:00:00:01 refused Ipv4Header: 20 bytes needed, 10 there (limit Slice, offset 0)")
short(ETHERNET, eth(0x8100, b"abc"), "VlanHeader", 4, 3, "Slice", 14, ETH)
short(ETHERNET, eth(0x8100, b"\0\5\x81\0abc"), "VlanHeader", 4, 3, "Slice", 18, f"{ETH} vlan:5")
short(ETHERNET, eth(0x88E5, b"\x0c\0\0\0\0"), "MacsecHeader", 6, 5, "Slice", 14, ETH)
short(ETHERNET, eth(0x88E5, b"\x0c\x14\0\0\0\1" + bytes(19)), "MacsecPacket", 26, 25, "Slice", 14, lax=f"{ETH} macsec pn 1 encrypted len 19 incomplete")
wrong(ETHERNET, eth(0x88E5, b"\x80\0\0\0\0\1\x08\0"), "Macsec UnexpectedVersion", ETH)
wrong(ETHERNET, eth(0x88E5, b"\0\1\0\0\0\1\x08\0"), "Macsec InvalidUnmodifiedShortLen", ETH)
short(ETHERNET, eth(0x0806, arp[:7]), "Arp", 8, 7, "Slice", 14, ETH)
short(ETHERNET, eth(0x0806, arp[:27]), "Arp", 28, 27, "ArpAddrLengths", 14, ETH)
short(RAW, b"", "IpHeader", 1, 0, "Slice", 0)
wrong(RAW, b"\x50" + bytes(39), "Ip UnsupportedIpVersion 5")
wrong(RAW, v4(17, udp(b""), first=0x44), "Ip Ipv4HeaderLengthSmallerThanHeader 4")
wrong(ETHERNET, eth(0x0800, v4(17, udp(b""), first=0x65)), "Ipv4 UnexpectedVersion 6", ETH)
wrong(ETHERNET, eth(0x0800, v4(17, udp(b""), first=0x43)), "Ipv4 HeaderLengthSmallerThanHeader 3", ETH)
wrong(ETHERNET, eth(0x86DD, v6(17, udp(b""), first=0x40)), "Ipv6 UnexpectedVersion 4", ETH)
short(ETHERNET, eth(0x0800, v4(17, b"")[:19]), "Ipv4Header", 20, 19, "Slice", 14, ETH)
short(ETHERNET, eth(0x0800, v4(17, b"", first=0x46)), "Ipv4Header", 24, 20, "Slice", 14, ETH)
cut = "stopped UdpHeader: 8 bytes needed"
short(ETHERNET, eth(0x0800, v4(17, udp(b""))), "Ipv4Packet", 28, 27, "Slice", 14, lax=f"{ETH} {V4} udp 21 > 1234 {cut}, 7 there (limit Slice, offset 34) incomplete", kept=41)
short(ETHERNET, eth(0x0800, v4(17, udp(b""), total=19)), "Ipv4Packet", 20, 19, "Ipv4HeaderTotalLen", 14, lax=f"{ETH} {V4} udp 21 > 1234 len 0")
short(RAW, v4(6, tcp(2, b"abcd")), "Ipv4Packet", 44, 42, "Slice", 0, lax=f"{V4} tcp 80 > 4000 [S] seq 1 len 2 of 4 incomplete", kept=42)
short(ETHERNET, eth(0x0800, v4(51, auth[:11])), "IpAuthHeader", 12, 11, "Ipv4HeaderTotalLen", 34, f"{ETH} {V4}")
wrong(RAW, v4(51, auth[:1] + b"\0" + auth[2:]), "Ipv4Exts ZeroPayloadLen", V4)
short(ETHERNET, eth(0x86DD, v6(17, b"")[:39]), "Ipv6Header", 40, 39, "Slice", 14, ETH)
short(ETHERNET, eth(0x86DD, v6(17, b"abc", length=4)), "Ipv6Packet", 44, 43, "Slice", 14, lax=f"{ETH} {V6} {cut}, 3 there (limit Slice, offset 54) incomplete")
short(ETHERNET, eth(0x86DD, v6(0, chain[:7])), "Ipv6ExtHeader", 8, 7, "Ipv6HeaderPayloadLen", 54, f"{ETH} {V6}")
short(ETHERNET, eth(0x86DD, v6(44, chain[:7])), "Ipv6FragHeader", 8, 7, "Ipv6HeaderPayloadLen", 54, f"{ETH} {V6}")
short(ETHERNET, eth(0x86DD, v6(51, auth[:11])), "IpAuthHeader", 12, 11, "Ipv6HeaderPayloadLen", 54, f"{ETH} {V6}")
wrong(RAW, v6(60, bytes(16)), "Ipv6Exts HopByHopNotAtStart", f"{V6} destination-options")
wrong(RAW, v6(51, auth[:1] + b"\0" + auth[2:]), "Ipv6Exts ZeroPayloadLen", V6)
short(ETHERNET, eth(0x0800, v4(17, udp(b"")[:7])), "UdpHeader", 8, 7, "Ipv4HeaderTotalLen", 34, f"{ETH} {V4} udp 21 > 1234")
short(ETHERNET, eth(0x0800, v4(17, udp(b"", length=7))), "UdpHeader", 8, 7, "UdpHeaderLen", 34, lax=f"{ETH} {V4} udp 21 > 1234 len 0")
short(ETHERNET, eth(0x86DD, v6(17, udp(b"", length=9))), "UdpPayload", 9, 8, "Ipv6HeaderPayloadLen", 54, lax=f"{ETH} {V6} udp 21 > 1234 len 0 of 1 incomplete")
short(ETHERNET, eth(0x0800, v4(6, tcp(0)[:19])), "TcpHeader", 20, 19, "Ipv4HeaderTotalLen", 34, f"{ETH} {V4} tcp 80 > 4000 [] seq 1")
short(RAW, v4(6, tcp(0x1FF)[:14]), "TcpHeader", 20, 14, "Ipv4HeaderTotalLen", 20, f"{V4} tcp 80 > 4000 [SFRPAUECN] seq 1 ack 2")
short(RAW, v4(6, tcp(2)[:13]), "TcpHeader", 20, 13, "Ipv4HeaderTotalLen", 20, f"{V4} tcp 80 > 4000")
short(RAW, v6(6, tcp(2)[:4]), "TcpHeader", 20, 4, "Ipv6HeaderPayloadLen", 40, f"{V6} tcp 80 > 4000")
short(RAW, v6(6, tcp(2)[:3]), "TcpHeader", 20, 3, "Ipv6HeaderPayloadLen", 40, V6)
short(ETHERNET, eth(0x0800, v4(6, tcp(0, offset=6))), "TcpHeader", 24, 20, "Ipv4HeaderTotalLen", 34, f"{ETH} {V4} tcp 80 > 4000 [] seq 1")
wrong(RAW, v4(6, tcp(0, offset=4)), "Tcp DataOffsetTooSmall 4", f"{V4} tcp 80 > 4000 [] seq 1")
short(ETHERNET, eth(0x0800, v4(1, icmp(0, 0)[:7])), "Icmpv4", 8, 7, "Ipv4HeaderTotalLen", 34, f"{ETH} {V4}")
short(RAW, v4(1, icmp(13, 0, numbers + times)[:19]), "Icmpv4Timestamp", 20, 19, "Ipv4HeaderTotalLen", 20, V4)
short(RAW, v4(1, icmp(14, 0, numbers + times + b"a")), "Icmpv4TimestampReply", 20, 21, "Ipv4HeaderTotalLen", 20, V4)
short(RAW, v6(58, icmp(128, 0)[:7]), "Icmpv6", 8, 7, "Ipv6HeaderPayloadLen", 40, V6)


# Fragments: a reassembled payload of each kind, and each error of the pool.
def halves(number, name, payload, identification, told):
    """Adds the two fragments of a payload, with its expected text."""
    first, last = payload[:8], payload[8:]
    opening = f"{V4} fragment id {identification} offset"
    ports = {6: " tcp 80 > 4000", 17: " udp 21 > 1234"}.get(number, "")
    row(RAW, v4(number, first, identification, 0x2000), f"{opening} 0 more{ports} protocol {number}{name} len 8")
    row(RAW, v4(number, last, identification, 1), f"{opening} 8 protocol {number}{name} len {len(last)}", f"{opening} 8 reassembled {told}")


def refused(identification, offset, more, length, why):
    """Adds a fragment that the pool rejects."""
    opening = f"{V4} fragment id {identification} offset {offset}{' more' if more else ''}"
    fragment = (0x2000 if more else 0) | offset // 8
    row(RAW, v4(17, bytes(length), identification, fragment), f"{opening} protocol 17 UDP len {length}", f"{opening} not reassembled: {why}")


halves(17, " UDP", udp(b"ab"), 101, "udp 21 > 1234 len 2")
halves(6, " TCP", tcp(2, b"ab"), 102, "tcp 80 > 4000 [S] seq 1 len 2")
halves(1, " ICMP", icmp(8, 0, numbers) + b"a", 103, "icmpv4 echo-request id 1 seq 2 len 1")
halves(58, " IPV6_ICMP", icmp(135, 0) + b"a", 104, "icmpv6 neighbor-solicitation len 1")
halves(99, "", b"0123456789", 105, "protocol 99 len 10")
halves(17, " UDP", udp(b"ab", length=11), 106, "refused UdpPayload: 11 bytes needed, 10 there (limit Slice, offset 0)")
halves(6, " TCP", tcp(0, offset=4), 107, "refused Tcp DataOffsetTooSmall 4")
refused(108, 8, True, 9, "Payload length 9 of IP fragment (offset 1) is not a multiple of 8. This is only allowed for the last fragment packet.")
refused(109, 1000, True, 8, "Overall length of IP fragment (offset 125, payload len: 8) bigger then the maximum allowed size of 1000.")
row(RAW, v4(17, bytes(8), 110, 2), f"{V4} fragment id 110 offset 16 protocol 17 UDP len 8")
refused(110, 24, False, 8, "Received a IP fragment (offset + len: 32) which conflicts a package that previously set the end to 24.")


row(RAW, v4(6, tcp(2)[:16], 111, 0x2000), f"{V4} fragment id 111 offset 0 more tcp 80 > 4000 [S] seq 1 protocol 6 TCP len 16")


# Payloads with missing bytes: their full length by each of the headers in turn.
def missing(packet, kept, text, front=V4, v6=False):
    """Adds an IP packet, `kept` bytes of it captured."""
    lens = ("Ipv6Packet", 40) if v6 else ("Ipv4Packet", 20)
    short(RAW, packet, lens[0], len(packet), kept, "Slice", 0, lax=f"{front} {text}", kept=kept)


ten = b"0123456789"
missing(v4(17, udp(ten)), 31, "udp 21 > 1234 len 3 of 10 incomplete")
missing(v6(17, udp(ten)), 48, "udp 21 > 1234 len 0 of 10 incomplete", V6, True)
missing(v4(17, udp(ten, length=108)), 31, "udp 21 > 1234 len 3 of 100 incomplete")
missing(v4(17, udp(ten, length=12)), 31, "udp 21 > 1234 len 3 of 4 incomplete")
missing(v4(17, udp(ten, length=11)), 31, "udp 21 > 1234 len 3")
missing(v4(17, udp(ten, length=10)), 31, "udp 21 > 1234 len 2")
missing(v4(17, udp(ten, length=8)), 31, "udp 21 > 1234 len 0")
missing(v4(17, udp(ten, length=7)), 31, "udp 21 > 1234 len 3 of 10 incomplete")
missing(v4(17, udp(ten, length=0)), 31, "udp 21 > 1234 length 0 len 3 of 10 incomplete")
missing(v4(17, udp(ten, length=0)), 28, "udp 21 > 1234 len 0 of 10 incomplete")
missing(v4(51, auth + udp(ten)), 49, "authentication udp 21 > 1234 len 9 of 10 incomplete")
options = v4(6, bytes(8) + tcp(2, ten), first=0x47)
missing(options, 49, "tcp 80 > 4000 [S] seq 1 len 1 of 10 incomplete")
missing(v6(0, bytes.fromhex("0600010400000000") + tcp(2, ten)), 69, f"hop-by-hop tcp 80 > 4000 [S] seq 1 len 1 of 10 incomplete", V6, True)
missing(v4(1, icmp(8, 0, numbers) + ten), 30, "icmpv4 echo-request id 1 seq 2 len 2 of 10 incomplete")
missing(v6(58, icmp(128, 0, numbers) + ten), 48, "icmpv6 echo-request id 1 seq 2 len 0 of 10 incomplete", V6, True)
missing(v4(99, ten), 20, "protocol 99 len 0 of 10 incomplete")
missing(v4(17, udp(bytes(8)), 112, 0x2000), 28, "fragment id 112 offset 0 more udp 21 > 1234 protocol 17 UDP len 8 of 16 incomplete")
missing(v6(44, bytes.fromhex("1100000800000070") + ten), 49, "fragment id 112 offset 8 protocol 17 UDP len 1 of 10 incomplete", V6, True)

# Payloads after a truncated TCP header, with 14 bytes of the header captured and a header length that can be right.
segment = tcp(2, b"\2\4\5\xb4" + ten, offset=6)
cut = "stopped TcpHeader: 24 bytes needed"
missing(v4(6, segment), 43, f"tcp 80 > 4000 [S] seq 1 len 0 of 10 {cut}, 23 there (limit Slice, offset 20) incomplete")
missing(v6(6, segment), 60, f"tcp 80 > 4000 [S] seq 1 len 0 of 10 {cut}, 20 there (limit Slice, offset 40) incomplete", V6, True)
missing(v4(6, segment[:24]), 40, f"tcp 80 > 4000 [S] seq 1 len 0 {cut}, 20 there (limit Slice, offset 20) incomplete")
missing(v4(6, segment[:23]), 40, f"tcp 80 > 4000 [S] seq 1 {cut}, 20 there (limit Slice, offset 20) incomplete")
cut = "stopped TcpHeader: 20 bytes needed"
missing(v4(6, segment), 34, f"tcp 80 > 4000 [S] seq 1 len 0 of 10 {cut}, 14 there (limit Slice, offset 20) incomplete")
missing(v4(6, segment), 33, f"tcp 80 > 4000 {cut}, 13 there (limit Slice, offset 20) incomplete")
missing(v4(6, tcp(2, ten, offset=4)), 40, "tcp 80 > 4000 [S] seq 1 stopped Tcp DataOffsetTooSmall 4 incomplete")
missing(v4(6, tcp(2, ten, offset=4)), 34, f"tcp 80 > 4000 [S] seq 1 {cut}, 14 there (limit Slice, offset 20) incomplete")
missing(v4(6, segment, 113, 0x2000), 40, "fragment id 113 offset 0 more tcp 80 > 4000 [S] seq 1 protocol 6 TCP len 20 of 34 incomplete")
row(OTHER, b"abcde", "link 105 len 2", kept=2)


def counted(name, line):
    """Returns how often a layer is in a line; the ports of a header that is not parsed are no layer."""
    if name in ("udp ", "tcp ") and (" protocol " in line or " stopped " in line):
        return 0
    return line.count(" " + name)


def refusals(word, lines):
    """Yields the number of lines with a word, and the count of each error: the layer if bytes are missing, or the error."""
    names = {}
    for line in lines:
        if f" {word} " in line:
            why = line.split(f" {word} ")[1]
            why = why.split(" incomplete")[0]
            name = why.split(":")[0] if ":" in why else why.rstrip(" 0123456789")
            names[name] = names.get(name, 0) + 1
    yield f"{word}: {sum(names.values())}"
    yield from (f"  {name}: {times}" for name, times in names.items())


def summary(lines):
    """Yields the lines of --summary, counted from the texts."""
    own = [line for line in lines if "reassembled" not in line]
    yield f"packets: {len(packets)}"
    yield f"bytes: {sum(len(data) for _, data, _ in packets)} of {sum(length for _, _, length in packets)}"
    for name in ["eth ", "sll ", "vlan:", "macsec ", "ipv4 ", "ipv6 ", "arp ", "fragment ", "udp ", "tcp ", "icmpv4 ", "icmpv6 "]:
        yield f"{name.rstrip(' :')}: {sum(counted(name, line) for line in own if ' refused ' not in line)}"
    yield from refusals("refused", own)
    yield from refusals("stopped", own)
    unread = sum(" link 105" in line for line in lines)
    yield f"not read: {unread}"
    yield f"  link 105: {unread}"
    yield f"reassembled: {sum(' reassembled ' in line for line in lines)}"
    yield f"not reassembled: {sum(' not reassembled: ' in line for line in lines)}"
    yield "expired or evicted: 0"
    yield "incomplete at the end: 4"


def block(number, body):
    body += bytes(-len(body) % 4)
    return struct.pack("<II", number, 12 + len(body)) + body + struct.pack("<I", 12 + len(body))


def capture():
    """Yields the blocks of the capture: the packets, a microsecond apart, in a section of four interfaces."""
    yield block(0x0A0D0D0A, struct.pack("<IHHq", 0x1A2B3C4D, 1, 0, -1))
    for link in (1, 101, 113, 105):
        yield block(1, struct.pack("<HHI", link, 0, 0))
    for tick, (link, data, length) in enumerate(packets):
        yield block(6, struct.pack("<IIIII", link, 0, tick, len(data), length) + data)


with open(sys.argv[1], "wb") as file:
    file.writelines(capture())
for name, lines in zip(sys.argv[2:], [lax_lines, strict_lines]):
    with open(name, "w", encoding="utf-8") as file:
        file.writelines(f"{line}\n" for line in lines + list(summary(lines)))
