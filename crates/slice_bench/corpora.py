#!/usr/bin/env python3
"""Writes corpora for slice_bench: python3 corpora.py FOLDER [SEED [FRAGMENTS]]

A file contains frames, each with its length in four bytes, little endian, and then its bytes. Equal seeds produce equal
bytes.

udp64        Ethernet II, IPv4, UDP with a payload of 64 bytes
udp1400      Ethernet II, IPv4, UDP with a payload of 1,400 bytes
vlan2        udp64 with a service tag and a customer tag
vlan1        udp64 with a customer tag
tcp64        Ethernet II, IPv4, TCP with a payload of 64 bytes
udp64ipv6    Ethernet II, IPv6, UDP with a payload of 64 bytes
raw64        Ethernet II, IPv4, 64 bytes of an unknown protocol
mix          IPv4 and IPv6, with and without options, extension headers and tags; UDP, TCP with options, ICMP, ARP
interleaved  1,000 streams of FRAGMENTS fragments each (default 1,000) of 64 bytes, in turn
streams      the fragments of interleaved, one stream after the other
crowd        100,000 streams of FRAGMENTS / 100 fragments each (default 10, at least 1) of 64 bytes, in turn
queue        the fragments of crowd, one stream after the other
ascending    a payload of 65,528 bytes in fragments of 8 bytes, from the first to the last
descending   the fragments of ascending, from the last to the first
shuffled     the fragments of ascending, in random order
alternating  the fragments of ascending, first every second one, then the others
honest       1,000 streams of 4 fragments of 64 bytes, one after the other
firsts       4,000 first fragments of 64 bytes, each of its own stream
long         500 first fragments of 65,512 bytes, each of its own stream
flood        a million first fragments as in firsts, with the fragments of honest evenly distributed among them
far          as flood, but with a million fragments without bytes at offset 65,528
"""
import os
import random
import struct
import sys

FRAMES = 1000
STREAMS = 1000
CROWD = 100_000
FIRSTS = 4_000
LONG = 500
FLOOD = 1_000_000


def checksum(data):
    """The Internet checksum (RFC 1071)."""
    if len(data) % 2:
        data += b"\0"
    total = sum(struct.unpack(f">{len(data) // 2}H", data))
    total = (total & 0xFFFF) + (total >> 16)
    total = (total & 0xFFFF) + (total >> 16)
    return ~total & 0xFFFF


def ethernet(rng, ether_type, payload, tags=()):
    """An Ethernet II frame with IEEE 802.1Q tags: pairs of tag type and VLAN identifier."""
    types = [kind for kind, _ in tags] + [ether_type]
    head = rng.randbytes(12) + struct.pack(">H", types[0])
    for (_, vlan), inside in zip(tags, types[1:]):
        head += struct.pack(">HH", vlan, inside)
    return head + payload


def ipv4(rng, protocol, payload, options=b"", addresses=None, ident=None, fragment=0x4000):
    """An IPv4 packet (RFC 791)."""
    addresses = addresses or rng.randbytes(8)
    ident = rng.randrange(65536) if ident is None else ident
    head_len = 20 + len(options)
    head = struct.pack(
        ">BBHHHBBH", 0x40 | head_len // 4, 0, head_len + len(payload), ident, fragment, 64, protocol, 0
    )
    head += addresses + options
    return head[:10] + struct.pack(">H", checksum(head)) + head[12:] + payload


def ipv6(rng, number, payload, addresses=None):
    """An IPv6 packet (RFC 8200)."""
    addresses = addresses or rng.randbytes(32)
    return struct.pack(">IHBB", 6 << 28, len(payload), number, 64) + addresses + payload


def pseudo_header(addresses, number, length):
    """The pseudo-header of UDP and TCP (RFC 768; RFC 9293, 3.1; RFC 8200, 8.1)."""
    if len(addresses) == 8:
        return addresses + struct.pack(">BBH", 0, number, length)
    return addresses + struct.pack(">II", length, number)


def udp(rng, addresses, payload):
    """A UDP datagram (RFC 768)."""
    length = 8 + len(payload)
    ports = struct.pack(">HHH", rng.randrange(1024, 65536), 53, length)
    total = checksum(pseudo_header(addresses, 17, length) + ports + b"\0\0" + payload) or 0xFFFF
    return ports + struct.pack(">H", total) + payload


def tcp(rng, addresses, payload, options=b""):
    """A TCP segment (RFC 9293, 3.1)."""
    offset = (20 + len(options)) // 4
    head = struct.pack(
        ">HHIIBBH", rng.randrange(1024, 65536), 443, rng.getrandbits(32), rng.getrandbits(32), offset << 4, 0x18, 65535
    )
    rest = b"\0\0" + options + payload
    length = len(head) + 2 + len(rest)
    total = checksum(pseudo_header(addresses, 6, length) + head + b"\0\0" + rest)
    return head + struct.pack(">H", total) + rest


def icmp(rng, kind, payload, pseudo=b""):
    """An ICMP echo request (RFC 792; RFC 4443, 4.1)."""
    rest = struct.pack(">HH", rng.randrange(65536), rng.randrange(65536)) + payload
    total = checksum(pseudo + struct.pack(">BBH", kind, 0, 0) + rest)
    return struct.pack(">BBH", kind, 0, total) + rest


def extension(number, inside, options=b"\x01\x04\0\0\0\0"):
    """A hop-by-hop or destination options header of eight bytes with this next header (RFC 8200, 4.3 and 4.6)."""
    return bytes([number, 0]) + options + inside


def udp_frame(rng, length, tags=()):
    addresses = rng.randbytes(8)
    packet = ipv4(rng, 17, udp(rng, addresses, rng.randbytes(length)), addresses=addresses)
    return ethernet(rng, 0x0800, packet, tags)


def tcp_frame(rng, length):
    addresses = rng.randbytes(8)
    return ethernet(rng, 0x0800, ipv4(rng, 6, tcp(rng, addresses, rng.randbytes(length)), addresses=addresses))


def udp_ipv6_frame(rng, length):
    addresses = rng.randbytes(32)
    return ethernet(rng, 0x86DD, ipv6(rng, 17, udp(rng, addresses, rng.randbytes(length)), addresses))


def mixed_frame(rng):
    payload = rng.randbytes(rng.choice((0, 32, 64, 512, 1200)))
    four, six = rng.randbytes(8), rng.randbytes(32)
    tags = rng.choice(((), (), ((0x8100, rng.randrange(4096)),)))
    tcp_options = bytes.fromhex("020405b40402080a000000010000000001030307")
    kind = rng.randrange(10)
    if kind == 0:
        return ethernet(rng, 0x0806, bytes.fromhex("0001080006040001") + rng.randbytes(20), tags)
    if kind <= 2:
        return ethernet(rng, 0x0800, ipv4(rng, 17, udp(rng, four, payload), addresses=four), tags)
    if kind == 3:
        segment = tcp(rng, four, payload, tcp_options)
        return ethernet(rng, 0x0800, ipv4(rng, 6, segment, bytes.fromhex("94040000"), four), tags)
    if kind == 4:
        segment = tcp(rng, four, payload)
        auth = struct.pack(">BBHII", 6, 4, 0, 1, 1) + rng.randbytes(12)
        return ethernet(rng, 0x0800, ipv4(rng, 51, auth + segment, addresses=four), tags)
    if kind == 5:
        return ethernet(rng, 0x0800, ipv4(rng, 1, icmp(rng, 8, payload), addresses=four), tags)
    if kind == 6:
        return ethernet(rng, 0x86DD, ipv6(rng, 17, udp(rng, six, payload), six), tags)
    if kind == 7:
        return ethernet(rng, 0x86DD, ipv6(rng, 6, tcp(rng, six, payload, tcp_options), six), tags)
    if kind == 8:
        chain = extension(60, extension(17, udp(rng, six, payload)))
        return ethernet(rng, 0x86DD, ipv6(rng, 0, chain, six), tags)
    pseudo = pseudo_header(six, 58, 8 + len(payload))
    return ethernet(rng, 0x86DD, ipv6(rng, 58, icmp(rng, 128, payload, pseudo), six), tags)


def stream_fragments(rng, count, size=64):
    """The fragments of a UDP datagram without a checksum, of `size` bytes each, a multiple of 8."""
    addresses, ident = rng.randbytes(8), rng.randrange(65536)
    payload = rng.randbytes(size * count)
    payload = payload[:4] + struct.pack(">HH", len(payload), 0) + payload[8:]
    for at in range(count):
        flags = (0x2000 if at + 1 < count else 0) | at * size // 8
        packet = ipv4(rng, 17, payload[size * at : size * at + size], b"", addresses, ident, flags)
        yield ethernet(rng, 0x0800, packet)


def first_fragments(rng, count, offset=0, payload=bytes(64)):
    """Fragments that are not the last ones, each of its own UDP datagram."""
    for number in range(count):
        addresses = struct.pack(">II", 10 << 24, number)
        packet = ipv4(rng, 17, payload, b"", addresses, number & 0xFFFF, 0x2000 | offset // 8)
        yield ethernet(rng, 0x0800, packet)


def among(few, many, count):
    """The frames of `few` in `count` frames of `many`, evenly distributed."""
    for at, frame in enumerate(many):
        yield frame
        if at % (count // len(few)) == 0:
            yield few[min(at // (count // len(few)), len(few) - 1)]


def write(folder, name, frames):
    with open(f"{folder}/{name}", "wb") as file:
        for frame in frames:
            file.write(struct.pack("<I", len(frame)) + frame)


def main(arguments):
    if not 1 <= len(arguments) <= 3 or arguments[0].startswith("-"):
        sys.exit(__doc__.splitlines()[0])
    folder = arguments[0]
    seed = int(arguments[1]) if len(arguments) > 1 else 1
    fragments = int(arguments[2]) if len(arguments) > 2 else 1000
    if not 1 <= fragments <= 1023:
        sys.exit("a stream has 1 to 1,023 fragments of 64 bytes")
    os.makedirs(folder, exist_ok=True)
    rng = random.Random(seed)
    write(folder, "udp64", [udp_frame(rng, 64) for _ in range(FRAMES)])
    write(folder, "udp1400", [udp_frame(rng, 1400) for _ in range(FRAMES)])
    write(folder, "vlan2", [udp_frame(rng, 64, ((0x88A8, 7), (0x8100, 9))) for _ in range(FRAMES)])
    write(folder, "mix", [mixed_frame(rng) for _ in range(FRAMES)])
    streams = [list(stream_fragments(rng, fragments)) for _ in range(STREAMS)]
    write(folder, "streams", (frame for stream in streams for frame in stream))
    write(folder, "interleaved", (frame for turn in zip(*streams) for frame in turn))
    streams = [list(stream_fragments(rng, max(1, fragments // 100))) for _ in range(CROWD)]
    write(folder, "queue", (frame for stream in streams for frame in stream))
    write(folder, "crowd", (frame for turn in zip(*streams) for frame in turn))
    frames = list(stream_fragments(rng, 8191, 8))
    write(folder, "ascending", frames)
    write(folder, "descending", frames[::-1])
    write(folder, "shuffled", rng.sample(frames, len(frames)))
    write(folder, "alternating", frames[::2] + frames[1::2])
    # Last, so that adding these corpora did not change the bytes of the others.
    write(folder, "vlan1", [udp_frame(rng, 64, ((0x8100, 9),)) for _ in range(FRAMES)])
    write(folder, "tcp64", [tcp_frame(rng, 64) for _ in range(FRAMES)])
    write(folder, "udp64ipv6", [udp_ipv6_frame(rng, 64) for _ in range(FRAMES)])
    write(folder, "raw64", [ethernet(rng, 0x0800, ipv4(rng, 253, rng.randbytes(64))) for _ in range(FRAMES)])
    honest = [frame for _ in range(STREAMS) for frame in stream_fragments(rng, 4)]
    write(folder, "honest", honest)
    write(folder, "firsts", first_fragments(rng, FIRSTS))
    write(folder, "long", first_fragments(rng, LONG, 0, bytes(65512)))
    write(folder, "flood", among(honest, first_fragments(rng, FLOOD), FLOOD))
    write(folder, "far", among(honest, first_fragments(rng, FLOOD, 65528, b""), FLOOD))


if __name__ == "__main__":
    main(sys.argv[1:])
