#!/usr/bin/env python3
"""Writes 100 inputs for fuzz.c: seeds.py FOLDER

An input is the number of an entry, an ether type in two bytes, and frames, each after its length in two bytes; the
length of the last frame may be greater than its bytes. All runs write equal inputs.
"""
import itertools
import pathlib
import struct
import sys

ETHERNET, LINUX_SLL, ETHER_TYPE, IP = range(4)
ADDRESSES = bytes([7, 8, 9, 10, 11, 12, 1, 2, 3, 4, 5, 6])


def word(number):
    return struct.pack(">H", number)


def ipv4(protocol, payload, place=0x4000, options=b"", identification=7):
    ihl = 5 + len(options) // 4
    numbers = struct.pack(">HHHBBH", 4 * ihl + len(payload), identification, place, 20, protocol, 0)
    return bytes([0x40 | ihl, 0]) + numbers + bytes([10, 0, 0, 1, 10, 0, 0, 2]) + options + payload


def ipv6(protocol, payload):
    return struct.pack(">IHBB", 6 << 28, len(payload), protocol, 64) + bytes(range(16)) + bytes(range(16, 32)) + payload


def udp(payload):
    return struct.pack(">HHHH", 21, 1234, 8 + len(payload), 0) + payload


def tcp(payload, options=b""):
    return struct.pack(">HHIIBBHHH", 80, 4000, 7, 9, (5 + len(options) // 4) << 4, 18, 512, 0, 0) + options + payload


def icmp(kind, payload):
    return bytes([kind, 0, 0, 0]) + payload


def frames():
    """Yields frames with their entry and, for the entry of an ether type, that type."""
    text = b"hello, frame"
    transports = [(17, udp(text)), (17, udp(b"")), (6, tcp(text)), (6, tcp(text, bytes([1, 1, 4, 2]))),
                  (1, icmp(8, bytes(8))), (1, icmp(13, bytes(16))), (58, icmp(128, bytes(8))), (253, text)]
    # extension headers of IPv6, and an authentication header, before a datagram
    chain = [(60, bytes([17, 0, 1, 4, 0, 0, 0, 0])),
             (0, bytes([43, 0, 1, 4, 0, 0, 0, 0]) + bytes([17, 0, 0, 0, 0, 0, 0, 0])),
             (44, bytes([17, 0, 0, 0, 0, 0, 0, 9])), (44, bytes([17, 0, 0, 9, 0, 0, 0, 9])),
             (51, bytes([17, 1, 0, 0, 0, 0, 0, 1, 0, 0, 0, 2]))]
    net = [(0x0800, ipv4(number, segment)) for number, segment in transports]
    net += [(0x86dd, ipv6(number, segment)) for number, segment in transports]
    net += [(0x86dd, ipv6(number, header + udp(text))) for number, header in chain]
    net += [(0x0800, ipv4(17, udp(text), options=bytes([1, 1, 1, 0]))), (0x0800, ipv4(51, chain[-1][1] + udp(text))),
            (0x0800, ipv4(17, udp(text)[:16], place=0x2000)), (0x0800, ipv4(17, text[:4], place=2)),
            (0x0806, bytes([0, 1, 8, 0, 6, 4, 0, 1]) + bytes(20)), (0x88cc, text)]
    tags = [[], [(0x8100, word(42))], [(0x88a8, word(7)), (0x8100, word(42))]]
    for (ether_type, packet), tag in itertools.product(net, tags):
        head = ADDRESSES
        for kind, id in tag:
            head += word(kind) + id
        yield ETHERNET, 0, head + word(ether_type) + packet
    for ether_type, packet in net:
        yield ETHER_TYPE, ether_type, packet
        yield LINUX_SLL, 0, struct.pack(">HHHQH", 4, 1, 6, 0x010203040506 << 16, ether_type) + packet
        if ether_type in (0x0800, 0x86dd):
            yield IP, 0, packet
    for first in (0x00, 0x20, 0x04, 0x0c):  # MACsec: with and without an SCI, modified, encrypted
        after_tag = (bytes(8) if first & 0x20 else b"") + (word(0x0800) if not first & 0x0c else b"")
        yield ETHERNET, 0, ADDRESSES + word(0x88e5) + bytes([first, 0, 0, 0, 0, 1]) + after_tag + ipv4(17, udp(text))


def fragments(order, version):
    """Yields a datagram in three fragments, in this order."""
    whole = udp(bytes(range(40)))
    parts = [(0, 16), (16, 32), (32, 48)]
    for i in order:
        start, end = parts[i]
        more = end < len(whole)
        if version == 4:
            yield ipv4(17, whole[start:end], place=start // 8 | (0x2000 if more else 0), identification=order[0])
        else:
            yield ipv6(44, bytes([17, 0]) + word(start | more) + bytes([0, 0, 0, order[0]]) + whole[start:end])


def inputs():
    """Yields complete and truncated frames, then fragments of one payload."""
    every = list(frames())
    step = len(every) / 76
    chosen = [every[int(i * step)] for i in range(76)]
    for entry, ether_type, frame in chosen:
        yield bytes([entry]) + word(ether_type) + word(len(frame)) + frame
    for i in range(12):
        entry, ether_type, frame = chosen[i * 6]
        yield bytes([entry]) + word(ether_type) + word(len(frame) * (i + 1) // 13) + frame
    for order, version in itertools.product(itertools.permutations(range(3)), (4, 6)):
        # the ether type, which is not read for this entry, is the limits of a bounded pool
        yield bytes([IP, 15, 3]) + b"".join(word(len(part)) + part for part in fragments(order, version))


def main():
    if len(sys.argv) != 2:
        sys.exit(__doc__.split("\n")[0])
    folder = pathlib.Path(sys.argv[1])
    folder.mkdir(parents=True, exist_ok=True)
    for i, seed in enumerate(inputs()):
        (folder / f"{i:03}").write_bytes(seed)
    print(f"{i + 1} inputs in {folder}")


main()
