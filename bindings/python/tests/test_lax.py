"""Compares slice_lax with a second parser on frames of every kind: truncated at each byte, with each byte set to
several values, and with random changes."""
import pathlib
import random
import re
import sys
import unittest

HERE = pathlib.Path(__file__).resolve().parent
sys.path[:0] = [str(HERE), str(HERE.parent)]
import etherparse_c as ep
import lax_reader

CASES = HERE.parents[2] / "crates/frame_bench/cases"
ENTRIES = {"eth": ep.Entry.ETHERNET, "sll": ep.Entry.LINUX_SLL, "ip": ep.Entry.IP}


def answer(data, entry, ether_type=0):
    """Returns the result of slice_lax in the form of the second parser."""
    try:
        packet = ep.slice_lax(data, entry, ether_type)
    except ep.Refused as error:
        return None, (error.kind, error.layer or 0, error.len_source, error.number, error.required_len, error.len,
                      error.layer_start_offset)
    tags = packet.link_exts[: packet.link_ext_count]
    parts = [packet.link, *tags, packet.net, packet.transport]
    refusal = tuple(getattr(packet.refusal, name) for name, _ in packet.refusal._fields_)
    return ([(part.kind, part.offset, part.len) for part in parts], [tag.vlan_id for tag in tags],
            tuple(getattr(packet.ip, name) for name, _ in packet.ip._fields_),
            (packet.source_port, packet.destination_port),
            (packet.payload.len_source, packet.payload.incomplete, packet.payload.offset, packet.payload.len),
            refusal), refusal


def ipv4(payload, number=17, total=None, flags=0, options=b""):
    header_len = 20 + len(options)
    total = header_len + len(payload) if total is None else total
    return (bytes([0x40 + header_len // 4, 0]) + total.to_bytes(2, "big") + b"\0\7" + flags.to_bytes(2, "big")
            + bytes([64, number, 0, 0, 10, 0, 0, 1, 10, 0, 0, 2]) + options + payload)


def ipv6(payload, number=17, length=None):
    length = len(payload) if length is None else length
    return b"\x60\0\0\0" + length.to_bytes(2, "big") + bytes([number, 64]) + bytes(15) + b"\1" + bytes(15) + b"\2" + payload


def udp(payload, length=None):
    return b"\0\x15\4\xd2" + (8 + len(payload) if length is None else length).to_bytes(2, "big") + b"\0\0" + payload


def macsec(payload, short_len=None, ether_type=0x0800, sci=b""):
    """Returns a tag; a short length of None counts type and payload; without a type the payload is modified."""
    if ether_type is not None:
        payload = ether_type.to_bytes(2, "big") + payload
    short_len = (len(payload) if len(payload) < 48 else 0) if short_len is None else short_len
    tci = (0x20 if sci else 0) + (0 if ether_type is not None else 0x0c)
    return bytes([tci, short_len, 0, 0, 0, 9]) + sci + payload


def authentication(payload, next_header=17, length=2):
    return bytes([next_header, length]) + bytes(10) + payload


def options(payload, next_header, length=0):
    return bytes([next_header, length]) + bytes(6 + 8 * length) + payload


def fragment(payload, next_header=17, offset=0, more=0):
    return bytes([next_header, 0]) + (8 * offset + more).to_bytes(2, "big") + b"\0\0\0\5" + payload


TCP = b"\0\x50\0\x51" + bytes(8) + b"\x60\x12" + bytes(6) + b"\1\1\1\1"
ETHERNET = bytes(12)
ARP = b"\0\1\x08\0\6\4\0\1" + bytes(20)
TAGS = {
    "bare": lambda type, inside: type.to_bytes(2, "big") + inside,
    "vlan": lambda type, inside: b"\x81\0\0\x2a" + type.to_bytes(2, "big") + inside,
    "macsec": lambda type, inside: b"\x88\xe5" + macsec(inside, None, type),
    "counted": lambda type, inside: b"\x88\xe5" + macsec(inside, min(len(inside) + 2, 47), type, bytes(8)),
    "both": lambda type, inside: b"\x88\xa8\0\7\x88\xe5" + macsec(inside, 0, type),
}
FRAMES = [
    (0x0800, ipv4(udp(b"abcd"))), (0x0800, ipv4(TCP + b"x", 6)), (0x0800, ipv4(b"\x08\0" + bytes(9), 1)),
    (0x0800, ipv4(b"\x0d\0" + bytes(18), 1)), (0x0800, ipv4(authentication(udp(b"ab")), 51, options=b"\1\1\1\0")),
    (0x0800, ipv4(udp(b"abcdefgh"), flags=0x2000)), (0x0800, ipv4(b"abc", 253)),
    (0x86dd, ipv6(udp(b"abcd"))), (0x86dd, ipv6(b"\x80\0" + bytes(8), 58)),
    (0x86dd, ipv6(options(options(options(fragment(authentication(udp(b"ab")), 51), 44, 1), 60), 43), 0)),
    (0x86dd, ipv6(fragment(udp(b"abcdefgh"), offset=1, more=1), 44)), (0x86dd, ipv6(options(options(b"", 17), 0), 60)),
    (0x0806, ARP), (0x1234, b"other"),
]


class SecondReader(unittest.TestCase):
    def same(self, data, entry, ether_type=0):
        self.assertEqual(answer(data, entry, ether_type), lax_reader.read(data, entry, ether_type),
                         (data.hex(), entry, ether_type))

    def frames(self):
        for ether_type, inside in FRAMES:
            for wrapped in TAGS.values():
                yield ETHERNET + wrapped(ether_type, inside), ep.Entry.ETHERNET
                yield b"\0\0\0\1" + bytes(10) + wrapped(ether_type, inside), ep.Entry.LINUX_SLL
            if ether_type in (0x0800, 0x86dd):
                yield inside, ep.Entry.IP

    def test_cuts(self):
        for data, entry in self.frames():
            for end in range(len(data) + 1):
                self.same(data[:end], entry)
                self.same(data[:end] + bytes(3), entry)

    def test_lengths(self):
        """Sets each byte of a frame to several values; some of the bytes are in length fields."""
        for data, entry in self.frames():
            if entry == ep.Entry.LINUX_SLL:
                continue
            for at in range(len(data)):
                for value in (0, 1, 2, 7, 8, 19, 20, 28, 47, 63, 255, data[at] - 1 & 255, data[at] + 1 & 255):
                    self.same(data[:at] + bytes([value]) + data[at + 1 :], entry)

    def test_stored_frames(self):
        texts = [case.with_suffix("").read_bytes().decode("latin-1") for case in sorted(CASES.glob("*.stdout"))]
        found = re.findall(r"^slice (\w+) ((?:[0-9a-fA-F]{2})+)$", "\n".join(texts), re.MULTILINE)
        self.assertGreater(len(found), 50)
        for name, digits in found:
            data = bytes.fromhex(digits)
            for end in range(0, len(data) + 1):
                self.same(data[:end], ENTRIES[name])

    def test_random_changes(self):
        chosen, frames = random.Random(1), list(self.frames())
        for _ in range(30_000):
            data, entry = chosen.choice(frames)
            data = bytearray(data)
            for _ in range(chosen.randrange(1, 6)):
                data[chosen.randrange(len(data))] = chosen.choice((0, 1, 6, 17, 43, 44, 51, 60, chosen.randrange(256)))
            self.same(bytes(data[: chosen.choice((len(data), chosen.randrange(len(data) + 1)))]), entry)

    def test_frames_read_the_same(self):
        for data, entry in self.frames():
            try:
                strict = ep.slice(data, entry)
            except ep.Refused:
                continue
            lax = ep.slice_lax(data, entry)
            self.assertIsNone(lax.stop)
            self.assertEqual(bytes(strict), bytes(lax))


if __name__ == "__main__":
    unittest.main()
