"""Hand-written results of slice_lax: each header truncated at each byte, each length field with its possible values,
chains of extension headers, and fragments. Each row is tested without a tag, in a VLAN tag, and in MACsec tags whose
short length is 0, exact, and too great."""
import pathlib
import sys
import unittest

HERE = pathlib.Path(__file__).resolve().parent
sys.path[:0] = [str(HERE), str(HERE.parent)]
import etherparse_c as ep
from etherparse_c import Layer, LenSource, RefusalKind
from test_lax import ARP, ETHERNET, TCP, authentication, fragment, ipv4, ipv6, macsec, options, udp

IPV4, IPV6 = 0x0800, 0x86dd

# wrapper of bytes of an ether type, length of its tag, limit of the inner bytes, and whether some of them are missing
AROUND = [
    (lambda type, inside: (type, inside), 0, "SLICE", False),
    (lambda type, inside: (0x8100, b"\0\7" + type.to_bytes(2, "big") + inside), 4, "SLICE", False),
    (lambda type, inside: (0x88e5, macsec(inside, 0, type)), 8, "SLICE", False),
    (lambda type, inside: (0x88e5, macsec(inside, len(inside) + 2, type) + b"behind"), 8, "MACSEC", False),
    (lambda type, inside: (0x88e5, macsec(inside, 63, type)), 8, "SLICE", True),
]
OF_ANY_LENGTH = AROUND[:3]  # the others contain at most 60 bytes

# ether type of the outer headers, these headers, a header after them, and the lengths below which a layer rejects it
HEADERS = [
    (0x8100, b"", b"\0\7\x12\x34", [(4, Layer.VLAN_HEADER)]),
    (0x88e5, b"", macsec(b"", 0, 0x1234, bytes(8)), [(6, Layer.MACSEC_HEADER), (16, Layer.MACSEC_HEADER)]),
    (0x88e5, b"", macsec(b"", 0, None), [(6, Layer.MACSEC_HEADER)]),
    (0x0806, b"", ARP, [(8, Layer.ARP), (28, Layer.ARP)]),
    (IPV4, b"", ipv4(b"", 253, options=b"\1\1\1\0"), [(20, Layer.IPV4_HEADER), (24, Layer.IPV4_HEADER)]),
    (IPV6, b"", ipv6(b"", 59), [(40, Layer.IPV6_HEADER)]),
    (IPV4, ipv4(b"", 51, 99), authentication(bytes(8), 253, 3), [(12, Layer.IP_AUTH_HEADER), (20, Layer.IP_AUTH_HEADER)]),
    (IPV6, ipv6(b"", 0, 99), options(b"", 59, 1), [(8, Layer.IPV6_EXT_HEADER), (16, Layer.IPV6_EXT_HEADER)]),
    (IPV6, ipv6(b"", 43, 99), options(b"", 59, 1), [(8, Layer.IPV6_EXT_HEADER), (16, Layer.IPV6_EXT_HEADER)]),
    (IPV6, ipv6(b"", 44, 99), fragment(b"", 59), [(8, Layer.IPV6_FRAG_HEADER)]),
    (IPV6, ipv6(b"", 51, 99), authentication(bytes(8), 59, 3), [(12, Layer.IP_AUTH_HEADER), (20, Layer.IP_AUTH_HEADER)]),
    (IPV6, ipv6(b"", 60, 99), options(b"", 59, 1), [(8, Layer.IPV6_EXT_HEADER), (16, Layer.IPV6_EXT_HEADER)]),
    (IPV4, ipv4(b"", 17, 99), udp(b""), [(8, Layer.UDP_HEADER)]),
    (IPV4, ipv4(authentication(bytes(4)), 51, 99), udp(b""), [(8, Layer.UDP_HEADER)]),
    (IPV6, ipv6(options(b"", 17), 0, 99), udp(b""), [(8, Layer.UDP_HEADER)]),
    (IPV4, ipv4(b"", 6, 99), TCP, [(20, Layer.TCP_HEADER), (24, Layer.TCP_HEADER)]),
    (IPV4, ipv4(b"", 1, 99), bytes(8), [(8, Layer.ICMPV4)]),
    (IPV4, ipv4(b"", 1, 99), b"\x0d\0" + bytes(18), [(8, Layer.ICMPV4), (20, Layer.ICMPV4_TIMESTAMP)]),
    (IPV4, ipv4(b"", 1, 99), b"\x0e\0" + bytes(18), [(8, Layer.ICMPV4), (20, Layer.ICMPV4_TIMESTAMP_REPLY)]),
    (IPV6, ipv6(b"", 58, 99), bytes(8), [(8, Layer.ICMPV6)]),
]

# first headers of an entry, and the lengths below which a layer rejects them
FIRST_HEADERS = [
    (ep.Entry.ETHERNET, ETHERNET + b"\x12\x34", [(14, Layer.ETHERNET2_HEADER)]),
    (ep.Entry.LINUX_SLL, b"\0\0\0\1" + bytes(12), [(16, Layer.LINUX_SLL_HEADER)]),
    (ep.Entry.IP, ipv4(b"", 253, options=bytes(4)), [(1, Layer.IP_HEADER), (20, Layer.IPV4_HEADER), (24, Layer.IPV4_HEADER)]),
    (ep.Entry.IP, ipv6(b"", 59), [(1, Layer.IP_HEADER), (40, Layer.IPV6_HEADER)]),
]

# headers of a chain: number, layer, offset, lengths below which it is rejected, and whether a header before it marks
# the payload as a fragment
CHAIN = options(options(fragment(authentication(bytes(4) + options(udp(b""), 17), 60), 51, more=1), 44, 1), 43)
CHAIN_HEADERS = [
    (0, Layer.IPV6_EXT_HEADER, 0, [8], 0), (43, Layer.IPV6_EXT_HEADER, 8, [8, 16], 0), (44, Layer.IPV6_FRAG_HEADER, 24, [8], 0),
    (51, Layer.IP_AUTH_HEADER, 32, [12, 16], 1), (60, Layer.IPV6_EXT_HEADER, 48, [8], 1),
]


class Rows(unittest.TestCase):
    def limits(self, packet):
        payload = packet.payload
        return LenSource(payload.len_source).name, packet.is_incomplete, payload.offset, payload.len

    def around(self, ether_type, inside, wanted, around=AROUND):
        """Slices bytes in all wrappers, checks their payload, and yields the packets with the length of the wrapper."""
        for wrap, front, end, missing in around:
            source, incomplete, offset, length = wanted
            if source == "SLICE":
                source, incomplete = end, incomplete or missing
            outer_type, data = wrap(ether_type, inside)
            packet = ep.slice_lax(data, ep.Entry.ETHER_TYPE, outer_type)
            self.assertEqual(self.limits(packet), (source, incomplete, offset + front, length), (outer_type, data.hex()))
            yield packet, front

    def ends(self, ether_type, inside, wanted, around=AROUND):
        for packet, _ in self.around(ether_type, inside, wanted, around):
            self.assertIsNone(packet.stop)

    def misses(self, ether_type, inside, wanted, refusal, around=AROUND):
        """Checks bytes in all wrappers, and the length error: layer, limit, needed and available bytes, and offset."""
        for packet, front in self.around(ether_type, inside, wanted, around):
            layer, source, needed, there, begin = refusal
            stop = packet.stop
            self.assertEqual((stop.kind, stop.layer, LenSource(stop.len_source).name, stop.required_len, stop.len),
                             (RefusalKind.LEN, layer, source, needed, there), inside.hex())
            self.assertEqual(stop.layer_start_offset, begin + front, inside.hex())

    def test_headers_cut(self):
        for ether_type, front, header, steps in HEADERS:
            for there in range(len(header)):
                needed, layer = next(step for step in steps if there < step[0])
                source = "ARP" if layer == Layer.ARP and needed > 8 else "SLICE"
                begin = len(front)
                self.misses(ether_type, front + header[:there], ("SLICE", begin > 0, begin, there),
                            (layer, source, needed, there, begin))
            for wrap, *_ in AROUND:
                self.assertIsNone(ep.slice_lax(wrap(ether_type, front + header)[1], 2, wrap(ether_type, b"")[0]).stop)

    def test_first_headers_cut(self):
        for entry, header, steps in FIRST_HEADERS:
            for there in range(len(header)):
                needed, layer = next(step for step in steps if there < step[0])
                with self.assertRaises(ep.Refused) as raised:
                    ep.slice_lax(header[:there], entry)
                error = raised.exception
                self.assertEqual((error.kind, error.layer, error.len_source, error.required_len, error.len,
                                  error.layer_start_offset), (RefusalKind.LEN, layer, LenSource.SLICE, needed, there, 0))
            self.assertIsNone(ep.slice_lax(header, entry).stop)

    def test_chains_cut(self):
        for number, layer, begin, steps, fragmented in CHAIN_HEADERS:
            for there in range(steps[-1]):
                needed = next(step for step in steps if there < step)
                cut = CHAIN[: begin + there]
                # missing bytes, and a payload length that counts the available bytes
                rows = [(ipv6(cut, 0, 99), "SLICE", True), (ipv6(cut, 0) + b"behind", "IPV6", False)]
                for data, source, incomplete in rows if cut else rows[:1]:
                    self.misses(IPV6, data, (source, incomplete, 40 + begin, there),
                                (layer, source, needed, there, 40 + begin), OF_ANY_LENGTH)
                    packet = ep.slice_lax(data, ep.Entry.IP)
                    self.assertEqual((packet.ip.number, packet.ip.fragmented), (number, fragmented))
                    self.assertEqual((packet.net.len, packet.transport.kind), (40 + begin, 0))
        self.ends(IPV6, ipv6(CHAIN, 0), ("IPV6", False, 96, 8), OF_ANY_LENGTH)

    def test_total_lengths(self):
        for total, wanted in [(0, ("SLICE", False, 20, 12)), (19, ("SLICE", False, 20, 12)), (20, ("IPV4", False, 20, 0)),
                              (21, ("IPV4", False, 20, 1)), (32, ("IPV4", False, 20, 12)),
                              (33, ("SLICE", True, 20, 12)), (65535, ("SLICE", True, 20, 12))]:
            self.ends(IPV4, ipv4(bytes(12), 253, total), wanted)
        # less than the length of a header with options
        self.ends(IPV4, ipv4(bytes(12), 253, 23, options=b"\1\1\1\0"), ("SLICE", False, 24, 12))

    def test_payload_lengths(self):
        for length, wanted in [(0, ("SLICE", False, 40, 12)), (1, ("IPV6", False, 40, 1)), (12, ("IPV6", False, 40, 12)),
                               (13, ("SLICE", True, 40, 12)), (65535, ("SLICE", True, 40, 12))]:
            self.ends(IPV6, ipv6(bytes(12), 253, length), wanted)
        self.ends(IPV6, ipv6(b"", 253, 0), ("IPV6", False, 40, 0), AROUND[:4])
        self.ends(IPV6, ipv6(b"", 253, 0), ("IPV6", True, 40, 0), AROUND[4:])

    def test_udp_lengths(self):
        for length, cuts, incomplete, there in [(0, False, False, 5), (7, False, False, 5), (8, True, False, 0),
                                                (9, True, False, 1), (13, True, False, 5), (14, False, True, 5),
                                                (65535, False, True, 5)]:
            # in IP whose length field is in effect, is 0, or counts missing bytes
            for ether_type, data, source, missing in [
                (IPV4, ipv4(udp(b"abcde", length)) + b"behind", "IPV4", False),
                (IPV4, ipv4(udp(b"abcde", length), total=0), "SLICE", False),
                (IPV4, ipv4(udp(b"abcde", length), total=99), "SLICE", True),
                (IPV6, ipv6(udp(b"abcde", length)), "IPV6", False),
                (IPV6, ipv6(udp(b"abcde", length), length=99), "SLICE", True),
            ]:
                offset = 28 if ether_type == IPV4 else 48
                wanted = ("UDP", False, offset, there) if cuts else (source, incomplete or missing, offset, there)
                self.ends(ether_type, data, wanted)

    def test_short_lengths(self):
        for short_len, modified, wanted in [
            (0, True, ("SLICE", False, 6, 49)), (1, True, ("MACSEC", False, 6, 1)), (2, True, ("MACSEC", False, 6, 2)),
            (47, True, ("MACSEC", False, 6, 47)), (49, True, ("MACSEC", False, 6, 49)), (50, True, ("SLICE", True, 6, 49)),
            (63, True, ("SLICE", True, 6, 49)), (0, False, ("SLICE", False, 8, 47)), (2, False, ("MACSEC", False, 8, 0)),
            (47, False, ("MACSEC", False, 8, 45)), (49, False, ("MACSEC", False, 8, 47)), (50, False, ("SLICE", True, 8, 47)),
            (63, False, ("SLICE", True, 8, 47)),
        ]:
            self.ends(0x88e5, macsec(bytes(49 if modified else 47), short_len, None if modified else 0x1234), wanted)
        # an unmodified payload is at least as long as its ether type
        for packet, _ in self.around(0x88e5, macsec(bytes(9), 1, 0x1234), ("SLICE", False, 0, 17)):
            self.assertEqual(packet.stop.kind, RefusalKind.MACSEC_SHORT_LEN)

    def test_fragments(self):
        refused = b"\x11\0" + bytes(10)  # an authentication header with payload length 0
        for ether_type, data, number, fields, transport, stop in [
            (IPV4, ipv4(udp(b"abcdefgh"), flags=0x2000), 17, (1, 1, 0), 0, 0),
            (IPV4, ipv4(udp(b"abcdefgh"), flags=2), 17, (1, 0, 16), 0, 0),
            (IPV4, ipv4(udp(b"abcdefgh"), flags=0x4000), 17, (0, 0, 0), 17, 0),
            (IPV4, ipv4(udp(b"abcdefgh"), flags=0x2000, total=99), 17, (1, 1, 0), 0, 0),
            (IPV4, ipv4(refused, 51, flags=0x2000), 51, (1, 1, 0), 0, RefusalKind.IPV4_AUTH),
            (IPV4, ipv4(authentication(bytes(4) + udp(b"")), 51, flags=3), 17, (1, 0, 24), 0, 0),
            (IPV6, ipv6(fragment(b"abc", more=1), 44), 17, (1, 1, 0), 0, 0),
            (IPV6, ipv6(fragment(udp(b""), offset=2), 44, 99), 17, (1, 0, 16), 0, 0),
            (IPV6, ipv6(fragment(udp(b"")), 44), 17, (0, 0, 0), 17, 0),
            (IPV6, ipv6(fragment(fragment(b""), 44, more=1), 44), 17, (1, 1, 0), 0, 0),
            # nothing is parsed after a rejected header, and its fields are not used
            (IPV6, ipv6(fragment(options(b"", 44), 0, more=1), 44), 0, (1, 1, 0), 0, RefusalKind.IPV6_HOP_BY_HOP),
            (IPV6, ipv6(b"\x2c\0" + bytes(10) + fragment(b"", more=1), 51), 51, (0, 0, 0), 0, RefusalKind.IPV6_AUTH),
        ]:
            for wrap, *_ in AROUND:
                outer_type, bytes_of = wrap(ether_type, data)
                packet = ep.slice_lax(bytes_of, ep.Entry.ETHER_TYPE, outer_type)
                ip = packet.ip
                self.assertEqual((ip.number, (ip.fragmented, ip.more_fragments, ip.fragment_offset)), (number, fields))
                self.assertEqual((packet.transport.kind, packet.refusal.kind), (transport, stop), data.hex())

    def test_stops(self):
        for data, entry, ether_type, wanted in [
            (ETHERNET + b"\x81\0\0", ep.Entry.ETHERNET, 0, ("SLICE", False, 14, 1, 3, 4, 1, 14)),
            (ETHERNET + b"\x08\0" + ipv4(udp(b"ab"))[:19], ep.Entry.ETHERNET, 0, ("SLICE", False, 14, 19, 8, 20, 19, 14)),
            (ipv4(udp(b"ab"))[:27], ep.Entry.IP, 0, ("SLICE", True, 20, 7, 15, 8, 7, 20)),
            (ipv4(TCP[:23], 6), ep.Entry.IP, 0, ("IPV4", False, 20, 23, 17, 24, 23, 20)),
            (ipv4(authentication(b"", length=3), 51), ep.Entry.IP, 0, ("IPV4", False, 20, 12, 10, 20, 12, 20)),
            (ipv6(options(fragment(b"")[:7], 44), 0), ep.Entry.IP, 0, ("IPV6", False, 48, 7, 14, 8, 7, 48)),
            (ipv6(fragment(options(b"", 17)[:5], 60, more=1), 44), ep.Entry.IP, 0, ("IPV6", False, 48, 5, 13, 8, 5, 48)),
            (ARP[:27], ep.Entry.ETHER_TYPE, 0x0806, ("SLICE", False, 0, 27, 6, 28, 27, 0)),
        ]:
            packet = ep.slice_lax(data, entry, ether_type)
            payload, stop = packet.payload, packet.stop
            limits = (ep.LenSource(payload.len_source).name, packet.is_incomplete, payload.offset, payload.len)
            self.assertEqual((*limits, stop.layer, stop.required_len, stop.len, stop.layer_start_offset), wanted, data.hex())
        for data, entry, kind in [
            (b"", ep.Entry.IP, ep.RefusalKind.LEN), (b"\x50", ep.Entry.IP, ep.RefusalKind.IP_VERSION),
            (b"\x44" + bytes(19), ep.Entry.IP, ep.RefusalKind.IP_IHL), (bytes(13), ep.Entry.ETHERNET, ep.RefusalKind.LEN),
            (b"\0\x08" + bytes(14), ep.Entry.LINUX_SLL, ep.RefusalKind.SLL_PACKET_TYPE),
        ]:
            with self.assertRaises(ep.Refused) as raised:
                ep.slice_lax(data, entry)
            self.assertEqual(raised.exception.kind, kind)
        with self.assertRaises(ep.UnknownChoice):
            ep.slice_lax(b"", 4)

    def test_tags(self):
        four = ep.slice_lax(b"\0\1\x81\0\0\2\x81\0\0\3\x81\0\0\4\x08\0", ep.Entry.ETHER_TYPE, 0x8100)
        self.assertEqual((four.vlan_ids, four.payload.offset, four.stop), ((1, 2, 3), 12, None))


if __name__ == "__main__":
    unittest.main()
