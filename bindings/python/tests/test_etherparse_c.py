"""Compares the module with the stored answers of frame_bench (crates/frame_bench/cases), and calls with each other."""
import array
import copy
import doctest
import itertools
import pathlib
import pickle
import re
import struct
import sys
import threading
import time
import unittest

sys.path.insert(0, str(pathlib.Path(__file__).resolve().parents[1]))
import etherparse_c as ep

TOP = pathlib.Path(__file__).resolve().parents[3]
CASES = TOP / "crates/frame_bench/cases"
HEADER = TOP / "bindings/c/etherparse.h"

ENTRIES = {"eth": ep.Entry.ETHERNET, "sll": ep.Entry.LINUX_SLL, "ip": ep.Entry.IP}
LINKS = {0: "-", ep.LinkKind.ETHERNET2: "eth", ep.LinkKind.LINUX_SLL: "sll"}
NETS = {0: "-", ep.NetKind.ARP: "arp", ep.NetKind.IPV4: "ipv4", ep.NetKind.IPV6: "ipv6"}
TRANSPORTS = {0: "-", ep.TransportKind.UDP: "udp", ep.TransportKind.TCP: "tcp", ep.TransportKind.ICMPV4: "icmpv4",
              ep.TransportKind.ICMPV6: "icmpv6"}
# the name of each kind of error in frame_bench, and whether it prints the number
REFUSALS = {
    ep.RefusalKind.SLL_PACKET_TYPE: ("sll-packet-type", True),
    ep.RefusalKind.SLL_ARP_HARDWARE: ("sll-arp-hardware", True),
    ep.RefusalKind.MACSEC_VERSION: ("macsec-version", False),
    ep.RefusalKind.MACSEC_SHORT_LEN: ("macsec-short-length", False), ep.RefusalKind.IP_VERSION: ("ip-version", True),
    ep.RefusalKind.IP_IHL: ("ip-ihl", True), ep.RefusalKind.IPV4_VERSION: ("ipv4-version", True),
    ep.RefusalKind.IPV4_IHL: ("ipv4-ihl", True), ep.RefusalKind.IPV6_VERSION: ("ipv6-version", True),
    ep.RefusalKind.IPV4_AUTH: ("ipv4-auth-zero", False), ep.RefusalKind.IPV6_HOP_BY_HOP: ("ipv6-hop-by-hop", False),
    ep.RefusalKind.IPV6_AUTH: ("ipv6-auth-zero", False), ep.RefusalKind.TCP_DATA_OFFSET: ("tcp-data-offset", True),
}
FRAGMENTS = {ep.FragmentRefusal.UNALIGNED: "unaligned", ep.FragmentRefusal.TOO_BIG: "too-big",
             ep.FragmentRefusal.CONFLICTING_END: "conflict"}

DATAGRAM = bytes.fromhex("450000240000400014" "11e375c0a80101c0a80102" "001504d20010677f0102030405060708")
FRAME = bytes.fromhex("0708090a0b0c0102030405060800") + DATAGRAM


def digits(data):
    return data.hex() or "-"


def refused(refusal):
    if refusal.kind == ep.RefusalKind.LEN:
        # frame_bench names the limit and the layer as the text does
        end, layer = re.fullmatch(r"(\w+): .* \(limit (\w+), .*", str(refusal)).group(2, 1)
        return f"err len {refusal.required_len} {refusal.len} {end} {layer} {refusal.layer_start_offset}"
    name, has_number = REFUSALS[refusal.kind]
    return f"err {name} {refusal.number}" if has_number else f"err {name}"


def sliced(packet):
    tags = ",".join("macsec" if tag.kind == ep.ExtKind.MACSEC else f"vlan:{tag.vlan_id}"
                    for tag in packet.link_exts[: packet.link_ext_count])
    return " ".join(["ok", LINKS[packet.link.kind], tags or "-", NETS[packet.net.kind],
                     TRANSPORTS[packet.transport.kind], digits(packet.payload_bytes)])


def answered(line, pool):
    """Returns the answer to a well-formed line, and the pool after it. For a rejected fragment frame_bench prints
    numbers that the library does not return."""
    word, *words = line.split(" ")
    if word == "drop":
        pool.drop_older(int(words[0]))
        return "ok", pool
    if word == "limit":
        pool.close()
        return "ok", ep.Pool(int(words[0]))
    data = b"" if words[-1] == "-" else bytes.fromhex(words[-1])
    entry = ENTRIES[words[0]]
    try:
        if word == "slice":
            return sliced(ep.slice(data, entry)), pool
        payload = pool.push(data, int(words[1]), int(words[2]), entry)
        return ("none" if payload is None else f"payload {payload.ip_number} {digits(payload.data)}"), pool
    except ep.Refused as error:
        return refused(error), pool
    except ep.FragmentRefused as error:
        return f"err {FRAGMENTS[error.fragment_refusal]}", pool


class Program(unittest.TestCase):
    def test_answers(self):
        compared = 0
        for case in sorted(CASES.glob("*.stdout")):
            lines = case.with_suffix("").read_bytes().decode("latin-1").split("\n")
            pool = ep.Pool()
            for line, wanted in zip(lines, case.read_text().splitlines()):
                if wanted == "err line":
                    continue  # not a call
                answer, pool = answered(line, pool)
                if wanted.split(" ")[1:2] and wanted.split(" ")[1] in FRAGMENTS.values():
                    wanted = " ".join(wanted.split(" ")[:2])
                self.assertEqual(answer, wanted, f"{case.name}: {line}")
                compared += 1
            pool.close()
        self.assertGreater(compared, 200)

    def test_many_answer_as_one(self):
        texts = [case.with_suffix("").read_bytes().decode("latin-1") for case in sorted(CASES.glob("*.stdout"))]
        lines = "\n".join(texts).split("\n")
        calls = (ep.slice_many, ep.slice), (ep.slice_lax_many, ep.slice_lax)
        for (many, one), (name, entry) in itertools.product(calls, ENTRIES.items()):
            frames = [b"" if line.split(" ")[2] == "-" else bytes.fromhex(line.split(" ")[2]) for line in lines
                      if re.fullmatch(f"slice {name} (-|([0-9a-fA-F]{{2}})+)", line)]
            frames += [frame[: len(frame) * 3 // 4] for frame in frames]
            packets = many(frames, entry)
            self.assertEqual(len(packets), len(frames))
            self.assertGreater(len(frames), 10)
            for frame, packet in zip(frames, packets):
                try:
                    self.assertEqual(bytes(one(frame, entry)), bytes(packet))
                    self.assertEqual(packet.frame, frame)
                    self.assertTrue(packet.link.kind or packet.net.kind)
                except ep.Refused as error:
                    self.assertEqual(str(error), str(packet.refusal))
                    self.assertFalse(packet.link.kind or packet.net.kind)
            self.assertEqual([bytes(packet) for packet in packets[1:3]], [bytes(packets[1]), bytes(packets[2])])
        for many, one in calls:
            self.assertEqual(len(many([])), 0)
            with self.assertRaises(IndexError):
                packets[len(packets)]
            with self.assertRaises(ep.UnknownChoice):
                many([FRAME], 4)
        cut, tagged = ep.slice_lax_many([b"\x45", b"\0\7\x08\0\x45"], ep.Entry.ETHER_TYPE, 0x8100)
        self.assertEqual([cut.stop.layer, tagged.stop.layer], [ep.Layer.VLAN_HEADER, ep.Layer.IPV4_HEADER])
        self.assertEqual([cut.vlan_ids, tagged.vlan_ids], [(), (7,)])


class Header(unittest.TestCase):
    """The numbers and the structs are equal to those of the header."""

    text = HEADER.read_text()

    def test_numbers(self):
        named = {name: int(number) for name, number in re.findall(r"ETHERPARSE_(\w+) = (\d+)", self.text)}
        kinds = {"ENTRY_": ep.Entry, "LINK_": ep.LinkKind, "EXT_": ep.ExtKind, "NET_": ep.NetKind,
                 "TRANSPORT_": ep.TransportKind, "END_": ep.LenSource, "REFUSAL_": ep.RefusalKind, "LAYER_": ep.Layer,
                 "TCP_": ep.TcpFlag, "MACSEC_": ep.MacsecFlag, "CHECKSUM_": ep.ChecksumVerdict,
                 "FRAGMENT_": ep.FragmentRefusal, "OVERLAP_": ep.OverlapPolicy, "EVICTED_": ep.EvictionCause,
                 "FILTER_": ep.FilterErrorKind}
        here = {first + it.name: it.value for first, kind in kinds.items() for it in kind}
        here.update((it.name, it.value) for it in ep.Status)
        self.assertEqual(here, named)
        defined = dict(re.findall(r"#define ETHERPARSE_(\w+) (\d+)\n", self.text))
        self.assertEqual((ep.VERSION, ep.MAX_PAYLOAD), (int(defined["VERSION"]), int(defined["MAX_PAYLOAD"])))
        self.assertEqual((ep.version(), int(defined["REFUSAL_TEXT_MAX"])), (ep.VERSION, 142))
        self.assertEqual(int(defined["REASON_TEXT_MAX"]), 80)

    def test_structs(self):
        here = {"part": ep.Part, "link_ext": ep.LinkExt, "ip": ep.Ip, "payload": ep.Payload, "refusal": ep.Refusal,
                "packet": ep.Packet, "route": ep._Route, "tagged_route": ep._TaggedRoute, "tcp_fields": ep._TcpFields,
                "fragment_fields": ep._FragmentFields, "pool_answer": ep._PoolAnswer,
                "defrag_limits": ep._DefragLimits, "defrag_statistics": ep.DefragStatistics,
                "stream_id": ep._StreamId, "evicted_stream": ep._EvictedStream,
                "filter_error": ep._FilterError, "place": ep.Place, "link_fields": ep.LinkFields,
                "tag_fields": ep.TagFields, "ip_fields": ep.IpFields, "arp_fields": ep.ArpFields,
                "transport_fields": ep.TransportFields, "fields": ep.Fields}
        for name, struct_here in here.items():
            body = re.search(rf"^struct etherparse_{name} {{\n(.*?)^}};", self.text, re.MULTILINE | re.DOTALL)[1]
            body = re.sub(r"/\*.*?\*/", "", body, flags=re.DOTALL)
            fields = re.findall(r"(?:struct etherparse_)?(\w+) (\w+)(?:\[(\d+)\])?;", body)
            self.assertEqual([field for field, *_ in struct_here._fields_], [field for _, field, _ in fields])
            for (field, kind), (c_kind, _, count) in zip(struct_here._fields_, fields):
                element = getattr(kind, "_type_", kind) if count else kind
                self.assertEqual(getattr(kind, "_length_", None), int(count) if count else None, (name, field))
                widths = {"uint8_t": 1, "uint16_t": 2, "uint32_t": 4, "uint64_t": 8, "size_t": 8}
                size = ep.ctypes.sizeof(element)
                self.assertEqual(size, widths.get(c_kind) or ep.ctypes.sizeof(here[c_kind]), (name, field))

    def test_calls(self):
        """Each call is declared with the number of parameters of the header."""
        linked = self.text.split("/* ---- What is linked.")[1].split("/* The version of the archive")[0]
        declared = dict(re.findall(r"etherparse_2_(\w+)\(([^)]*)\);", linked))
        for name, (_, argtypes) in ep._CALLS.items():
            count = 0 if declared[name] == "void" else declared[name].count(",") + 1
            self.assertEqual(len(argtypes), count, name)


class Slicing(unittest.TestCase):
    def test_attributes(self):
        packet = ep.slice(FRAME)
        self.assertEqual((packet.source_port, packet.destination_port), (21, 1234))
        self.assertEqual((packet.link_bytes, packet.net_bytes), (FRAME[:14], FRAME[14:34]))
        self.assertEqual((packet.transport_bytes, packet.payload_bytes), (FRAME[34:42], FRAME[42:]))
        self.assertEqual((packet.payload.len_source, packet.ip.header_len), (ep.LenSource.UDP, 20))
        tagged = FRAME[:12] + bytes.fromhex("8100002a") + FRAME[12:]
        self.assertEqual(ep.slice(tagged).vlan_ids, (42,))
        self.assertIn("destination_port=1234", repr(packet))

    def test_bytes_in(self):
        changing = bytearray(FRAME)
        packet = ep.slice(changing)
        changing[42:] = bytes(8)
        self.assertEqual(packet.payload_bytes, FRAME[42:])  # a copy was sliced
        for given in (memoryview(FRAME), memoryview(FRAME).toreadonly(), memoryview(FRAME + FRAME)[: len(FRAME)]):
            self.assertEqual(ep.slice(given).payload_bytes, FRAME[42:])
        spread = memoryview(bytes(itertools.chain.from_iterable(zip(FRAME, FRAME))))[::2]
        self.assertEqual(ep.slice(spread).payload_bytes, FRAME[42:])
        self.assertEqual(ep.checksum(array.array("H", [0x0100, 0x03f2, 0xf5f4, 0xf7f6])), 0x220d)
        with self.assertRaises(TypeError):
            ep.slice("text")

    def test_refusals(self):
        with self.assertRaises(ep.Refused) as raised:
            ep.slice(FRAME[:40])
        error = raised.exception
        fields = (error.kind, error.layer, error.required_len, error.len, error.len_source, error.layer_start_offset)
        self.assertEqual(fields, (ep.RefusalKind.LEN, ep.Layer.IPV4_PACKET, 36, 26, ep.LenSource.SLICE, 14))
        self.assertEqual(str(error), "Ipv4Packet: 36 bytes needed, 26 there (limit Slice, offset 14)")
        for again in (pickle.loads(pickle.dumps(error)), copy.copy(error)):
            self.assertEqual((type(again), str(again), again.layer), (ep.Refused, str(error), error.layer))
        self.assertEqual(str(ep.Refusal()), "no refusal")
        with self.assertRaises(ep.UnknownChoice):
            ep.slice(FRAME, 4)
        for entry, ether_type in ((-1, 0), (ep.Entry.ETHER_TYPE, 65536), (1 << 32, 0)):
            with self.assertRaises(ValueError):
                ep.slice(FRAME, entry, ether_type)

    def test_many_are_quick(self):
        """A million frames in chunks of 4,096 take at most two seconds."""
        frames, took = [FRAME] * 4096, 0.0
        for _ in range(3):  # the fastest of three, since other programs may run
            from_ = time.perf_counter()
            for _ in range(1_000_000 // 4096 + 1):
                packets = ep.slice_many(frames)
            took = min(took or 9e9, time.perf_counter() - from_)
        self.assertEqual(packets[4095].destination_port, 1234)
        print(f"a million frames: {took:.2f} s", file=sys.stderr)
        self.assertLess(took, 2.0)


class Building(unittest.TestCase):
    route = ep.Route(version=4, hop_limit=20, ethernet_source=FRAME[6:12], ethernet_destination=FRAME[:6],
                     ipv4_source=bytes([192, 168, 1, 1]), ipv4_destination=bytes([192, 168, 1, 2]))

    def test_frames(self):
        self.assertEqual(ep.build_udp(self.route, 21, 1234, FRAME[42:]), FRAME)
        route = ep.Route(version=6, ipv6_source=bytes(15) + b"\1", ipv6_destination=bytes(15) + b"\2")
        flags = ep.TcpFlag.SYN | ep.TcpFlag.ACK
        fields = ep.TcpFields(80, 4000, sequence_number=7, acknowledgment_number=9, window_size=512, flags=flags)
        packet = ep.slice(ep.build_tcp(route, fields, b"hello", options=b"\x01\x01\x04"), ep.Entry.IP)
        numbers = struct.unpack(">HHIIBBH", packet.transport_bytes[:16])
        self.assertEqual(numbers, (80, 4000, 7, 9, 6 << 4, flags, 512))
        self.assertEqual((packet.transport_bytes[20:], packet.payload_bytes), (b"\x01\x01\x04\x00", b"hello"))
        echo = ep.build_icmp_echo(route, True, 1, 2, b"ping")
        self.assertEqual(ep.slice(echo, ep.Entry.IP).transport_bytes[:2], bytes([129, 0]))

    def test_tags(self):
        tagged = ep.Route(**{**self.route.__dict__, "vlan_ids": (7, 42)})
        packet = ep.slice(ep.build_udp(tagged, 21, 1234, b"hello"))
        self.assertEqual((packet.vlan_ids, packet.payload_bytes), ((7, 42), b"hello"))
        with self.assertRaises(ep.UnknownChoice):
            ep.build_udp(ep.Route(**{**self.route.__dict__, "vlan_ids": (4096,)}), 21, 1234, b"")
        with self.assertRaises(ValueError):
            ep.build_udp(ep.Route(**{**self.route.__dict__, "vlan_ids": (1, 2, 3)}), 21, 1234, b"")

    def test_refusals(self):
        with self.assertRaises(ep.TooLong):
            ep.build_udp(self.route, 1, 2, bytes(65508))
        self.assertEqual(len(ep.build_udp(self.route, 1, 2, bytes(65507))), 65549)
        with self.assertRaises(ep.UnknownChoice):
            ep.build_udp(ep.Route(version=5), 1, 2, b"")
        for port in (-1, 65536):
            with self.assertRaises(ValueError):
                ep.build_udp(self.route, port, 2, b"")
        with self.assertRaises(ValueError):
            ep.build_udp(ep.Route(version=4, ipv4_source=bytes(5)), 1, 2, b"")
        with self.assertRaises(ValueError):
            ep.build_udp(ep.Route(version=4, ethernet_source=bytes(6)), 1, 2, b"")


def fragments(identification, payload, size):
    route = ep.Route(version=4, ipv4_source=bytes([10, 0, 0, 1]), ipv4_destination=bytes([10, 0, 0, 2]))
    for start in range(0, len(payload), size):
        more = start + size < len(payload)
        fields = ep.FragmentFields(17, identification, more, start)
        yield ep.build_fragment(route, fields, payload[start : start + size])


class Pools(unittest.TestCase):
    payload = bytes(range(256)) * 8

    def test_pool(self):
        with ep.Pool(limit=4096) as pool:
            parts = list(fragments(7, self.payload, 512))
            for part in parts[1:]:
                self.assertIsNone(pool.push(part, 1, entry=ep.Entry.IP))
            self.assertEqual((pool.streams(), pool.bytes()), (1, 2048))
            whole = pool.push(parts[0], 2, entry=ep.Entry.IP)
            self.assertEqual(whole, (self.payload, 17, ep.LenSource.IPV4))
            self.assertEqual((pool.streams(), pool.bytes()), (0, 0))
            # a dropped stream starts again, and fragments of another channel belong to another stream
            pool.push(parts[0], 3, channel=1, entry=ep.Entry.IP)
            pool.push(parts[0], 4, entry=ep.Entry.IP)
            pool.drop_older(4)
            for part in parts[1:]:
                self.assertIsNone(pool.push(part, 5, channel=1, entry=ep.Entry.IP))
                whole = pool.push(part, 5, entry=ep.Entry.IP)
            self.assertEqual(whole.data, self.payload)
            with self.assertRaises(ep.FragmentRefused) as raised:
                pool.push(list(fragments(9, bytes(4104), 4096))[1], 5, entry=ep.Entry.IP)
            again = pickle.loads(pickle.dumps(raised.exception))
            for error in (raised.exception, again):
                self.assertEqual((error.fragment_refusal, str(error)), (ep.FragmentRefusal.TOO_BIG, "too big"))
            with self.assertRaises(ep.Refused):
                pool.push(b"\x45", 5, entry=ep.Entry.IP)
            with self.assertRaises(ep.UnknownChoice):
                pool.push(parts[0], 5, entry=4)
        for call in (pool.streams, pool.bytes, lambda: pool.push(b"", 0), lambda: pool.drop_older(0), pool.__enter__):
            with self.assertRaises(ValueError):
                call()
        pool.close()

    def test_bounded_pool(self):
        limits = ep.DefragLimits(streams=2, age=10, payload=4096)
        with ep.BoundedPool(limits) as pool:
            self.assertEqual(pool.limits, ep.DefragLimits(2, 32 << 20, 4096, 10, ep.OverlapPolicy.DISCARD))
            parts = list(fragments(7, self.payload, 512))
            for part in parts[1:]:
                self.assertIsNone(pool.push(part, 1, entry=ep.Entry.IP))
            self.assertEqual((pool.streams(), pool.held_bytes() >= 2048, pool.evicted()), (1, True, ()))
            self.assertEqual(pool.push(parts[0], 2, entry=ep.Entry.IP), (self.payload, 17, ep.LenSource.IPV4))
            self.assertEqual((pool.streams(), pool.held_bytes()), (0, 0))
            # a repeat is accepted, and other bytes discard the stream
            pool.push(parts[0], 3, channel=5, entry=ep.Entry.IP)
            pool.push(parts[0], 4, channel=5, entry=ep.Entry.IP)
            other = list(fragments(7, bytes(2048), 512))[0]
            with self.assertRaises(ep.StreamDiscarded):
                pool.push(other, 5, channel=5, entry=ep.Entry.IP)
            id = ep.StreamId(bytes([10, 0, 0, 1]), bytes([10, 0, 0, 2]), 7, 17, (), 5)
            self.assertEqual(pool.evicted(), ((id, ep.EvictionCause.OVERLAP, 3),))
            self.assertEqual((pool.streams(), pool.discarded_streams()), (0, 1))
            # its removal, and identifiers that no stream has
            others = (id._replace(channel=4), id._replace(identification=65536 + 7), id._replace(vlan_ids=(0,)),
                      id._replace(vlan_ids=(4096,)), id._replace(source=bytes(16), destination=bytes(16)))
            for other_id in others:
                self.assertIs(pool.remove(other_id), False)
            self.assertEqual((pool.remove(id), pool.remove(id), pool.discarded_streams()), (True, False, 0))
            self.assertEqual(pool.evicted(), ())
            for wrong in (id._replace(source=b"abc"), id._replace(source=bytes(16)), id._replace(vlan_ids=(1, 2, 3, 4)),
                          id._replace(channel=-1), id._replace(ip_number=256)):
                with self.assertRaises(ValueError):
                    pool.remove(wrong)
            pool.push(parts[0], 5, channel=5, entry=ep.Entry.IP)
            with self.assertRaises(ep.StreamDiscarded):
                pool.push(other, 5, channel=5, entry=ep.Entry.IP)
            with self.assertRaises(ep.Refused):
                pool.push(b"\x45", 5, entry=ep.Entry.IP)
            self.assertEqual(pool.evicted(), ())
            # too many streams, and old ones
            pool.push(parts[0], 6, channel=1, entry=ep.Entry.IP)
            pool.push(parts[0], 7, channel=2, entry=ep.Entry.IP)
            self.assertEqual([(gone.id.channel, gone.cause) for gone in pool.evicted()],
                             [(5, ep.EvictionCause.STREAMS)])
            self.assertEqual(pool.expire(17), 1)
            self.assertEqual([(gone.id.channel, gone.first) for gone in pool.evicted()], [(1, 6)])
            self.assertEqual(pool.expire(10, idle=2), 1)
            with self.assertRaises(ep.FragmentRefused):
                pool.push(list(fragments(9, bytes(4104), 4096))[1], 8, entry=ep.Entry.IP)
            pool.push(parts[0], 8, entry=ep.Entry.IP)
            pool.clear()
            counted = pool.statistics()
            self.assertEqual((counted.begun, counted.completed, counted.discarded, counted.expired), (6, 1, 2, 2))
            self.assertEqual((counted.removed, counted.accepted, counted.rejected_discarded), (1, 10, 2))
            self.assertEqual((counted.rejected_too_big, counted.evicted_for_streams), (1, 0))
            with self.assertRaises(ep.UnknownChoice):
                pool.push(parts[0], 5, entry=4)
        for call in (pool.streams, pool.held_bytes, pool.statistics, pool.evicted, pool.clear, lambda: pool.expire(0),
                     lambda: pool.push(b"", 0), lambda: pool.remove(id), pool.discarded_streams, pool.__enter__):
            with self.assertRaises(ValueError):
                call()
        with ep.BoundedPool(ep.DefragLimits(bytes=100), bytes(16)) as pool:
            with self.assertRaises(ep.OverBudget):
                pool.push(parts[1], 1, entry=ep.Entry.IP)
            self.assertEqual([gone.cause for gone in pool.evicted()], [ep.EvictionCause.BYTES])
        for rule, byte in ((ep.OverlapPolicy.LAST_WINS, 0), (ep.OverlapPolicy.FIRST_WINS, 1)):
            with ep.BoundedPool(ep.DefragLimits(overlap=rule)) as pool:
                for part in (parts[0], other, *parts[1:]):
                    whole = pool.push(part, 1, entry=ep.Entry.IP)
                self.assertEqual((whole.data[1], whole.data[512:]), (byte, self.payload[512:]))
        with self.assertRaises(ValueError):
            ep.BoundedPool(seed=bytes(15))
        with self.assertRaises(ep.UnknownChoice):
            ep.BoundedPool(ep.DefragLimits(overlap=3))

    def test_filter(self):
        route = ep.Route(4, ipv4_source=bytes([10, 0, 0, 1]), ipv4_destination=bytes([10, 0, 0, 2]))
        frames = [ep.build_udp(route, 53, 1234, b"a"), ep.build_udp(route, 54, 1234, b""), b"", b"\x45"]
        filter = ep.Filter("udp port 53 and host 10.0.0.2")
        self.assertEqual(str(filter), "udp src or dst port 53 and src or dst host 10.0.0.2")
        self.assertEqual(repr(filter), f"Filter({str(filter)!r})")
        self.assertEqual(str(ep.Filter(str(filter))), str(filter))
        self.assertIs(filter.matches(bytearray(frames[0]), ep.Entry.IP), True)
        self.assertEqual(filter.matches_many(frames, ep.Entry.IP), [True, False, False, False])
        self.assertEqual(filter.matches_many([]), [])
        with ep.Filter("not udp or greater 40") as other:
            self.assertEqual(other.matches_many(frames, ep.Entry.IP), [False, False, True, True])
            self.assertEqual(other.matches_many(iter(frames), ep.Entry.IP, wire_lens=[40, 39, 0, 1]),
                             [True, False, True, True])
            self.assertEqual((other.matches(frames[0], ep.Entry.IP, wire_len=40), other.matches(b"")), (True, True))
            for call in (lambda: other.matches(b"", 4), lambda: other.matches_many(frames, 4),
                         lambda: other.matches_many([], 4)):
                with self.assertRaises(ep.UnknownChoice):
                    call()
            for call in (lambda: other.matches(b"", 1 << 32), lambda: other.matches(b"", wire_len=-1),
                         lambda: other.matches_many(frames, wire_lens=[1])):
                with self.assertRaises(ValueError):
                    call()
        for call in (other.__str__, other.__enter__, lambda: other.matches(b""), lambda: other.matches_many([])):
            with self.assertRaises(ValueError):
                call()
        other.close()
        self.assertEqual(repr(other), "Filter(closed)")
        self.assertIs(ep.Filter("").matches(b""), True)
        with self.assertRaises(ep.FilterError) as raised:
            ep.Filter("host 10.0.0.1 and hots x")
        for error in (raised.exception, pickle.loads(pickle.dumps(raised.exception))):
            self.assertEqual((error.kind, error.start, error.end), (ep.FilterErrorKind.NOT_AN_ADDRESS, 18, 22))
            self.assertEqual(str(error), "hots: not an IP address (names are not looked up)\n  host 10.0.0.1 and hots x\n"
                                         "                    ^")
        with self.assertRaises(ep.FilterError) as raised:
            ep.Filter("é port")
        self.assertEqual((raised.exception.kind, raised.exception.start), (ep.FilterErrorKind.CHARACTER, 0))
        with self.assertRaises(ValueError) as raised:
            ep.Filter("udp port")
        self.assertEqual((raised.exception.start, raised.exception.reason), (8, "the filter ends too early"))
        for text, message in (
            ("udp\tport 53\nand hots\r", "hots: not a port (a number up to 65535, or a name such as http)\n"
                                        "  udp port 53 and hots \n                  ^"),
            ("udp\nport", "the filter ends too early\n  udp port\n          ^"),
            ("udp\x7f or \x1b[1m", " : unexpected character\n  udp  or  [1m\n     ^"),
            ("é" * 40000, "the filter has more than 65536 bytes"),
            (" " * 65535 + "é", "the filter has more than 65536 bytes"),
        ):
            with self.assertRaises(ep.FilterError) as raised:
                ep.Filter(text)
            self.assertEqual((str(raised.exception), raised.exception.text), (message, text))

    def test_threads(self):
        """Many threads on one pool: each payload is returned once."""
        done, pool = [], ep.Pool()

        def work(first):
            for identification in range(first, first + 200):
                for part in fragments(identification, self.payload, 256):
                    whole = pool.push(part, identification, entry=ep.Entry.IP)
                    if whole:
                        done.append(whole.data == self.payload)

        threads = [threading.Thread(target=work, args=(first,)) for first in range(0, 1600, 200)]
        for thread in threads:
            thread.start()
        for thread in threads:
            thread.join()
        self.assertEqual((done, pool.streams()), ([True] * 1600, 0))
        pool.close()


def load_tests(_loader, tests, _pattern):
    """Adds the example in the module's docstring."""
    tests.addTests(doctest.DocTestSuite(ep))
    return tests


if __name__ == "__main__":
    unittest.main()
