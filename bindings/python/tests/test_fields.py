"""Compares the attributes of packets with worked frames, and all fields with a second reader on frames of every kind,
also truncated and changed ones."""
import copy
import ipaddress
import pathlib
import pickle
import random
import re
import struct
import sys
import threading
import unittest

HERE = pathlib.Path(__file__).resolve().parent
sys.path[:0] = [str(HERE), str(HERE.parent)]
import etherparse_c as ep
import test_lax

ETHERNET = bytes.fromhex("020000000002" "020000000001")
ETHERNET_FIELDS = {"ethernet_destination": ETHERNET[:6], "ethernet_source": ETHERNET[6:]}
SYN_ACK = bytes.fromhex("0050" "0fa0" "01020304" "05060708" "6192" "0200" "1111" "0009" "020405b4") + b"hi"
IPV4 = bytes.fromhex("46b9" "0032" "1234" "4000" "37" "06" "abcd" "0a000001" "c0a80102" "01010100")
IPV6 = bytes.fromhex("6b912345" "0010" "2c" "40" "fe80" + 13 * "00" + "01" "ff02" + 13 * "00" + "02")
IPV6_FIELDS = {"source": ipaddress.ip_address("fe80::1"), "destination": ipaddress.ip_address("ff02::2"),
               "source_bytes": IPV6[8:24], "destination_bytes": IPV6[24:], "ttl": 64, "dscp": 46, "ecn": 1,
               "flow_label": 0x12345, "identification": 0, "more_fragments": False, "fragment_offset": 0}
PLAIN_IPV4 = {"source": ipaddress.ip_address("10.0.0.1"), "destination": ipaddress.ip_address("10.0.0.2"),
              "source_bytes": b"\x0a\0\0\1", "destination_bytes": b"\x0a\0\0\2", "ttl": 64, "dscp": 0, "ecn": 0,
              "identification": 7, "dont_fragment": False, "more_fragments": False, "fragment_offset": 0}
ARP = bytes.fromhex("0001" "0800" "06" "04" "0002" "020000000001" "0a000001" "020000000002" "0a000002")
ARP_FIELDS = ep.Arp(1, 0x0800, 2, ARP[8:14], ARP[14:18], ARP[18:24], ARP[24:])

# frames, their entry, and their attributes; all others are None or empty
WORKED = {
    "TCP over IPv4 after two tags": (
        ETHERNET + bytes.fromhex("88a8e007" "8100502a" "0800") + IPV4 + SYN_ACK, ep.Entry.ETHERNET, {
            **ETHERNET_FIELDS, "ether_type": 0x88a8, "vlan_ids": (7, 42), "vlan_priorities": (7, 2),
            "tags": (ep.VlanTag(7, 7, False, 0x8100), ep.VlanTag(42, 2, True, 0x0800)),
            "source": ipaddress.ip_address("10.0.0.1"), "destination": ipaddress.ip_address("192.168.1.2"),
            "source_bytes": IPV4[12:16], "destination_bytes": IPV4[16:20], "protocol": 6, "ttl": 0x37, "dscp": 46,
            "ecn": 1, "identification": 0x1234, "dont_fragment": True, "more_fragments": False, "fragment_offset": 0,
            "ip_options": b"\1\1\1\0", "ports": (80, 4000), "sequence_number": 0x01020304,
            "acknowledgment_number": 0x05060708, "window_size": 512, "urgent_pointer": 9,
            "tcp_flags": ep.TcpFlag.NS | ep.TcpFlag.CWR | ep.TcpFlag.ACK | ep.TcpFlag.SYN,
            "tcp_options": b"\2\4\5\xb4"}),
    "a fragment of IPv6": (
        IPV6 + bytes.fromhex("11000011" "89abcdef") + bytes(8), ep.Entry.IP, {
            **IPV6_FIELDS, "protocol": 17, "identification": 0x89abcdef, "more_fragments": True,
            "fragment_offset": 16}),
    "ICMPv6 without a fragment header": (
        IPV6[:6] + b"\x3a" + IPV6[7:] + bytes.fromhex("800122220003000f") + b"pingpong", ep.Entry.IP, {
            **IPV6_FIELDS, "protocol": 58, "icmp_type": 128, "icmp_code": 1, "icmp_rest": b"\0\3\0\x0f"}),
    "ICMP in a cooked capture": (
        bytes.fromhex("0004" "0001" "0006" "020000000001aaaa" "0800") + test_lax.ipv4(b"\3\4\0\0\0\0\5\xdc", 1),
        ep.Entry.LINUX_SLL, {
            **PLAIN_IPV4, "linux_sll": ep.LinuxSll(4, 1, ETHERNET[6:], 6, 0x0800), "protocol": 1, "icmp_type": 3,
            "icmp_code": 4, "icmp_rest": b"\0\0\5\xdc"}),
    "a long address in a cooked capture": (
        bytes.fromhex("0000" "0338" "0014" "0102030405060708" "1234"), ep.Entry.LINUX_SLL, {
            "linux_sll": ep.LinuxSll(0, 824, bytes(range(1, 9)), 20, 0x1234)}),
    "UDP in a MACsec tag": (
        ETHERNET + b"\x88\xe5" + bytes.fromhex("7200" "00000009" "0102030405060708" "0800")
        + test_lax.ipv4(test_lax.udp(b"x"), flags=0x4000), ep.Entry.ETHERNET, {
            **ETHERNET_FIELDS, **PLAIN_IPV4, "ether_type": 0x88e5, "dont_fragment": True, "protocol": 17,
            "tags": (ep.MacsecTag(ep.MacsecFlag.ES | ep.MacsecFlag.SC | ep.MacsecFlag.SCB, 2, 0, 9, 0x0102030405060708,
                                  0x0800),), "ports": (21, 1234)}),
    "an encrypted MACsec payload": (
        ETHERNET + b"\x88\xe5" + bytes.fromhex("0f05" "80000000") + b"12345", ep.Entry.ETHERNET, {
            **ETHERNET_FIELDS, "ether_type": 0x88e5,
            "tags": (ep.MacsecTag(ep.MacsecFlag.E | ep.MacsecFlag.C, 3, 5, 1 << 31, None, None),)}),
    "ARP": (ETHERNET + b"\x08\x06" + ARP + bytes(18), ep.Entry.ETHERNET, {
        **ETHERNET_FIELDS, "ether_type": 0x0806, "arp": ARP_FIELDS}),
    "an unknown ether type": (ETHERNET + b"\x12\x34" + b"x", ep.Entry.ETHERNET, {
        **ETHERNET_FIELDS, "ether_type": 0x1234}),
    "a truncated TCP header": (
        test_lax.ipv4(SYN_ACK[:19], 6, total=60), ep.Entry.IP, {**PLAIN_IPV4, "protocol": 6, "ports": (80, 4000)}),
    "a TCP header with an invalid data offset": (
        test_lax.ipv4(SYN_ACK[:12] + b"\x40" + SYN_ACK[13:], 6), ep.Entry.IP, {
            **PLAIN_IPV4, "protocol": 6, "ports": (80, 4000)}),
    "a truncated UDP header without ports": (
        test_lax.ipv4(b"\0\1\0", 17, total=60), ep.Entry.IP, {**PLAIN_IPV4, "protocol": 17}),
}
ABSENT = {
    "ethernet_destination": None, "ethernet_source": None, "ether_type": None, "linux_sll": None, "tags": (),
    "vlan_ids": (), "vlan_priorities": (), "source": None, "destination": None, "source_bytes": b"",
    "destination_bytes": b"", "protocol": None, "ttl": None, "dscp": None, "ecn": None, "identification": None,
    "dont_fragment": None, "more_fragments": None, "fragment_offset": None, "flow_label": None, "ip_options": b"",
    "arp": None, "ports": None, "tcp_flags": None, "sequence_number": None, "acknowledgment_number": None,
    "window_size": None, "urgent_pointer": None, "tcp_options": b"", "icmp_type": None, "icmp_code": None,
    "icmp_rest": None,
}


def plain(value):
    """Returns a struct as names and numbers."""
    if isinstance(value, ep.ctypes.Structure):
        return {name: plain(getattr(value, name)) for name, *_ in value._fields_}
    if isinstance(value, ep.ctypes.Array):
        return [plain(it) for it in value]
    return value


NOTHING = plain(ep.Fields())


def place(offset, length):
    return {"offset": offset, "len": length}


def tag_fields(kind, data):
    if kind == ep.ExtKind.VLAN:
        control, ether_type = struct.unpack(">HH", data)
        return {"vlan_id": control % 4096, "priority": control >> 13, "drop_eligible": control >> 12 & 1,
                "ether_type": ether_type}
    first, short_len, packet_number = struct.unpack_from(">BBI", data)
    return {"macsec_flags": first & 0x7c, "association_number": first & 3, "short_len": short_len & 0x3f,
            "packet_number": packet_number, "sci": struct.unpack_from(">Q", data, 6)[0] if first & 0x20 else 0,
            "ether_type": 0 if first & 0x0c else struct.unpack(">H", data[-2:])[0]}


def ip_fields(packet, data, offset):
    fields = {"version": packet.ip.version, "number": packet.ip.number}
    if packet.ip.version == 6:
        word, length, next_header, hop_limit, source, destination = struct.unpack_from(">IHBB16s16s", data)
        return {**fields, "dscp": word >> 22 & 63, "ecn": word >> 20 & 3, "flow_label": word % (1 << 20),
                "length": length, "next_header": next_header, "hop_limit": hop_limit, "source": [*source],
                "destination": [*destination], "identification": packet.ip.identification,
                "more_fragments": packet.ip.more_fragments, "fragment_offset": packet.ip.fragment_offset}
    (first, class_, length, identification, flags, ttl, protocol, checksum, source,
     destination) = struct.unpack_from(">BBHHHBBH4s4s", data)
    return {**fields, "dscp": class_ >> 2, "ecn": class_ & 3, "length": length, "identification": identification,
            "dont_fragment": flags >> 14 & 1, "more_fragments": flags >> 13 & 1,
            "fragment_offset": 8 * (flags & 0x1fff), "hop_limit": ttl, "next_header": protocol, "checksum": checksum,
            "source": [*source, *bytes(12)], "destination": [*destination, *bytes(12)],
            "options": place(offset + 20, 4 * (first & 15) - 20)}


def arp_fields(data, offset):
    hardware_type, protocol_type, hardware, protocol, operation = struct.unpack_from(">HHBBH", data)
    return {"hardware_type": hardware_type, "protocol_type": protocol_type, "hardware_len": hardware,
            "protocol_len": protocol, "operation": operation, "sender_hardware": place(offset + 8, hardware),
            "sender_protocol": place(offset + 8 + hardware, protocol),
            "target_hardware": place(offset + 8 + hardware + protocol, hardware),
            "target_protocol": place(offset + 8 + 2 * hardware + protocol, protocol)}


def transport_fields(packet, data, offset):
    kind = packet.transport.kind
    if kind == ep.TransportKind.UDP:
        return dict(zip(("source_port", "destination_port", "udp_length", "checksum"), struct.unpack(">HHHH", data)))
    if kind == ep.TransportKind.TCP:
        names = ("source_port", "destination_port", "sequence_number", "acknowledgment_number", "tcp_flags",
                 "window_size", "checksum", "urgent_pointer")
        fields = dict(zip(names, struct.unpack_from(">HHIIHHHH", data)))
        return {**fields, "tcp_flags": fields["tcp_flags"] & 0x1ff, "data_offset": fields["tcp_flags"] >> 12,
                "options": place(offset + 20, len(data) - 20)}
    if kind:
        return {"icmp_type": data[0], "icmp_code": data[1], "checksum": struct.unpack_from(">H", data, 2)[0],
                "icmp_rest": [*data[4:8]]}
    if packet.ip.number in (6, 17) and not packet.ip.fragmented and packet.payload.len >= 4:
        return dict(zip(("source_port", "destination_port"), struct.unpack_from(">HH", packet.payload_bytes)))
    return {}


def second(packet):
    """Returns the fields of a packet as read by the standards' pictures at the described places."""
    link, tags, ip, arp = {}, [], {}, {}
    if packet.link.kind == ep.LinkKind.ETHERNET2:
        destination, source, ether_type = struct.unpack(">6s6sH", packet.link_bytes)
        link = {"destination": [*destination], "source": [*source], "ether_type": ether_type}
    elif packet.link.kind:
        names = ("packet_type", "hardware_type", "address_len", "address", "protocol")
        link = dict(zip(names, struct.unpack(">HHH8sH", packet.link_bytes)))
        link["address"] = [*link["address"]]
    for described, empty in zip(packet.link_exts, NOTHING["tags"]):
        read = tag_fields(described.kind, packet._bytes(described)) if described.kind else {}
        tags.append({**empty, "kind": described.kind, **read})
    if packet.ip.version:
        ip = ip_fields(packet, packet.net_bytes, packet.net.offset)
    elif packet.net.kind:
        arp = arp_fields(packet.net_bytes, packet.net.offset)
    transport = transport_fields(packet, packet.transport_bytes, packet.transport.offset)
    return {"link": {**NOTHING["link"], **link}, "tags": tags, "ip": {**NOTHING["ip"], **ip},
            "arp": {**NOTHING["arp"], **arp}, "transport": {**NOTHING["transport"], **transport}}


def sum_verdict(data):
    """Returns the verdict on a checksum that covers these bytes: valid if their sum is 65,535 (RFC 1071)."""
    total = sum(struct.unpack(f">{(len(data) + 1) // 2}H", data + bytes(len(data) % 2)))
    while total > 0xffff:
        total = (total & 0xffff) + (total >> 16)
    return ep.ChecksumVerdict.VALID if total == 0xffff else ep.ChecksumVerdict.INVALID


def is_counted(packet):
    """Returns whether the length field of IP is in effect, and so counts the payload."""
    end = len(packet.frame)
    for described, tag in zip(packet.link_exts, packet.fields.tags):
        first = described.offset + (14 if tag.macsec_flags & ep.MacsecFlag.SC else 6)
        if tag.short_len and described.offset + described.len <= first + tag.short_len <= end:
            end = first + tag.short_len
    ip = packet.fields.ip
    least, length = (packet.ip.header_len, ip.length) if ip.version == 4 else (40, 40 + ip.length)
    return least <= length <= end - packet.net.offset and (ip.version == 4 or ip.length != 0)


def changes_destination(packet):
    """Returns whether a source route or a routing header may contain the destination of the pseudo header."""
    if packet.ip.version == 4:
        options = packet.ip_options
        while len(options) > 1 and options[0]:
            length = 1 if options[0] == 1 else options[1]
            if options[0] in (131, 137) and 2 <= length <= len(options):
                return True
            if not 0 < length <= len(options) or (options[0] != 1 and length < 2):
                return False
            options = options[length:]
        return False
    kind, headers = packet.fields.ip.next_header, packet.net_bytes[40:]
    while headers:
        if kind == 43:
            return True
        length = 8 if kind == 44 else 4 * (headers[1] + 2) if kind == 51 else 8 * (headers[1] + 1)
        kind, headers = headers[0], headers[length:]
    return False


def message_of(packet):
    """Returns the bytes of the transport layer by the length fields of IP and UDP, or None if the UDP length does not
    count the datagram: it is less than the header, or greater than the IP payload."""
    ip, start = packet.fields.ip, packet.transport.offset
    payload = packet.frame[start : packet.net.offset + ip.length + (40 if ip.version == 6 else 0)]
    if packet.transport.kind != ep.TransportKind.UDP:
        return payload
    length = packet.fields.transport.udp_length
    return payload[:length] if 8 <= length <= len(payload) else None


def verdicts(packet):
    """Returns the verdicts on the checksums of a packet, computed here."""
    ip, kind, verdict = packet.fields.ip, packet.transport.kind, ep.ChecksumVerdict
    header = verdict.NONE
    if ip.version == 4:
        header = sum_verdict(packet.net_bytes[: packet.ip.header_len])
    if packet.ip.fragmented:
        return header, verdict.UNKNOWN
    if not kind:
        return header, verdict.NONE
    if packet.is_incomplete or not is_counted(packet) or changes_destination(packet):
        return header, verdict.UNKNOWN
    message = message_of(packet)
    if kind == ep.TransportKind.ICMPV4:
        return header, sum_verdict(message)
    if ip.version == 4 and kind == ep.TransportKind.ICMPV6:
        return header, verdict.UNKNOWN
    if kind == ep.TransportKind.UDP and not packet.fields.transport.checksum:
        return header, verdict.ABSENT if ip.version == 4 else verdict.INVALID
    if message is None:
        return header, verdict.UNKNOWN
    length = len(message)
    pseudo = struct.pack(">IHBB", length, 0, 0, kind) if ip.version == 6 else struct.pack(">BBH", 0, kind, length)
    return header, sum_verdict(packet.source_bytes + packet.destination_bytes + pseudo + message)


def read(packet):
    """Returns the fields of a packet but for the verdicts."""
    return {name: it for name, it in plain(packet.fields).items() if not name.endswith("checksum")}


class Attributes(unittest.TestCase):
    def test_worked_frames(self):
        listed = {name for name, it in vars(ep.Packet).items() if isinstance(it, property)}
        others = {"link_bytes", "net_bytes", "transport_bytes", "payload_bytes", "is_incomplete", "stop", "fields",
                  "checksums"}
        self.assertEqual(listed - others, set(ABSENT))
        for name, (frame, entry, wanted) in WORKED.items():
            for packet in (ep.slice_lax(frame, entry), ep.slice_lax_many([frame], entry)[0]):
                for attribute, absent in ABSENT.items():
                    value = getattr(packet, attribute)
                    self.assertEqual(value, wanted.get(attribute, absent), (name, attribute))
                    self.assertIs(type(value), type(wanted.get(attribute, absent)), (name, attribute))

    def test_numbers_of_the_header(self):
        frame, entry, _ = WORKED["TCP over IPv4 after two tags"]
        fields = ep.slice(frame, entry).fields
        self.assertEqual((fields.ip.checksum, fields.ip.length, fields.ip.next_header), (0xabcd, 50, 6))
        self.assertEqual((fields.transport.checksum, fields.transport.data_offset), (0x1111, 6))
        self.assertIn("hop_limit=55", repr(fields))

    def test_checksums(self):
        for frame, entry, _ in WORKED.values():
            self.assertEqual({type(it) for it in ep.slice_lax(frame, entry).checksums}, {ep.ChecksumVerdict})

    def test_read_once(self):
        frame, entry, wanted = WORKED["TCP over IPv4 after two tags"]
        packet = ep.slice(frame, entry)
        self.assertIsNone(packet._read)  # nothing is read before
        self.assertIs(packet.fields, packet.fields)
        for again in (copy.copy(packet), pickle.loads(pickle.dumps(packet)), ep.slice(bytearray(frame), entry)):
            self.assertEqual((again.source, again.tcp_flags), (wanted["source"], wanted["tcp_flags"]))
            self.assertEqual(plain(again.fields), plain(packet.fields))
        packets = ep.slice_many([frame, b"", frame[:60]], entry)
        self.assertEqual([packet.ttl for packet in packets], [0x37, None, None])
        self.assertEqual(plain(packets[1].fields), NOTHING)

    def test_threads(self):
        frame, entry, wanted = WORKED["TCP over IPv4 after two tags"]
        seen, packets = [], [ep.slice(frame, entry) for _ in range(300)]
        alone = wanted["source"], wanted["ttl"], ep.slice(frame, entry).checksums

        def work():
            seen.extend((packet.source, packet.ttl, packet.checksums) == alone for packet in packets)

        threads = [threading.Thread(target=work) for _ in range(8)]
        for thread in threads:
            thread.start()
        for thread in threads:
            thread.join()
        self.assertEqual(seen, [True] * 2400)


class SecondReader(unittest.TestCase):
    def same(self, data, entry):
        try:
            packet = ep.slice_lax(data, entry)
        except ep.Refused:
            return
        self.assertEqual(read(packet), second(packet), (data.hex(), entry))

    def test_frames(self):
        for data, entry in [*test_lax.SecondReader().frames(), *(it[:2] for it in WORKED.values())]:
            for end in range(0, len(data) + 1):
                self.same(data[:end], entry)

    def test_stored_frames(self):
        cases = sorted(test_lax.CASES.glob("*.stdout"))
        texts = [case.with_suffix("").read_bytes().decode("latin-1") for case in cases]
        found = re.findall(r"^slice (\w+) ((?:[0-9a-fA-F]{2})+)$", "\n".join(texts), re.MULTILINE)
        self.assertGreater(len(found), 50)
        for name, digits in found:
            self.same(bytes.fromhex(digits), test_lax.ENTRIES[name])

    def test_random_changes(self):
        chosen = random.Random(2)
        frames = [*test_lax.SecondReader().frames(), *(it[:2] for it in WORKED.values())]
        for _ in range(5_000):
            data, entry = chosen.choice(frames)
            data = bytearray(data)
            for _ in range(chosen.randrange(1, 6)):
                data[chosen.randrange(len(data))] = chosen.randrange(256)
            self.same(bytes(data), entry)


ROUTE_4 = ep.Route(4, ipv4_source=bytes([10, 0, 0, 1]), ipv4_destination=bytes([10, 0, 0, 2]))
ROUTE_6 = ep.Route(6, ipv6_source=bytes(15) + b"\1", ipv6_destination=bytes(15) + b"\2")
BUILT = [build(route) for route in (ROUTE_4, ROUTE_6) for build in (
    lambda route: ep.build_udp(route, 21, 1234, b"hello"),
    lambda route: ep.build_tcp(route, ep.TcpFields(80, 4000, flags=ep.TcpFlag.SYN), b"abc", b"\2\4\5\xb4"),
    lambda route: ep.build_icmp_echo(route, True, 1, 2, b"ping"))]


def rerouted():
    """Yields the built messages with other headers before them: a source route and similar options, a routing header,
    hop-by-hop options, the other ICMP, no length, and tags; and with other lengths of UDP."""
    for frame in BUILT:
        kind, message = (frame[9], frame[20:]) if frame[0] >> 4 == 4 else (frame[6], frame[40:])
        for options in (b"\x83\7\4\1\2\3\4\0", b"\1\x89\7\4\1\2\3\4", b"\0\x83\7\4\1\2\3\4", b"\x44\3\x83\x83\3\0\0\0"):
            yield test_lax.ipv4(message, kind, options=options), ep.Entry.IP
        for other in (1, 58):
            yield test_lax.ipv4(message, other), ep.Entry.IP
            yield test_lax.ipv6(message, other), ep.Entry.IP
        yield test_lax.ipv6(message, kind, length=0), ep.Entry.IP
        for extension in (0, 43):
            yield test_lax.ipv6(bytes([kind]) + bytes(7) + message, extension), ep.Entry.IP
        for wrapped in test_lax.TAGS.values():
            yield ETHERNET + wrapped(0x0800 if frame[0] >> 4 == 4 else 0x86dd, frame), ep.Entry.ETHERNET
        for length in (0, 7, 8, len(message) - 1, len(message) + 1) if kind == 17 else ():
            changed = message[:4] + length.to_bytes(2, "big") + message[6:]
            for ip in (test_lax.ipv4, test_lax.ipv6):
                yield ip(changed), ep.Entry.IP


# IP packets, whose checksums a separate script computed, and the verdicts on the transport layer
OF_4 = "c0000201" "c0000202"
OF_6 = "20010db8000000000000000000000001" "20010db8000000000000000000000002"
VERIFIED = {
    "UDP length 0 over IPv4, 11 in the pseudo header": (
        f"4500001f 00070000 4011f6c3 {OF_4} 0fa0 0035 0000 6808 010203", ep.ChecksumVerdict.UNKNOWN),
    "UDP length 0 over IPv4, 0 in the pseudo header": (
        f"4500001f 00070000 4011f6c3 {OF_4} 0fa0 0035 0000 6813 010203", ep.ChecksumVerdict.UNKNOWN),
    "UDP length 0 and checksum 0 over IPv4": (
        f"4500001f 00070000 4011f6c3 {OF_4} 0fa0 0035 0000 0000 010203", ep.ChecksumVerdict.ABSENT),
    "UDP length 7 over IPv4": (
        f"4500001f 00070000 4011f6c3 {OF_4} 0fa0 0035 0007 6801 010203", ep.ChecksumVerdict.UNKNOWN),
    "UDP length below the payload of IPv4": (
        f"45000021 00070000 4011f6c1 {OF_4} 0fa0 0035 000b 67fd 010203aabb", ep.ChecksumVerdict.VALID),
    "UDP length 0 over IPv6, 11 in the pseudo header": (
        f"60000000 000b 1140 {OF_6} 0fa0 0035 0000 9097 010203", ep.ChecksumVerdict.UNKNOWN),
    "UDP length 0 over IPv6, 0 in the pseudo header": (
        f"60000000 000b 1140 {OF_6} 0fa0 0035 0000 90a2 010203", ep.ChecksumVerdict.UNKNOWN),
    "UDP length 0 and checksum 0 over IPv6": (
        f"60000000 000b 1140 {OF_6} 0fa0 0035 0000 0000 010203", ep.ChecksumVerdict.INVALID),
    "UDP length 7 over IPv6": (
        f"60000000 000b 1140 {OF_6} 0fa0 0035 0007 9090 010203", ep.ChecksumVerdict.UNKNOWN),
    "UDP length below the payload of IPv6": (
        f"60000000 000d 1140 {OF_6} 0fa0 0035 000b 908c 010203aabb", ep.ChecksumVerdict.VALID),
    "UDP checksum 0 after a source route": (
        f"47000027 00070000 40116af2 {OF_4} 830704c000020200 0fa0 0035 000b 0000 010203", ep.ChecksumVerdict.UNKNOWN),
    "UDP checksum 0 in a first fragment": (
        f"45000024 00072000 4011d6be {OF_4} 0fa0 0035 0010 0000 0102030102030405", ep.ChecksumVerdict.UNKNOWN),
    "a later fragment": (
        f"4500001f 00070002 4011f6c1 {OF_4} 0fa0 0035 000b 0000 010203", ep.ChecksumVerdict.UNKNOWN),
    "UDP checksum 0 in a truncated datagram": (
        f"4500001f 00070000 4011f6c3 {OF_4} 0fa0 0035 000b 0000 0102", ep.ChecksumVerdict.UNKNOWN),
    "UDP checksum 0 over IPv6 after a routing header": (
        f"60000000 0013 2b40 {OF_6} 1100000000000000 0fa0 0035 000b 0000 010203", ep.ChecksumVerdict.UNKNOWN),
    "an atomic fragment": (
        f"60000000 0013 2c40 {OF_6} 1100000000000009 0fa0 0035 000b 908c 010203", ep.ChecksumVerdict.VALID),
    "a first fragment of IPv6": (
        f"60000000 0018 2c40 {OF_6} 1100000100000009 0fa0 0035 0010 8a79 0102030102030405", ep.ChecksumVerdict.UNKNOWN),
    "ICMPv6 over IPv4": (
        f"4500001c 00070000 403af69d {OF_4} 8000fbb500010002", ep.ChecksumVerdict.UNKNOWN),
    "ICMP over IPv6": (
        f"60000000 0008 0140 {OF_6} 0800f7fc00010002", ep.ChecksumVerdict.VALID),
    "a truncated UDP header": (
        f"4500001f 00070000 4011f6c3 {OF_4} 0fa0 0035 000b", ep.ChecksumVerdict.NONE),
    "another protocol": (
        f"45000017 00070000 40fdf5df {OF_4} 010203", ep.ChecksumVerdict.NONE),
}


class Verdicts(unittest.TestCase):
    def test_second_reader(self):
        """The checksums of built packets are valid, and after a change of a bit invalid."""
        for frame in BUILT:
            packet = ep.slice(frame, ep.Entry.IP)
            header = ep.ChecksumVerdict.VALID if packet.ip.version == 4 else ep.ChecksumVerdict.NONE
            self.assertEqual(verdicts(packet), (header, ep.ChecksumVerdict.VALID))
            packet = ep.slice(frame[:-1] + bytes([frame[-1] ^ 1]), ep.Entry.IP)
            self.assertEqual(verdicts(packet), (header, ep.ChecksumVerdict.INVALID))
            packet = ep.slice_lax(frame[:-1], ep.Entry.IP)
            self.assertEqual(verdicts(packet), (header, ep.ChecksumVerdict.UNKNOWN))

    def same(self, data, entry):
        for packet in (*ep.slice_many([data], entry), *ep.slice_lax_many([data], entry)):
            self.assertEqual(packet.checksums, verdicts(packet), (data.hex(), entry))

    def test_rows(self):
        for name, (digits, verdict) in VERIFIED.items():
            frame = bytes.fromhex(digits)
            header = ep.ChecksumVerdict.VALID if frame[0] >> 4 == 4 else ep.ChecksumVerdict.NONE
            self.assertEqual(verdicts(ep.slice_lax(frame, ep.Entry.IP)), (header, verdict), name)
            self.same(frame, ep.Entry.IP)

    def test_verdicts(self):
        chosen = random.Random(4)
        frames = [*test_lax.SecondReader().frames(), *(it[:2] for it in WORKED.values()),
                  *((frame, ep.Entry.IP) for frame in BUILT), *rerouted(),
                  *((bytes.fromhex(digits), ep.Entry.IP) for digits, _ in VERIFIED.values())]
        for data, entry in frames:
            for end in range(0, len(data) + 1):
                self.same(data[:end], entry)
            for _ in range(40):
                changed = bytearray(data)
                changed[chosen.randrange(len(data))] = chosen.choice((0, chosen.randrange(256)))
                self.same(bytes(changed), entry)


class WrongDescriptions(unittest.TestCase):
    def test_other_bytes(self):
        frame, entry, _ = WORKED["TCP over IPv4 after two tags"]
        for other in (b"", frame[:-3], frame[:20] + b"\x60" + frame[21:], frame[:30]):
            packet = ep.slice(frame, entry)
            packet.frame = other
            try:
                self.assertEqual(read(packet), second(packet))
            except ep.UnknownChoice as error:
                self.assertEqual(str(error), "the bytes do not have the headers at their places")
        packet = ep.slice(frame, entry)
        packet.frame = frame[:30]
        with self.assertRaises(ep.UnknownChoice):
            packet.ttl

    def test_random_numbers(self):
        """Whatever numbers the layers have, the fields are read from the bytes or the layers are rejected."""
        chosen, refused = random.Random(3), 0
        numbers = (0, 1, 2, 4, 6, 17, 58, 14, 20, 34, 40, 255, 1 << 31, (1 << 32) - 1, 1 << 63, (1 << 64) - 1)
        frames = [it[:2] for it in WORKED.values()]
        for _ in range(5_000):
            packet = ep.slice_lax(*chosen.choice(frames))
            for _ in range(chosen.randrange(1, 4)):
                part = chosen.choice((packet.link, *packet.link_exts, packet.net, packet.ip, packet.transport,
                                      packet.payload))
                name, kind = chosen.choice(part._fields_)
                setattr(part, name, chosen.choice(numbers) % (1 << 8 * ep.ctypes.sizeof(kind)))
            try:
                self.assertIs(type(packet.fields), ep.Fields)
            except ep.UnknownChoice:
                refused += 1
        self.assertTrue(500 < refused < 4500, refused)


if __name__ == "__main__":
    unittest.main()
