#!/usr/bin/env python3
"""Compares packet_dump with tshark and tcpdump: python3 compare.py PROGRAM CAPTURE..

PROGRAM is the built program, such as out/packet_dump, and each CAPTURE is a file, or a folder with files. For each packet
the time, addresses, ports, lengths, flags and sequence numbers, fragments, VLANs, and ICMP types and codes are compared
with those of tshark and tcpdump, if both programs print them, and so are the numbers of packets. The script prints the
differences, and at the end how much was compared and which fields only the others print, by cause, in percent of the
packets with a supported link type. It needs tshark, tcpdump and editcap, and is no part of the gate.

python3 compare.py --cut N PROGRAM CAPTURE.. compares each capture with its packets truncated to N bytes.

python3 compare.py --forms PROGRAM CAPTURE.. also compares each capture in the other formats that editcap writes: pcap in
microseconds and nanoseconds, and pcapng.

python3 compare.py --reassembled PROGRAM CAPTURE.. compares the payloads that are reassembled from fragments: the packet
that completes each, its transport header and its bytes. tshark keeps fragments indefinitely.

--verbose before these options also compares the fields that packet_dump prints with that option: TTL, identification, DF,
priorities, TCP window and options, checksums, and the packet that an ICMP message quotes. --all before that prints every
difference, and not only the first five of a kind.
"""
import os
import re
import struct
import subprocess
import sys
import tempfile
from collections import Counter
from decimal import Decimal

FIELDS = [
    "frame.number", "frame.cap_len", "frame.len", "frame.time_epoch", "frame.protocols", "_ws.malformed", "_ws.short",
    "eth.src", "eth.dst", "sll.src.eth", "ieee8021ad.id", "vlan.id", "ip.src", "ip.dst", "ip.id", "ip.frag_offset",
    "ip.flags.mf", "ip.len", "ip.hdr_len", "ip.proto", "ipv6.src", "ipv6.dst", "ipv6.plen", "ipv6.fraghdr.ident",
    "ipv6.fraghdr.offset", "ipv6.fraghdr.more", "udp.srcport", "udp.dstport", "udp.length", "tcp.srcport",
    "tcp.dstport", "tcp.len", "tcp.flags", "tcp.seq_raw", "tcp.ack_raw", "sctp.srcport", "sctp.dstport",
    "dccp.srcport", "dccp.dstport", "icmp.type", "icmp.code", "icmpv6.type", "icmpv6.code", "arp.opcode",
    "arp.src.proto_ipv4", "arp.dst.proto_ipv4", "arp.src.hw_mac", "icmp.redir_gw", "ieee8021ad.priority",
    "vlan.priority", "ip.ttl", "ip.flags.df", "ip.checksum.status", "ipv6.hlim", "ipv6.flow", "tcp.window_size_value",
    "tcp.options.mss_val", "tcp.options.wscale.shift", "tcp.options.timestamp.tsval", "tcp.options.sack_le",
    "tcp.options.sack_re", "tcp.checksum.status", "udp.checksum.status", "icmp.checksum.status",
    "icmpv6.checksum.status",
]
DETAILS = [name for name in FIELDS if re.search(r"\.(ttl|df|hlim|flow|window_size_value|status)$|tcp\.options", name)]
# Fields that tshark prints for both packets if an ICMP message quotes one.
QUOTED = ["ip.src", "ip.dst", "ipv6.src", "ipv6.dst", "udp.srcport", "udp.dstport", "tcp.srcport", "tcp.dstport"]
PAYLOAD_FIELDS = [
    "frame.number", "udp.srcport", "udp.dstport", "udp.length", "tcp.srcport", "tcp.dstport", "tcp.len", "icmp.type",
    "icmpv6.type", "ip.reassembled.data", "ipv6.reassembled.data", "frame.protocols",
]
TSHARK_OPTIONS = ["-E", "occurrence=a", "-E", "aggregator=,"]
for setting in ("ip.defragment:FALSE", "ipv6.defragment:FALSE", "tcp.relative_sequence_numbers:FALSE",
                "ip.check_checksum:TRUE", "tcp.check_checksum:TRUE", "udp.check_checksum:TRUE"):
    TSHARK_OPTIONS += ["-o", setting]
# Captured length of a payload, and its full length.
LEN = r" len (\d+)(?: of (\d+))?"
LENGTHS = ("udp.length", "tcp.len", "icmp.length", "ip.payload", "ipv6.payload")
# Fields that are counted if only the other programs print them.
WANTED = [name for name in FIELDS
          if re.search(r"\.(src|dst|srcport|dstport|type|code)$|^sll|^arp|_gw$", name)
          or name in ("udp.length", "tcp.len", "tcp.flags", "tcp.seq_raw", "tcp.ack_raw")]
FLAGS = {"F": 1, "S": 2, "R": 4, "P": 8, "A": 16, "U": 32, "E": 64, "C": 128, "N": 256}
TCPDUMP_FLAGS = {"F": 1, "S": 2, "R": 4, "P": 8, ".": 16, "U": 32, "E": 64, "W": 128}
ICMPV4 = {"echo-reply": 0, "destination-unreachable": 3, "source-quench": 4, "redirect": 5, "echo-request": 8,
          "router-advertisement": 9, "router-solicitation": 10, "time-exceeded": 11, "parameter-problem": 12,
          "timestamp-request": 13, "timestamp-reply": 14, "address-mask-request": 17, "address-mask-reply": 18,
          "photuris": 40, "extended-echo-request": 42, "extended-echo-reply": 43}
ICMPV6 = {"destination-unreachable": 1, "packet-too-big": 2, "time-exceeded": 3, "parameter-problem": 4,
          "echo-request": 128, "echo-reply": 129, "listener-query": 130, "listener-report": 131, "listener-done": 132,
          "router-solicitation": 133, "router-advertisement": 134, "neighbor-solicitation": 135,
          "neighbor-advertisement": 136, "redirect": 137, "inverse-neighbor-solicitation": 141,
          "inverse-neighbor-advertisement": 142, "listener-report-v2": 143, "home-agent-address-request": 144,
          "home-agent-address-reply": 145, "mobile-prefix-solicitation": 146, "mobile-prefix-advertisement": 147,
          "certification-path-solicitation": 148, "certification-path-advertisement": 149,
          "multicast-router-advertisement": 151, "multicast-router-solicitation": 152,
          "multicast-router-termination": 153, "extended-echo-request": 160, "extended-echo-reply": 161}
# Names of the codes of a type, from 0 on.
EXCEEDED = ["in-transit", "reassembly"]
CODES = {
    ("icmp", 3): ["network", "host", "protocol", "port", "fragmentation-needed", "source-route-failed",
                  "network-unknown", "host-unknown", "source-isolated", "network-prohibited", "host-prohibited",
                  "network-service", "host-service", "prohibited", "precedence-violation", "precedence-cutoff"],
    ("icmp", 5): ["network", "host", "network-service", "host-service"],
    ("icmp", 11): EXCEEDED,
    ("icmp", 12): ["pointer", "missing-option", "bad-length"],
    ("icmpv6", 1): ["no-route", "prohibited", "beyond-scope", "address", "port", "source-policy", "reject-route",
                    "source-routing-header"],
    ("icmpv6", 3): EXCEEDED,
    ("icmpv6", 4): ["erroneous-header", "unrecognized-next-header", "unrecognized-option", "incomplete-header-chain"],
}
# Types of blocks with a packet, and those that tshark counts as well.
READ = {2, 3, 6}
TOLD = READ | {0xBAD, 0x40000BAD}
FORMS = {"pcap": "pcap", "nsecpcap": "pcap", "pcapng": "pcapng"}


def number(text):
    return int(text, 0)


def len_of(found, at):
    """Returns the full length of a payload, also if some of its bytes are missing."""
    return int(found[at + 1] or found[at])


def ours(line):
    """Returns the fields of a line of packet_dump, with tshark's names."""
    found = {}
    head = re.match(r"(\d+) (-?[\d.]*)(.*)$", line)
    found["frame.number"], found["time"], rest = int(head[1]), head[2], head[3]
    if cut := re.search(r" cut (\d+) of (\d+)$", rest):
        found["cut"] = (int(cut[1]), int(cut[2]))
    if link := re.match(r" (link \d+) len (\d+)", rest):
        found["link"], found["len"] = link[1], int(link[2])
        return found
    if stopped := re.search(r" (?:stopped|refused) .*", rest):
        found["stopped"] = re.match(r" \w+ (\w+(?: [A-Z]\w+)?)", stopped[0])[1]
        rest = rest[:stopped.start()] + rest[stopped.end():]
    if " quotes " in rest and (quoted := re.search(r" quotes( .*)", rest)):
        found["quoted"], rest = ours("0 -" + quoted[1]), rest[:quoted.start()]
    if " ttl " in head[3] or " hop-limit " in head[3] or " pcp " in head[3]:
        details_of(found, head[3])
    found["incomplete"] = re.search(r" incomplete(?: |$)", line) is not None
    # True if the line has the full length of the payload, even if bytes are missing.
    found["whole"] = not found["incomplete"] or "stopped" in found or re.search(r" len \d+ of \d+", rest) is not None
    outer_of(found, rest)
    net_of(found, rest)
    if " icmpv" in rest:
        icmp_of(found, rest)
    else:
        transport_of(found, rest)
    return found


def outer_of(found, rest):
    """Adds the fields of the link layer, its extensions, and ARP."""
    if eth := re.search(r" eth (\S+) > (\S+)", rest):
        found["eth.src"], found["eth.dst"] = eth[1], eth[2]
    if sll := re.search(r" sll \S+ from ((?:\w\w:){5}\w\w)(?: |$)", rest):
        found["sll.src.eth"] = sll[1]
    found["vlans"] = [int(vlan) for vlan in re.findall(r" vlan:(\d+)", rest)]
    if " arp " not in rest:
        return
    if arp := re.search(r" arp (who-has|reply)(?: (\d+\.\S+))?(?: tell (\d+\.\S+)| is-at (\S+))?", rest):
        found["arp.opcode"] = 1 if arp[1] == "who-has" else 2
        names = ("arp.dst.proto_ipv4", "arp.src.proto_ipv4") if arp[1] == "who-has" else ("arp.src.proto_ipv4",)
        found.update((name, address) for name, address in zip(names, (arp[2], arp[3])) if address)
        if arp[4]:
            found["arp.src.hw_mac"] = arp[4]
    if arp := re.search(r" arp operation (\d+)", rest):
        found["arp.opcode"] = int(arp[1])


def net_of(found, rest):
    """Adds the fields of IP, and of a payload without a parsed transport header."""
    for name, field in (("ipv4", "ip"), ("ipv6", "ipv6")):
        if f" {name} " not in rest:
            continue
        if ip := re.search(rf" {name} (\S+) > (\S+)", rest):
            found[field + ".src"], found[field + ".dst"] = ip[1], ip[2]
            if part := re.search(r" fragment id (\d+) offset (\d+)( more)?", rest):
                prefix = ("ip.id", "ip.frag_offset", "ip.flags.mf")
                if field == "ipv6":
                    prefix = ("ipv6.fraghdr.ident", "ipv6.fraghdr.offset", "ipv6.fraghdr.more")
                found.update(zip(prefix, (int(part[1]), int(part[2]), int(part[3] is not None))))
            if inside := re.search(rf" {name} .* protocol (\d+)(?: .*)?{LEN}", rest):
                if field == "ip" and " authentication" not in rest:
                    found["ip.proto"], found["ip.payload"] = int(inside[1]), len_of(inside, 2)
                elif f"{ip[0]} protocol" in rest:
                    found["ipv6.payload"] = len_of(inside, 2)


def transport_of(found, rest):
    """Adds the fields of UDP and TCP. In a first fragment, and after most truncated headers, there is no length."""
    if udp := re.search(rf" udp (\d+) > (\d+)(?: length (0))?(?:{LEN})?", rest):
        found["udp.srcport"], found["udp.dstport"] = int(udp[1]), int(udp[2])
        if udp[4] is not None:
            found["udp.length"] = 0 if udp[3] else 8 + len_of(udp, 4)
    if tcp := re.search(rf" tcp (\d+) > (\d+)(?: \[(\w*)\] seq (\d+)(?: ack (\d+))?)?(?:{LEN})?", rest):
        found["tcp.srcport"], found["tcp.dstport"] = int(tcp[1]), int(tcp[2])
        if tcp[4] is not None:
            found["tcp.flags"], found["tcp.seq_raw"] = sum(FLAGS[letter] for letter in tcp[3]), int(tcp[4])
        if tcp[5] is not None:
            found["tcp.ack_raw"] = int(tcp[5])
        if tcp[6] is not None:
            found["tcp.len"] = len_of(tcp, 6)


def icmp_of(found, rest):
    """Adds the fields of ICMP."""
    for name, field, table in (("icmpv4", "icmp", ICMPV4), ("icmpv6", "icmpv6", ICMPV6)):
        if icmp := re.search(rf" {name} (?:type (\d+)|(\S+))(?: code (\d+)| (\S+))?", rest):
            kind = int(icmp[1]) if icmp[1] else table[icmp[2]]
            names = CODES.get((field, kind), [])
            # A code without a name is printed as a number, and code 0 is left out.
            code = names.index(icmp[4]) if icmp[4] in names else int(icmp[3] or 0)
            found[field + ".type"], found[field + ".code"] = kind, code
            if length := re.search(LEN, rest):
                found["icmp.length"] = len_of(length, 1) + (20 if (field, code) == ("icmp", 0) and kind in (13, 14) else 8)
            if to := re.search(r" redirect \S+ to (\S+)", rest):
                found["icmp.redir_gw"] = to[1]


def details_of(found, rest):
    """Adds the fields that --verbose prints."""
    for names, form in (
        (("ip.ttl", "ip.id"), r" ttl (\d+) id (\d+)"),
        (("ipv6.hlim", "ipv6.flow"), r" hop-limit (\d+) flow (\d+)"),
        (("tcp.window_size_value",), r" window (\d+)"),
        (("tcp.options.mss_val",), r" mss (\d+)"),
        (("tcp.options.wscale.shift",), r" wscale (\d+)"),
        (("tcp.options.timestamp.tsval",), r" timestamp (\d+) echo"),
        (("tcp.options.sack_le", "tcp.options.sack_re"), r" sack (\d+)-(\d+)"),
    ):
        if told := re.search(form, rest):
            found.update((name, int(value)) for name, value in zip(names, told.groups()))
    if "ip.ttl" in found:
        found["ip.flags.df"] = int(re.search(r" ttl \d+ id \d+ df", rest) is not None)
    for layer, word in re.findall(r" (header|tcp|udp|icmpv4|icmpv6) checksum (right|wrong)", rest):
        layer = {"header": "ip", "icmpv4": "icmp"}.get(layer, layer)
        found[layer + ".checksum.status"] = int(word == "right")
    if priorities := re.findall(r" pcp (\d)", rest):
        found["priorities"] = [int(priority) for priority in priorities]


def told_by_tshark(path, fields, options):
    """Returns the fields that tshark prints for the packets of a capture, and how it ended."""
    command = ["tshark", "-r", path, "-n", "-T", "fields"] + options
    for field in fields:
        command += ["-e", field]
    run = subprocess.run(command, capture_output=True, text=True, errors="replace")
    lines = [line.split("\t") for line in run.stdout.splitlines()]
    return [{name: value for name, value in zip(fields, line) if value != ""} for line in lines], run


def theirs(path):
    """Returns tshark's fields of each packet, the first value of each, and how tshark ended."""
    packets, run = told_by_tshark(path, FIELDS, TSHARK_OPTIONS)
    for found in packets:
        found.setdefault("frame.protocols", "")
        nets = sum(1 + found[name].count(",") for name in ("ip.src", "ipv6.src") if name in found)
        tags, priorities = tags_of(found, "id"), tags_of(found, "priority")
        quoted = [(name, found[name].split(",")[name.startswith("ip"):]) for name in QUOTED if name in found]
        for name, value in found.items():
            if "," in value and name != "frame.protocols":
                found[name] = value.split(",")[0]
        found["nets"], found["vlans"], found["priorities"] = nets, tags, priorities
        found["quoted"] = {name: values[0] for name, values in quoted if values}
        # tshark prints offsets in units of 8 bytes.
        for name in ("ip.frag_offset", "ipv6.fraghdr.offset"):
            if name in found:
                found[name] = str(8 * number(found[name]))
        # Reserved bits are not flags.
        if "tcp.flags" in found:
            found["tcp.flags"] = str(number(found["tcp.flags"]) & 0x1FF)
        if number(found.get("ip.len", "0")):
            found["ip.payload"] = str(number(found["ip.len"]) - number(found["ip.hdr_len"]))
        if "ipv6.plen" in found:
            found["ipv6.payload"] = found["ipv6.plen"]
    return packets, run


def tags_of(found, field):
    """Returns a field of the VLAN tags, from the outermost inwards. tshark prints those of 802.1ad separately."""
    names = {layer: f"{layer}.{field}" for layer in ("vlan", "ieee8021ad")}
    waiting = {layer: found[name].split(",") for layer, name in names.items() if name in found}
    if not waiting:
        return []
    return [number(waiting[layer].pop(0)) for layer in found["frame.protocols"].split(":") if waiting.get(layer)]


def tcpdump_of(path, options):
    """Returns the text that tcpdump prints for each packet, beginning with its time, and how tcpdump ended."""
    command = ["tcpdump", "-nn", "-tt", "--nano"] + options + ["-r", path]
    run = subprocess.run(command, capture_output=True, text=True, errors="replace")
    begins = r"^(?=-?\d+\.\d{9,10} |\[Invalid header|\[Error converting time)"
    return re.split(begins, run.stdout, flags=re.MULTILINE)[1:], run


def around(names, other):
    """Returns the layers up to the outermost of some of tshark's fields, with tshark's names."""
    layers = other["frame.protocols"].split(":")
    wanted = {"vlan" if name == "vlan.id" else name.split(".")[0] for name in names}
    places = [at for at, layer in enumerate(layers) if layer in wanted]
    return ":".join(layer for layer in layers[:min(places) + 1 if places else None] if layer != "ethertype")


def damaged_times(path):
    """Returns the indexes of the pcap records with a fraction of a second or more, or a time from 2^31 s on (2038)."""
    data, at, index, found = open(path, "rb").read(), 24, 0, set()
    order = "<" if data[:4] in (b"\xd4\xc3\xb2\xa1", b"\x4d\x3c\xb2\xa1") else ">"
    units = {b"\xd4\xc3": 10**6, b"\xa1\xb2": 10**6 if data[2:4] == b"\xc3\xd4" else 10**9}.get(data[:2], 10**9)
    while data[:4] != b"\n\r\r\n" and at + 16 <= len(data):
        seconds, fraction, kept, _ = struct.unpack_from(order + "IIII", data, at)
        if fraction >= units or seconds >= 2**31:
            found.add(index)
        at, index = at + 16 + kept, index + 1
    return found


def blocks_of(data):
    """Returns the types of the blocks of a pcapng capture, or an empty list for another format."""
    at, order, kinds = 0, "<", []
    while data[:4] == b"\n\r\r\n" and at + 12 <= len(data):
        if data[at:at + 4] == b"\n\r\r\n":
            order = "<" if data[at + 8:at + 12] == b"\x4d\x3c\x2b\x1a" else ">"
        kind, length = struct.unpack_from(order + "II", data, at)
        kinds.append(kind)
        at += max(length, 12)
    return kinds


def of_kinds(entries, kinds):
    """Returns tshark's entries of the packets in blocks that packet_dump reads."""
    kinds = [kind for kind in kinds if kind in TOLD]
    return [entry for entry, kind in zip(entries, kinds) if kind in READ] if kinds else entries


class Tally:
    """Counts of a comparison, and messages about it, each printed a few times."""

    def __init__(self, shown):
        self.counted, self.reasons, self.said, self.shown = Counter(), Counter(), Counter(), shown
        self.differing, self.untold, self.links, self.words = Counter(), Counter(), Counter(), []

    def differs(self, path, at, name, mine, other):
        self.counted["differ"] += 1
        self.differing[name] += 1
        self.say(name, f"{path}: {at}: {name} {mine}, {other}")

    def say(self, name, text):
        if self.said[name] < self.shown:
            print(text, flush=True)
        self.said[name] += 1

    def compared(self, path, at, name, mine, other, equal, reader="tshark"):
        self.counted[f"{reader} fields"] += 1
        if not equal:
            self.differs(path, at, f"{reader} {name}", mine, other)

    def write(self):
        for reason, count in sorted(self.reasons.items(), key=lambda entry: (entry[0].split(":")[0], -entry[1])):
            print(f"{count:8} {reason}")
        for name, count in self.differing.most_common():
            print(f"{count:8} differ: {name}")
        read = self.counted["packets"] - sum(self.links.values())
        for link, count in self.links.most_common():
            print(f"{count:8} {100 * count / max(1, self.counted['packets']):6.2f} % of packets not read: {link}")
        for cause, count in self.untold.most_common():
            print(f"{count:8} {100 * count / max(1, read):6.2f} % of packets read: not told: {cause}")
        print(", ".join(f"{value} {name}" for name, value in self.counted.items()))


def same_time(first, mine, this):
    """Returns whether the time since the first packet is `mine` seconds, to the printed number of digits."""
    digits = len(mine.split(".")[1])
    return abs(Decimal(mine) - (Decimal(this) - Decimal(first))) < Decimal(1).scaleb(-digits)


def compare_times(tally, path, reader, mine, times, damaged):
    """Compares times since the first packet for which both programs print one."""
    first = None
    for a, this in zip(mine, times):
        if a["time"] == "-" or this is None or this.startswith("["):
            continue
        # If the fraction is more than a second, the others print a time that wrapped around.
        if a["frame.number"] - 1 in damaged:
            tally.reasons[f"{reader}: a time whose fraction is more than a second"] += 1
            if first is None:
                return
            continue
        # For the first packet, whose time is 0, tcpdump may print no time.
        first = str(Decimal(this) - Decimal(a["time"])) if first is None else first
        tally.compared(path, a["frame.number"], "time", a["time"], f"{this} - {first}",
                       same_time(first, a["time"], this), reader)


def same(a, name, other):
    """Returns whether a field is equal. A length that counts only captured bytes may be less than the other."""
    value, other = a[name], number(other) if isinstance(a[name], int) else other
    if name == "udp.length" and other < 8:
        # The field does not limit the payload; the length of IP does.
        return other > 0 or value in (0, 8) or a["incomplete"]
    return value <= other if name in LENGTHS and not a["whole"] else value == other


def missing_of(a, name, other):
    """Compares the missing bytes of an incomplete payload, by a length field, with those that the capture left out."""
    kept, original = a.get("cut", (0, 0))
    gone = number(other) - a[name]
    if gone == original - kept:
        return "as many bytes are missing as the capture left out"
    return "more are missing: the packet was short of them" if gone > original - kept else "fewer are missing: padding"


def compare_tshark(tally, path, a, b, text):
    """Compares the fields of tshark. `text` is the output of tcpdump, as only tcpdump prints that an IPv4 length is 0, and
    by how many bytes a packet is shorter than its IP length."""
    at = a["frame.number"]
    kept, original = int(b["frame.cap_len"]), int(b["frame.len"])
    equal = a["cut"] == (kept, original) if "cut" in a else kept >= original
    if "link" in a:
        # tshark leaves out the header that some link types have before the packet.
        there, whole = a.get("cut", (a["len"], a["len"] - kept + original))
        equal = a["len"] == there and there - kept == whole - original >= 0 and ("cut" in a or kept >= original)
    tally.compared(path, at, "lengths", a.get("cut", a.get("len")), (kept, original), equal)
    if "link" in a:
        return
    for name in ("vlans", "priorities"):
        if name in a and a[name] and b[name]:
            tally.compared(path, at, name, a[name], b[name], a[name] == b[name][:len(a[name])])
    for name, value in a.get("quoted", {}).items():
        if name in b["quoted"]:
            other = b["quoted"][name]
            tally.compared(path, at, "quoted " + name, value, other, str(value) == other)
    for name in DETAILS if tally.words else []:
        if name in b and name not in a and not (name.endswith("status") and b[name] not in ("0", "1")):
            around_it = "stopped" if "stopped" in a else "incomplete" if a["incomplete"] else around([name], b)
            tally.reasons[f"tshark alone: {name}: {around_it}"] += 1
    for name, value in a.items():
        if name.startswith("eth.") and re.match(r"eth:(?:cfp:)?eth:", b["frame.protocols"]):
            tally.reasons["of two Ethernet headers tshark tells the inner one"] += 1
        elif name.endswith(".checksum.status") and b.get(name) not in ("0", "1"):
            tally.reasons[f"packet_dump alone: {name}; tshark says {b.get(name)}"] += 1
        elif name in LENGTHS and "cut" in a and "IP bad-len 0" in text:
            # No field has the length of the packet: tshark assumes that all bytes belong to it.
            tally.reasons["lengths not compared: of a segment whose IPv4 length is left to the card, and cut"] += 1
        elif name == "tcp.len" and name in b and (short := re.search(r"truncated-ip6? - (\d+) bytes missing", text)):
            # The packet is shorter than its IP length, and tshark counts only the bytes present.
            tally.reasons["of TCP in a packet that was short of what IP counts tshark tells what there was"] += 1
            there = max(0, value - int(short[1]))
            tally.compared(path, at, name, value, f"{b[name]} and {short[1]} more", there == number(b[name]))
        elif name in b and name not in ("frame.number", "vlans", "priorities", "quoted"):
            if name in LENGTHS and not a["whole"]:
                tally.reasons[f"incomplete: {missing_of(a, name, b[name])}"] += 1
            tally.compared(path, at, name, value, b[name], same(a, name, b[name]))
        elif "." in name and name not in b and name not in ("frame.number", "icmp.length"):
            tally.reasons[f"packet_dump alone: {name.split('.')[0]}; tshark has {b['frame.protocols']}"] += 1
            tally.say(name + "-", f"{path}: {at}: {name} {value}, tshark has none: {b['frame.protocols']}")


def compare_ends(tally, path, a, seen):
    """Compares addresses and ports with tcpdump's, and returns whether only tcpdump prints ports."""
    untold = False
    for field in ("ip", "ipv6"):
        if field + ".src" not in a:
            continue
        apart = f"{a[field + '.src']} > {a[field + '.dst']}:"
        ends = apart
        for kind in ("udp", "tcp"):
            if kind + ".srcport" in a:
                ports = (a[kind + ".srcport"], a[kind + ".dstport"])
                ends = f"{a[field + '.src']}.{ports[0]} > {a[field + '.dst']}.{ports[1]}:"
        found = re.search(r"(?:^|\s)([0-9a-fA-F:.]+) > ([0-9a-fA-F:.]+):(?:\s|$)", seen)
        if not found:
            tally.reasons["packet_dump alone: addresses, of which tcpdump writes none"] += 1
            continue
        told = f"{found[1]} > {found[2]}:"
        if ends == apart and told != apart:
            # tcpdump prints the ports of other transport protocols as well.
            told = re.sub(r"\.\d+ > (.*)\.\d+:$", r" > \1:", told)
            untold = True
        elif told == apart and ends != apart and f" {ports[0]} > {ports[1]}:" in seen:
            # After extension headers, tcpdump prints ports separately from addresses.
            told = ends
        tally.compared(path, a["frame.number"], "ends", ends, told, told == ends, "tcpdump")
    return untold


def compare_tcpdump(tally, path, a, text):
    """Compares addresses, ports, lengths and fragments, and returns whether only tcpdump prints ports."""
    if "link" in a:
        return False
    at, seen = a["frame.number"], " ".join(text.split())
    untold = compare_ends(tally, path, a, seen)
    for name, form in (("udp.length", r"UDP, (?:bad )?length (\d+)"), ("tcp.len", r": tcp (\d+)")):
        if name in a and (found := re.search(form, seen)):
            other = int(found[1]) + (8 if name == "udp.length" else 0)
            tally.compared(path, at, name, a[name], other, same(a, name, str(other)), "tcpdump")
    if "icmp.length" in a and (found := re.search(r": (?:\[[^]]*\] )?ICMP6?,? .*?, length (\d+)", text)):
        other = int(found[1])
        tally.compared(path, at, "icmp.length", a["icmp.length"], other, same(a, "icmp.length", found[1]), "tcpdump")
    if "ip.frag_offset" in a and (found := re.search(r", id (\d+), offset (\d+), flags \[([^\]]*)\]", seen)):
        told = (int(found[1]), int(found[2]), int("+" in found[3]))
        mine = (a["ip.id"], a["ip.frag_offset"], a["ip.flags.mf"])
        tally.compared(path, at, "fragment", mine, told, mine == told, "tcpdump")
    if "ipv6.fraghdr.ident" in a and (found := re.search(r"frag \(0x([0-9a-f]+):(\d+)\|", seen)):
        told, mine = (int(found[1], 16), int(found[2])), (a["ipv6.fraghdr.ident"], a["ipv6.fraghdr.offset"])
        tally.compared(path, at, "fragment", mine, told, mine == told, "tcpdump")
    if "arp.dst.proto_ipv4" in a and (found := re.search(r"who-has (\S+)(?: \(\S+\))? tell (\S+),", seen)):
        mine = (a["arp.dst.proto_ipv4"], a["arp.src.proto_ipv4"])
        tally.compared(path, at, "arp", mine, found.groups(), mine == found.groups(), "tcpdump")
    return untold


def compare_outer(tally, path, a, text):
    """Compares the output of tcpdump -e: Ethernet addresses, VLANs, flags, and sequence numbers."""
    if "link" in a:
        return
    at = a["frame.number"]
    if "eth.src" in a and (found := re.match(r"\S+ ((?:\w\w:){5}\w\w) > ((?:\w\w:){5}\w\w), ", text)):
        mine = (a["eth.src"], a["eth.dst"])
        tally.compared(path, at, "ethernet", mine, found.groups(), mine == found.groups(), "tcpdump")
    tags = [int(tag) for tag in re.findall(r"\bvlan (\d+), p \d", text)]
    if a["vlans"] and tags:
        tally.compared(path, at, "vlans", a["vlans"], tags, a["vlans"] == tags[:len(a["vlans"])], "tcpdump")
    form = r" Flags \[([^\]]*)\](?:, seq (\d+)(?::\d+)?)?(?:, ack (\d+))?"
    if "tcp.flags" in a and (found := re.search(form, text)):
        told = sum(TCPDUMP_FLAGS.get(letter, 0) for letter in found[1]) if found[1] != "none" else 0
        tally.compared(path, at, "flags", a["tcp.flags"] & 255, told, a["tcp.flags"] & 255 == told, "tcpdump")
        for name, other in (("tcp.seq_raw", found[2]), ("tcp.ack_raw", found[3])):
            if name in a and other is not None:
                tally.compared(path, at, name, a[name], other, a[name] == int(other), "tcpdump")


def untold(a, b):
    """Returns the fields in WANTED that tshark prints for a packet and packet_dump does not."""
    names = [name for name in WANTED if name in b and name not in a and name not in a.get("quoted", {})]
    if "tcp.flags" not in b or number(b["tcp.flags"]) & FLAGS["A"] == 0:
        names = [name for name in names if name != "tcp.ack_raw"]
    if b.get("arp.src.hw_mac") in (a.get("eth.src"), a.get("sll.src.eth")):
        names = [name for name in names if name != "arp.src.hw_mac"]
    return names + (["vlan.id"] if len(b["vlans"]) > len(a["vlans"]) else [])


def cause_of(a, b, names):
    """Returns why packet_dump does not print fields that tshark prints, or None if it prints all."""
    lengths = [name for name in LENGTHS if name in a and name in b and not a["whole"] and a[name] < number(b[name])]
    alone = f" ({', '.join(names)})" if all(name in LENGTHS for name in names) else ""
    if names and "stopped" in a:
        return f"the header {a['stopped']} is {'cut' if 'cut' in a else 'malformed'}{alone}"
    if names and ("ip.frag_offset" in a or "ipv6.fraghdr.ident" in a):
        return f"in a fragment: {', '.join(sorted({name.split('.')[0] for name in names}))}{alone}"
    if names and ("icmp.type" in a or "icmpv6.type" in a):
        return "the packet that an ICMP message quotes"
    if names and all(name.startswith("arp") for name in names) and "arp.opcode" in a:
        return f"of ARP: {', '.join(names)}"
    if names:
        return "inside " + around(names, b)
    if b["nets"] > len([1 for name in ("ip.src", "ipv6.src", "icmp.type", "icmpv6.type") if name in a]):
        return "inside " + around([], b)
    return "the length of a payload of which bytes are missing" if lengths else None


def compare_two(tally, path, mine, other, texts, outer):
    """Compares the fields of each packet, and counts the causes of missing ones."""
    for at, a in enumerate(mine):
        b = other[at] if at < len(other) else None
        ports = compare_tcpdump(tally, path, a, texts[at]) if at < len(texts) else False
        if at < len(outer):
            compare_outer(tally, path, a, outer[at])
        if "link" in a:
            tally.links[a["link"]] += 1
        if b is None:
            continue
        compare_tshark(tally, path, a, b, texts[at] if at < len(texts) else "")
        if "link" not in a:
            cause = cause_of(a, b, untold(a, b))
            cause = "ports by tcpdump alone: " + b["frame.protocols"] if cause is None and ports else cause
            if cause is not None:
                tally.untold[cause] += 1
                tally.say(cause, f"{path}: {a['frame.number']}: not told: {cause}")


def compare(tally, program, path):
    run = subprocess.run([program, *tally.words, path], capture_output=True, text=True)
    mine = [ours(line) for line in run.stdout.splitlines()]
    (other, by_tshark), kinds = theirs(path), blocks_of(open(path, "rb").read())
    (texts, by_tcpdump), (outer, _) = tcpdump_of(path, ["-q", "-v"]), tcpdump_of(path, ["-e", "-S"])
    tally.counted["custom blocks"] += len([kind for kind in kinds if kind in TOLD - READ])
    other, damaged = of_kinds(other, kinds), damaged_times(path)
    tally.counted["captures"] += 1
    tally.counted["packets"] += len(mine)
    if run.returncode != 0:
        tally.reasons["status 1: " + re.sub(r"\d+", "N", run.stderr.strip().splitlines()[-1].replace(path, ""))] += 1
        tally.counted["packets after what packet_dump refuses"] += max(0, len(other) - len(mine))
        print(f"{path}: {run.stderr.strip()}; tshark has {len(other)} packets")
    for reader, told, ended in (("tshark", other, by_tshark), ("tcpdump", texts, by_tcpdump)):
        tally.counted[f"packets that {reader} reads too"] += min(len(mine), len(told))
        if ended.returncode != 0 and len(told) < len(mine):
            tally.counted[f"captures that {reader} does not read whole"] += 1
            tally.say(f"status {reader}", f"{path}: {reader}: {' '.join(ended.stderr.split())[-150:]}")
        elif len(mine) != len(told) and run.returncode == 0:
            tally.differs(path, "-", f"number of packets, {reader}", len(mine), len(told))
    # If the numbers of packets differ, it is unknown which ones correspond.
    other = other if len(other) == len(mine) or run.returncode or by_tshark.returncode else []
    if len(texts) != len(mine) and not run.returncode and not by_tcpdump.returncode:
        texts = []
    compare_times(tally, path, "tcpdump", mine, [text.split(" ")[0] for text in texts], damaged)
    compare_times(tally, path, "tshark", mine, [b.get("frame.time_epoch") for b in other], damaged)
    compare_two(tally, path, mine, other, texts, outer if len(outer) == len(texts) else [])


def in_forms(tally, program, path):
    """Compares a capture as it is, and in the formats that editcap writes."""
    compare(tally, program, path)
    with tempfile.TemporaryDirectory() as folder:
        for form, suffix in FORMS.items():
            to = os.path.join(folder, f"{form}.{suffix}")
            if subprocess.run(["editcap", "-F", form, path, to], capture_output=True).returncode == 0:
                compare(tally, program, to)
            else:
                tally.counted["forms that editcap does not write"] += 1


def cut(tally, program, path, kept):
    """Compares a capture with its packets truncated to `kept` bytes."""
    with tempfile.TemporaryDirectory() as folder:
        to = os.path.join(folder, os.path.basename(path))
        if subprocess.run(["editcap", "-s", kept, path, to], capture_output=True).returncode == 0:
            compare(tally, program, to)
        else:
            tally.counted["captures that editcap does not write"] += 1


def payloads_of(program, path):
    """Returns the payloads that packet_dump reassembles, by the packet that completes each, and the rejected fragments."""
    command = [program, "--reassemble", "--timeout", "4294967295", "--streams", "4294967295", "--hex", path]
    run = subprocess.run(command, capture_output=True, text=True)
    found, refused, rows = {}, [], None
    for line in run.stdout.splitlines():
        if line.startswith(" "):
            if rows is not None:
                rows.append("".join(line[10:58].split()))
            continue
        rows = None
        if head := re.match(r"(\d+) .* reassembled (.*)$", line):
            rows = []
            found[int(head[1])] = (head[2], rows)
        elif " not reassembled: " in line:
            refused.append(line)
    return found, refused


def reassembled(tally, program, path):
    """Compares the reassembled payloads."""
    mine, refused = payloads_of(program, path)
    tally.counted["fragments refused"] += len(refused)
    for line in refused:
        tally.reasons["refused: " + re.sub(r"\d+", "N", line.split(" not reassembled: ")[1])] += 1
        tally.say("refused", f"{path}: {line}")
    options = ["-E", "occurrence=f", "-o", "ip.defragment:TRUE", "-o", "ipv6.defragment:TRUE", "-o",
               "tcp.desegment_tcp_streams:FALSE", "-Y", "ip.reassembled.data or ipv6.reassembled.data"]
    other = {int(found["frame.number"]): found for found in told_by_tshark(path, PAYLOAD_FIELDS, options)[0]}
    for at in sorted(set(mine) | set(other)):
        if at not in mine or at not in other:
            one, protocols = ("packet_dump", "") if at in mine else ("tshark", other[at]["frame.protocols"])
            tally.reasons[f"{one} alone: {protocols}"] += 1
            tally.say(one, f"{path}: {at}: {mine.get(at, ('',))[0]}, tshark {protocols}")
            continue
        tally.counted["payloads"] += 1
        found, theirs_at = ours(f"0 0 {mine[at][0]}"), other[at]
        bytes_there = theirs_at.get("ip.reassembled.data", theirs_at.get("ipv6.reassembled.data", ""))
        told = "".join(mine[at][1])
        tally.counted["bytes"] += len(told) // 2
        tally.compared(path, at, "bytes", told[:40], bytes_there[:40], bytes_there.endswith(told))
        length = re.search(LEN, mine[at][0])
        tally.compared(path, at, "number of bytes", len(told) // 2, length and length[1],
                       length is None or len(told) // 2 == int(length[1]))
        for name in PAYLOAD_FIELDS[1:9]:
            if name in found:
                value = theirs_at.get(name)
                tally.compared(path, at, name, found[name], value, value is not None and found[name] == number(value))


def files_of(paths):
    """Returns the named files, and those in named folders."""
    for path in paths:
        if os.path.isdir(path):
            for folder, _, names in sorted(os.walk(path)):
                yield from (os.path.join(folder, name) for name in sorted(names))
        else:
            yield path


def main(arguments):
    total, way = Tally(5), compare
    if arguments[:1] == ["--all"]:
        total.shown, arguments = sys.maxsize, arguments[1:]
    if arguments[:1] == ["--verbose"]:
        total.words, arguments = arguments[:1], arguments[1:]
    if arguments[:1] == ["--cut"]:
        kept, arguments = arguments[1], arguments[2:]
        way = lambda tally, program, path: cut(tally, program, path, kept)
    elif arguments[:1] == ["--forms"]:
        way, arguments = in_forms, arguments[1:]
    elif arguments[:1] == ["--reassembled"]:
        way, arguments = reassembled, arguments[1:]
    for path in files_of(arguments[1:]):
        way(total, arguments[0], path)
    total.write()


if __name__ == "__main__":
    main(sys.argv[1:])
