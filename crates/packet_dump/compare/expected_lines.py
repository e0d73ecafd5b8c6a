"""Derives the layers that packet_dump has to print from those that tshark shows, in the form of dump_lines.py.

Only the outermost layers count: link layer, tags, one network layer, its extension headers, one transport layer. Later
layers of tshark are in a tunnel, or of a protocol that packet_dump does not read.
"""
from dump_lines import OPTIONS, Layer

# Order of the layers. A packet has one layer of each level, or several tags (2) and extension headers (4).
LEVELS = {"eth": 1, "sll": 1, "null": 1, "raw": 1, "vlan": 2, "ieee8021ad": 2, "macsec": 2, "arp": 3, "ip": 3,
          "ipv6": 3, "ipv6.hopopts": 4, "ipv6.routing": 4, "ipv6.dstopts": 4, "ipv6.fraghdr": 4, "ah": 4, "udp": 5,
          "tcp": 5, "icmp": 5, "icmpv6": 5}
REPEATED = (2, 4)
TAG_TYPES = ("0x8100", "0x88a8", "0x9100")
# Layers by the name of tshark's dissector that reports missing bytes.
DISSECTORS = {"Ethernet": "eth", "Raw": "raw", "ARP/RARP": "arp", "IPv4": "ip", "IPv6": "ipv6",
              "IPv6 Hop-by-Hop": "ipv6.hopopts", "UDP": "udp", "TCP": "tcp", "ICMP": "icmp", "ICMPv6": "icmpv6"}
# tshark's errors that also stop packet_dump.
ERRORS = {"ip.bogus_ip_version": ("ip", "UnexpectedVersion"), "ipv6.bogus_ipv6_version": ("ipv6", "UnexpectedVersion")}
# Layers whose first fields packet_dump prints if the header has an error.
PRINTED_IF_TRUNCATED = ("udp", "tcp", "ipv6.hopopts")
# ICMP messages with an identifier and a sequence number (code 0), and those with a longer header.
WITH_IDENTIFIER = (("icmp", "0"), ("icmp", "8"), ("icmp", "13"), ("icmp", "14"), ("icmpv6", "128"), ("icmpv6", "129"))
TIMESTAMPS = (("icmp", "13"), ("icmp", "14"))
# Codes of a parameter problem with a pointer.
WITH_POINTER = (("icmp", "0"), ("icmpv6", "0"), ("icmpv6", "1"), ("icmpv6", "2"))
# Details: packet_dump prints these fields neither of a layer with an error nor of a quoted packet.
DETAILS = ("checksum", "priority", "dei", "ttl", "id", "df", "hlim", "flow", "window", "options")


class Reading:
    """The expected layers, and offsets in the packet: the start of the payload, its end by a length field, and the end
    of the captured bytes."""

    def __init__(self, captured):
        self.layers, self.level = [], 0
        self.payload, self.limit, self.captured = 0, captured, captured
        self.fragment = self.incomplete = self.refused = False

    def add(self, name, fields):
        """Adds a layer with those fields that are not None."""
        self.layers.append(Layer(name, {field: value for field, value in fields.items() if value is not None}))

    def limit_to(self, end):
        """Limits the payload by a length field. If the capture, or an outer length field, ends before, the payload is
        incomplete, and --strict refuses the packet."""
        self.captured = min(self.captured, self.limit)
        self.incomplete = end > self.captured
        self.refused = self.refused or self.incomplete
        self.limit = end


def decimal_of(text):
    """Returns a number as decimal digits."""
    return None if text is None else str(int(text, 0))


def type_of(text):
    """Returns an ether type, or `vlan` for that of a VLAN tag."""
    return "vlan" if text in TAG_TYPES else text


def verdict(fields):
    """Returns whether a checksum is right, or None if it is absent or not verified."""
    return {"0": "wrong", "1": "right"}.get(fields.get("checksum.status"))


# ---- layers


def read_ethernet(reading, _, fields):
    length = fields.get("len")
    announced = f"length {length}" if length else type_of(fields.get("type"))
    reading.add("eth", {"dst": fields.get("dst"), "src": fields.get("src"), "next": announced})


def read_cooked(reading, _, fields):
    announced = type_of(fields.get("etype", fields.get("gretype")))
    reading.add("sll", {"pkttype": fields.get("pkttype"), "src": fields.get("src.eth"), "next": announced})


def read_tag(reading, _, fields):
    length = fields.get("len")
    announced = f"length {length}" if length else type_of(fields.get("etype", fields.get(".ieee8021ah.etype")))
    reading.add("vlan", {**{name: fields.get(name) for name in ("id", "priority", "dei")}, "next": announced})


def read_macsec(reading, start, fields):
    system, port = fields.get("SCI.system_identifier"), fields.get("SCI.port_identifier")
    identifier = f"{system.replace(':', '')}{int(port):04x}" if system else None
    reading.add("macsec", {"encrypted": fields.get("TCI.E"), "changed": fields.get("TCI.C"), "pn": fields.get("PN"),
                           "sci": identifier, "next": type_of(fields.get("etype"))})
    if fields.get("SL", "0") != "0":
        reading.limit_to(start + (14 if system else 6) + int(fields["SL"]))


def read_arp(reading, _, fields):
    operation = fields.get("opcode")
    sender, target = (fields.get(f"{end}.proto_ipv4", fields.get(f"{end}.proto")) for end in ("src", "dst"))
    reading.add("arp", {"opcode": operation, "sender": sender if operation in ("1", "2") else None,
                        "target": target if operation == "1" else None,
                        "sender_hw": fields.get("src.hw_mac", fields.get("src.hw")) if operation == "2" else None})


def read_ipv4(reading, start, fields):
    offset, more = 8 * int(fields.get("frag_offset", "0")), fields.get("flags.mf")
    reading.fragment = offset > 0 or more == "1"
    number = decimal_of(fields.get("id"))
    part = {"fragment_id": number, "offset": str(offset), "more": more} if reading.fragment else {}
    reading.add("ip", {"src": fields.get("src"), "dst": fields.get("dst"), "ttl": fields.get("ttl"), "id": number,
                       "df": fields.get("flags.df"), "checksum": verdict(fields), "next": fields.get("proto"), **part})
    reading.payload = start + int(fields.get("hdr_len", "20"))
    if fields.get("len", "0") != "0":
        reading.limit_to(start + int(fields["len"]))


def read_ipv6(reading, start, fields):
    reading.add("ipv6", {"src": fields.get("src"), "dst": fields.get("dst"), "hlim": fields.get("hlim"),
                         "flow": decimal_of(fields.get("flow")), "next": fields.get("nxt")})
    reading.payload = start + 40
    if fields.get("plen", "0") != "0":
        reading.limit_to(reading.payload + int(fields["plen"]))


def extension_reader(name):
    """Returns a reader of an extension header."""
    def read(reading, start, fields):
        reading.add(name, {"next": fields.get("nxt", fields.get("next_header"))})
        reading.payload = start + int(fields["size"])
    return read


def read_fragment_header(reading, start, fields):
    offset, more = 8 * int(fields.get("offset", "0")), fields.get("more")
    reading.fragment = offset > 0 or more == "1"
    reading.add("ipv6.fraghdr", {"fragment_id": decimal_of(fields.get("ident")), "offset": str(offset), "more": more,
                                 "next": fields.get("nxt")})
    reading.payload = start + 8


def read_udp(reading, start, fields):
    ports = {name: fields.get(name) for name in ("srcport", "dstport")}
    if reading.fragment:
        reading.add("udp", {**ports, "next": "17"})
        return
    length = int(fields.get("length", "0"))
    reading.payload = start + 8
    zero = length == 0 and reading.payload < min(reading.limit, reading.captured)
    reading.add("udp", {**ports, "checksum": verdict(fields), "length": "0" if zero else None})
    if length >= 8:
        reading.limit_to(start + length)
    reading.refused = reading.refused or 0 < length < 8


def read_tcp(reading, start, fields):
    found = {name: fields.get(name) for name in ("srcport", "dstport")}
    if "flags" in fields:
        flags = int(fields["flags"], 16) & 0x1FF
        found.update(flags=str(flags), seq=fields["seq_raw"], ack=fields["ack_raw"] if flags & 0x10 else None)
    if reading.fragment:
        reading.add("tcp", {**found, "next": "6"})
        return
    if "window_size_value" in fields:
        found["window"], found["options"] = fields["window_size_value"], options_of(fields.get("options"))
        found["checksum"] = verdict(fields)
    reading.payload = start + int(fields.get("hdr_len", "0"))
    reading.add("tcp", found)


def options_of(text):
    """Returns the TCP options up to their end, or up to the kind of the first one that packet_dump does not know."""
    options = []
    for option in text.split(",") if text else []:
        kind = option.split(":")[0]
        if kind == "0":
            break
        known = kind in OPTIONS.values()
        options.append(option if known else kind)
        if not known:
            break
    return ",".join(options)


def icmp_reader(name):
    """Returns a reader of an ICMP message."""
    def read(reading, start, fields):
        if reading.fragment:
            return
        kind, code = fields.get("type"), fields.get("code")
        found = {"type": kind, "code": code, "mtu": fields.get("mtu"), "gateway": fields.get("redir_gw"),
                 "pointer": fields.get("pointer") if (name, code) in WITH_POINTER else None,
                 "checksum": verdict(fields)}
        if (name, kind) in WITH_IDENTIFIER and code == "0":
            found["ident"] = decimal_of(fields.get("ident", fields.get("echo.identifier")))
            found["seq"] = fields.get("seq", fields.get("echo.sequence_number"))
        reading.add(name, found)
        reading.payload = start + (20 if (name, kind) in TIMESTAMPS else 8)
    return read


READERS = {"eth": read_ethernet, "sll": read_cooked, "vlan": read_tag, "ieee8021ad": read_tag,
          "macsec": read_macsec, "arp": read_arp, "ip": read_ipv4, "ipv6": read_ipv6,
          "ipv6.fraghdr": read_fragment_header, "udp": read_udp, "tcp": read_tcp,
          **{name: icmp_reader(name) for name in ("icmp", "icmpv6")},
          **{name: extension_reader(name) for name in ("ipv6.hopopts", "ipv6.routing", "ipv6.dstopts", "ah")}}


# ---- packets


def follows(reading, name):
    """Returns whether packet_dump prints a layer of this name next."""
    level = LEVELS.get(name, 0)
    return level > reading.level or level == reading.level and level in REPEATED


def error_of(answer):
    """Returns the error of a header that tshark reports, or None."""
    for entry in answer:
        kind, _, text = entry.name.partition(" ")
        dissector = text.replace(" truncated", "")
        if kind in ("malformed", "short") and dissector in DISSECTORS:
            return Layer("error", {"layer": DISSECTORS[dissector], "error": "bytes missing"})
        if kind == "error" and text in ERRORS:
            layer, error = ERRORS[text]
            return Layer("error", {"layer": layer, "error": error})
    return None


def payload_of(reading):
    """Returns the payload with its number of captured bytes, and the number by a length field if that differs."""
    full = reading.limit - reading.payload
    captured = max(0, min(reading.captured, reading.limit) - reading.payload)
    return Layer("payload", {"len": str(captured) if captured == full else f"{captured} of {full}"})


def read_layers(answer, captured, error=None):
    """Returns the reading of the outermost layers, up to one with an error if packet_dump prints no field of it."""
    reading = Reading(captured)
    broken = error.fields["layer"] if error else None
    for layer in answer:
        if not follows(reading, layer.name) or layer.name == broken and broken not in PRINTED_IF_TRUNCATED:
            break
        reading.level = LEVELS[layer.name]
        if reading.level < LEVELS["ip"]:
            reading.payload = layer.start + layer.size
        if layer.name in READERS:
            READERS[layer.name](reading, layer.start, {**layer.fields, "size": str(layer.size)})
    return reading


def with_end(reading, error):
    """Returns the layers of a reading, and the payload or the error after them."""
    last = reading.layers[-1] if reading.layers else None
    if error is None:
        return reading.layers + ([] if last and last.name == "arp" else [payload_of(reading)])
    if last is None or last.name != error.fields["layer"]:
        return reading.layers + [error]
    layers = reading.layers[:-1] + [without_details(last)]
    # The payload's length is printed if the capture truncates a TCP header after the data offset.
    known = "flags" in last.fields and reading.incomplete and reading.payload <= reading.limit
    return layers + ([payload_of(reading)] if known else []) + [error]


def without_details(layer):
    """Returns a layer without the fields that are details."""
    return Layer(layer.name, {field: value for field, value in layer.fields.items() if field not in DETAILS})


def quoted_layers(answer, reading):
    """Returns the layers of the packet that an ICMP error quotes, or none."""
    quoted = [layer._replace(name=layer.name[len("quoted."):]) for layer in answer if layer.name.startswith("quoted.")]
    if not quoted:
        return []
    inner = read_layers(quoted, min(reading.captured, reading.limit))
    layers = [without_details(layer) for layer in with_end(inner, None)]
    layers[0].fields.update({"incomplete": "1"} if inner.incomplete else {})
    return [layer._replace(name="quoted." + layer.name) for layer in layers]


def frame_of(fields):
    """Returns the time, the interface and the truncation of a packet."""
    captured, original = fields["cap_len"], fields["len"]
    frame = {"time": fields.get("time_epoch", "-"), "interface": fields.get("interface_id"),
             "cut": f"{captured} of {original}" if int(captured) < int(original) else None}
    return Layer("frame", {field: value for field, value in frame.items() if value is not None})


def expected(answer):
    """Returns the layers that packet_dump has to print of a packet; of a link type without a layer here, its name."""
    frame, captured = frame_of(answer[0].fields), int(answer[0].fields["cap_len"])
    if len(answer) > 1 and answer[1].name not in LEVELS and error_of(answer) is None:
        frame.fields["strict"] = "read"
        return [frame, Layer("payload", {"link": answer[1].name, "len": str(captured)})]
    error = error_of(answer)
    reading = read_layers(answer[1:], captured, error)
    frame.fields.update({"incomplete": "1"} if reading.incomplete else {})
    frame.fields["strict"] = "refused" if error or reading.refused else "read"
    return [frame] + with_end(reading, error) + quoted_layers(answer, reading)
