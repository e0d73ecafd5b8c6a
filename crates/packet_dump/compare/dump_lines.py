"""Reads the lines of `packet_dump --verbose`: each word of a line belongs to a field, or the line is rejected.

Layers have tshark's names, and fields mostly. `next` is the number that announces the next layer, also if the line only
has the name of that layer. The layer `error` names the layer where packet_dump stops, or whose error rejects the packet;
`payload` is the rest of the packet, or all of it if the link type is not read.
"""
import collections
import decimal
import os
import re
import sys
import typing

sys.path.insert(0, os.path.join(os.path.dirname(os.path.abspath(__file__)), os.pardir))
from compare import CODES, FLAGS, ICMPV4, ICMPV6  # noqa: E402

# Numbers that announce a layer. The types of all VLAN tags are `vlan`.
ETHER_TYPES = {"ip": "0x0800", "ipv6": "0x86dd", "arp": "0x0806", "vlan": "vlan", "macsec": "0x88e5"}
PROTOCOLS = {"ipv6.hopopts": "0", "icmp": "1", "tcp": "6", "udp": "17", "ipv6.routing": "43", "ipv6.fraghdr": "44",
             "ah": "51", "icmpv6": "58", "ipv6.dstopts": "60"}
NEXT = {**dict.fromkeys(("eth", "sll", "vlan", "macsec"), ETHER_TYPES),
        **dict.fromkeys(("ip", "ipv6", "ipv6.hopopts", "ipv6.routing", "ipv6.fraghdr", "ipv6.dstopts", "ah"),
                        PROTOCOLS)}
# Layers by their name in an error of packet_dump.
ERRORS = {"Ethernet2Header": "eth", "LinuxSllHeader": "sll", "LinuxSll": "sll", "VlanHeader": "vlan",
          "MacsecHeader": "macsec", "Macsec": "macsec", "Arp": "arp", "IpHeader": "raw", "Ip": "raw",
          "Ipv4Header": "ip", "Ipv4": "ip", "Ipv4Exts": "ah", "Ipv6Header": "ipv6", "Ipv6": "ipv6",
          "IpAuthHeader": "ah", "Ipv6ExtHeader": "extension", "Ipv6Exts": "extension",
          "Ipv6FragHeader": "ipv6.fraghdr", "UdpHeader": "udp", "TcpHeader": "tcp", "Tcp": "tcp", "Icmpv4": "icmp",
          "Icmpv4Timestamp": "icmp", "Icmpv4TimestampReply": "icmp", "Icmpv6": "icmpv6"}
PACKET_TYPES = ("host", "broadcast", "multicast", "other-host", "outgoing", "loopback", "user", "kernel")
OPTIONS = {"nop": "1", "mss": "2", "wscale": "3", "sack-permitted": "4", "sack": "5", "timestamp": "8"}


class Layer(typing.NamedTuple):
    """A layer with tshark's name, and its fields by name."""
    name: str
    fields: typing.Dict[str, str]


class Line:
    """The remaining words of a line, and the layers of the words before them. The first layer is `frame`."""

    def __init__(self, text):
        self.words = collections.deque(text.split())
        self.frame = Layer("frame", {})
        self.layers = [self.frame]

    def word(self):
        """Returns the next word."""
        return self.words.popleft()

    def skip(self, *expected):
        """Returns the next word if it is one of the expected ones, else None."""
        return self.words.popleft() if self.words and self.words[0] in expected else None

    def after(self, expected):
        """Returns the word after the expected one if that is next, else None."""
        return self.words.popleft() if self.skip(expected) else None

    def skip_parenthesis(self):
        """Skips the words up to a closing parenthesis."""
        while not self.word().endswith(")"):
            pass

    def add(self, name, fields):
        """Adds a layer with those fields that are not None."""
        self.layers.append(Layer(name, {field: value for field, value in fields.items() if value is not None}))

    def last(self, name):
        """Returns the fields of the last layer with this name."""
        return next(layer.fields for layer in reversed(self.layers) if layer.name == name)

    def ends(self):
        """Returns the words before and after `>`."""
        first, arrow, second = self.word(), self.word(), self.word()
        if arrow != ">":
            raise ValueError(f"no > after {first}")
        return first, second


# ---- layers


def read_ethernet(line):
    source, destination = line.ends()
    line.add("eth", {"src": source, "dst": destination})


def read_cooked(line):
    line.add("sll", {"pkttype": str(PACKET_TYPES.index(line.word())), "src": line.after("from")})


def read_macsec(line):
    fields = {"pn": line.after("pn"), "sci": line.after("sci")}
    state = line.skip("modified", "encrypted", "encrypted-unmodified") or ""
    fields["encrypted"] = "1" if state.startswith("encrypted") else "0"
    fields["changed"] = "1" if state in ("modified", "encrypted") else "0"
    line.add("macsec", fields)


def read_arp(line):
    if operation := line.after("operation"):
        line.add("arp", {"opcode": operation})
    elif target := line.after("who-has"):
        line.add("arp", {"opcode": "1", "target": target, "sender": line.after("tell")})
    else:
        line.add("arp", {"opcode": "2", "sender": line.after("reply"), "sender_hw": line.after("is-at")})


def read_ipv4(line):
    source, destination = line.ends()
    line.add("ip", {"src": source, "dst": destination})


def read_ipv6(line):
    source, destination = line.ends()
    line.add("ipv6", {"src": source, "dst": destination})


def read_fragment(line):
    fields = {"fragment_id": line.after("id"), "offset": line.after("offset")}
    fields["more"] = "1" if line.skip("more") else "0"
    if line.layers[-1].name == "ip":
        line.layers[-1].fields.update(fields)
    else:
        line.add("ipv6.fraghdr", fields)


def read_udp(line):
    source, destination = line.ends()
    line.add("udp", {"srcport": source, "dstport": destination, "length": line.after("length")})


def read_tcp(line):
    source, destination = line.ends()
    fields = {"srcport": source, "dstport": destination}
    if line.words and line.words[0].startswith("["):
        fields["flags"] = str(sum(FLAGS[letter] for letter in line.word()[1:-1]))
        fields["seq"], fields["ack"] = line.after("seq"), line.after("ack")
    line.add("tcp", fields)


def icmp_reader(name, types):
    """Returns a reader of ICMP messages. `pointer` is also the name of a code, with the pointer after it."""
    def read(line):
        kind = line.after("type")
        kind = int(kind) if kind else types[line.word()]
        codes, code = CODES.get((name, kind), []), line.after("code")
        if code is None:
            code = str(codes.index(line.word())) if line.words[0] in codes else "0"
        pointer = line.word() if line.words[0].isdigit() else line.after("pointer")
        line.add(name, {"type": str(kind), "code": code, "ident": line.after("id"), "seq": line.after("seq"),
                        "mtu": line.after("mtu"), "gateway": line.after("to"), "pointer": pointer})
    return read


# ---- payloads and errors


def payload_reader(kind):
    """Returns a reader of a payload's type, protocol (its name may follow), length (IEEE 802.3) or link type."""
    def read(line):
        line.add("payload", {kind: line.word()})
        if line.words[0].isupper():
            line.word()
    return read


def read_length(line):
    captured, full = line.word(), line.after("of")
    if line.layers[-1].name != "payload":
        line.add("payload", {})
    line.layers[-1].fields["len"] = f"{captured} of {full}" if full else captured


def read_incomplete(line):
    line.layers[0].fields["incomplete"] = "1"


def read_error(line):
    """Reads an error: a layer with missing bytes, or a layer and its error."""
    layer = line.word()
    if layer.endswith(":"):
        line.skip_parenthesis()
        error = "bytes missing"
    else:
        error = line.word()
        if line.words and line.words[0].isdigit():
            line.word()
    line.add("error", {"layer": ERRORS[layer.rstrip(":")], "error": error})


# ---- details


def read_priority(line):
    """Reads the priority of the first VLAN tag that has none yet."""
    fields = next(layer.fields for layer in line.layers if layer.name == "vlan" and "priority" not in layer.fields)
    fields.update(priority=line.word(), dei="1" if line.skip("dei") else "0")


def read_time_to_live(line):
    line.last("ip").update(ttl=line.word(), id=line.after("id"), df="1" if line.skip("df") else "0")


def read_hop_limit(line):
    line.last("ipv6").update(hlim=line.word(), flow=line.after("flow"))


def read_window(line):
    window, options = line.word(), []
    while option := line.skip(*OPTIONS, "option"):
        if option == "option":
            options.append(line.word())
        elif option in ("nop", "sack-permitted"):
            options.append(OPTIONS[option])
        elif option == "timestamp":
            options.append(f"8:{line.word()}:{line.after('echo')}")
        else:
            options.append(f"{OPTIONS[option]}:{line.word().replace('-', ':')}")
    line.last("tcp").update(window=window, options=",".join(options))


def checksum_reader(name, read_layer=None):
    """Returns a reader of the checksum of a layer, or of the layer if another word is next."""
    def read(line):
        if not line.skip("checksum"):
            read_layer(line)
            return
        line.last(name)["checksum"] = line.word()
        if line.words and line.words[0] == "(or":
            line.skip_parenthesis()
    return read


def read_quoted(line):
    """Reads the layers that an ICMP error quotes, up to the fields of the outer packet."""
    outer, line.layers = line.layers, []
    while line.words and line.words[0] not in ("interface", "cut"):
        read_part(line)
    line.layers = outer + [Layer("quoted." + layer.name, layer.fields) for layer in announced(line.layers)]


def read_interface(line):
    line.frame.fields["interface"] = line.word()


def read_cut(line):
    line.frame.fields["cut"] = f"{line.word()} of {line.after('of')}"


READERS = {
    "eth": read_ethernet, "sll": read_cooked, "macsec": read_macsec, "arp": read_arp, "ipv4": read_ipv4,
    "ipv6": read_ipv6, "fragment": read_fragment, "hop-by-hop": lambda line: line.add("ipv6.hopopts", {}),
    "routing": lambda line: line.add("ipv6.routing", {}), "authentication": lambda line: line.add("ah", {}),
    "destination-options": lambda line: line.add("ipv6.dstopts", {}), "udp": checksum_reader("udp", read_udp),
    "tcp": checksum_reader("tcp", read_tcp), "icmpv4": checksum_reader("icmp", icmp_reader("icmp", ICMPV4)),
    "icmpv6": checksum_reader("icmpv6", icmp_reader("icmpv6", ICMPV6)), "header": checksum_reader("ip"),
    "type": payload_reader("type"), "protocol": payload_reader("protocol"), "length": payload_reader("length"),
    "link": payload_reader("link"), "len": read_length, "incomplete": read_incomplete, "stopped": read_error,
    "refused": read_error, "pcp": read_priority, "ttl": read_time_to_live, "hop-limit": read_hop_limit,
    "window": read_window, "quotes": read_quoted, "interface": read_interface, "cut": read_cut,
}


def read_part(line):
    """Reads the layer, payload, error or detail that begins with the next word."""
    word = line.word()
    if tag := re.fullmatch(r"vlan:(\d+)", word):
        line.add("vlan", {"id": tag[1]})
    elif word in READERS:
        READERS[word](line)
    else:
        raise ValueError(f"not read: {word} {' '.join(line.words)}")


# ---- lines


def announced(layers):
    """Returns the layers, each with the number that announces the next one as `next`."""
    for layer, after in zip(layers, layers[1:]):
        numbers = NEXT.get(layer.name, {})
        if after.name == "error":
            kind = numbers.get(after.fields["layer"])
        elif after.name != "payload":
            kind = numbers.get(after.name)
        elif layer.name in ("udp", "tcp"):
            # The payload of a first fragment, after its ports.
            kind = after.fields.pop("protocol", None)
        elif "length" in after.fields:
            kind = f"length {after.fields.pop('length')}"
        else:
            kind = after.fields.pop("type", None) or after.fields.pop("protocol", None)
        if kind:
            layer.fields["next"] = kind
    return layers


def read(text):
    """Returns the number of a packet and its layers. Raises ValueError if a word of the line is unknown."""
    line = Line(text)
    try:
        number, time = line.word(), line.word()
        line.frame.fields["time"] = "-" if time == "-" else f"{decimal.Decimal(time):.9f}"
        while line.words:
            read_part(line)
        return int(number), announced(line.layers)
    except (KeyError, IndexError, StopIteration) as error:
        raise ValueError(f"not read: {text}") from error
