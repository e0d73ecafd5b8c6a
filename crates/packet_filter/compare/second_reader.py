"""A second reader of filter expressions, written from the description of the language, not from the code: `parse` returns the expression of a text or
raises its error, `printed` is the text of an expression, and `matches` says whether it matches a packet.

An expression is a tuple: ("not", e), ("and", e, f), ("or", e, f), or a primitive: ("type", number), ("protocol", version,
number), ("address", layer, side, network), ("station", side, bytes), ("port", protocol, side, low, high), ("vlan",
identifier or None), ("number", operand, mask, relation, number). The empty filter is None.
"""
import ipaddress
import operator
import re

MOST_LEVELS = 64
MOST_BYTES = 65_536
MOST_NUMBER = 0xFFFF_FFFF

KEYWORDS = set(
    "ip ip6 arp tcp udp sctp icmp icmp6 igmp ah esp ether src dst host net mask port portrange proto vlan less greater len "
    "length broadcast multicast".split()
)
NOT_TAKEN = set(
    "rarp link ppp slip fddi tr wlan igrp pim vrrp carp radio atalk aarp decnet lat sca moprc mopdl iso esis es-is isis is-is "
    "l1 l2 iih lsp snp csnp psnp clnp stp ipx netbeui protochain gateway type subtype direction dir address1 address2 address3 "
    "address4 addr1 addr2 addr3 addr4 ra ta byte inbound outbound ifindex ifname on rset ruleset rnr rulenum srnr subrulenum "
    "reason action mpls pppoed pppoes geneve lane llc metac bcc oam oamf4 oamf4ec oamf4sc sc ilmic vpi vci connectmsg "
    "metaconnect fisu lssu lsu msu hfisu hlssu hlsu hmsu sio opc dpc sls hsio hopc hdpc hsls".split()
)
PORTS = {
    "ftp-data": 20, "ftp": 21, "ssh": 22, "telnet": 23, "smtp": 25, "domain": 53, "bootps": 67, "bootpc": 68, "tftp": 69,
    "http": 80, "pop3": 110, "ntp": 123, "imap": 143, "snmp": 161, "snmptrap": 162, "bgp": 179, "ldap": 389, "https": 443,
    "syslog": 514, "submission": 587, "imaps": 993, "sip": 5060, "mdns": 5353,
}
CONSTANTS = {
    "tcpflags": 13, "tcp-fin": 1, "tcp-syn": 2, "tcp-rst": 4, "tcp-push": 8, "tcp-ack": 16, "tcp-urg": 32, "tcp-ece": 64,
    "tcp-cwr": 128, "icmptype": 0, "icmp6type": 0, "icmpcode": 1, "icmp6code": 1,
}
for _names, _first in (
    ("echoreply:0 unreach:3 sourcequench:4 redirect:5 echo:8 routeradvert:9 routersolicit:10 timxceed:11 paramprob:12 "
     "tstamp:13 tstampreply:14 ireq:15 ireqreply:16 maskreq:17 maskreply:18", "icmp-"),
    ("destinationunreach:1 packettoobig:2 timeexceeded:3 parameterproblem:4 echo:128 echoreply:129 "
     "multicastlistenerquery:130 multicastlistenerreportv1:131 multicastlistenerdone:132 routersolicit:133 "
     "routeradvert:134 neighborsolicit:135 neighboradvert:136 redirect:137", "icmp6-"),
):
    CONSTANTS.update((_first + name.split(":")[0], int(name.split(":")[1])) for name in _names.split())

FIELDS = ("ether", "arp", "ip", "ip6", "tcp", "udp", "sctp", "icmp", "icmp6")
IP_NUMBERS = {"tcp": 6, "udp": 17, "sctp": 132}
ALONE = {
    "ip": ("type", 0x0800), "ip6": ("type", 0x86DD), "arp": ("type", 0x0806), "tcp": ("protocol", "", 6),
    "udp": ("protocol", "", 17), "sctp": ("protocol", "", 132), "icmp": ("protocol", "ip", 1),
    "icmp6": ("protocol", "ip6", 58), "igmp": ("protocol", "ip", 2), "ah": ("protocol", "", 51), "esp": ("protocol", "", 50),
}
BROADCAST = ("station", "dst", b"\xff" * 6)
MULTICAST = ("number", ("ether", 0, 1), 1, "!=", 0)
VALUE_KINDS = {
    "host": "NotAnAddress", "net": "NotANetwork", "station": "NotAStation", "port": "NotAPort", "portrange": "NotARange",
    "proto": "NotAProtocol", "type": "NotAnEtherType",
}


# Each kind of error, as the program prints it after the token.
DESCRIPTIONS = {
    "Character": "unexpected character", "Arithmetic": "arithmetic is not supported",
    "NotTaken": "a keyword of tcpdump that is not supported", "End": "the filter ends too early",
    "Misplaced": "not allowed here", "Unqualified": "a value without host, net, port or the like before it",
    "Unknown": "not a filter keyword", "NotAnAddress": "not an IP address (names are not looked up)",
    "NotANetwork": "not a network (such as 10.0.0.0/8 or 192.168)",
    "NotAStation": "not a MAC address (such as 02:00:00:00:00:01)",
    "NotAPort": "not a port (a number up to 65535, or a name such as http)",
    "NotARange": "not a range of ports (such as 6000-6010)", "NotAProtocol": "not a protocol number (up to 255)",
    "NotAnEtherType": "not an ether type (1536 to 65535)", "NotAVlan": "not a VLAN identifier (up to 4095)",
    "NotANumber": "not a number (up to 4294967295)", "NotASize": "not a size (1, 2 or 4)",
    "WrongFamily": "an address of the other IP version", "NotALength": "not a prefix length of the address",
    "NotAMask": "not a mask (ones, followed by zeros)", "HostBits": "the address has bits set after the prefix",
    "NetOnly": "only networks have a prefix length or mask", "Deep": "more than 64 open parentheses and not",
    "Long": "the filter has more than 65536 bytes",
}


class FilterError(Exception):
    """Kind of the error, and the offsets in bytes at which its token begins and ends."""

    def lines(self, text, reads=True):
        """Lines that packet_dump writes to standard error. `reads` is false with --explain, which reads no file."""
        kind, start, end = self.args
        if kind == "Long":
            return [f"packet_dump: {DESCRIPTIONS[kind]}"]
        data = text.encode()
        token = in_line(data[start:end])
        second = "; only one file is read" if reads and token and min(data[:start], default=33) > 32 else ""
        reason = f"packet_dump: {quoted(token)}{DESCRIPTIONS[kind]}{second}"
        return [reason, "  " + in_line(data), "  " + " " * start + "^"]


def in_line(data):
    """Bytes as a part of a line: each ASCII control character is a space."""
    return bytes(32 if byte < 32 or byte == 127 else byte for byte in data).decode()


def quoted(token):
    return f"'{token}': " if token else ""


# ---- tokens

SYMBOLS = ("&&", "||", "!=", "!", "==", "=", "<=", "<<", "<", ">=", ">>", ">", "(", ")", "[", "]", ":", "/", "&", "|", "+", "*",
           "%", "^", "-")
SAME = {"&&": "and", "||": "or", "!": "not", "==": "="}
BLANKS, RUN = re.compile(rb"[ \t\n\r]*"), re.compile(rb"[A-Za-z0-9._:-]*")


def tokens_of(text):
    """Returns the tokens of a text: kind, text, start, end. The kind of a wrong one is its error."""
    found, at = [], 0
    while True:
        at = BLANKS.match(text, at).end()
        if at == len(text):
            found.append(("End", b"", at, at))
            return found
        run = RUN.match(text, at).group()
        if run and (run[:1].isalnum() or (run[:1] == b":" and run.count(b":") >= 2)):
            word = run if run.count(b":") >= 2 else run.split(b":")[0]
            name, end = word.decode(), at + len(word)
            if name in ("and", "or", "not"):
                found.append((name, word, at, end))
            elif name in KEYWORDS:
                found.append(("keyword", b"len" if name == "length" else word, at, end))
            else:
                found.append(("NotTaken" if name in NOT_TAKEN else "word", word, at, end))
        elif text[at : at + 1] == b"\\":
            run = RUN.match(text, at + 1).group()
            end = at + 1 + len(run)
            found.append(("NotTaken" if run else "Character", text[at:end], at, end))
        else:
            symbol = next((symbol for symbol in SYMBOLS if text.startswith(symbol.encode(), at)), None)
            if symbol is None:
                end = at + 1
                while end < len(text) and 128 <= text[end] < 192:
                    end += 1
                found.append(("Character", text[at:end], at, end))
            else:
                end = at + len(symbol)
                wrong = symbol in ("<<", ">>", "+", "*", "%", "^", "-")
                found.append(("Arithmetic" if wrong else SAME.get(symbol, symbol), text[at:end], at, end))
        at = end


# ---- values


def number_of(word, most):
    if re.fullmatch(rb"0|[1-9][0-9]*", word):
        number = int(word)
    elif re.fullmatch(rb"0[xX][0-9a-fA-F]+", word):
        number = int(word[2:], 16)
    else:
        return None
    return number if number <= most else None


def address_of(word):
    """Returns an address, or None."""
    try:
        return ipaddress.ip_address(word.decode())
    except ValueError:
        return None


def network_of(word):
    """Returns an address and its bits, or None: one to three numbers are the start of an IPv4 address."""
    address = address_of(word)
    if address is not None:
        return address, address.max_prefixlen
    parts = word.split(b".")
    numbers = [number_of(part, 255) if not part.startswith((b"0x", b"0X")) else None for part in parts]
    if len(parts) > 3 or None in numbers or numbers == [0]:
        return None
    return ipaddress.IPv4Address(bytes(numbers + [0] * (4 - len(numbers)))), 8 * len(numbers)


def has_host_bits(address, bits):
    return int(address) & ((1 << (address.max_prefixlen - bits)) - 1) != 0


def is_family(layer, address):
    return layer == "" or address.version == (6 if layer == "ip6" else 4)


def constant_of(word):
    name = word.decode()
    return CONSTANTS[name] if name in CONSTANTS else number_of(word, MOST_NUMBER)


def port_of(word):
    name = word.decode()
    return PORTS[name] if name in PORTS else number_of(word, 65535)


def simple_value(head, word):
    """Returns the primitive of a word with these qualifiers, or None."""
    kind = head[0]
    if kind == "station":
        parts = word.split(b":")
        if len(parts) != 6 or not all(re.fullmatch(rb"[0-9a-fA-F]{1,2}", part) for part in parts):
            return None
        return ("station", head[1], bytes(int(part, 16) for part in parts))
    if kind == "port":
        port = port_of(word)
        return None if port is None else ("port", head[1], head[2], port, port)
    if kind == "portrange":
        parts = word.split(b"-")
        numbers = [int(part) for part in parts if re.fullmatch(rb"0|[1-9][0-9]*", part)]
        if len(numbers) != len(parts) or len(parts) > 2 or max(numbers) > 65535:
            return None
        return ("port", head[1], head[2], min(numbers), max(numbers))
    number = number_of(word, 255 if kind == "proto" else 65535)
    if number is None or (kind == "type" and number < 1536):
        return None
    return ("protocol", head[1], number) if kind == "proto" else ("type", number)


# ---- the grammar


class Parser:
    """Reads the tokens from left to right; the first token that is not allowed after those before it is the error.
    `values` has the value's word for each primitive from left to right, None for a primitive without a value."""

    def __init__(self, text):
        self.tokens, self.at, self.head, self.levels, self.values = tokens_of(text), 0, None, 0, []

    def kind(self):
        return self.tokens[self.at][0]

    def keyword(self):
        kind, word, _, _ = self.tokens[self.at]
        return word.decode() if kind == "keyword" else None

    def error(self, kind):
        own, _, start, end = self.tokens[self.at]
        if own in ("End", "NotTaken", "Character", "Arithmetic"):
            kind = own
        raise FilterError(kind, start, end)

    def word(self, kind="Misplaced"):
        if self.kind() != "word":
            self.error(kind)
        return self.tokens[self.at][1]

    def take(self, kind):
        if self.kind() == kind:
            self.at += 1
            return True
        return False

    def take_keyword(self, *names):
        found = self.keyword()
        if found in names:
            self.at += 1
            return found
        return None

    def text(self):
        if self.kind() == "End":
            return None
        expression = self.rest(self.operand(False, 0)[0], False)
        if self.kind() != "End":
            self.error("Misplaced")
        return expression

    def rest(self, expression, only):
        while self.kind() in ("and", "or"):
            operator = self.kind()
            self.at += 1
            expression = (operator, expression, self.operand(only, 0)[0])
        return expression

    def operand(self, only, closable):
        """Returns an operand, and how many of the `closable` parentheses directly before it a byte test has closed."""
        if self.kind() in ("not", "("):
            if self.levels == MOST_LEVELS:
                self.error("Deep")
            self.levels += 1
            if self.take("not"):
                operand = ("not", self.operand(only, 0)[0])
                self.levels -= 1
                return operand, 0
            self.at += 1
            outer = self.head
            operand, closed = self.operand(only, closable + 1)
            if closed:
                return operand, closed - 1
            operand = self.rest(operand, only)
            if not self.take(")"):
                self.error("Misplaced")
            self.levels -= 1
            self.head = outer
            return operand, 0
        if self.keyword() and not only:
            found, closed = self.primitive(closable)
            if found is None:
                return self.operand(True, 0)
            self.head = None
            self.values.append(None)
            return found, closed
        self.values.append(self.word())
        return self.value(), 0

    def primitive(self, closable):
        """Returns a primitive without values; or None, with the qualifiers of the values that follow in force."""
        if self.take_keyword("len"):
            return self.comparison("len", closable)
        if self.take_keyword("vlan"):
            if self.kind() != "word" or not self.word()[:1].isdigit():
                return ("vlan", None), 0
            identifier = number_of(self.word(), 4095)
            if identifier is None:
                self.error("NotAVlan")
            self.at += 1
            return ("vlan", identifier), 0
        name = self.take_keyword("less", "greater")
        if name:
            number = number_of(self.word(), MOST_NUMBER)
            if number is None:
                self.error("NotANumber")
            self.at += 1
            return ("number", "len", MOST_NUMBER, "<=" if name == "less" else ">=", number), 0
        name = self.take_keyword("broadcast", "multicast", "igmp", "ah", "esp")
        if name:
            return {"broadcast": BROADCAST, "multicast": MULTICAST, **ALONE}[name], 0
        if self.take_keyword("proto"):
            return self.qualify("proto", "")
        if self.keyword() in ("src", "dst", "host", "net", "port", "portrange"):
            return self.sided("")
        name = self.take_keyword(*FIELDS)
        if name is None:
            self.error("Misplaced")
        if self.take("["):
            return self.comparison(self.access(name), closable)
        following = self.keyword()
        if name == "ether":
            if self.take_keyword("broadcast", "multicast"):
                return (BROADCAST if following == "broadcast" else MULTICAST), 0
            if self.take_keyword("proto"):
                return self.qualify("type")
            if following in ("src", "dst", "host"):
                side = self.side() if following != "host" else "src or dst"
                self.take_keyword("host")
                return self.qualify("station", side)
            self.error("Misplaced")
        if name in ("ip", "ip6"):
            if self.take_keyword("proto"):
                return self.qualify("proto", name)
            if self.take_keyword("multicast"):
                network = ("224.0.0.0", 3) if name == "ip" else ("ff00::", 8)
                return ("address", name, "dst", (ipaddress.ip_address(network[0]), network[1])), 0
        if name in ("ip", "ip6", "arp") and following in ("src", "dst", "host", "net"):
            return self.sided(name)
        if name in IP_NUMBERS and following in ("src", "dst", "port", "portrange"):
            side = self.side() if following in ("src", "dst") else "src or dst"
            return self.ports(name, side)
        return ALONE[name], 0

    def qualify(self, *head):
        self.head = head
        return None, 0

    def ports(self, protocol, side):
        kind = self.take_keyword("port", "portrange")
        if kind is None:
            self.error("Misplaced")
        return self.qualify(kind, protocol, side)

    def sided(self, layer):
        side = self.side() if self.keyword() in ("src", "dst") else "src or dst"
        kind = self.take_keyword("host", "net")
        if kind is None and layer == "" and self.keyword() in ("port", "portrange"):
            return self.ports("", side)
        if kind is None and self.keyword():
            self.error("Misplaced")
        return self.qualify(kind or "host", layer, side)

    def side(self):
        first = self.take_keyword("src", "dst")
        operator = self.kind()
        if operator not in ("and", "or"):
            return first
        self.at += 1
        if not self.take_keyword("dst" if first == "src" else "src"):
            self.error("Misplaced")
        return f"src {operator} dst"

    def value(self):
        word = self.word()
        if self.head is None:
            self.error("Unqualified" if word[:1].isdigit() or b":" in word else "Unknown")
        kind = self.head[0]
        if kind not in ("host", "net"):
            primitive = simple_value(self.head, word)
            if primitive is None:
                self.error(VALUE_KINDS[kind])
            self.at += 1
            return primitive
        _, layer, side = self.head
        found = network_of(word) if kind == "net" else address_of(word)
        if found is None:
            self.error(VALUE_KINDS[kind])
        address, bits = found if kind == "net" else (found, found.max_prefixlen)
        if not is_family(layer, address):
            self.error("WrongFamily")
        self.at += 1
        if kind == "net":
            bits = self.prefix(address, bits)
        elif self.kind() == "/" or self.keyword() == "mask":
            self.error("NetOnly")
        return ("address", layer, side, (address, bits))

    def prefix(self, address, bits):
        if self.take("/"):
            word = self.word()
            bits = None if word[:2].lower() == b"0x" else number_of(word, address.max_prefixlen)
            if bits is None:
                self.error("NotALength")
        elif address.version == 4 and self.take_keyword("mask"):
            mask = address_of(self.word())
            ones = None if mask is None or mask.version != 4 else f"{int(mask):032b}"
            if ones is None or "01" in ones:
                self.error("NotAMask")
            bits = ones.count("1")
        else:
            return bits
        if has_host_bits(address, bits):
            self.error("HostBits")
        self.at += 1
        return bits

    # ---- byte tests

    def test_error(self):
        self.error("Arithmetic" if self.kind() in ("&", "|", "/") else "Misplaced")

    def constant(self):
        if self.kind() == "(" or self.keyword() in ("len", *FIELDS):
            self.error("Arithmetic")
        number = constant_of(self.word())
        if number is None:
            self.error("NotANumber")
        self.at += 1
        return number

    def group(self):
        if not self.take("("):
            return self.constant()
        bits = self.constant()
        while self.take("|"):
            bits |= self.constant()
        if not self.take(")"):
            self.test_error()
        return bits

    def access(self, layer):
        offset, size = self.constant(), 1
        if self.take(":"):
            size = number_of(self.word(), MOST_NUMBER)
            if size not in (1, 2, 4):
                self.error("NotASize")
            self.at += 1
        if not self.take("]"):
            self.test_error()
        return layer, offset, size

    def comparison(self, operand, closable):
        mask, closed = None, 0
        while True:
            if mask is None and self.take("&"):
                mask = self.group()
            elif closed < closable and self.take(")"):
                closed += 1
                self.levels -= 1
            else:
                break
        relation = self.kind()
        if relation not in ("=", "!=", "<", "<=", ">", ">="):
            self.test_error()
        self.at += 1
        number = self.group()
        while self.take("|"):
            number |= self.group()
        if self.kind() in ("&", "/"):
            self.test_error()
        return ("number", operand, MOST_NUMBER if mask is None else mask, relation, number), closed


def parse(text):
    """Returns the expression of a text (bytes), None if it is empty, or raises `FilterError`."""
    if len(text) > MOST_BYTES:
        raise FilterError("Long", MOST_BYTES, len(text))
    return Parser(text).text()


# ---- printing


def primitive_text(primitive):
    kind = primitive[0]
    if kind == "type":
        return f"ether proto 0x{primitive[1]:04x}"
    if kind == "protocol":
        return f"{primitive[1]} proto {primitive[2]}".lstrip()
    if kind == "address":
        _, layer, side, (address, bits) = primitive
        mapped = address.version == 6 and address.ipv4_mapped
        name = f"::ffff:{mapped}" if mapped else str(address)
        what = f"host {name}" if bits == address.max_prefixlen else f"net {name}/{bits}"
        return f"{layer} {side} {what}".lstrip()
    if kind == "station":
        return f"ether {primitive[1]} host {primitive[2].hex(':')}"
    if kind == "port":
        _, protocol, side, low, high = primitive
        what = f"port {low}" if low == high else f"portrange {low}-{high}"
        return f"{protocol} {side} {what}".lstrip()
    if kind == "vlan":
        return "vlan" if primitive[1] is None else f"vlan {primitive[1]}"
    _, operand, mask, relation, number = primitive
    what = "len" if operand == "len" else f"{operand[0]}[{operand[1]}:{operand[2]}]"
    return f"{what}{'' if mask == MOST_NUMBER else f' & {mask}'} {relation} {number}"


def printed(expression):
    """Returns the text of an expression, with all qualifiers and no redundant parentheses."""
    if expression is None:
        return ""
    if expression[0] == "not":
        return "not " + grouped(expression[1])
    if expression[0] in ("and", "or"):
        return f"{printed(expression[1])} {expression[0]} {grouped(expression[2])}"
    return primitive_text(expression)


def grouped(operand):
    return f"({printed(operand)})" if operand[0] in ("and", "or") else printed(operand)


def canonical(expression):
    """Returns the canonical form of an expression: with all qualifiers, and each operator and not in parentheses."""
    if expression is None:
        return ""
    if expression[0] == "not":
        return f"(not {canonical(expression[1])})"
    if expression[0] in ("and", "or"):
        return f"({canonical(expression[1])} {expression[0]} {canonical(expression[2])})"
    return primitive_text(expression)


# ---- packets

VLAN_TYPES, MACSEC_TYPE = (0x8100, 0x88A8, 0x9100), 0x88E5
SLL_HARDWARE = (1, 770, 772, 778, 803, 824)


def word_at(data, at):
    return int.from_bytes(data[at : at + 2], "big")


class Packet:
    """Fields of a packet that filters read, by the rules of lax slicing. `entry` is the first header: "ethernet", "sll" or "ip"."""

    def __init__(self, data, wire_len, entry="ethernet"):
        self.data, self.wire_len, self.entry = data, wire_len, entry
        self.types, self.tags, self.after_tags, self.type_after = [], [], 0, None
        self.version, self.numbers, self.addresses, self.transport, self.stations = None, [], None, None, None
        if entry == "ip":
            self.network(data[0] >> 4 if data else 0, data)
            self.type_after = {4: 0x0800, 6: 0x86DD}.get(self.version)
            self.types = [self.type_after] if self.type_after else []
        else:
            self.link()

    def link_header(self):
        """Reads the link header, and returns its ether type; None if it has none or is invalid."""
        data = self.data
        if self.entry == "ethernet":
            if len(data) < 14:
                return None
            self.stations, self.after_tags = (data[6:12], data[:6]), 14
            return word_at(data, 12)
        if len(data) < 16 or word_at(data, 0) > 7 or word_at(data, 2) not in SLL_HARDWARE:
            return None
        self.after_tags, ether_type = 16, word_at(data, 14)
        return ether_type if word_at(data, 2) in (1, 772) and ether_type >= 1536 else None

    def link(self):
        data, ether_type = self.data, self.link_header()
        end = len(data)
        while ether_type is not None:
            self.types.append(ether_type)
            self.type_after = ether_type
            rest = data[self.after_tags : end]
            if len(self.tags) == 3:
                break
            if ether_type in VLAN_TYPES and len(rest) >= 4:
                self.tags.append(word_at(rest, 0) & 0xFFF)
                self.after_tags += 4
                ether_type = word_at(rest, 2)
            elif ether_type == MACSEC_TYPE:
                tag = self.macsec(rest)
                if tag is None:
                    break
                header_len, payload_len, ether_type = tag
                self.tags.append(None)
                self.after_tags += header_len
                end = self.after_tags + payload_len
                self.type_after = ether_type
            else:
                break
        self.link_payload(data[self.after_tags : end])

    def link_payload(self, data):
        if self.type_after == 0x0806:
            self.arp(data)
        elif self.type_after in (0x0800, 0x86DD):
            self.network(4 if self.type_after == 0x0800 else 6, data)

    @staticmethod
    def macsec(data):
        """Returns the lengths of a MACsec tag and of its payload, and the ether type of an unmodified one."""
        if len(data) < 6 or data[0] & 0x80:
            return None
        is_open, short_len, sci_len = not data[0] & 0x0C, data[1] & 0x3F, 8 if data[0] & 0x20 else 0
        header_len = 6 + sci_len + (2 if is_open else 0)
        if (is_open and short_len == 1) or len(data) < header_len:
            return None
        stated = 6 + sci_len + short_len
        whole = stated if short_len and stated <= len(data) else len(data)
        return header_len, whole - header_len, word_at(data, 6 + sci_len) if is_open else None

    def arp(self, data):
        if len(data) >= 8 and len(data) >= 8 + 2 * (data[4] + data[5]):
            self.version = "arp"
            if word_at(data, 2) == 0x0800 and data[5] == 4:
                sender = 8 + data[4]
                target = sender + 4 + data[4]
                self.addresses = (data[sender : sender + 4], data[target : target + 4])

    def network(self, version, data):
        if not data or data[0] >> 4 != version:
            return
        if version == 4:
            header_len = 4 * (data[0] & 15)
            if len(data) < 20 or not 20 <= header_len <= len(data):
                return
            total_len = word_at(data, 2)
            payload = data[header_len : total_len if header_len <= total_len else len(data)]
            self.addresses, later, number = (data[12:16], data[16:20]), word_at(data, 6) & 0x1FFF != 0, data[9]
        elif version == 6 and len(data) >= 40:
            payload_len = word_at(data, 4)
            payload = data[40 : 40 + payload_len if payload_len else len(data)]
            self.addresses, later, number = (data[8:24], data[24:40]), False, data[6]
        else:
            return
        self.version, self.numbers = version, [number]
        self.extensions(payload, later)

    def extensions(self, payload, later):
        """Reads the extension headers that the payload of IP begins with. `later` says whether it is of a later fragment."""
        number, is_first = self.numbers[0], True
        while True:
            header_len = extension_len(self.version, number, payload, is_first)
            if header_len is None:
                break
            if number == 44 and word_at(payload, 2) & 0xFFF8:
                later = True
            number, payload, is_first = payload[0], payload[header_len:], False
            self.numbers.append(number)
        if not later:
            self.transport = (number, payload)

    def reassembled(self, number, payload):
        """Takes a reassembled payload for that of the packet."""
        self.transport = (number, payload)
        return self

    def bytes_of(self, layer):
        if layer == "ether":
            return None if self.stations is None else self.data
        if layer in ("ip", "ip6", "arp"):
            return self.data[self.after_tags :] if self.type_after == ALONE[layer][1] else None
        number = {"icmp": 1, "icmp6": 58}.get(layer) or IP_NUMBERS[layer]
        if self.transport is None or self.transport[0] != number:
            return None
        if self.version != {"icmp": 4, "icmp6": 6}.get(layer, self.version):
            return None
        return self.transport[1]


def extension_len(version, number, data, is_first):
    """Returns the length of the extension header that a payload begins with; None if it begins with none, or if that is
    truncated or invalid."""
    if number == 51:
        if len(data) < 12 or data[1] == 0:
            return None
        header_len = 4 * data[1] + 8
    elif version == 4 or number not in (0, 43, 44, 60) or (number == 0 and not is_first) or len(data) < 8:
        return None
    else:
        header_len = 8 if number == 44 else 8 * data[1] + 8
    if len(data) < header_len or (version == 4 and not is_first):
        return None
    return header_len


# ---- meaning

# IP versions of a layer, with those of addresses and of protocols.
ADDRESS_VERSIONS = {"": (4, 6, "arp"), "ip": (4,), "ip6": (6,), "arp": ("arp",)}
PROTOCOL_VERSIONS = {"": (4, 6), "ip": (4,), "ip6": (6,)}
RELATIONS = {"=": operator.eq, "!=": operator.ne, "<": operator.lt, "<=": operator.le, ">": operator.gt, ">=": operator.ge}


def at_side(side, source, destination):
    return {"src": source, "dst": destination, "src or dst": source or destination,
            "src and dst": source and destination}[side]


def is_within(address, network):
    first, bits = network
    if len(address) * 8 != first.max_prefixlen:
        return False
    return (int.from_bytes(address, "big") ^ int(first)) >> (first.max_prefixlen - bits) == 0


def matches_primitive(primitive, packet):
    kind, *parts = primitive
    if kind == "type":
        return parts[0] in packet.types
    if kind == "protocol":
        return packet.version in PROTOCOL_VERSIONS[parts[0]] and parts[1] in packet.numbers
    if kind == "address":
        layer, side, network = parts
        if packet.addresses is None or packet.version not in ADDRESS_VERSIONS[layer]:
            return False
        return at_side(side, *(is_within(address, network) for address in packet.addresses))
    if kind == "station":
        return packet.stations is not None and at_side(parts[0], *(station == parts[1] for station in packet.stations))
    if kind == "port":
        protocol, side, low, high = parts
        if packet.transport is None or packet.transport[0] not in ([IP_NUMBERS[protocol]] if protocol else (6, 17, 132)):
            return False
        data = packet.transport[1]
        return at_side(side, *(len(data) >= at + 2 and low <= word_at(data, at) <= high for at in (0, 2)))
    if kind == "vlan":
        return any(tag is not None and parts[0] in (None, tag) for tag in packet.tags)
    operand, mask, relation, number = parts
    if operand == "len":
        return RELATIONS[relation](packet.wire_len & mask, number)
    layer, offset, size = operand
    data = packet.bytes_of(layer)
    if data is None or len(data) < offset + size:
        return False
    return RELATIONS[relation](int.from_bytes(data[offset : offset + size], "big") & mask, number)


def matches(expression, packet, answer_of=matches_primitive):
    """Whether an expression matches a packet; the empty filter (None) matches every packet."""
    if expression is None:
        return True
    kind = expression[0]
    if kind == "or":
        return matches(expression[1], packet, answer_of) or matches(expression[2], packet, answer_of)
    if kind == "and":
        return matches(expression[1], packet, answer_of) and matches(expression[2], packet, answer_of)
    if kind == "not":
        return not matches(expression[1], packet, answer_of)
    return answer_of(expression, packet)
