"""Answers of tcpdump 4.99 (libpcap 1.10), and the habits that explain why they are not the meaning of a filter.

`emulated` is the answer of `tcpdump -O`, by the offsets that libpcap reads. `meaning_with` is the meaning by the second
reader with some habits of libpcap, named by their letters in the table of ../README.md. `fewest_habits` finds the
smallest set of habits that explains tcpdump's answer.
"""
import contextlib
import functools
import itertools
import socket

import second_reader
from second_reader import ALONE, IP_NUMBERS, MOST_NUMBER, PORTS, RELATIONS, VLAN_TYPES, word_at

HABITS = "TCBRSLPNE"
IPV4, IPV6, ARP, RARP = 0x0800, 0x86DD, 0x0806, 0x8035
EXTENSIONS = (0, 43, 44, 51, 60)
LINK_LENGTHS = {"ethernet": 14, "sll": 16, "ip": 0}
# Offsets of the source and destination address in the network layer.
ADDRESSES = {IPV4: (12, 16), IPV6: (8, 24), ARP: (14, 24), RARP: (14, 24)}
# The tests of libpcap for `ip multicast` and `ip6 multicast`.
MULTICAST = {4: ("number", ("ip", 16, 1), MOST_NUMBER, ">=", 224), 6: ("number", ("ip6", 24, 1), MOST_NUMBER, "=", 255)}


class CaptureEnds(Exception):
    """libpcap reads bytes that were not captured, and rejects the packet whatever the rest of the expression is."""


# ---- expressions


def placed(text):
    """Parses a text (bytes). Returns its expression with each primitive as ("primitive", the primitive, the word of its
    value or None, the number of `vlan` to its left)."""
    parser = second_reader.Parser(text)
    expression = parser.text()
    values, vlans = iter(parser.values), 0

    def place(expression):
        nonlocal vlans
        if expression[0] in ("not", "and", "or"):
            return (expression[0], *(place(operand) for operand in expression[1:]))
        primitive = ("primitive", expression, next(values), vlans)
        vlans += expression[0] == "vlan"
        return primitive

    return expression and place(expression)


def answer(expression, packet, answer_of):
    """Returns the answer of a placed expression for a packet, by the answers of its primitives that decide."""
    try:
        return second_reader.matches(expression, packet, answer_of)
    except CaptureEnds:
        return False


@functools.cache
def listed_protocol(name):
    """Returns the protocol of a port's name if the services file lists it for TCP or UDP alone, and else ""."""
    found = set()
    for protocol in ("tcp", "udp"):
        with contextlib.suppress(OSError):
            socket.getservbyname(name, protocol)
            found.add(protocol)
    return found.pop() if len(found) == 1 else ""


def rewritten(primitive, value, habits):
    """Returns a primitive as libpcap understands it: a port's name (N), and `ip multicast`, which has no value (S)."""
    if primitive[0] == "port" and "N" in habits and not primitive[1] and value.decode() in PORTS:
        return ("port", listed_protocol(value.decode()), *primitive[2:])
    if primitive[0] == "address" and "S" in habits and value is None:
        return MULTICAST[primitive[3][0].version]
    return primitive


# ---- the answer of tcpdump


@functools.cache
def words_of(network):
    """Returns offset, mask and value of each four bytes of a network's address."""
    address, bits = network
    mask = (1 << bits) - 1 << address.max_prefixlen - bits
    shifts = range(address.max_prefixlen - 32, -1, -32)
    return [(4 * place, mask >> shift & MOST_NUMBER, int(address) >> shift & MOST_NUMBER)
            for place, shift in enumerate(shifts)]


def at_side(side, is_within, source, destination):
    """Returns whether the field at the offset of a side is within a range. Reads the second only if it decides."""
    offsets = {"src": (source,), "dst": (destination,)}.get(side, (source, destination))
    return (all if side == "src and dst" else any)(map(is_within, offsets))


class Offsets:
    """A packet as libpcap reads it: the network layer starts after the link header and four bytes for each `vlan` to
    the left in the text. A method for each kind of primitive returns whether it matches."""

    def __init__(self, packet, vlans):
        self.packet, self.network_at = packet, LINK_LENGTHS[packet.entry] + 4 * vlans

    def read(self, at, size):
        if at + size > len(self.packet.data):
            raise CaptureEnds
        return int.from_bytes(self.packet.data[at : at + size], "big")

    def field(self, at, size=1):
        return self.read(self.network_at + at, size)

    def type(self, ether_type):
        if self.packet.entry == "ip":
            return ether_type in (IPV4, IPV6) and self.read(0, 1) >> 4 == (4 if ether_type == IPV4 else 6)
        return self.field(-2, 2) == ether_type

    def protocol(self, version, number):
        if version != "ip6" and self.type(IPV4) and self.field(9) == number:
            return True
        return version != "ip" and self.type(IPV6) and (
            self.field(6) == number or (self.field(6) == 44 and self.field(40) == number))

    def address(self, layer, side, network):
        def is_within(at):
            return all(self.field(at + word, 4) & mask == value for word, mask, value in words_of(network))

        types = (IPV6,) if network[0].version == 6 else {"ip": (IPV4,), "arp": (ARP,), "": (IPV4, ARP, RARP)}[layer]
        return any(self.type(kind) and at_side(side, is_within, *ADDRESSES[kind]) for kind in types)

    def station(self, side, station):
        return at_side(side, lambda at: self.read(at, 6) == int.from_bytes(station, "big"), 6, 0)

    def port(self, protocol, side, low, high):
        numbers = [IP_NUMBERS[protocol]] if protocol else IP_NUMBERS.values()
        at = 40 if self.type(IPV6) and self.field(6) in numbers else self.payload_of_ipv4(numbers)
        return at is not None and at_side(side, lambda at: low <= self.field(at, 2) <= high, at, at + 2)

    def payload_of_ipv4(self, numbers):
        """Returns the offset of the payload of IPv4 with one of the protocols, if it is no later fragment."""
        if self.type(IPV4) and self.field(9) in numbers and not self.field(6, 2) & 0x1FFF:
            return 4 * (self.field(0) & 15)
        return None

    def vlan(self, identifier):
        return self.field(-2, 2) in VLAN_TYPES and identifier in (None, self.field(0, 2) & 0xFFF)

    def number(self, operand, mask, relation, number):
        value = self.packet.wire_len if operand == "len" else self.value_of(*operand)
        return value is not None and RELATIONS[relation](value & mask, number)

    def value_of(self, layer, offset, size):
        """Returns the number in bytes of a layer, or None if the packet has another layer."""
        if layer == "ether":
            return self.read(offset, size)
        if layer in ("ip", "ip6", "arp"):
            at = 0 if self.type(ALONE[layer][1]) else None
        elif layer == "icmp6":
            at = 40 if self.type(IPV6) and self.field(6) == 58 else None
        else:
            at = self.payload_of_ipv4([ALONE[layer][2]])
        return None if at is None else self.field(at + offset, size)


def emulated_primitive(placed_primitive, packet):
    _, primitive, value, vlans = placed_primitive
    kind, *parts = rewritten(primitive, value, HABITS)
    return getattr(Offsets(packet, vlans), kind)(*parts)


def emulated(expression, packet):
    """Returns the answer of `tcpdump -O` for a placed expression."""
    return answer(expression, packet, emulated_primitive)


# ---- the meaning with habits


class HabitPacket(second_reader.Packet):
    """A packet whose layers are read with some habits of libpcap, for a primitive with `vlans` `vlan` to its left."""

    def __init__(self, packet, habits, vlans):
        self.habits, self.vlans = habits, vlans
        super().__init__(packet.data, packet.wire_len, packet.entry)

    def link_header(self):
        """Reads the link header, also if it is truncated or invalid (S)."""
        ether_type = super().link_header()
        if "S" in self.habits and self.entry == "ethernet" and len(self.data) < 14:
            self.stations = (self.data[6:12], self.data[:6])
        if "S" in self.habits and self.entry == "sll" and ether_type is None and len(self.data) >= 16:
            self.after_tags, ether_type = 16, word_at(self.data, 14)
        return ether_type

    def link(self):
        """Reads one ether type, that of the link header or of the tag to which `vlan` moves it (T)."""
        if "T" not in self.habits:
            super().link()
            return
        ether_type = self.link_header()
        self.after_tags += 4 * self.vlans
        if ether_type is not None and len(self.data) >= self.after_tags:
            self.type_after, payload = word_at(self.data, self.after_tags - 2), self.data[self.after_tags :]
            self.types = [self.type_after]
            if self.type_after in VLAN_TYPES and (len(payload) >= 4 or "S" in self.habits):
                self.tags = [word_at(payload, 0) & 0xFFF]
            self.link_payload(payload)

    def link_payload(self, data):
        super().link_payload(data)
        if self.type_after == RARP and "P" in self.habits:
            self.arp(data)

    def arp(self, data):
        """Reads ARP, also if it is truncated (S), with its addresses at fixed offsets (P)."""
        super().arp(data)
        if self.version is None and "S" in self.habits:
            self.version = "arp"
            if word_at(data, 2) == IPV4 and data[5:6] == b"\4":
                self.addresses = tuple(data[at : at + 4] for at in (8 + data[4], 12 + 2 * data[4]))
        if self.version == "arp" and "P" in self.habits and data[2:6] != b"\x08\0\6\4":
            self.addresses = (data[14:18], data[24:28])

    def network(self, version, data):
        """Reads an IP header, also if it is truncated or invalid (S), and its payload without the length limit (L)."""
        super().network(version, data)
        is_valid, kept = self.version is not None, self.addresses
        if not is_valid and ("S" not in self.habits or version not in (4, 6) or not data):
            return
        if version == 4:
            header_len, length, later = 4 * (data[0] & 15), word_at(data, 2), word_at(data, 6) & 0x1FFF != 0
            number, self.addresses = data[9:10], (data[12:16], data[16:20])
            end = length if header_len <= length else len(data)
        else:
            header_len, length, later = 40, word_at(data, 4), False
            number, addresses = data[6:7], (data[8:24], data[24:40])
            self.addresses = tuple(address if len(address) == 16 else b"" for address in addresses)
            end = 40 + length if length else len(data)
        if is_valid:
            self.addresses = kept
            if not ("C" in self.habits and number[0] in EXTENSIONS or "L" in self.habits and end < len(data)):
                return
        self.version, self.numbers, self.transport = version, list(number), None
        if number:
            self.extensions(data[header_len : len(data) if "L" in self.habits else end], later)

    def extensions(self, payload, later):
        """Reads no extension header but the number in a fragment header (C)."""
        if "C" not in self.habits or self.numbers[0] not in EXTENSIONS:
            super().extensions(payload, later)
            return
        if not later:
            self.transport = (self.numbers[0], payload)
        if self.version == 6 and self.numbers[0] == 44:
            self.numbers += payload[:1]

    def bytes_of(self, layer):
        if layer == "ether" and ("S" if self.entry == "ethernet" else "E") in self.habits:
            return self.data
        if layer in IP_NUMBERS and self.version == 6 and "B" in self.habits:
            return None
        return super().bytes_of(layer)


packet_with = functools.cache(HabitPacket)


def meaning_with(habits, expression, packet):
    """Returns whether a placed expression matches a packet if some habits of libpcap are followed."""
    def answer_of(placed_primitive, packet):
        _, primitive, value, vlans = placed_primitive
        if "R" in habits:
            emulated_primitive(placed_primitive, packet)
        read = packet_with(packet, habits.replace("R", "").replace("N", ""), vlans if "T" in habits else 0)
        if primitive[:2] == ("address", "arp") and read.type_after == RARP:
            return False  # `arp host` is not of RARP, but `host` is (P)
        return second_reader.matches_primitive(rewritten(primitive, value, habits), read)

    return answer(expression, packet, answer_of)


def fewest_habits(expression, packet, wanted):
    """Returns the smallest set of habits that explains the wanted answer, of several sets the first by the order of the
    table; None if no set does."""
    for size in range(len(HABITS) + 1):
        for habits in map("".join, itertools.combinations(HABITS, size)):
            if meaning_with(habits, expression, packet) == wanted:
                return habits
    return None
