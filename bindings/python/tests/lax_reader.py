"""A second lax parser of packets that are truncated, or whose length fields do not match: written independently of the
library, from the header diagrams of the standards and the rules of lax slicing. `read` returns the numbers of
`slice_lax`."""
from etherparse_c import Layer, LenSource, RefusalKind

VLAN_TYPES, MACSEC_TYPE = (0x8100, 0x88a8, 0x9100), 0x88e5
SLL_HARDWARE = (1, 770, 772, 778, 803, 824)
HOP_BY_HOP, ROUTING, FRAGMENT, AUTHENTICATION, DESTINATION = 0, 43, 44, 51, 60


class Stop(Exception):
    """Error of an invalid layer: kind, layer, length source, number, needed and available bytes, offset, as in C."""


def word(data, at):
    return int.from_bytes(data[at : at + 2], "big")


def short(layer, needed, data, at, source=LenSource.SLICE):
    raise Stop(RefusalKind.LEN, layer, source, 0, needed, len(data), at)


def wrong(kind, number=0):
    raise Stop(kind, 0, 0, number, 0, 0, 0)


def needs(layer, needed, data, at, source=LenSource.SLICE):
    if len(data) < needed:
        short(layer, needed, data, at, source)


def cut(data, header_len, least, stated, field, outer):
    """Returns the payload of a layer with a length field: its bytes, their limit, and whether some are missing."""
    if least <= stated <= len(data):
        return data[header_len:stated], field, False
    return data[header_len:], LenSource.SLICE, outer or stated > len(data)


class Description:
    """Description so far; offset of the next layer, its bytes, their limit, and whether some are missing."""

    def __init__(self, data):
        self.link, self.tags, self.net, self.transport = (0, 0), [], (0, 0), (0, 0)
        self.ip, self.ports, self.refusal = (0,) * 7, (0, 0), (0,) * 7
        self.at, self.data, self.end, self.incomplete = 0, data, LenSource.SLICE, False

    def advance(self, header_len, data):
        self.at, self.data = self.at + header_len, data

    def numbers(self):
        at, placed = 0, []
        for kind, header_len in (self.link, *[(kind, header_len) for kind, _, header_len in self.tags], self.net,
                                 self.transport):
            placed.append((kind, at, header_len))
            at += header_len
        assert at == self.at
        ids = [vlan_id for _, vlan_id, _ in self.tags]
        return (placed, ids, self.ip, self.ports, (self.end, self.incomplete, at, len(self.data)), self.refusal)


# ---- link layers


def ethernet(packet):
    needs(Layer.ETHERNET2_HEADER, 14, packet.data, 0)
    ether_type = word(packet.data, 12)
    packet.link = (1, 14)
    packet.advance(14, packet.data[14:])
    return ether_type


def linux_sll(packet):
    data = packet.data
    needs(Layer.LINUX_SLL_HEADER, 16, data, 0)
    if word(data, 0) > 7:
        wrong(RefusalKind.SLL_PACKET_TYPE, word(data, 0))
    if word(data, 2) not in SLL_HARDWARE:
        wrong(RefusalKind.SLL_ARP_HARDWARE, word(data, 2))
    packet.link = (2, 16)
    packet.advance(16, data[16:])
    return word(data, 14) if word(data, 2) in (1, 772) else None


def tag(packet, ether_type):
    """Parses one link extension and returns the ether type of its payload."""
    data = packet.data
    if ether_type in VLAN_TYPES:
        needs(Layer.VLAN_HEADER, 4, data, packet.at)
        packet.tags.append((1, word(data, 0) & 0xfff, 4))
        packet.advance(4, data[4:])
        return word(data, 2)
    needs(Layer.MACSEC_HEADER, 6, data, packet.at)
    if data[0] & 0x80:
        wrong(RefusalKind.MACSEC_VERSION)
    is_open, short_len = data[0] & 0x0c == 0, data[1] & 0x3f
    if is_open and short_len == 1:
        wrong(RefusalKind.MACSEC_SHORT_LEN)
    proper = 14 if data[0] & 0x20 else 6
    header_len = proper + (2 if is_open else 0)
    needs(Layer.MACSEC_HEADER, header_len, data, packet.at)
    stated = proper + short_len if short_len else 0
    payload, end, packet.incomplete = cut(data, header_len, header_len, stated, LenSource.MACSEC, packet.incomplete)
    packet.end = end or packet.end
    packet.tags.append((2, 0, header_len))
    packet.advance(header_len, payload)
    return word(data, proper) if is_open else None


# ---- network layers


def arp(packet):
    data = packet.data
    needs(Layer.ARP, 8, data, packet.at)
    whole = 8 + 2 * (data[4] + data[5])
    needs(Layer.ARP, whole, data, packet.at, LenSource.ARP)
    packet.net, packet.end, packet.incomplete = (1, whole), LenSource.ARP, False
    packet.advance(whole, b"")


def authentication(data, at, end, zero):
    needs(Layer.IP_AUTH_HEADER, 12, data, at, end)
    if data[1] == 0:
        wrong(zero)
    needs(Layer.IP_AUTH_HEADER, 4 * data[1] + 8, data, at, end)
    return 4 * data[1] + 8


def extension(number, data, at, end, is_first):
    """Returns the length of one IPv6 extension header."""
    if number == HOP_BY_HOP and not is_first:
        wrong(RefusalKind.IPV6_HOP_BY_HOP)
    if number == AUTHENTICATION:
        return authentication(data, at, end, RefusalKind.IPV6_AUTH)
    if number == FRAGMENT:
        needs(Layer.IPV6_FRAG_HEADER, 8, data, at, end)
        return 8
    needs(Layer.IPV6_EXT_HEADER, 8, data, at, end)
    needs(Layer.IPV6_EXT_HEADER, 8 * data[1] + 8, data, at, end)
    return 8 * data[1] + 8


def ipv4(packet, is_entry=False):
    data = packet.data
    needs(Layer.IPV4_HEADER, 20, data, packet.at)
    if data[0] >> 4 != 4:
        wrong(RefusalKind.IPV4_VERSION, data[0] >> 4)
    header_len = data[0] % 16 * 4
    if header_len < 20:
        wrong(RefusalKind.IP_IHL if is_entry else RefusalKind.IPV4_IHL, data[0] % 16)
    needs(Layer.IPV4_HEADER, header_len, data, packet.at)
    total_len = word(data, 2)
    payload, end, packet.incomplete = cut(data, header_len, header_len, total_len, LenSource.IPV4, packet.incomplete)
    packet.end = end or packet.end
    more, offset, number = word(data, 6) >> 13 & 1, word(data, 6) % 8192 * 8, data[9]
    begin, stop = packet.at + header_len, None
    if number == AUTHENTICATION:
        try:
            length = authentication(payload, begin, end, RefusalKind.IPV4_AUTH)
            number, payload, begin = payload[0], payload[length:], begin + length
        except Stop as refused:
            stop = refused
    fragmented = bool(more or offset)
    packet.net, packet.ip = (4, begin - packet.at), (4, number, fragmented, more, offset, word(data, 4), header_len)
    packet.advance(begin - packet.at, payload)
    if stop:
        raise stop
    if not fragmented:
        transport(packet, number, end)


def ipv6(packet):
    data = packet.data
    needs(Layer.IPV6_HEADER, 40, data, packet.at)
    if data[0] >> 4 != 6:
        wrong(RefusalKind.IPV6_VERSION, data[0] >> 4)
    length, number = word(data, 4), data[6]
    payload, end, packet.incomplete = cut(data, 40, 41, 40 + length, LenSource.IPV6, packet.incomplete)
    if length == 0 and not payload:
        end = LenSource.IPV6
    packet.end = end or packet.end
    begin, stop, fragmented, first_fragment, is_first = packet.at + 40, None, False, None, True
    while number in (HOP_BY_HOP, ROUTING, FRAGMENT, AUTHENTICATION, DESTINATION):
        try:
            length = extension(number, payload, begin, end, is_first)
        except Stop as refused:
            stop = refused
            break
        if number == FRAGMENT:
            fields = (payload[3] & 1, word(payload, 2) & 0xfff8, int.from_bytes(payload[4:8], "big"))
            first_fragment = first_fragment or fields
            fragmented = fragmented or fields[:2] != (0, 0)
        number, payload, begin, is_first = payload[0], payload[length:], begin + length, False
    packet.net, packet.ip = (6, begin - packet.at), (6, number, fragmented, *(first_fragment or (0, 0, 0)), 40)
    packet.advance(begin - packet.at, payload)
    if stop:
        raise stop
    if not fragmented:
        transport(packet, number, end)


# ---- transport layers


def transport(packet, number, end):
    data, at = packet.data, packet.at
    if number == 17:
        needs(Layer.UDP_HEADER, 8, data, at, end)
        payload, field, packet.incomplete = cut(data, 8, 8, word(data, 4), LenSource.UDP, packet.incomplete)
        packet.end = field or packet.end
        packet.transport, packet.ports = (17, 8), (word(data, 0), word(data, 2))
        packet.advance(8, payload)
    elif number == 6:
        needs(Layer.TCP_HEADER, 20, data, at, end)
        words = data[12] >> 4
        if words < 5:
            wrong(RefusalKind.TCP_DATA_OFFSET, words)
        needs(Layer.TCP_HEADER, 4 * words, data, at, end)
        packet.transport, packet.ports = (6, 4 * words), (word(data, 0), word(data, 2))
        packet.advance(4 * words, data[4 * words :])
    elif number == 1:
        needs(Layer.ICMPV4, 8, data, at, end)
        times = {13: Layer.ICMPV4_TIMESTAMP, 14: Layer.ICMPV4_TIMESTAMP_REPLY}.get(data[0]) if data[1] == 0 else None
        if times and len(data) != 20:
            short(times, 20, data, at, end)
        packet.transport = (1, 20 if times else 8)
        packet.advance(packet.transport[1], data[packet.transport[1] :])
    elif number == 58:
        needs(Layer.ICMPV6, 8, data, at, end)
        packet.transport = (58, 8)
        packet.advance(8, data[8:])


# ---- all layers


def after_link(packet, ether_type):
    while len(packet.tags) < 3 and (ether_type in VLAN_TYPES or ether_type == MACSEC_TYPE):
        ether_type = tag(packet, ether_type)
    layer = {0x0800: ipv4, 0x86dd: ipv6, 0x0806: arp}.get(ether_type)
    if layer:
        layer(packet)


def ip_header(data):
    """Rejects bytes that do not start with an IP header."""
    needs(Layer.IP_HEADER, 1, data, 0)
    if data[0] >> 4 not in (4, 6):
        wrong(RefusalKind.IP_VERSION, data[0] >> 4)


def read(data, entry, ether_type=0):
    """Returns the numbers of the valid layers and the error where parsing stops, or the error of the first header."""
    packet = Description(data)
    try:
        if entry == 3:
            ip_header(data)
        elif entry != 2:
            ether_type = (ethernet, linux_sll)[entry](packet)
    except Stop as refused:
        return None, tuple(refused.args)
    try:
        if entry != 3:
            after_link(packet, ether_type)
        elif data[0] >> 4 == 4:
            ipv4(packet, is_entry=True)
        else:
            ipv6(packet)
    except Stop as refused:
        packet.refusal = tuple(refused.args)
    if entry == 3 and packet.net == (0, 0):
        return None, packet.refusal
    return packet.numbers(), packet.refusal
