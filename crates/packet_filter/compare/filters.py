#!/usr/bin/env python3
"""Compares packet_dump's filter expressions with the second reader, and with tcpdump: filters.py PROGRAM

Random expressions by a seed, a third of them with a mistake, are run over captures of 300 packets: plain ones, with
VLAN and MACsec tags, fragments, extension headers, truncated and malformed ones, Linux cooked captures, raw IP, and
datagrams in fragments with `--reassemble`. The packets and reassembled payloads that the program prints are those that
the second reader matches; the error of a text and its place are the second reader's too. Each difference is printed,
and the status is then 1.

--count N       number of expressions (10,000)
--seed N        seed of expressions and captures (1)
--tcpdump       also compares the packets with those of `tcpdump -O`, which has to be installed. Prints how many packets
                differ by each smallest set of habits of the table in ../README.md that explains them. A packet that no
                set explains, or for which tcpdump_habits.py emulates another answer than tcpdump's, is a difference.
                (With its optimizer tcpdump also matches every IPv4 packet of `ip and ether[40] & 0xffffffff != 0`.)
"""
import argparse
import collections
import functools
import os
import random
import struct
import subprocess
import sys
import tempfile
import typing

sys.path.insert(0, os.path.dirname(os.path.abspath(__file__)))
import second_reader  # noqa: E402
import tcpdump_habits  # noqa: E402

PACKETS = 300
HOSTS = ("10.0.0.1", "10.0.0.2", "192.168.1.7", "224.0.0.251", "2001:db8::1", "2001:db8::2", "fe80::1", "ff02::fb")
NETWORKS = ("10.0.0.0/8", "10", "192.168.1", "192.168.0.0 mask 255.255.0.0", "2001:db8::/32", "0.0.0.0/0", "ff00::/8")
PORTS = ("22", "53", "80", "443", "domain", "http", "0x50", "5060")
STATIONS = ("02:00:00:00:00:01", "2:0:0:0:0:2", "ff:ff:ff:ff:ff:ff")
NUMBERS = ("0", "1", "2", "6", "17", "18", "60", "64", "100", "0x0f", "2048", "0xffffffff")
FIELDS = ("ether[{}]", "ip[{}]", "ip6[{}]", "arp[{}]", "tcp[{}]", "udp[{}]", "sctp[{}]", "icmp[{}]", "icmp6[{}]")
OFFSETS = ("0", "6", "9", "12:2", "13", "tcpflags", "2:2", "16:4", "40", "0:1")
MISTAKES = ("and", ")", "(", "port", "host", "10.0.0.1", "80", "tpc", "/8", "mask", "|", "&", "+", "[", "gateway",
            "src", "70000", "1.2.3.400", "@", "vlan", "4096", "less", "::", "not", "ether", "proto", "256")
# Values near a limit, on either side of it, and others that are invalid.
LIMITS = ("port 65535", "port 65536", "port sip-tls", "portrange 1-65536", "proto 255", "proto 256", "ether proto 1535",
          "ether proto 1536", "vlan 4095", "vlan 4096", "less 4294967295", "less 4294967296", "net 255", "net 256",
          "net 0", "ether host 1:2:3:4:5", "ether host 1:2:3:4:5:6", "src 10.0.0.1/32", "host 10.0.0.256", "10.0.0.1",
          "tpc", "\u00e9")
PREFIXES = ("/8", "/16", "/24", "/32", "/33", "/64", "/128", "/129", "/08", "/0x8", " mask 255.0.0.0",
            " mask 255.255.0.0", " mask 255.0.255.0", " mask 0.0.0.255", " mask 8", " mask ::")
SIZES = ("0", "1", "2", "3", "4", "8", "0x2", "02", "tcpflags")


# ---- expressions


class Expressions:
    """A source of random expressions."""

    def __init__(self, seed):
        self.random = random.Random(seed)

    def one_of(self, *texts):
        return self.random.choice(texts)

    def side(self):
        return self.one_of("", "", "src ", "dst ", "src or dst ", "dst and src ")

    def values(self, value):
        """One value, or several with the same qualifiers: from four hosts on the library searches a set."""
        kind = self.random.randrange(8)
        if kind == 0:
            return f"({value()} or {value()})"
        if kind == 1:
            return f"{value()} {self.one_of('or', 'and')} not {value()}"
        if kind == 2:
            return " or ".join(value() for _ in range(self.random.randrange(3, 9)))
        return value()

    def address(self, layer, addresses):
        """Returns an address, mostly of the layer's IP version."""
        if layer and self.random.randrange(8):
            addresses = [text for text in addresses if (":" in text) == (layer == "ip6 ")]
        return self.one_of(*addresses)

    def primitive(self):
        kind = self.random.randrange(12)
        if kind == 0:
            return self.one_of("ip", "ip6", "arp", "tcp", "udp", "sctp", "icmp", "icmp6", "igmp", "ah", "esp")
        if kind == 1:
            layer = self.one_of("", "ip ", "ip6 ", "arp ")
            return layer + (self.side() or "host ") + self.values(lambda: self.address(layer, HOSTS))
        if kind == 2:
            layer = self.one_of("", "ip ", "ip6 ")
            return layer + self.side() + "net " + self.values(lambda: self.address(layer, NETWORKS))
        if kind == 3:
            protocol = self.one_of("", "tcp ", "udp ", "sctp ")
            return protocol + self.side() + "port " + self.values(lambda: self.one_of(*PORTS))
        if kind == 4:
            return self.one_of("", "tcp ", "udp ") + self.side() + f"portrange {self.one_of('1-100', '443-22', '53')}"
        if kind == 5:
            number = functools.partial(self.one_of, "1", "6", "17", "44", "51", "0x3a")
            return self.one_of("", "ip ", "ip6 ") + "proto " + self.values(number)
        if kind == 6:
            return "ether proto " + self.one_of("0x0800", "0x86dd", "0x8100", "0x88a8", "2054")
        if kind == 7:
            return "ether " + (self.side() or "host ") + self.one_of(*STATIONS)
        if kind == 8:
            return self.one_of("broadcast", "multicast", "ether multicast", "ip multicast", "ip6 multicast", "vlan",
                               "vlan 5", "vlan 6", "less 64", "greater 100")
        operand = self.one_of("len", *(field.format(self.one_of(*OFFSETS)) for field in FIELDS))
        mask = self.one_of("", "", " & 2", " & (tcp-syn|tcp-ack)", " & 0x0f", " & 0xffffffff")
        if self.random.randrange(5) == 0:
            operand, mask = f"({operand}{mask})", ""
        right = self.one_of(*NUMBERS, "tcp-syn|tcp-ack", "(1|2)|4")
        return f"{operand}{mask} {self.one_of('=', '==', '!=', '<', '<=', '>', '>=')} {right}"

    def operand(self, depth):
        kind = self.random.randrange(6)
        if kind == 0:
            return self.one_of("not ", "!", "! ") + self.operand(depth)
        if kind == 1 and depth < 3:
            return f"({self.expression(depth + 1)})"
        return self.primitive()

    def expression(self, depth=0):
        text = self.operand(depth)
        while self.random.randrange(2):
            text += self.one_of(" and ", " or ", " && ", "||") + self.operand(depth)
        return text

    def limited(self, text):
        """Returns a text with a value, network, size, depth or length near a limit, on either side of it."""
        kind = self.random.randrange(8)
        if kind < 3:
            return f"{self.one_of(*LIMITS)} or {text}"
        if kind < 5:
            address = self.one_of("10", "10.0.0.1", "192.168.1.7", "2001:db8::", "2001:db8::1")
            return f"{text} or net {address}{self.one_of(*PREFIXES)}"
        if kind < 6:
            return f"{text} or {self.one_of('ether', 'ip', 'tcp')}[{self.one_of('0', '13')}:{self.one_of(*SIZES)}] != 0"
        more = self.random.randrange(-2, 3)
        if kind == 6:
            opened = [self.one_of("(", "(", "not ") for _ in range(second_reader.MOST_LEVELS + more)]
            return "".join(opened) + text + ")" * opened.count("(")
        return text.ljust(second_reader.MOST_BYTES + more)

    def mistaken(self, text):
        """Returns a text near a limit, or one in which a word is missing, is repeated, or is another one."""
        if self.random.randrange(3) == 0:
            return self.limited(text)
        words = text.split(" ")
        at = self.random.randrange(len(words))
        mistake = self.one_of(*MISTAKES)
        words[at : at + 1] = self.one_of([], [words[at]] * 2, [mistake], [words[at], mistake])
        return " ".join(words)


# ---- packets


class Packets:
    """A source of random packets."""

    def __init__(self, seed):
        self.random = random.Random(seed)

    def one_of(self, *values):
        return self.random.choice(values)

    def transport(self, number):
        data = bytes(self.random.randrange(256) for _ in range(self.random.randrange(12)))
        ports = struct.pack(">HH", *(self.one_of(22, 53, 80, 443, 5060, 40000) for _ in range(2)))
        if number == 17:
            return ports + struct.pack(">HH", 8 + len(data), 0) + data
        if number == 6:
            return ports + bytes(8) + bytes((0x50, self.one_of(2, 16, 18, 24))) + bytes(6) + data
        if number in (1, 58):
            return bytes((self.one_of(0, 3, 8, 128, 135), 0)) + bytes(6) + data
        return ports + bytes(8) + data

    def ipv4(self, fragments=False, chains=False):
        number = self.one_of(6, 6, 17, 17, 1, 2, 132)
        payload = self.transport(number)
        if chains and self.random.randrange(2):
            payload, number = bytes((number, 1)) + bytes(10) + payload, 51
        flags = self.one_of(0x2000, 0x2001, 0x0001, 0) if fragments else 0
        ends = b"\x0a\0\0\1", b"\x0a\0\0\2", b"\xc0\xa8\1\7", b"\xe0\0\0\xfb"
        addresses = self.one_of(*ends) + self.one_of(*ends)
        words = self.one_of(0, 0, 0, 1, 3)
        total_len = self.one_of(*[20 + 4 * words + len(payload)] * 7, 0)
        header = struct.pack(">BBHHHBBH", 0x45 + words, 0, total_len, 7, flags, 64, number, 0)
        return header + addresses + bytes([1] * 4 * words) + payload

    def ipv6(self, fragments=False, chains=False):
        number = self.one_of(6, 6, 17, 17, 58, 132)
        payload = self.transport(number)
        if fragments:
            payload, number = struct.pack(">BBHI", number, 0, self.one_of(1, 0, 8, 9), 5) + payload, 44
        for _ in range(self.random.randrange(4) if chains else 0):
            kind = self.one_of(0, 43, 60, 51)
            payload = (bytes((number, 1)) + bytes(10) if kind == 51 else bytes((number, 0)) + bytes(6)) + payload
            number = kind
        ends = (b"\x20\1\x0d\xb8" + bytes(11) + b"\1", b"\x20\1\x0d\xb8" + bytes(11) + b"\2",
                b"\xfe\x80" + bytes(13) + b"\1", b"\xff\2" + bytes(13) + b"\xfb")
        payload_len = self.one_of(*[len(payload)] * 7, 0)
        header = struct.pack(">IHBB", 6 << 28, payload_len, number, 64)
        return header + self.one_of(*ends) + self.one_of(*ends) + payload

    def arp(self, odd=False):
        kind = self.one_of(0x0800, 0x0806) if odd else 0x0800
        hardware = b"\2\0\0\0\0\1" if not odd else self.one_of(b"\2\0\0\0\0\1", b"\2", b"")
        return (struct.pack(">HHBBH", 1, kind, len(hardware), 4, 1) + hardware + b"\x0a\0\0\1" + bytes(len(hardware))
                + b"\xc0\xa8\1\7")

    def network(self, **options):
        kind = self.random.randrange(8)
        if kind == 0:
            return 0x0806, self.arp(options.get("odd", False))
        options.pop("odd", None)
        return (0x0800, self.ipv4(**options)) if kind < 5 else (0x86DD, self.ipv6(**options))

    def tagged(self, ether_type, payload):
        for _ in range(self.random.randrange(5)):
            if self.random.randrange(6) == 0:
                control = self.one_of(0, 0x0C, 0x20)
                tag = bytes((control, self.one_of(0, 0, 40))) + bytes(12 if control & 0x20 else 4)
                payload, ether_type = tag + struct.pack(">H", ether_type) + payload, 0x88E5
            else:
                payload = struct.pack(">HH", self.one_of(5, 6, 0x2005), ether_type) + payload
                ether_type = self.one_of(0x8100, 0x8100, 0x88A8, 0x9100)
        return ether_type, payload

    def fragments(self, identification):
        """Returns frames with the fragments of a datagram, two at least, and the protocol and bytes of its payload."""
        version, number = self.one_of((4, 1), (4, 6), (4, 17), (4, 132), (6, 6), (6, 17), (6, 58), (6, 132))
        payload = self.transport(number) + bytes(8)
        addresses = self.ipv4()[12:20] if version == 4 else self.ipv6()[8:40]
        options = self.one_of(b"", bytes((44, 0)) + bytes(6))
        link = b"\2\0\0\0\0\1\2\0\0\0\0\2" + self.one_of(b"", b"\x81\0\0\5")
        link += b"\x08\0" if version == 4 else b"\x86\xdd"
        starts = [start for start in (0, 8, self.one_of(16, 24)) if start < len(payload)]
        frames = []
        for start, end in zip(starts, [*starts[1:], len(payload)]):
            data, more = payload[start:end], end < len(payload)
            if version == 4:
                header = struct.pack(">BBHHHBBH", 0x45, 0, 20 + len(data), identification, more << 13 | start // 8, 64,
                                     number, 0)
            else:
                data = options + struct.pack(">BBHI", number, 0, start | more, identification) + data
                header = struct.pack(">IHBB", 6 << 28, len(data), 0 if options else 44, 64)
            frames.append(link + header + addresses + data)
        return frames, (number, payload)

    def datagrams(self):
        """Returns frames with the fragments of datagrams, of two datagrams in any order, some missing; and the protocol
        and bytes of each payload by the number of the frame that completes it."""
        frames, payloads = [], {}
        while len(frames) < PACKETS:
            pair = [self.fragments(len(frames) + at) for at in range(2)]
            mixed = [(frame, *datagram) for datagram in pair for frame in datagram[0]]
            self.random.shuffle(mixed)
            if self.random.randrange(4) == 0:
                mixed.pop()
            for frame, missing, payload in mixed:
                frames.append((frame, len(frame)))
                missing.remove(frame)
                if not missing:
                    payloads[len(frames)] = payload
        return frames, payloads

    def frame(self, kind):
        """A frame, and its original length."""
        options = {"fragments": dict(fragments=True), "chains": dict(chains=True), "odd": dict(odd=True)}.get(kind, {})
        ether_type, payload = self.network(**options)
        if kind == "ip":
            data = payload if ether_type != 0x0806 else self.ipv4()
            return data, len(data)
        if kind == "tags":
            ether_type, payload = self.tagged(ether_type, payload)
        stations = (b"\2\0\0\0\0\1", b"\2\0\0\0\0\2", b"\xff" * 6, b"\1\0\x5e\0\0\xfb")
        link = self.one_of(*stations) + self.one_of(*stations) + struct.pack(">H", ether_type)
        if kind == "sll":
            link = struct.pack(">HHH", self.one_of(0, 4, 4, 9), self.one_of(1, 1, 772, 824), 6) + bytes(8)
            link += struct.pack(">H", ether_type)
        data = link + payload + (bytes(self.random.randrange(20)) if kind == "odd" else b"")
        wire_len = len(data)
        if kind in ("odd", "cut") and self.random.randrange(2):
            data = data[: self.random.randrange(len(data) + 1)]
        if kind == "odd" and self.random.randrange(2) and data:
            at = self.random.randrange(len(data))
            data = data[:at] + bytes((self.random.randrange(256),)) + data[at + 1 :]
        return data, wire_len


# Captures by kind: the number of their link type, and the first header for the second reader.
KINDS = {"plain": (1, "ethernet"), "tags": (1, "ethernet"), "fragments": (1, "ethernet"), "chains": (1, "ethernet"),
         "odd": (1, "ethernet"), "cut": (1, "ethernet"), "sll": (113, "sll"), "ip": (101, "ip"),
         "datagrams": (1, "ethernet")}


class Capture(typing.NamedTuple):
    """A capture: its file, its packets for the second reader, and by number the packets that complete a datagram, with
    the reassembled payload."""

    path: str
    packets: list
    reassembled: dict


def write_capture(path, link_type, frames):
    """Writes a pcap capture. The seconds of a packet are its number."""
    with open(path, "wb") as out:
        out.write(struct.pack("<IHHiIII", 0xA1B2C3D4, 2, 4, 0, 0, 262144, link_type))
        for number, (data, wire_len) in enumerate(frames, 1):
            out.write(struct.pack("<IIII", number, 0, len(data), wire_len) + data)


def captures_in(folder, seed):
    """Writes a capture of each kind, and yields it."""
    packets = Packets(seed)
    for kind, (link_type, entry) in KINDS.items():
        if kind == "datagrams":
            frames, payloads = packets.datagrams()
        else:
            frames, payloads = [packets.frame(kind) for _ in range(PACKETS)], {}
        path = os.path.join(folder, kind)
        write_capture(path, link_type, frames)
        reassembled = {number: second_reader.Packet(*frames[number - 1], entry).reassembled(*payload)
                       for number, payload in payloads.items()}
        yield Capture(path, [second_reader.Packet(*frame, entry) for frame in frames], reassembled)


# ---- programs


def printed_by(program, path, text, *options):
    """Returns the numbers of the packets that the program prints, negative for a reassembled payload; or its status and
    the lines of its error."""
    done = subprocess.run([program, *options, path, *([text] if text else [])], capture_output=True, check=False)
    if done.returncode:
        return done.returncode, done.stderr.decode().splitlines()
    return [int(line.split(b" ", 1)[0]) * (-1 if b" reassembled" in line else 1) for line in done.stdout.splitlines()]


def expected_of(capture, text):
    """Returns what `printed_by` returns by the second reader, and the kind of the error or None."""
    try:
        expression = second_reader.parse(text.encode())
    except second_reader.FilterError as error:
        return (2, error.lines(text)), error.args[0]
    numbers = []
    for number, packet in enumerate(capture.packets, 1):
        if second_reader.matches(expression, packet):
            numbers.append(number)
        if number in capture.reassembled and second_reader.matches(expression, capture.reassembled[number]):
            numbers.append(-number)
    return numbers, None


def numbers_in(capture):
    """The seconds of each packet of a capture, which are its number."""
    order = "<" if capture[:4] == b"\xd4\xc3\xb2\xa1" else ">"
    at, numbers = 24, []
    while at < len(capture):
        seconds, _, kept, _ = struct.unpack_from(order + "IIII", capture, at)
        numbers.append(seconds)
        at += 16 + kept
    return numbers


def matched_by_tcpdump(path, text):
    done = subprocess.run(["tcpdump", "-O", "-r", path, "-w", "-", text], capture_output=True, check=False)
    return numbers_in(done.stdout) if done.returncode == 0 else None


# ---- comparing


class Comparison:
    """Compares texts, prints each difference, and counts them: errors by kind, packets by the habits of tcpdump."""

    def __init__(self, program):
        self.program = os.path.abspath(program)
        self.filters, self.errors, self.differences = 0, collections.Counter(), 0
        self.taken, self.pairs, self.habits = 0, 0, collections.Counter()

    def print_difference(self, capture, text, *lines):
        self.differences += 1
        print("\n  ".join((f"{os.path.basename(capture.path)}: {text}", *lines)))

    def compare_with_program(self, capture, text):
        """Compares the program with the second reader. Returns the numbers of the packets that a filter matches, None
        for an error or a difference."""
        options = ["--reassemble"] if capture.reassembled else []
        printed = printed_by(self.program, capture.path, text, *options)
        expected, error = expected_of(capture, text)
        if error:
            self.errors[error] += 1
        else:
            self.filters += 1
        if printed != expected:
            self.print_difference(capture, text, f"the program: {printed}", f"the second reader: {expected}")
            return None
        return None if error else {number for number in printed if number > 0}

    def compare_with_tcpdump(self, capture, text, expected):
        """Compares the packets of a filter with those of tcpdump, if tcpdump accepts the text."""
        others = matched_by_tcpdump(capture.path, text)
        if others is None:
            return
        self.taken += 1
        self.pairs += len(capture.packets)
        expression = tcpdump_habits.placed(text.encode())
        for number, packet in enumerate(capture.packets, 1):
            theirs = number in others
            if tcpdump_habits.emulated(expression, packet) != theirs:
                self.print_difference(capture, text, f"packet {number}: tcpdump's answer is not the emulated one")
            if theirs == (number in expected):
                continue
            habits = tcpdump_habits.fewest_habits(expression, packet, theirs)
            if not habits:
                self.print_difference(capture, text, f"packet {number}: no habits explain tcpdump's answer")
            self.habits[habits or "none"] += 1

    def print_counts(self, by_tcpdump):
        errors, kinds = sum(self.errors.values()), len(self.errors)
        if by_tcpdump:
            differing = sum(self.habits.values())
            print(f"tcpdump takes {self.taken} of the filters, and differs in {differing} of {self.pairs} pairs of a "
                  "packet and an expression. By habits:")
            for habits, number in self.habits.most_common():
                print(f"  {habits} {number}")
        print(f"{self.filters} filters, {errors} errors of {kinds} kinds, {self.differences} differences")


def main():
    arguments = argparse.ArgumentParser(description=__doc__, formatter_class=argparse.RawDescriptionHelpFormatter)
    arguments.add_argument("program")
    arguments.add_argument("--count", type=int, default=10_000)
    arguments.add_argument("--seed", type=int, default=1)
    arguments.add_argument("--tcpdump", action="store_true")
    options = arguments.parse_args()
    expressions, comparison = Expressions(options.seed), Comparison(options.program)
    with tempfile.TemporaryDirectory() as folder:
        captures = list(captures_in(folder, options.seed))
        for at in range(options.count):
            text = expressions.expression()
            if at % 3 == 2:
                text = expressions.mistaken(text)
            capture = captures[at // 3 % len(captures)]
            expected = comparison.compare_with_program(capture, text)
            if options.tcpdump and expected is not None:
                comparison.compare_with_tcpdump(capture, text, expected)
    comparison.print_counts(options.tcpdump)
    sys.exit(1 if comparison.differences else 0)


if __name__ == "__main__":
    main()
