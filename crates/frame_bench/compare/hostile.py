"""Random and mutated lines to frame_bench, whose answers are compared with those of answers.py.

    python3 compare/hostile.py out/frame_bench [--lines 1000000] [--seed 1] [--batch 20000] [--jobs 2]

The lines of a batch depend on the seed and the batch's number alone, and each batch is one run of the program. The last
lines of output count the answers by what they say (the kinds, and how often the least of them came), and the
differences, the first of them shown before it.
"""

import argparse
import collections
import concurrent.futures
import random
import struct
import subprocess
import sys

sys.dont_write_bytecode = True  # leaves the folder as it is
import answers

VLAN_TYPES = [0x8100, 0x88A8, 0x9100]
EXTENSIONS = [0, 43, 44, 51, 60]
# VLAN identifiers of a stream's frames, innermost first; None is a MACsec tag. Some differ only in their order, in
# their number, or in any one of three.
STREAM_TAGS = [[], [], [], [1], [1], [2], [1, 2], [2, 1], [None, 1]]
STREAM_TAGS += [[1, 2, 3], [1, 2, 4], [1, 4, 3], [3, 2, 1], [4, 2, 1]]
# How often a field does not match the other fields.
SELDOM = 0.06


class Frames:
    """Frames with random fields in each layer, most of them with correct lengths."""

    def __init__(self, chance):
        self.chance = chance

    def seldom(self, often=SELDOM):
        return self.chance.random() < often

    def some_bytes(self):
        lengths = [0, 1, 2, 3, 4, 7, 8, 9, 12, 16, 20, 24, 40, self.chance.randrange(120)]
        if self.seldom(0.003):
            lengths = [1500, 1500, 1500, 9000, 65495, 65507, 65535, 70000]
        length = self.chance.choice(lengths)
        return self.chance.randbytes(length)

    def length_near(self, length, most):
        """Returns a length field: mostly this length, otherwise one near it or any other."""
        if not self.seldom():
            return length & most
        near = [0, 1, length - 1, length + 1, length - 8, length + 8, self.chance.randrange(most + 1), most]
        return self.chance.choice(near) & most

    # Transport layers: protocol number and bytes.

    def udp(self):
        payload = self.some_bytes()
        length = self.length_near(8 + len(payload), 0xFFFF)
        if self.seldom(0.2):
            length = self.chance.choice([0, self.chance.randrange(1, 12), 8 + len(payload) // 2])
        return 17, self.chance.randbytes(4) + struct.pack(">H", length) + self.chance.randbytes(2) + payload

    def tcp(self):
        words = self.chance.randrange(16) if self.seldom(0.1) else self.chance.randrange(5, 16)
        options = self.chance.randbytes(max(0, 4 * words - 20)) if not self.seldom() else b""
        front = self.chance.randbytes(12) + bytes([words << 4 | self.chance.randrange(16)])
        return 6, front + self.chance.randbytes(7) + options + self.some_bytes()

    def icmpv4(self):
        kind = self.chance.choice([0, 3, 5, 8, 11, 12, 13, 14, 13, 14, self.chance.randrange(256)])
        code = 0 if self.seldom(0.7) else self.chance.randrange(18)
        rest = self.chance.randbytes(12) if kind in (13, 14) and not self.seldom(0.3) else self.some_bytes()
        return 1, bytes([kind, code]) + self.chance.randbytes(6) + rest

    def icmpv6(self):
        kind = self.chance.choice([1, 2, 3, 4, 128, 129, 135, self.chance.randrange(256)])
        code = 0 if self.seldom(0.7) else self.chance.randrange(9)
        return 58, bytes([kind, code]) + self.chance.randbytes(6) + self.some_bytes()

    def transport(self):
        makers = [self.udp, self.udp, self.tcp, self.icmpv4, self.icmpv6]
        number, data = self.chance.choice(makers)()
        if self.seldom():
            data = data[: self.chance.randrange(len(data) + 1)]
        if self.seldom(0.1):
            number = self.chance.choice([59, 253, 0, 51, 44, 4, 41, self.chance.randrange(256)])
        return number, data

    # Headers of IP.

    def extension(self, kind, number):
        """Returns an extension header of this kind, with this next header number."""
        if kind == 44:
            more_and_offset = self.chance.choice([0, 0, 1, self.chance.randrange(65536)])
            front = bytes([number, self.chance.randrange(256)])
            return front + struct.pack(">H", more_and_offset) + self.chance.randbytes(4)
        if kind == 51:
            words = self.chance.randrange(6)
            said = 0 if self.seldom() else self.length_near(words + 1, 0xFF)
            return bytes([number, said]) + self.chance.randbytes(10 + 4 * words)
        eights = self.chance.choice([0, 0, 0, 1, 2, 5])
        return bytes([number, self.length_near(eights, 0xFF)]) + self.chance.randbytes(6 + 8 * eights)

    def ipv4(self, number, data, fragment=None, names=None, authenticated=False):
        """Returns an IPv4 packet; `fragment` is an offset and a flag, `names` addresses and identification."""
        if authenticated or number == 51 or (fragment is None and self.seldom(0.08)):
            data = self.extension(51, number) + data
            number = 51
        options = self.chance.randbytes(4 * self.chance.randrange(1, 11)) if self.seldom(0.15) else b""
        words = self.chance.randrange(16) if self.seldom(0.04) else 5 + len(options) // 4
        version = self.chance.randrange(16) if self.seldom(0.02) else 4
        total = self.length_near(20 + len(options) + len(data), 0xFFFF)
        if fragment is None:
            fragment = (0, 0) if not self.seldom(0.1) else (self.chance.randrange(8192), self.chance.randrange(2))
        flags = self.chance.randrange(4) << 14 | fragment[1] << 13 | fragment[0]
        addresses, identification = names or (self.chance.randbytes(8), self.chance.randrange(65536))
        front = bytes([version << 4 | words, self.chance.randrange(256)]) + struct.pack(">HHH", total, identification, flags)
        front += bytes([self.chance.randrange(256), number]) + self.chance.randbytes(2)
        return 0x0800, front + addresses + options + data

    def ipv6(self, number, data, names=None, kinds=None):
        """Returns an IPv6 packet with extension headers of these kinds, outermost first."""
        if kinds is None:
            count = self.chance.choice([0, 0, 0, 1, 1, 2, 3, 4, 6])
            kinds = [self.chance.choice(EXTENSIONS[1:] if place else EXTENSIONS) for place in range(count)]
            if self.seldom(0.03):
                kinds.append(0)
        for kind in reversed(kinds):
            data = self.extension(kind, number) + data
            number = kind
        version = self.chance.randrange(16) if self.seldom(0.02) else 6
        length = 0 if self.seldom(0.1) else self.length_near(len(data), 0xFFFF)
        front = struct.pack(">I", version << 28 | self.chance.randrange(1 << 28)) + struct.pack(">H", length)
        return 0x86DD, front + bytes([number, self.chance.randrange(256)]) + (names or self.chance.randbytes(32)) + data

    def arp(self):
        lengths = (6, 4)
        if self.seldom(0.3):
            most = 256 if self.seldom(0.1) else 20
            lengths = (self.chance.randrange(most), self.chance.randrange(most))
        data = self.chance.randbytes(4) + bytes(lengths) + self.chance.randbytes(2)
        return 0x0806, data + self.chance.randbytes(2 * sum(lengths))

    def net(self):
        what = self.chance.random()
        if what < 0.5:
            return self.ipv4(*self.transport())
        if what < 0.85:
            return self.ipv6(*self.transport())
        if what < 0.93:
            return self.arp()
        kinds = [0x1234, 0x05FF, 0x0600, 0, *VLAN_TYPES, 0x88E5, self.chance.randrange(65536)]
        return self.chance.choice(kinds), self.some_bytes()

    # Links and tags.

    def tagged(self, kind, data, tags):
        """Prepends tags, innermost first, to a payload: a VLAN identifier, or None for MACsec."""
        for identifier in tags:
            if identifier is not None:
                data = struct.pack(">HH", self.chance.randrange(16) << 12 | identifier, kind) + data
                kind = self.chance.choice(VLAN_TYPES)
                continue
            flags = self.chance.randrange(128) if not self.seldom(0.02) else self.chance.randrange(256)
            is_plain = flags & 0x0C == 0
            if not is_plain and not self.seldom(0.3):
                flags &= ~0x0C
                is_plain = True
            inner = struct.pack(">H", kind) + data if is_plain else data
            short = len(inner) if len(inner) < 64 and self.seldom(0.3) else 0
            short = self.chance.randrange(64) if self.seldom() else short
            front = bytes([flags, self.chance.randrange(4) << 6 | short]) + self.chance.randbytes(4)
            data = front + (self.chance.randbytes(8) if flags & 0x20 else b"") + inner
            kind = 0x88E5
        return kind, data

    def linked(self, entry, kind, data):
        if entry == "eth":
            return self.chance.randbytes(12) + struct.pack(">H", kind) + data
        packet_type = self.chance.randrange(8) if not self.seldom(0.03) else self.chance.randrange(65536)
        hardware = self.chance.choice([1, 1, 1, 1, 772, 770, 778, 803, 824])
        if self.seldom(0.03):
            hardware = self.chance.randrange(65536)
        return struct.pack(">HH", packet_type, hardware) + self.chance.randbytes(10) + struct.pack(">H", kind) + data

    def frame(self, entry):
        if entry == "ip":
            makers = [self.ipv4, self.ipv6]
            data = self.chance.choice(makers)(*self.transport())[1]
        else:
            count = self.chance.choice([0, 0, 0, 1, 1, 2, 3, 4])
            tags = [None if self.seldom(0.3) else self.chance.randrange(4096) for _ in range(count)]
            data = self.linked(entry, *self.tagged(*self.net(), tags))
        if self.seldom(0.2):
            data += self.chance.randbytes(self.chance.randrange(1, 47))
        return data

    def mutated(self, data):
        """Returns the data with some bytes changed, truncated, removed or inserted."""
        for _ in range(self.chance.choice([1, 1, 2, 4])):
            at = self.chance.randrange(len(data) + 1)
            way = self.chance.randrange(6)
            if way == 0:
                data = data[:at]
            elif way == 1 and at < len(data):
                data = data[:at] + bytes([data[at] ^ 1 << self.chance.randrange(8)]) + data[at + 1 :]
            elif way == 2 and at < len(data):
                data = data[:at] + self.chance.choice([b"\0", b"\xff", self.chance.randbytes(1)]) + data[at + 1 :]
            elif way == 3:
                data = data[:at] + data[at + self.chance.randrange(1, 9) :]
            elif way == 4:
                data = data[:at] + self.chance.randbytes(self.chance.randrange(1, 9)) + data[at:]
            else:
                data += data[at:]
        return data


class Lines:
    """Lines to the program; the lines to its pool belong to few streams."""

    def __init__(self, chance):
        self.chance = chance
        self.frames = Frames(chance)
        self.now = 0
        # Fragments of payloads that are still to be sent.
        self.waiting = []
        # The stream of the last fragment of any length.
        self.last = None

    def number(self, value):
        """Returns a number as a word, sometimes with leading zeros."""
        digits = str(value)
        if self.frames.seldom(0.03):
            digits = digits.zfill(self.chance.choice([2, 19, 20, 21]))
        return digits

    def time(self):
        if self.frames.seldom(0.02):
            return self.chance.choice([0, 1, 2**63, 2**64 - 1, 2**64, 2**64 + 1, 10**20 - 1, 10**20])
        return max(0, self.now - self.chance.randrange(4))

    def channel(self):
        return self.chance.randrange(2) if not self.frames.seldom(0.03) else self.chance.choice([2**64 - 1, 2**64])

    def stream(self, identification):
        """Returns the identifier of a stream, without its channel, and the headers before each fragment's bytes.

        These are the version, tags, addresses, identification and protocol number, and the kinds of the extension
        headers after an IPv6 fragment header, or whether an IPv4 header is authenticated.
        """
        version = self.chance.choice([4, 4, 6])
        tags = self.chance.choice(STREAM_TAGS)
        address = int(self.frames.seldom(0.2))
        number = self.chance.choice([17, 17, 17, 253, 6])
        extensions = []
        if self.frames.seldom(0.15):
            extensions = [51] if version == 4 else self.chance.choice([[60], [43], [44], [51], [60, 44], [51, 60]])
        return version, tags, address, identification, number, extensions

    def beside(self, stream):
        """Returns a stream that differs from another at most in its tags."""
        version, _, *others = stream
        return version, self.chance.choice(STREAM_TAGS), *others

    def fragment(self, stream, offset, more, data):
        """Returns a frame that carries a fragment."""
        version, tags, address, identification, number, extensions = stream
        if version == 4:
            names = (bytes([192, 168, 1, 1, 192, 168, 1, 2 + address]), identification)
            kind, packet = self.frames.ipv4(number, data, (offset, int(more)), names, bool(extensions))
        else:
            for kind in reversed(extensions):
                data = self.frames.extension(kind, number) + data
                number = kind
            header = bytes([number, self.chance.randrange(256)])
            header += struct.pack(">H", offset << 3 | self.chance.randrange(4) << 1 | int(more))
            header += struct.pack(">I", identification)
            kinds = self.chance.choice([[], [], [], [0], [60], [43], [0, 60, 43]])
            kind, packet = self.frames.ipv6(44, header + data, bytes(31) + bytes([address]), kinds)
        entry = self.chance.choice(["eth", "eth", "sll", "ip"]) if not tags else "eth"
        if entry == "ip":
            return entry, packet
        if self.frames.seldom(0.2):
            packet += self.chance.randbytes(self.chance.randrange(1, 19))
        return entry, self.frames.linked(entry, *self.frames.tagged(kind, packet, tags))

    def any_fragment(self):
        offset = self.chance.choice([0, 0, 0, 1, 1, 2, 3, 4])
        if self.frames.seldom(0.02):
            offset = self.chance.choice([8190, 8191, self.chance.randrange(8192)])
        length = self.chance.choice([0, 8, 8, 8, 16, 24])
        if self.frames.seldom(0.1):
            length = self.chance.choice([1, 7, 9, 15, 33])
        is_beside = self.last is not None and self.frames.seldom(0.5)
        self.last = self.beside(self.last) if is_beside else self.stream(self.chance.randrange(2))
        return self.fragment(self.last, offset, self.frames.seldom(0.6), self.chance.randbytes(length))

    def cut(self):
        """Queues cuts of one payload, or of two whose streams differ in their tags, to be sent among other lines."""
        stream, channel = self.stream(self.chance.randrange(2, 8)), self.channel()
        cuts = [(stream, channel, part) for part in self.parts()]
        if self.frames.seldom(0.3):
            other = self.beside(stream)
            cuts += [(other, channel, part) for part in self.parts()]
            self.chance.shuffle(cuts)
        self.waiting.extend(reversed(cuts))

    def parts(self):
        """Returns cuts of one payload, in any order and with repeats."""
        whole = self.chance.randbytes(self.chance.choice([40, 41, 64, 200, 1000, self.chance.randrange(3000)]))
        if self.frames.seldom(0.01):
            whole = self.chance.randbytes(self.chance.choice([65527, 65528, 65535]))
        parts, at = [], 0
        step = max(1, len(whole) // self.chance.choice([8, 16, 32]))
        while at < len(whole):
            end = at + 8 * self.chance.randrange(1, 1 + step)
            parts.append((at // 8, end < len(whole), whole[at:end]))
            at = end
        if not self.frames.seldom(0.2):
            self.chance.shuffle(parts)
        for _ in range(self.chance.randrange(3)):
            parts.insert(self.chance.randrange(len(parts) + 1), self.chance.choice(parts or [(0, False, b"")]))
        return parts

    def pool_line(self):
        if len(self.waiting) < 20 and self.frames.seldom(0.2):
            self.cut()
        channel = self.channel()
        what = self.chance.random()
        if what < 0.1:
            entry = self.chance.choice(["eth", "sll", "ip"])
            data = self.frames.frame(entry)
        elif what < 0.5 and self.waiting:
            place = len(self.waiting) - 1 - self.chance.randrange(min(3, len(self.waiting)))
            stream, channel, part = self.waiting.pop(place)
            entry, data = self.fragment(stream, *part)
        else:
            entry, data = self.any_fragment()
        if self.frames.seldom(0.04):
            data = self.frames.mutated(data)
        return f"frag {entry} {self.number(self.time())} {self.number(channel)} {data.hex() or '-'}"

    def limit_line(self):
        """Returns mostly the greatest limit, otherwise one that rejects some fragments, or an invalid line."""
        limit = 65535
        if self.frames.seldom(0.25):
            limit = self.chance.choice([0, 7, 8, 9, 16, 24, 40, 64, 200, 1000, 3000, self.chance.randrange(65536)])
        text = str(limit)
        if self.frames.seldom(0.2):
            text = self.chance.choice([text.zfill(5), text.zfill(6), "65536", "", "-1", "+8", text + " 1"])
        return f"limit {text}"

    def slice_line(self):
        entry = self.chance.choice(["eth", "eth", "sll", "ip", "ip"])
        data = self.frames.frame(entry)
        if self.frames.seldom(0.25):
            data = self.frames.mutated(data)
        return f"slice {entry} {data.hex() or '-'}"

    def mutated(self, line):
        """Returns a line that differs a little from a request."""
        at = self.chance.randrange(len(line) + 1)
        way = self.chance.randrange(8)
        byte = self.chance.choice([b" ", b"\t", b"\r", b"\0", b"\xff", b"g", b"+", b"-", b"0", self.chance.randbytes(1)])
        if way == 0:
            line = line[:at]
        elif way == 1:
            line = line[:at] + line[at + 1 :]
        elif way in (2, 3):
            line = line[:at] + byte + line[at + 1 :]
        elif way == 4:
            line = line[:at] + byte + line[at:]
        elif way == 5:
            line += byte
        elif way == 6:
            words = line.split(b" ")
            words.insert(self.chance.randrange(len(words) + 1), self.chance.choice([b"", b"ip", b"0", b"-"]))
            line = b" ".join(words)
        else:
            line = line.upper() if self.frames.seldom(0.2) else line[:10] + line[10:].upper()
        return line.replace(b"\n", b"")

    def line(self):
        self.now += self.chance.randrange(2)
        what = self.chance.random()
        if what < 0.5:
            line = self.slice_line()
        elif what < 0.97:
            line = self.pool_line()
        elif what < 0.99:
            line = f"drop {self.number(max(0, self.time() - self.chance.randrange(60)))}"
        elif what < 0.9915:
            line = self.limit_line()
        else:
            return self.chance.randbytes(self.chance.randrange(30)).replace(b"\n", b"")
        if self.frames.seldom(0.04):
            return self.mutated(line.encode("ascii"))
        return line.encode("ascii")


def kind_of(answer):
    """Returns the kind of an answer: its words without numbers and bytes."""
    words = answer.split(" ")
    if words[0] == "ok" and len(words) > 1:
        tags = "+".join(sorted({tag.partition(":")[0] for tag in words[2].split(",")}))
        return " ".join(["ok", words[1], tags, words[3], words[4]])
    if words[:2] == ["err", "len"]:
        return " ".join(["err len", words[4], words[5]])
    return " ".join(words[:2]) if words[0] == "err" else words[0]


def compare(program, seed, batch, count):
    """Runs the program once; returns the counts of kinds, the number of answers and the differences."""
    lines = Lines(random.Random(f"{seed} {batch}"))
    text = b"".join(lines.line() + b"\n" for _ in range(count))
    expected = answers.answers_to(text)
    run = subprocess.run([program], input=text, capture_output=True, check=False)
    shown = run.stdout.decode("utf-8", "replace").split("\n")[:-1]
    differences = [
        (line, wanted, given)
        for line, wanted, given in zip(text.split(b"\n"), expected, shown)
        if wanted != given
    ]
    if len(shown) != len(expected) or run.returncode != 0 or run.stderr:
        differences.append((f"batch {batch}", f"{len(expected)} answers", f"{len(shown)}, status {run.returncode}"))
    return collections.Counter(map(kind_of, expected)), len(expected), differences


def main():
    parser = argparse.ArgumentParser(description=__doc__, formatter_class=argparse.RawDescriptionHelpFormatter)
    parser.add_argument("program")
    parser.add_argument("--lines", type=int, default=1_000_000)
    parser.add_argument("--seed", default="1")
    parser.add_argument("--batch", type=int, default=20_000)
    parser.add_argument("--jobs", type=int, default=2)
    options = parser.parse_args()
    sizes = [options.batch] * (options.lines // options.batch)
    if options.lines % options.batch:
        sizes.append(options.lines % options.batch)
    kinds, lines, differences = collections.Counter(), 0, []
    with concurrent.futures.ProcessPoolExecutor(options.jobs) as jobs:
        runs = [jobs.submit(compare, options.program, options.seed, *batch) for batch in enumerate(sizes)]
        for run in runs:
            counted, count, differing = run.result()
            kinds += counted
            lines += count
            differences += differing
    for line, wanted, given in differences[:10]:
        print("difference:", line, "wanted:", wanted, "given:", given)
    for kind, count in sorted(kinds.items()):
        print(f"{count:8} {kind}")
    print(f"kinds={len(kinds)} least={min(kinds.values())}")
    print(f"lines={lines} runs={len(sizes)} seed={options.seed} differences={len(differences)}")
    return 1 if differences else 0


if __name__ == "__main__":
    sys.exit(main())
