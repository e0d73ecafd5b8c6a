#!/usr/bin/env python3
"""Random calls on a bounded reassembly pool, compared with a second implementation: compare/bounded.py PROGRAM

    python3 compare/bounded.py ../bounded_bench/out/bounded_bench [--calls 100000] [--seed 1]

PROGRAM is `bounded_bench`, which answers a line for each call. `BoundedPool` here keeps the bytes of a payload in a map
from positions to bytes, and its names in the order of their last accepted fragments. Each run of 60 calls has a pool with
small limits and other keys of its hash. After each call the streams that it evicted or discarded, what the pool holds and
all counters are compared, too. The last line counts the calls and the differences. The first one is shown with its
run; the status is then 1.
"""
import argparse
import collections
import random
import struct
import subprocess
import sys

LAST, FIRST, DISCARD = POLICIES = ["last", "first", "discard"]
CALLS_OF_A_RUN = 60
# Bytes of an entry in the list of byte ranges, and its least capacity.
SECTION_SIZE, FEWEST_SECTIONS = 4, 4

Limits = collections.namedtuple("Limits", "streams bytes payload age overlap")
Fragment = collections.namedtuple("Fragment", "start more payload")
Name = collections.namedtuple("Name", "version source destination identification protocol channel tags")


def end_of(fragment):
    return fragment.start + len(fragment.payload)


# ---- The pool


class Stream:
    """A stream of the table, open or discarded."""

    def __init__(self, now):
        self.first = self.last = now
        self.is_discarded = False
        self.bytes, self.sections = {}, []
        self.data_capacity = self.sections_capacity = 0
        self.end, self.reach = None, 0

    def memory(self):
        return self.data_capacity + SECTION_SIZE * self.sections_capacity

    def discard(self):
        self.is_discarded = True
        self.bytes, self.sections = {}, []
        self.data_capacity = self.sections_capacity = 0

    def refusal(self, fragment):
        """Returns the error of a fragment whose end contradicts the earlier ones, or None."""
        end = end_of(fragment)
        if self.end is None:
            conflicts = not fragment.more and end < self.reach
        else:
            conflicts = end > self.end or (not fragment.more and end != self.end)
        return f"err conflict {self.reach if self.end is None else self.end} {end}" if conflicts else None

    def contradicts(self, fragment):
        """Returns whether a fragment shares a position with earlier ones, and does not only repeat their bytes."""
        positions = range(fragment.start, end_of(fragment))
        if not any(position in self.bytes for position in positions):
            return False
        return any(self.bytes.get(position) != byte for position, byte in zip(positions, fragment.payload))

    def add(self, fragment, now, keeps_first):
        start, end = fragment.start, end_of(fragment)
        near = [section for section in self.sections if section[0] <= end and start <= section[1]]
        union = (min([start] + [section[0] for section in near]), max([end] + [section[1] for section in near]))
        self.sections = [section for section in self.sections if section not in near] + [union]
        if not near and len(self.sections) > self.sections_capacity:
            self.sections_capacity = max(FEWEST_SECTIONS, 2 * self.sections_capacity)
        if end > self.data_capacity:
            self.data_capacity = max(end, 2 * self.data_capacity)
        for position, byte in enumerate(fragment.payload, start):
            if not keeps_first or position not in self.bytes:
                self.bytes[position] = byte
        self.reach = max(self.reach, end)
        if not fragment.more:
            self.end = end
        self.last = now

    def payload(self):
        """Returns the payload if it is complete, otherwise None."""
        if self.end is None or len(self.bytes) < self.end:
            return None
        return bytes(self.bytes[position] for position in range(self.end))


COUNTERS = ["begun", "completed", "overlap", "expired", "streams", "bytes", "removed", "accepted"]
COUNTERS += ["err unaligned", "err too-big", "err conflict", "err memory", "err discarded", "err over-budget"]


class BoundedPool:
    """A bounded pool; each call returns the answer of the program's line."""

    def __init__(self, limits):
        self.limits = limits
        # In the order of their last accepted fragments, the oldest first.
        self.streams = {}
        self.evicted = []
        self.counts = collections.Counter()

    def evict(self, name, cause):
        stream = self.streams.pop(name)
        self.evicted.append((name, cause, stream.first))
        if not stream.is_discarded:
            self.counts[cause] += 1

    def is_expired(self, stream, now):
        return now - stream.first > self.limits.age

    def frag(self, name, fragment, now):
        self.evicted = []
        if fragment is None:
            return "none"
        if name in self.streams and self.is_expired(self.streams[name], now):
            self.evict(name, "expired")
        answer = self.add(name, fragment, now)
        is_error = answer.startswith("err")
        self.counts[" ".join(answer.split()[:2]) if is_error else "accepted"] += 1
        return answer

    def add(self, name, fragment, now):
        stream = self.streams.get(name)
        if stream is not None and stream.is_discarded:
            return "err discarded"
        units, length = fragment.start // 8, len(fragment.payload)
        if end_of(fragment) > self.limits.payload:
            return f"err too-big {units} {length} {self.limits.payload}"
        if fragment.more and length % 8 != 0:
            return f"err unaligned {units} {length}"
        if stream is not None:
            refusal = stream.refusal(fragment)
            if self.limits.overlap == DISCARD and (refusal or stream.contradicts(fragment)):
                stream.discard()
                self.evicted.append((name, "overlap", stream.first))
                self.counts["overlap"] += 1
                return "err discarded"
            if refusal:
                return refusal
        return self.accept(name, stream, fragment, now)

    def accept(self, name, stream, fragment, now):
        if stream is None:
            stream = Stream(now)
            self.counts["begun"] += 1
        self.streams.pop(name, None)
        stream.add(fragment, now, self.limits.overlap == FIRST)
        payload = stream.payload()
        if payload is not None:
            self.counts["completed"] += 1
            return f"payload {name.protocol} {payload.hex()}"
        self.streams[name] = stream
        if stream.memory() > self.limits.bytes:
            self.evict(name, "bytes")
            return "err over-budget"
        while len(self.streams) > max(1, self.limits.streams):
            self.evict(next(iter(self.streams)), "streams")
        while self.memory() > self.limits.bytes:
            self.evict(next(iter(self.streams)), "bytes")
        return "none"

    def memory(self):
        return sum(stream.memory() for stream in self.streams.values())

    def expire(self, now, idle):
        self.evicted = []
        for name, stream in list(self.streams.items()):
            if self.is_expired(stream, now) or now - stream.last > idle:
                self.evict(name, "expired")
        return str(len(self.evicted))

    def remove(self, name):
        self.evicted = []
        if name not in self.streams:
            return "absent"
        self.counts["removed"] += not self.streams.pop(name).is_discarded
        return "removed"

    def clear(self):
        for name in list(self.streams):
            self.remove(name)
        self.evicted = []
        return "ok"

    def evicted_line(self):
        return " ".join(f"{id_of(name)}:{cause}:{first}" for name, cause, first in self.evicted) or "none"

    def state_line(self):
        discarded = sum(stream.is_discarded for stream in self.streams.values())
        numbers = [len(self.streams) - discarded, discarded, self.memory()]
        return " ".join(map(str, numbers + [self.counts[counter] for counter in COUNTERS]))


# ---- Frames


# Names that differ from the first in one part each.
ADDRESSES = [bytes([10, 0, 0, 1]), bytes([10, 0, 0, 2]), bytes([10, 0, 1, 1])]
NAMES = [Name(4, ADDRESSES[0], ADDRESSES[1], 7, 17, 0, ())]
NAMES += [NAMES[0]._replace(source=ADDRESSES[2]), NAMES[0]._replace(destination=ADDRESSES[2])]
NAMES += [NAMES[0]._replace(identification=8), NAMES[0]._replace(protocol=253), NAMES[0]._replace(channel=2**64 - 1)]
NAMES += [NAMES[0]._replace(tags=tags) for tags in [(1,), (2,), (1, 2), (2, 1), (1, 2, 3)]]
NAMES += [Name(6, bytes(16), bytes(15) + b"\1", 7, 17, 0, tags) for tags in [(), (4095,)]]
NAMES += [Name(6, bytes(16), bytes(15) + b"\1", 7 << 16, 253, 1, ())]


def id_of(name):
    parts = [name.version, name.source.hex(), name.destination.hex(), name.identification, name.protocol, name.channel]
    return ",".join(map(str, parts + list(name.tags)))


def packet_of(name, fragment):
    """Returns an IP packet that carries a fragment (RFC 791, 3.1; RFC 8200, 4.5), or one with a whole UDP datagram if it
    is None, and its ether type."""
    start, more, payload = fragment or Fragment(0, False, struct.pack(">HHHH", 1, 2, 8, 0))
    if name.version == 4:
        lengths = struct.pack(">BBHHH", 0x45, 0, 20 + len(payload), name.identification, more << 13 | start // 8)
        header = lengths + struct.pack(">BBH", 64, name.protocol, 0) + name.source + name.destination
        return 0x0800, header + payload
    part = struct.pack(">BBHI", name.protocol, 0, start | more, name.identification) + payload
    header = struct.pack(">IHBB", 6 << 28, len(part), 44, 64) + name.source + name.destination
    return 0x86DD, header + part


def frame_words(name, fragment, chance):
    """Returns the entry and the bytes of a frame as words of a line: Ethernet II with VLAN tags, or only the packet."""
    ether_type, packet = packet_of(name, fragment)
    if not name.tags and chance.random() < 0.5:
        return "ip", packet.hex()
    types = [0x8100] * len(name.tags) + [ether_type]
    tags = b"".join(struct.pack(">HH", tag, kind) for tag, kind in zip(name.tags, types[1:]))
    return "eth", (bytes(12) + struct.pack(">H", types[0]) + tags + packet).hex()


# ---- Random calls


def some_fragment(chance):
    # A final fragment of one byte: another one can share only this byte with it.
    if chance.random() < 0.08:
        return Fragment(8 * chance.choice([1, 2]), False, bytes([chance.choice([1, 2, 4])]))
    if chance.random() < 0.01:
        return Fragment(8 * chance.choice([100, 8191]), chance.random() < 0.5, b"")
    more = chance.random() < 0.6
    start = 8 * chance.choice([0, 0, 1, 1, 2, 3, 4])
    length = chance.choice([0, 8, 8, 16, 24, 3]) if more else chance.choice([0, 1, 7, 8, 8, 9, 16])
    # Mostly the bytes of one payload, so that streams are completed and repeats have equal bytes.
    if chance.random() < 0.75:
        return Fragment(start, more, bytes((start + place) % 5 + 1 for place in range(length)))
    return Fragment(start, more, bytes(chance.choice([1, 2]) for _ in range(length)))


def some_limits(chance):
    return Limits(
        chance.choice([0, 1, 2, 2, 3, 4, 100, 100]),
        chance.choice([0, 20, 40, 64, 100, 100, 160, 160, 200, 10_000, 10_000, 10_000, 200_000, 2**63]),
        chance.choice([0, 7, 16, 24, 32] + 25 * [65535]),
        chance.choice([0, 1, 3, 8, 30, 30, 10**9, 10**9, 2**128 - 1]),
        chance.choice(POLICIES),
    )


def one_call(pool, names, chance, now):
    """Makes a call on the second implementation. Returns the program's line for it, and its answer."""
    kind, name = chance.random(), chance.choice(names)
    if kind < 0.92:
        fragment = some_fragment(chance)
        # At offset 0 with no more fragments it is a whole packet, also with a fragment header (RFC 6946).
        fragment = fragment if fragment.start or fragment.more else None
        entry, digits = frame_words(name, fragment, chance)
        return f"frag {entry} {now} {name.channel} {digits}", pool.frag(name, fragment, now)
    if kind < 0.94:
        idle = chance.choice([0, 1, 2, 4, 50])
        return f"expire {now} {idle}", pool.expire(now, idle)
    if kind < 0.995:
        entry, digits = frame_words(name, Fragment(8, True, b""), chance)
        return f"remove {entry} {name.channel} {digits}", pool.remove(name)
    return "clear", pool.clear()


def run(chance):
    """Returns the lines of a run, with their answers."""
    limits = some_limits(chance)
    pool = BoundedPool(limits)
    rows = [(f"pool {' '.join(map(str, limits))} {chance.randrange(256)}", "ok")]
    names = chance.sample(NAMES, chance.choice([1, 2, 3, 4, 6, len(NAMES)]))
    now = chance.choice([0, 5, 2**127])
    for _ in range(CALLS_OF_A_RUN):
        now = max(0, now + chance.choice([0, 0, 0, 1, 1, 2, 5, -1, -4]))
        rows.append(one_call(pool, names, chance, now))
        rows.append(("evicted", pool.evicted_line()))
        rows.append(("state", pool.state_line()))
    return rows


def compare(program, runs):
    """Returns the number of different answers of these runs, and how often each kind of answer and of eviction came."""
    lines = "".join(f"{line}\n" for rows in runs for line, _ in rows)
    done = subprocess.run([program], input=lines, stdout=subprocess.PIPE, text=True, check=True)
    answers = iter(done.stdout.splitlines())
    kinds, differences = collections.Counter(), 0
    for rows in runs:
        for place, (line, wanted) in enumerate(rows):
            kinds[" ".join(wanted.split()[: 2 if wanted.startswith("err") else 1])] += line.startswith("frag")
            if line == "evicted":
                kinds.update(word.split(":")[1] for word in wanted.split() if word != "none")
            answer = next(answers, "no answer")
            if answer != wanted:
                if not differences:
                    print(*(row[0] for row in rows[: place + 1]), sep="\n")
                    print(f"  wanted: {wanted}\n  answer: {answer}")
                differences += 1
    return differences + len(list(answers)), kinds


def main():
    parser = argparse.ArgumentParser(description=__doc__, formatter_class=argparse.RawDescriptionHelpFormatter)
    parser.add_argument("program")
    parser.add_argument("--calls", type=int, default=100_000)
    parser.add_argument("--seed", type=int, default=1)
    options = parser.parse_args()
    chance = random.Random(options.seed)
    left, differences, kinds = options.calls, 0, collections.Counter()
    while left > 0:
        count = min(left, 20_000)
        found, counted = compare(options.program, [run(chance) for _ in range(-(-count // CALLS_OF_A_RUN))])
        differences += found
        kinds += counted
        left -= count
    print(*(f"{kind}={count}" for kind, count in sorted(kinds.items())))
    print(f"calls={options.calls} seed={options.seed} differences={differences}")
    return 1 if differences else 0


if __name__ == "__main__":
    sys.exit(main())
