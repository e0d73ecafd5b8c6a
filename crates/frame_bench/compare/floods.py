"""Floods of lines to frame_bench: whether it answers them rightly, in which time, and how much memory it takes.

    python3 compare/floods.py out/frame_bench [--streams 1000000] [--lines 1000000] [--open 100000] [--names 10000]
        [--only WORD]

Each flood is one run of the program. It prints a row for each, and ends with status 1 where an answer is not the one
that stands here. Memory is the resident size of the process, the greatest and that after its last answer (VmHWM and
VmRSS of Linux).
"""

import argparse
import hashlib
import itertools
import os
import struct
import subprocess
import sys
import threading
import time

# A frame of Ethernet II, IPv4 and UDP, and its answer.
FRAME = "0708090a0b0c0102030405060800450000240000400014 11e375c0a80101c0a80102001504d20010677f0102030405060708".replace(" ", "")
FRAME_LINE = (f"slice eth {FRAME}", "ok eth - ipv4 udp 0102030405060708")
EIGHT = "0001020304050607"
GREATEST = 2**64 - 1


def fragment(units, more, payload, identification=1):
    """Returns an IPv4 packet that carries a fragment of UDP (RFC 791, 3.1)."""
    flags = more << 13 | units
    front = struct.pack(">BBHHHBBH", 0x45, 0, 20 + len(payload) // 2, identification, flags, 64, 17, 0)
    return front.hex() + "c0a80101c0a80102" + payload


def pool_line(packet, channel=0, timestamp=1):
    return f"frag ip {timestamp} {channel} {packet}"


FIRST = fragment(0, 1, EIGHT)
LAST = fragment(1, 0, "08090a0b0c0d0e0f")
WHOLE = "payload 17 000102030405060708090a0b0c0d0e0f"


def cycle(rows, count):
    """Repeats lines with their answers, `count` in all."""
    return itertools.islice(itertools.cycle(rows), count)


def first_fragments(channels):
    return ((pool_line(FIRST, channel), "none") for channel in channels)


# A pool finds stream identifiers by std's FoldHasher, which has a fixed seed and processes each write of up to 8 bytes
# by a multiplication whose result is 0 if the bytes equal the state before. Up to three bytes, single ones and numbers
# of two, are passed to it as one number, after a number below 256 (ep_defrag/src/name_hasher.rt). A channel from 256 on
# is passed unchanged. If it equals the state, the state becomes 0, so the identifiers of all such channels collide.
MULTIPLIER = 0x9E3779B97F4A7C15
SEED = 0x243F6A8885A308D3
WRITTEN_AT_ONCE = 1 << 40
FOLLOWED = 1 << 63


def fold(state, number, length):
    product = (state ^ number) * (MULTIPLIER ^ 2 * length)
    return (product & GREATEST) ^ (product >> 64)


def alike_channel(identification):
    """Returns the channel for this identification that makes the stream identifier collide with all others made so."""
    state = SEED
    for waiting in (
        bytes([2, 0]),  # no tags
        bytes([2, 0]),  # the variant of IPv4
        bytes([2, 4, 192, 168, 1]),
        bytes([1, 1]),
        bytes([2, 4, 192, 168, 1]),
    ):
        state = fold(state, int.from_bytes(waiting, "big"), 8)
    state = fold(state, WRITTEN_AT_ONCE | int.from_bytes(bytes([1, 2]), "big") << 16 | identification, 8)
    return fold(state, int.from_bytes(bytes([1, 17]), "big") | FOLLOWED, 8)


def names(count, channel_of):
    """Yields the lines of `count` streams, identified by 16 bits and a channel: all begin, then each is completed."""
    for units, more, payload, answer in ((0, 1, EIGHT, "none"), (1, 0, "08090a0b0c0d0e0f", WHOLE)):
        for number in range(count):
            packet = fragment(units, more, payload, number & 0xFFFF)
            yield pool_line(packet, channel_of(number)), answer


def floods(options):
    """Yields the name of each flood, and its lines with their answers."""
    lines, streams = options.lines, options.streams
    long_frame = "0708090a0b0c0102030405061234" + "5a" * 65521
    long_line = (f"slice eth {long_frame}", "ok eth - - - " + "5a" * 65521)
    yield "1,000 frames", cycle([FRAME_LINE], 1000)
    yield f"{lines:,} frames", cycle([FRAME_LINE], lines)
    yield "1 frame of 65,535 bytes", [long_line]
    yield "1,000 frames of 65,535 bytes", cycle([long_line], 1000)
    longest = "5a" * 50_000_000
    yield "1 line of 100 MB that is sliced", [
        (f"slice eth 0708090a0b0c0102030405061234{longest}", "ok eth - - - " + longest)
    ]
    yield "1,000 lines that ask nothing", cycle([("slice eth 0g", "err line")], 1000)
    yield f"{lines:,} lines that ask nothing", cycle([("slice eth 0g", "err line")], lines)
    yield f"{10 * lines:,} empty lines", cycle([("", "err line")], 10 * lines)
    yield "100 MB without a line feed", None
    yield "1,000 first fragments, each of its own stream", first_fragments(range(1000))
    yield f"{streams:,} first fragments, each of its own stream", first_fragments(range(streams))
    yield "the same, and a drop of all", itertools.chain(first_fragments(range(streams)), [("drop 2", "ok")])
    yield "the same, and a new pool by a line that gives a limit", itertools.chain(
        first_fragments(range(streams)), [("drop 2", "ok"), ("limit 65535", "ok")]
    )
    yield f"the same, a drop of all, and {streams:,} others", itertools.chain(
        first_fragments(range(streams)), [("drop 2", "ok")], first_fragments(range(streams, 2 * streams))
    )
    begun = [(fragment(units, 1, "5a" * 64), "none") for units in (0, 8)]
    yield f"{streams:,} first fragments of 64 bytes, each of its own stream", (
        (pool_line(begun[0][0], channel), "none") for channel in range(streams)
    )
    yield f"{options.open:,} streams of two fragments of 64 bytes, all begun before one goes on", (
        (pool_line(packet, channel), answer) for packet, answer in begun for channel in range(options.open)
    )
    yield f"{options.open:,} streams of two fragments of 64 bytes, one after the other", (
        (pool_line(packet, channel), answer) for channel in range(options.open) for packet, answer in begun
    )
    yield f"{options.open:,} first fragments, each of its own stream", first_fragments(range(options.open))
    yield "the same, and 1,000 drops that keep all", itertools.chain(
        first_fragments(range(options.open)), itertools.repeat(("drop 0", "ok"), 1000)
    )
    far = fragment(8191, 1, "")
    yield "1,000 fragments without bytes at offset 8191, each of its own stream", (
        (pool_line(far, channel), "none") for channel in range(1000)
    )
    yield f"one fragment {lines:,} times", cycle([(pool_line(FIRST), "none")], lines)
    yield f"{lines:,} fragments without bytes, at every offset", cycle(
        [(pool_line(fragment(units, 1, "")), "none") for units in range(8192)], lines
    )
    yield f"{lines:,} fragments at offset 8191, with ends up to 65536", cycle(
        [
            (pool_line(fragment(8191, 0, "01020304050607")), "none"),
            (pool_line(fragment(8191, 0, EIGHT)), "err too-big 8191 8 65535"),
            (pool_line(fragment(8191, 1, EIGHT)), "err too-big 8191 8 65535"),
            (pool_line(fragment(8191, 1, "01020304050607")), "err unaligned 8191 7"),
            (pool_line(fragment(8191, 1, "")), "none"),
            (pool_line(fragment(8191, 0, "")), "err conflict 65535 65528"),
        ],
        lines,
    )
    yield f"{lines:,} final fragments of alternating ends", cycle(
        [
            (pool_line(fragment(2, 0, EIGHT)), "none"),
            (pool_line(fragment(3, 0, EIGHT)), "err conflict 24 32"),
            (pool_line(fragment(1, 0, EIGHT)), "err conflict 24 16"),
        ],
        lines,
    )
    yield f"{lines:,} lines, a drop after each first fragment", cycle(
        [(pool_line(FIRST), "none"), ("drop 2", "ok")], lines
    )
    yield f"{lines:,} fragments, each second one completes a payload", cycle(
        [(pool_line(FIRST), "none"), (pool_line(LAST), WHOLE)], lines
    )
    yield f"{options.open:,} streams that are all open, and then completed in turn", names(
        options.open, lambda number: number >> 16
    )
    count = options.names
    yield f"{count:,} streams with names in turn", names(count, lambda number: 0)
    yield f"{count:,} streams whose names hash alike", names(count, alike_channel)


def pieces(rows):
    """Yields the lines and their answers, in chunks of up to 4,096 lines."""
    while part := list(itertools.islice(rows, 4096)):
        yield tuple("".join(f"{text}\n" for text in texts).encode("ascii") for texts in zip(*part))


class Reading(threading.Thread):
    """Reads the output of a program, up to its end."""

    def __init__(self, source):
        super().__init__()
        self.source = source
        self.digest, self.length, self.lines = hashlib.sha256(), 0, 0
        self.start()

    def run(self):
        while part := self.source.read1(1 << 16):
            self.digest.update(part)
            self.lines += part.count(b"\n")
            self.length += len(part)


def sizes_of(process):
    """Returns the greatest and the current resident size of a running process, in MiB."""
    with open(f"/proc/{process}/status", encoding="ascii") as status:
        kilobytes = dict(line.split(":") for line in status if line.startswith(("VmHWM:", "VmRSS:")))
    return tuple(int(kilobytes[name].split()[0]) / 1024 for name in ("VmHWM", "VmRSS"))


def measure(program, rows):
    """Returns the number of answers, whether they are right, the processor seconds, and the sizes in MiB."""
    run = subprocess.Popen([program], stdin=subprocess.PIPE, stdout=subprocess.PIPE)
    reading = Reading(run.stdout)
    wanted, length = hashlib.sha256(), 0
    given = ((b"a" * 1_000_000, b"") for _ in range(100)) if rows is None else pieces(iter(rows))
    for part, answers in given:
        wanted.update(answers)
        length += len(answers)
        run.stdin.write(part)
    run.stdin.flush()
    while reading.length < length and run.poll() is None:
        time.sleep(0.01)
    if rows is None:
        # The line is answered only at the end of the input: wait until all of it is read.
        time.sleep(1)
        wanted.update(b"err line\n")
    sizes = sizes_of(run.pid)
    run.stdin.close()
    reading.join()
    _, status, usage = os.wait4(run.pid, 0)
    is_right = status == 0 and reading.digest.digest() == wanted.digest()
    return reading.lines, is_right, usage.ru_utime + usage.ru_stime, sizes


def main():
    parser = argparse.ArgumentParser(description=__doc__, formatter_class=argparse.RawDescriptionHelpFormatter)
    parser.add_argument("program")
    parser.add_argument("--streams", type=int, default=1_000_000)
    parser.add_argument("--lines", type=int, default=1_000_000)
    parser.add_argument("--open", type=int, default=100_000)
    parser.add_argument("--names", type=int, default=10_000)
    parser.add_argument("--only", default="")
    options = parser.parse_args()
    all_right = True
    print("| Input | Answers | Processor seconds | Greatest resident size, MiB | At the end, MiB |")
    print("|---|---|---|---|---|")
    for name, rows in floods(options):
        if options.only not in name:
            continue
        lines, is_right, seconds, (greatest, last) = measure(options.program, rows)
        all_right &= is_right
        answers = f"{lines:,}{'' if is_right else ' WRONG'}"
        print(f"| {name} | {answers} | {seconds:.2f} | {greatest:.1f} | {last:.1f} |", flush=True)
    return 0 if all_right else 1


if __name__ == "__main__":
    sys.exit(main())
