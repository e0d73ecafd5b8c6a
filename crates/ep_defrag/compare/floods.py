#!/usr/bin/env python3
"""Floods of fragments to a bounded pool with its default limits: compare/floods.py PROGRAM

    python3 compare/floods.py ../bounded_bench/out/bounded_bench [--flood 1000000] [--turns 3] [--only WORD]

PROGRAM is `bounded_bench`, which answers a line for each fragment. In a flood each fragment has a stream of its own. Among
them are the fragments of 1,000 honest streams, evenly distributed: four of 64 bytes each, some streams at a time. Prints a
row for each flood: the fragments; the nanoseconds of processor time of each, without what a packet takes that is no
fragment, and how many times that of a first fragment in a pool that evicts none; the honest streams that are completed;
the greatest resident size, and how many times `DefragLimits::memory` it is. The status is 1 if a payload is wrong, or
another number of honest streams is completed than the limits allow.
"""
import argparse
import itertools
import os
import pathlib
import random
import subprocess
import sys
import tempfile
import time

sys.dont_write_bytecode = True
sys.path.insert(0, str(pathlib.Path(__file__).resolve().parents[2] / "frame_bench" / "compare"))
import floods  # that of frame_bench, whose folder is first on the path

STREAMS, BYTES, NAME_MEMORY = 4096, 32 << 20, 512
MEMORY = BYTES + STREAMS * NAME_MEMORY
HONEST, PARTS = 1000, 4
# First channel of the honest streams; those of a flood are below.
HONEST_CHANNELS = 1 << 40
PAYLOADS = [bytes((64 * part + place) % 251 for place in range(64)).hex() for part in range(PARTS)]
HONEST_PACKETS = [floods.fragment(8 * part, int(part + 1 < PARTS), text) for part, text in enumerate(PAYLOADS)]
WHOLE = f"payload 17 {''.join(PAYLOADS)}"
# A UDP datagram of 56 bytes that is not fragmented, as long as a fragment of 64 bytes.
UNFRAGMENTED = floods.fragment(0, 0, "000100020040" + "5a" * 58)
FIRST = floods.fragment(0, 1, "5a" * 64)
FAR = floods.fragment(8191, 1, "")
# Memory of a stream of the fragment FAR, and of an honest stream of three fragments: its bytes, and four ranges.
FAR_MEMORY, HONEST_MEMORY = 65528 + 16, 256 + 16


def lines_of(packet, channels):
    return (floods.pool_line(packet, channel) for channel in channels)


def among(flood, width):
    """Yields the lines of the honest streams, `width` of them open at a time, among those of a flood."""
    gap = len(flood) // (HONEST * PARTS)
    rest = iter(flood)
    for begin in range(0, HONEST, width):
        for packet in HONEST_PACKETS:
            for stream in range(begin, min(begin + width, HONEST)):
                yield floods.pool_line(packet, HONEST_CHANNELS + stream)
                yield from itertools.islice(rest, gap)
    yield from rest


def random_offsets(count):
    chance = random.Random(1)
    packets = [floods.fragment(chance.randrange(8192), 1, "") for _ in range(1000)]
    return [floods.pool_line(chance.choice(packets), channel) for channel in range(count)]


def names(count, channel_of):
    """Lines of streams that all begin, and are then completed: pairs of identification and channel name them."""
    return [line for line, _ in floods.names(count, channel_of)]


def rows(count):
    """Yields the name of each flood, its lines, and the number of payloads that the limits allow."""
    yield "packets that are not fragmented", lines_of(UNFRAGMENTED, range(count)), 0
    firsts = list(lines_of(FIRST, range(4000)))
    yield "first fragments of 64 bytes, 4,000 at a time", itertools.chain(
        *itertools.repeat([*firsts, "clear"], count // 4000)
    ), 0
    yield "honest streams alone", among([], 1), HONEST
    gap = count // (HONEST * PARTS)
    for name, packet, most in (
        ("new streams of 64 bytes", FIRST, STREAMS // (gap + 1)),
        ("new streams without bytes at offset 65,528", FAR, BYTES // (gap * FAR_MEMORY + HONEST_MEMORY)),
    ):
        # One more at a time, and only the last ones, which are fewer, are completed.
        for width, complete in ((1, HONEST), (most, HONEST), (most + 1, HONEST % (most + 1))):
            yield f"{name}, {width} honest at a time", among(list(lines_of(packet, range(count))), width), complete
    yield "new streams without bytes at random offsets, 1 honest at a time", among(random_offsets(count), 1), HONEST
    for name, channel_of in (
        ("4,000 streams whose keys collide under a fixed seed", floods.alike_channel),
        ("4,000 streams whose channels differ from these in one bit", lambda number: floods.alike_channel(number) ^ 1),
    ):
        begun = names(4000, channel_of)
        yield f"{name}, again and again", itertools.chain(*itertools.repeat(begun, count // 8000)), count // 8000 * 4000


def measure(program, path, turns):
    """Returns the least processor seconds of some runs on the lines of a file, the greatest resident size in MiB, and how
    often each answer came."""
    seconds, size, counts = [], 0, {}
    for _ in range(turns):
        with open(path, "rb") as lines, tempfile.TemporaryFile() as output:
            process = subprocess.Popen([program], stdin=lines, stdout=output)
            # It is watched as long as it runs: a process has no size when it has ended.
            while not os.waitid(os.P_PID, process.pid, os.WEXITED | os.WNOHANG | os.WNOWAIT):
                try:
                    size = max(size, floods.sizes_of(process.pid)[0])
                except (KeyError, OSError):
                    pass
                time.sleep(0.01)
            _, status, usage = os.wait4(process.pid, 0)
            process.returncode = os.waitstatus_to_exitcode(status)
            if process.returncode:
                sys.exit(f"{program} ended with status {process.returncode}")
            seconds.append(usage.ru_utime + usage.ru_stime)
            output.seek(0)
            counts = {}
            for line in output:
                counts[line] = counts.get(line, 0) + 1
    return min(seconds), size, counts


def main():
    parser = argparse.ArgumentParser(description=__doc__, formatter_class=argparse.RawDescriptionHelpFormatter)
    parser.add_argument("program")
    parser.add_argument("--flood", type=int, default=1_000_000)
    parser.add_argument("--turns", type=int, default=3)
    parser.add_argument("--only", default="")
    options = parser.parse_args()
    is_right, base, first = True, 0, 0
    print("| Input | Fragments | ns a fragment | times a first one | Completed | Resident size, MiB | times the limit |")
    print("|---|---|---|---|---|---|---|")
    with tempfile.TemporaryDirectory() as folder:
        path = os.path.join(folder, "lines")
        for place, (name, lines, complete) in enumerate(rows(options.flood)):
            if place > 1 and options.only not in name:
                continue
            count = 0
            with open(path, "w", encoding="ascii") as file:
                for line in lines:
                    file.write(line + "\n")
                    count += line.startswith("frag")
            seconds, size, counts = measure(options.program, path, options.turns)
            wholes = (WHOLE, floods.WHOLE)
            completed = sum(number for line, number in counts.items() if line.decode().rstrip("\n") in wholes)
            others = {line for line in counts if line.startswith((b"payload", b"err"))}
            is_row_right = completed == complete and len(others) <= 1
            is_right &= is_row_right
            taken = seconds / count * 1e9 - base
            base, first = (taken, first) if place == 0 else (base, taken if place == 1 else first)
            times = f"{taken / first:.2f}" if first else "-"
            print(
                f"| {name} | {count:,} | {taken:.0f} | {times} | {completed:,}{'' if is_row_right else ' WRONG'} "
                f"| {size:.1f} | {size * 2**20 / MEMORY:.2f} |",
                flush=True,
            )
    return 0 if is_right else 1


if __name__ == "__main__":
    sys.exit(main())
