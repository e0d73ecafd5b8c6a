#!/usr/bin/env python3
"""Counts the instructions that an item takes, beside C: python3 compare/count.py PROGRAM FOLDER [TABLE]

PROGRAM is out/slice_bench, and FOLDER has the corpora that corpora.py wrote. walk.c, build.c and appends.c beside this
file are built with gcc -O2. A count is what valgrind's callgrind counts of some rounds less what it counts of one, by
the rounds and the items. Prints the tables of docs/SPEED.md, or the one that is named:

- frames: of each corpus each measurement of frames, and the walk in C;
- building: what building a frame takes;
- fragments: what reassembly takes for each fragment, and the same by hand in C;
- beside: what the library is measured by, beside C by hand in the same run, and beside what the Rust crate took where
  both could be measured. Times are in it too, as times.py takes them, memory, what building takes through the
  interface for C, and a drop, where etherparse_c and frame_bench are built.
"""
import os
import re
import subprocess
import sys
import tempfile

sys.dont_write_bytecode = True
import times

TOP = os.path.abspath(f"{times.HERE}/../../..")
ARCHIVE = f"{TOP}/crates/etherparse_c/out/libetherparse_c.a"
FRAME_BENCH = f"{TOP}/crates/frame_bench/out/frame_bench"
# Corpora whose frames are built from addresses: without tags, with one and with two.
BUILT = ["udp64", "udp1400", "vlan1", "vlan2", "tcp64", "udp64ipv6", "raw64", "mix"]
# Number of streams that are open at once, with one fragment of 64 bytes each, and with two.
OPEN, OPEN_OF_TWO = 1_000_000, 100_000


def collected(command):
    """The instructions of a run, and its output."""
    callgrind = ["valgrind", "--tool=callgrind", "--callgrind-out-file=/dev/null"]
    run = subprocess.run(callgrind + command, capture_output=True, text=True, check=True)
    return int(re.search(r"Collected : (\d+)", run.stderr)[1]), run.stdout


def an_item(command, tail, items, rounds=3):
    """The instructions per item; the pattern finds the number of items in the output."""
    (once, _), (more, printed) = (collected([*command, str(number), *tail]) for number in (1, rounds))
    return round((more - once) / (rounds - 1) / int(re.search(items, printed)[1]))


def measured(program, file, name, rounds=3):
    """The instructions per item of a measurement."""
    return an_item([program, file], [name], rf"{name} +(\d+)", rounds)


def built(program, size):
    """The instructions per frame of a C program that builds frames with `size` bytes of payload."""
    (less, _), (more, _) = (collected([program, str(size), str(number)]) for number in (1000, 3000))
    return round((more - less) / 2000)


def frames(program, made, folder):
    times.heading("Corpus", *(f"`{name}`" for name in times.MEASUREMENTS), "walk in C")
    for corpus in times.FRAMES:
        file = f"{folder}/{corpus}"
        counts = [measured(program, file, name) for name in times.MEASUREMENTS]
        counts.append(an_item([f"{made}/walk", file], [], r"(\d+) frames"))
        print(f"| `{corpus}` | " + " | ".join(f"{count:,}" for count in counts) + " |", flush=True)


def building(program, made, folder):
    times.heading("Corpus", *(f"`{name}`" for name in times.BUILDING))
    for corpus in BUILT:
        counts = [measured(program, f"{folder}/{corpus}", name) for name in times.BUILDING]
        print(f"| `{corpus}` | " + " | ".join(f"{count:,}" for count in counts) + " |", flush=True)
    print(f"\nby hand in C: {built(f'{made}/build', 64):,}; of 1,400 bytes {built(f'{made}/build', 1400):,}")


def fragment_counts(program, made, corpus):
    """The instructions per fragment, here and by hand in C: those of two rounds less those of one."""
    return measured(program, corpus, "reassembly", 2), an_item([f"{made}/appends", corpus], [], r"(\d+) frames", 2)


def fragments(program, made, folder):
    times.heading("", *(f"`{corpus}`" for corpus in times.FRAGMENTS))
    counts = [fragment_counts(program, made, f"{folder}/{corpus}") for corpus in times.FRAGMENTS]
    for name, column in [("`slice_bench`", 0), ("by hand in C", 1)]:
        print(f"| {name} | " + " | ".join(f"{count[column]:,}" for count in counts) + " |", flush=True)


def floods_of_lines():
    """The module that floods frame_bench with lines."""
    sys.path.insert(0, f"{TOP}/crates/frame_bench/compare")
    import floods

    return floods


def memory_of_streams():
    """The bytes of memory that frame_bench uses for an open stream: with one fragment of 64 bytes; with two, one stream
    after the other; with two, all streams begun before any continues. The memory that the same number of fragments of a
    single stream uses is subtracted."""
    floods = floods_of_lines()
    one, two = (floods.fragment(units, 1, "5a" * 64) for units in (0, 8))

    def resident(packets):
        rows = ((floods.pool_line(packet, channel), "none") for packet, channel in packets)
        _, is_right, _, (_, last) = floods.measure(FRAME_BENCH, rows)
        if not is_right:
            sys.exit("count.py: frame_bench answered a fragment wrongly")
        return last * 2**20

    alone = resident([(one, 0)] * OPEN)
    first = resident((one, stream) for stream in range(OPEN))
    in_turn = resident((packet, stream) for stream in range(OPEN_OF_TWO) for packet in (one, two))
    at_once = resident((packet, stream) for packet in (one, two) for stream in range(OPEN_OF_TWO))
    return [(first - alone) / OPEN, (in_turn - alone) / OPEN_OF_TWO, (at_once - alone) / OPEN_OF_TWO]


def drop_of_none():
    """The microseconds that a drop takes if all of 100,000 open streams are kept."""
    floods = floods_of_lines()
    streams, drops = list(floods.first_fragments(range(100_000))), [("drop 0", "ok")] * 1000
    seconds = [min(floods.measure(FRAME_BENCH, rows)[2] for _ in range(3)) for rows in (streams, streams + drops)]
    return (seconds[1] - seconds[0]) / len(drops) * 1e6


def fragments_in_time(program, made, corpus, rounds):
    """The nanoseconds per fragment, here and by hand in C."""
    items = int(re.search(r"reassembly +(\d+)", times.ran(program, corpus, 1, "reassembly")[1])[1])
    here = times.rounds_beyond_one(rounds, items, lambda number: [program, corpus, number, "reassembly"])
    by_hand = [times.ran(f"{made}/appends", corpus, rounds)[1] for _ in range(times.REPEATS)]
    return here, min(float(re.search(r"([\d.]+) ns", printed)[1]) for printed in by_hand)


def beside(program, made, folder):
    def row(name, here, by_hand, crate, unit=""):
        """Prints a row: the costs here, the cost by hand in C, if measured, and the ratios."""
        numbers = "; ".join(f"{number:,.0f}" for number in here) + unit
        ratios = "; ".join(f"{number / by_hand:.1f}" for number in here) if by_hand else ""
        print(f"| {name} | {numbers} | {f'{by_hand:,.0f}{unit}' if by_hand else ''} | {ratios} | {crate} |", flush=True)

    os.sched_setaffinity(0, {max(os.sched_getaffinity(0))})
    times.heading("", "Here", "By hand in C", "Ratio", "The Rust crate")
    by_hand = built(f"{made}/build", 64)
    here = [measured(program, f"{folder}/{corpus}", times.BUILDING[1]) for corpus in ("udp64", "tcp64", "udp64ipv6")]
    row("build UDP over IPv4, TCP over IPv4, UDP over IPv6", here, by_hand, "954; 1,406; 1,811 (1.8; 2.6; 3.4)")
    file = f"{folder}/udp64"
    row("UDP over IPv4: `size`, then `write`", [measured(program, file, "building-with-size")], by_hand, "1,158 (2.1)")
    if os.path.exists(ARCHIVE):
        here = built(f"{made}/build_by_etherparse", 22)
        row("`etherparse_build_udp`, 22 bytes", [here], built(f"{made}/build", 22), "")
    names = times.MEASUREMENTS[:3]
    walk = an_item([f"{made}/walk", file], [], r"(\d+) frames")
    row(", ".join(f"`{name}`" for name in names), [measured(program, file, name) for name in names], walk, "249 (2.0)")
    names = ["decoding", "rereading"]
    walk = times.least(r"([\d.]+) ns", f"{made}/walk", file, 1000)
    here = [times.least(rf"{name} +\d+ +\d+ +([\d.]+)", program, file, 1000, name) for name in names]
    row(", ".join(f"`{name}`" for name in names), here, walk, "1.4; 2.2 times as long as here", " ns")
    for name, corpus, crate in [
        ("of one stream", "ascending", "1.8 times as many as here"),
        ("of 1,000 streams in turn", "interleaved", "1.7 times as many as here (100 streams)"),
    ]:
        here, by_hand = fragment_counts(program, made, f"{folder}/{corpus}")
        row(f"a fragment {name}", [here], by_hand, crate)
    here, by_hand = fragments_in_time(program, made, f"{folder}/crowd", 5)
    row("a fragment of 100,000 streams in turn", [here], by_hand, "slower than here", " ns")
    if os.path.exists(FRAME_BENCH):
        name = "memory of an open stream: one fragment of 64 bytes; two; two, all begun before one goes on"
        row(name, memory_of_streams(), None, "567; 351 bytes", " bytes")
        row("a drop that keeps all of 100,000 streams", [drop_of_none()], None, "", " µs")


def main(program, folder, only=None):
    tables = [table for table in (frames, building, fragments, beside) if only in (None, table.__name__)]
    if not tables:
        sys.exit(__doc__)
    with tempfile.TemporaryDirectory() as made:
        times.build_by_hand(made)
        if os.path.exists(ARCHIVE):
            c = f"{TOP}/bindings/c"
            sources = [f"{times.HERE}/build.c", f"{c}/etherparse_heap.c", ARCHIVE, "-o", f"{made}/build_by_etherparse"]
            subprocess.run(["gcc", "-O2", "-DBY_ETHERPARSE", f"-I{c}", *sources], check=True)
        for table in tables:
            table(os.path.abspath(program), made, folder)


if __name__ == "__main__":
    if len(sys.argv) not in (3, 4):
        sys.exit(__doc__)
    main(*sys.argv[1:])
