#!/usr/bin/env python3
"""Measures what an item takes in time, beside C: python3 compare/times.py PROGRAM FOLDER [MEASUREMENT..]

PROGRAM is out/slice_bench, and FOLDER has the corpora that corpora.py wrote. walk.c, build.c and appends.c beside this
file are built with gcc -O2. Prints, as rows of tables, in nanoseconds of processor time an item, each the least of
several runs on one processor:

- of each corpus each measurement of frames, and the walk in C, which run by turns;
- of building a frame, and the same by hand in C;
- of each reassembled fragment, what some rounds take less what one takes, so that reading the file is not in
  it, and the same by hand in C.

With measurements of frames as further arguments, prints those alone, of each corpus, by turns in more and shorter runs.
With the argument `filtering`, prints of each measured filter the time for a packet of `mix`, which was sliced before, and
that of libpcap's interpreter by turns (../packet_filter/compare/bpf.c, which needs libpcap-dev), and their ratio.
"""
import os
import re
import subprocess
import sys
import tempfile

HERE = os.path.dirname(os.path.abspath(__file__))
# Number of runs of commands that take a second, and of shorter ones.
REPEATS = 5
SHORT_REPEATS = 20
# Number of turns of the measurements that are given, and of rounds in each run.
TURNS, TURN_ROUNDS = 100, 400
FRAMES = ["udp64", "udp1400", "vlan2", "mix"]
MEASUREMENTS = ["slicing", "slicing-apart", "filling", "lax-filling", "decoding", "rereading", "ipv4-slice", "ip-headers"]
BUILDING = ["building", "building-from-addresses"]
# The expressions of the measurements of filters.
FILTERS = {
    "filtering-port": "port 53",
    "filtering-host": "host 192.168.1.1",
    "filtering-net": "net 192.168.0.0/16",
    "filtering-terms": "tcp port 443 or udp port 53 or icmp or arp or host 10.0.0.1 or vlan",
    "filtering-flags": "tcp[tcpflags] & (tcp-syn|tcp-fin) != 0",
    "filtering-hosts": " or ".join(f"host 10.9.{at}.{at + 1}" for at in range(100)),
}
# Corpora of fragments, with the number of rounds besides the first.
FRAGMENTS = dict.fromkeys(["streams", "interleaved", "queue", "crowd"], 5)
FRAGMENTS |= dict.fromkeys(["ascending", "descending", "shuffled", "alternating"], 60)


def ran(*command):
    """The processor time that a command takes, in seconds, and its output."""
    with subprocess.Popen([str(word) for word in command], stdout=subprocess.PIPE, text=True) as process:
        printed = process.stdout.read()
        _, status, used = os.wait4(process.pid, 0)
        process.returncode = os.waitstatus_to_exitcode(status)
    if process.returncode:
        sys.exit(f"times.py: {' '.join(map(str, command))} ended with status {process.returncode}")
    return used.ru_utime + used.ru_stime, printed


def least_of_each(*commands, turns=SHORT_REPEATS):
    """The least number of each command that its pattern, the first element, finds in the outputs of short runs. The
    commands run by turns, each second turn backwards, so that a busy time of the machine falls on all of them."""
    found = [[] for _ in commands]
    for turn in range(turns):
        for numbers, (pattern, *command) in list(zip(found, commands))[:: -1 if turn % 2 else 1]:
            numbers.append(float(re.search(pattern, ran(*command)[1])[1]))
    return [min(numbers) for numbers in found]


def least(pattern, *command):
    """The least number that the pattern finds in the outputs of short runs of a command."""
    return least_of_each((pattern, *command))[0]


def rounds_beyond_one(rounds, items, command):
    """The nanoseconds per item of the rounds after the first: the least of several runs."""
    def once(number):
        return min(ran(*command(number))[0] for _ in range(REPEATS))

    return (once(rounds + 1) - once(1)) / rounds / items * 1e9


def row(name, values, digits=1):
    print(f"| {name} | " + " | ".join(f"{value:.{digits}f}" for value in values) + " |", flush=True)


def heading(*names):
    print("\n| " + " | ".join(names) + " |\n" + "|---" * len(names) + "|", flush=True)


def build_by_hand(folder):
    """Compiles the C programs."""
    for name in ["walk", "build", "appends"]:
        subprocess.run(["gcc", "-O2", f"{HERE}/{name}.c", "-o", f"{folder}/{name}"], check=True)


def of_frames(program, file, rounds, names):
    """The commands of measurements of frames, each after the pattern of its time."""
    return [(rf"{name} +\d+ +\d+ +([\d.]+)", program, file, rounds, name) for name in names]


def filters(program, folder):
    with tempfile.TemporaryDirectory() as made:
        source = os.path.join(HERE, "..", "..", "packet_filter", "compare", "bpf.c")
        subprocess.run(["gcc", "-O2", source, "-o", f"{made}/bpf", "-lpcap"], check=True)
        heading("Filter", "`slice_bench`", "`bpf_filter`", "Ratio")
        for name, expression in FILTERS.items():
            here, by_pcap = least_of_each(
                *of_frames(program, f"{folder}/mix", TURN_ROUNDS, [name]),
                (r"([\d.]+) ns", f"{made}/bpf", f"{folder}/mix", expression, TURN_ROUNDS),
                turns=TURNS,
            )
            print(f"| `{name}` | {here:.1f} | {by_pcap:.1f} | {here / by_pcap:.2f} |", flush=True)


def main(program, folder, *names):
    os.sched_setaffinity(0, {max(os.sched_getaffinity(0))})
    if names == ("filtering",):
        filters(program, folder)
        return
    if names:
        heading("Corpus", *(f"`{name}`" for name in names))
        for corpus in FRAMES:
            commands = of_frames(program, f"{folder}/{corpus}", TURN_ROUNDS, names)
            row(f"`{corpus}`", least_of_each(*commands, turns=TURNS))
        return
    with tempfile.TemporaryDirectory() as made:
        build_by_hand(made)

        heading("Corpus", *(f"`{name}`" for name in MEASUREMENTS), "walk in C")
        for corpus in FRAMES:
            file = f"{folder}/{corpus}"
            commands = [*of_frames(program, file, 1000, MEASUREMENTS), (r"([\d.]+) ns", f"{made}/walk", file, 1000)]
            row(f"`{corpus}`", least_of_each(*commands))

        heading("Frame", *(f"`{name}`" for name in BUILDING), "by hand in C")
        for corpus, size in [("udp64", 64), ("udp1400", 1400)]:
            file = f"{folder}/{corpus}"
            means = [least(rf"{name} +\d+ +\d+ +([\d.]+)", program, file, 60, name) for name in BUILDING]
            row(f"`{corpus}`", [*means, least(r"([\d.]+) ns", f"{made}/build", size, 200_000)], 0)

        heading("", *(f"`{corpus}`" for corpus in FRAGMENTS))
        here, by_hand = [], []
        for corpus, rounds in FRAGMENTS.items():
            file = f"{folder}/{corpus}"
            items = int(re.search(r"reassembly +(\d+)", ran(program, file, 1, "reassembly")[1])[1])
            here.append(rounds_beyond_one(rounds, items, lambda number: [program, file, number, "reassembly"]))
            command = [f"{made}/appends", file, rounds]
            by_hand.append(min(float(re.search(r"([\d.]+) ns", ran(*command)[1])[1]) for _ in range(REPEATS)))
        row("`slice_bench`", here, 0)
        row("by hand in C", by_hand, 0)


if __name__ == "__main__":
    if len(sys.argv) < 3 or not (set(sys.argv[3:]) <= set(MEASUREMENTS) or sys.argv[3:] == ["filtering"]):
        sys.exit(__doc__)
    main(*sys.argv[1:])
