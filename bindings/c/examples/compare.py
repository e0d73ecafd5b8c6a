#!/usr/bin/env python3
"""Measures what a frame takes through the C interface beside others: python3 compare.py FOLDER [ROUNDS]

FOLDER has the corpora that crates/slice_bench/corpora.py writes. Builds compare.cc in the folder of this file with
libtins and libpcap, if installed, and bindings/rust/etherparse-c/examples/compare.rs, if cargo is installed, with the
archive of crates/etherparse_c.
Prints for each corpus and each way to read a frame

- instructions for each frame: those that callgrind counts for three rounds minus those of one round, divided by 2 and
  by the number of frames: this excludes the start and the reading of the file, but includes the loop over the frames;
- nanoseconds for each frame, of the fastest of ROUNDS (500) rounds, those of C in turns in one process, those of Rust
  in another;

and both as multiples of the walk by hand. With 0 rounds there are no times.
"""
import pathlib
import re
import subprocess
import sys
import tempfile

HERE = pathlib.Path(__file__).resolve().parent
TOP = HERE.parent.parent.parent
ARCHIVE = TOP / "crates/etherparse_c/out/libetherparse_c.a"
CORPORA = ["udp64", "udp1400", "vlan2", "mix"]


def output(*words):
    """Returns the output of a command on stdout and stderr; exits if the command fails."""
    ran = subprocess.run([str(word) for word in words], stdout=subprocess.PIPE, stderr=subprocess.STDOUT, text=True)
    if ran.returncode:
        sys.exit(f"compare.py: {' '.join(map(str, words))} failed\n{ran.stdout}")
    return ran.stdout


def is_there(*words, given=None):
    """Returns whether a command can be run and succeeds."""
    try:
        return subprocess.run(words, input=given, capture_output=True, text=True).returncode == 0
    except FileNotFoundError:
        return False


def built(folder):
    """Builds the program in C++ and, if cargo is installed, the program in Rust, and returns their paths."""
    walk, heap, program = folder / "walk.o", folder / "heap.o", folder / "compare"
    output("gcc", "-O2", "-Dmain=walk_main", "-c", TOP / "crates/slice_bench/compare/walk.c", "-o", walk)
    output("gcc", "-O2", "-c", TOP / "bindings/c/etherparse_heap.c", "-o", heap)
    words = ["g++", "-std=c++17", "-O2", HERE / "compare.cc", walk, heap, ARCHIVE, "-o", program]
    for header, flags in [("tins/tins.h", ["-DWITH_TINS", "-ltins"]), ("pcap.h", ["-DWITH_PCAP", "-lpcap"])]:
        if is_there("g++", "-E", "-x", "c++", "-", given=f"#include <{header}>\n"):
            words += flags
        else:
            print(f"compare.py: no {header}, so it is left out", file=sys.stderr)
    output(*words)
    if not is_there("cargo", "--version"):
        print("compare.py: no cargo, so the wrapper in Rust is left out", file=sys.stderr)
        return [program]
    output("cargo", "build", "--release", "--offline", "--example", "compare", "--target-dir", folder / "target",
           "--manifest-path", TOP / "bindings/rust/Cargo.toml")
    return [program, folder / "target/release/examples/compare"]


def times(program, corpus, rounds):
    """Returns the nanoseconds for each frame of each column of a program, by its name."""
    rows = re.findall(r"^(\w+) +([\d.]+) ns", output(program, corpus, rounds), re.MULTILINE)
    return {name: float(ns) for name, ns in rows}


def instructions(program, corpus, name):
    """Returns the instructions for each frame of one column."""
    def counted(rounds):
        told = output("valgrind", "--tool=callgrind", "--callgrind-out-file=/dev/null", program, corpus, rounds, name)
        return int(re.search(r"Collected : (\d+)", told)[1]), int(re.search(r"^(\d+) frames", told, re.MULTILINE)[1])

    (three, frames), (one, _) = counted(3), counted(1)
    return (three - one) / 2 / frames


def main():
    if len(sys.argv) not in (2, 3):
        sys.exit(__doc__.split("\n")[0])
    corpora, rounds = pathlib.Path(sys.argv[1]), int(sys.argv[2]) if len(sys.argv) == 3 else 500
    if not ARCHIVE.exists():
        sys.exit(f"compare.py: no {ARCHIVE}: run 'rt lib' in crates/etherparse_c first")
    counts = is_there("valgrind", "--version")
    if not counts:
        print("compare.py: no valgrind, so no instructions are counted", file=sys.stderr)
    with tempfile.TemporaryDirectory() as folder:
        programs = built(pathlib.Path(folder))
        for corpus in CORPORA:
            first = None
            for program in programs:
                # one round is enough for the names of the columns, if no times are wanted
                for name, ns in times(program, corpora / corpus, max(rounds, 1)).items():
                    count = instructions(program, corpora / corpus, name) if counts else float("nan")
                    first = first or (count, ns)
                    told = f"{corpus:8} {name:20} {count:9.0f} instructions {count / first[0]:6.2f}"
                    print(told + (f" {ns:8.1f} ns {ns / first[1]:6.2f}" if rounds else ""), flush=True)


main()
