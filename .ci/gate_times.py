#!/usr/bin/env python3
"""Runs a command, and prints what the prover took for each crate: .ci/gate_times.py .ci/run

Looks every second at the processes of the prover that the command starts. Prints a line for each crate: processor
seconds of its proofs (and of the programs built from them), of the proof with its tests, and of its edits that must
fail, with the proofs before the first edit and after the last one. The last lines have the sums, and how many times the
proofs the others take. The status is the command's.
"""
import collections
import os
import subprocess
import sys
import time

TICKS = os.sysconf("SC_CLK_TCK")
KINDS = ("proof", "tests", "edits")


def text_of(path):
    """The text of a file of /proc, or nothing if the process has ended."""
    try:
        with open(path, encoding="utf-8", errors="replace") as file:
            return file.read()
    except OSError:
        return ""


def fields_of(process):
    """The fields of a process's `stat` after its name, or nothing."""
    return text_of(f"/proc/{process}/stat").rpartition(")")[2].split()


def starts(ancestor, process):
    """Whether a process starts another one, or a process that does."""
    while process not in ("", "0", ancestor):
        process = "".join(fields_of(process)[1:2])
    return process == ancestor


def processes(command):
    """The prover's processes that a process starts: the number and start of each, its words, its folder, and its
    processor seconds."""
    running = {}
    for process in filter(str.isdigit, os.listdir("/proc")):
        words = text_of(f"/proc/{process}/cmdline").split("\0")
        if os.path.basename(words[0]) == "rattle" and "--crate-name" in words and starts(command, process):
            running[process] = words
    for process, words in running.items():
        fields = fields_of(process)
        # A copy that the prover makes of itself is counted with the first one.
        if fields and fields[1] not in running:
            try:
                folder = os.readlink(f"/proc/{process}/cwd")
            except OSError:
                continue
            yield (process, fields[19]), words, folder, sum(map(int, fields[11:15])) / TICKS


def kind_of(words, folder):
    """What a process of the prover is for."""
    if "/rt-edit-" in folder:
        return "edits"
    return "tests" if "--test" in words else "proof"


def sampled(command):
    """The processor seconds of each crate and kind while the command runs, and its status."""
    seen = {}
    job = subprocess.Popen(command)
    while job.poll() is None:
        for key, words, folder, seconds in processes(str(job.pid)):
            crate = words[words.index("--crate-name") + 1]
            seen[key] = crate, kind_of(words, folder), seconds
        time.sleep(1)
    sums = collections.defaultdict(lambda: dict.fromkeys(KINDS, 0.0))
    for crate, kind, seconds in seen.values():
        sums[crate][kind] += seconds
    return sums, job.returncode


def main():
    if len(sys.argv) < 2:
        sys.exit(__doc__.split("\n")[0])
    sums, status = sampled(sys.argv[1:])
    print(f"{'processor seconds':<20}" + "".join(f"{kind:>8}" for kind in KINDS))
    for crate, taken in sorted(sums.items()):
        print(f"{crate:<20}" + "".join(f"{taken[kind]:8.0f}" for kind in KINDS))
    total = {kind: sum(taken[kind] for taken in sums.values()) for kind in KINDS}
    print(f"{'all':<20}" + "".join(f"{total[kind]:8.0f}" for kind in KINDS))
    if total["proof"]:
        print(f"{'times the proofs':<20}" + "".join(f"{total[kind] / total['proof']:8.2f}" for kind in KINDS))
    return status


sys.exit(main())
