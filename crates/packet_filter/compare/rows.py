#!/usr/bin/env python3
"""Compares rows written by hand with packet_dump and with the second reader: rows.py PROGRAM

Reads rows.txt: texts and their filter in its canonical form, texts and their error, texts and their filter without
redundant parentheses, and frames with the texts that match them. Prints each difference, and how many rows there are; the
status is 1 if a row differs.
"""
import os
import re
import subprocess
import sys
import tempfile

sys.dont_write_bytecode = True
HERE = os.path.dirname(os.path.abspath(__file__))
sys.path.insert(0, HERE)
import filters  # noqa: E402
import second_reader  # noqa: E402


# Number of the link type of a frame.
LINK_TYPES = {"ethernet": 1, "sll": 113, "ip": 101}


def spelled(text):
    """A text of rows.txt, with its parentheses."""
    deep = re.fullmatch(r"\{deep (\d+)\}(.*)", text)
    return "(" * int(deep[1]) + deep[2] + ")" * int(deep[1]) if deep else text


def run(*words):
    done = subprocess.run(words, capture_output=True, check=False)
    return done.returncode, done.stdout.decode(), done.stderr.decode().splitlines()


def explained(program, text):
    """Returns status, output and error lines of the program for `--explain`."""
    return run(program, "--explain", text)


def faults_of_text(program, kind, wanted, text):
    """The faults of a row about a text."""
    found = explained(program, text)
    try:
        tree, error = second_reader.parse(text.encode()), None
    except second_reader.FilterError as refused:
        tree, error = None, refused
    if kind == "!":
        name, start = wanted.split()
        if error is None or error.args[:2] != (name, int(start)):
            return ["the second reader"]
        return [] if found == (2, "", error.lines(text, reads=False)) else ["the program"]
    if error is not None or found[0] != 0:
        return ["an error"]
    whole, printed = second_reader.canonical(tree), second_reader.printed(tree)
    right = wanted == (printed if kind == ">" else whole) and second_reader.parse(wanted.encode()) == tree
    same = found[1].split("\n")[0] == whole and found == explained(program, wanted) == explained(program, printed)
    return ([] if right else ["the second reader"]) + ([] if same else ["the program"])


def faults_of_packet(program, path, packet, wanted, text):
    """The faults of a row about a packet."""
    printed = filters.printed_by(program, path, text)
    read = second_reader.matches(second_reader.parse(text.encode()), packet)
    expected = wanted == "yes"
    return ([] if printed == [1] * expected else ["the program"]) + ([] if read == expected else ["the second reader"])


def main():
    program = os.path.abspath(sys.argv[1])
    rows, differ, packet = 0, 0, None
    with open(os.path.join(HERE, "rows.txt"), encoding="utf-8") as table, tempfile.TemporaryDirectory() as folder:
        path = os.path.join(folder, "capture")
        for line in table.read().splitlines():
            if not line or line.startswith("#"):
                continue
            frame = re.fullmatch(r"(ethernet|sll|ip) ([0-9a-f]+)(?: \[(\d+)\])?", line)
            if frame:
                data = bytes.fromhex(frame[2])
                wire_len = int(frame[3] or len(data))
                packet = second_reader.Packet(data, wire_len, frame[1])
                filters.write_capture(path, LINK_TYPES[frame[1]], [(data, wire_len)])
                continue
            first, text = line.split("\t")
            kind, wanted = first[0], first[2:]
            if kind == "?":
                faults = faults_of_packet(program, path, packet, wanted, text)
            else:
                faults = faults_of_text(program, kind, wanted, spelled(text))
            rows += 1
            differ += bool(faults)
            for fault in faults:
                print(f"{line}: {fault}")
    print(f"{rows} rows, {differ} differ")
    sys.exit(1 if differ else 0)


if __name__ == "__main__":
    main()
