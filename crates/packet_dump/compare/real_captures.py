#!/usr/bin/env python3
"""Compares packet_dump with tshark over real captures: real_captures.py PROGRAM FOLDER

FOLDER has the captures of tcpdump's tests. tshark's answers about them are stored in real_captures.answers, so tshark
is not needed. Each field that PROGRAM prints with --verbose is compared, and each that tshark's layers imply: a field
that only one of them has is a difference, too. `frame.strict` is whether PROGRAM refuses the packet with --strict, and
whether tshark shows an error or a length beyond the captured bytes.

Each difference is covered by a row of real_captures.differences, which gives its reason. The status is 1 for a
difference that is in no row, for a row that does not cover the number of differences that it states, and for a capture
that only the folder or the answers have. Differences in no row are printed as rows.

--reasons       also prints the number of differences with each reason
--ask FOLDER    asks tshark, which has to be installed, about the captures of FOLDER, and stores its answers
"""
import argparse
import collections
import concurrent.futures
import fnmatch
import os
import re
import subprocess
import sys
import typing

sys.dont_write_bytecode = True
HERE = os.path.dirname(os.path.abspath(__file__))
sys.path.insert(0, HERE)
import dump_lines  # noqa: E402
import expected_lines  # noqa: E402
import tshark_answers  # noqa: E402

ANSWERS = os.path.join(HERE, "real_captures.answers")
TABLE = os.path.join(HERE, "real_captures.differences")
SUFFIXES = (".pcap", ".pcapng")


class Difference(typing.NamedTuple):
    """A field of a packet that differs; packet 0 is the capture itself. `-` is a field that is absent."""
    capture: str
    packet: int
    field: str
    ours: str
    theirs: str

    def row(self):
        """Returns the row of the table that covers this difference alone."""
        return "  ".join(["   ", self.capture, str(self.packet), self.field, self.ours, self.theirs, "1"])


class Row:
    """A row of the table: patterns of the columns of a difference, and how many differences it covers, for a reason."""

    def __init__(self, columns, reason):
        self.capture, packets, self.field, self.ours, self.theirs, count = columns
        self.packets = None if packets == "*" else numbers_of(packets)
        self.count, self.reason, self.covered = int(count), reason, 0
        self.text = "  ".join(columns)

    def covers(self, found):
        """Returns whether this row covers a difference."""
        patterns = (self.capture, self.field, self.ours, self.theirs)
        return ((self.packets is None or found.packet in self.packets)
                and all(map(fnmatch.fnmatchcase, (found.capture, found.field, found.ours, found.theirs), patterns)))


def numbers_of(text):
    """Returns the numbers of a text such as `2,5-7`."""
    numbers = set()
    for part in text.split(","):
        first, _, last = part.partition("-")
        numbers.update(range(int(first), int(last or first) + 1))
    return numbers


def read_table(path):
    """Returns the rows of the table: indented lines. The lines before them that are not indented are their reason."""
    rows, reason, last = [], "", ""
    with open(path, encoding="utf-8") as file:
        for line in file:
            line = line.rstrip()
            if line.startswith("#") or not line:
                continue
            if line.startswith(" "):
                rows.append(Row(re.split(r" {2,}", line.strip()), reason))
            else:
                reason = line if last.startswith(" ") or not last else f"{reason} {line}"
            last = line
    return rows


# ---- fields


def fields_of(layers):
    """Returns the fields by layer and name, and the names of the layers. A second layer of a name has a 2 after it."""
    seen, fields = collections.Counter(), {"layers": " ".join(layer.name for layer in layers[1:])}
    for layer in layers:
        seen[layer.name] += 1
        name = layer.name if seen[layer.name] == 1 else f"{layer.name}{seen[layer.name]}"
        fields.update((f"{name}.{field}", value) for field, value in layer.fields.items())
    return fields


def printed_fields(line, strict_line):
    """Returns the fields that packet_dump prints."""
    number, layers = dump_lines.read(line)
    strict = "refused" if " refused " in strict_line else "read"
    return {**fields_of(layers), "number": str(number), "frame.strict": strict}


def expected_fields(answer, number):
    """Returns the fields that tshark's layers imply."""
    return {**fields_of(expected_lines.expected(answer)), "number": str(number)}


# ---- captures


def lines_of(program, path, *options):
    """Returns the lines that packet_dump prints, and its status."""
    run = subprocess.run([program, *options, path], capture_output=True, check=False)
    return run.stdout.decode().splitlines(), run.returncode


def compare_packet(name, number, lines, answer):
    """Returns how many fields of a packet are compared, and the differences. `lines` has also the line by --strict."""
    theirs = expected_fields(answer, number)
    try:
        ours = printed_fields(*lines)
    except ValueError:
        return 1, [Difference(name, number, "line", lines[0], "-")]
    fields = sorted(set(ours) | set(theirs))
    return len(fields), [Difference(name, number, field, ours.get(field, "-"), theirs.get(field, "-"))
                         for field in fields if ours.get(field) != theirs.get(field)]


def compare_capture(program, path, capture):
    """Returns how many fields of a capture are compared, and the differences."""
    name = os.path.basename(path)
    lines, status = lines_of(program, path, "--verbose", "--time", "epoch")
    strict_lines, strict_status = lines_of(program, path, "--strict")
    totals = {"packets": (len(lines), len(capture.packets)), "packets.strict": (len(strict_lines), len(lines)),
              "status": (status, 0), "status.strict": (strict_status, 0)}
    compared = len(totals)
    found = [Difference(name, 0, field, str(ours), str(theirs))
             for field, (ours, theirs) in totals.items() if ours != theirs]
    for number, (*both, answer) in enumerate(zip(lines, strict_lines, capture.packets), 1):
        fields, differences = compare_packet(name, number, both, answer)
        compared += fields
        found.extend(differences)
    return compared, found


def captures_in(folder):
    """Returns the paths of the captures in a folder."""
    return [os.path.join(folder, name) for name in sorted(os.listdir(folder)) if name.endswith(SUFFIXES)]


def check_captures(paths, answers):
    """Returns messages about captures without answers, captures with other bytes, and missing captures."""
    names = {os.path.basename(path): path for path in paths}
    wrong = [f"no answers: {name}" for name in sorted(set(names) - set(answers))]
    wrong += [f"not in the folder: {name}" for name in sorted(set(answers) - set(names))]
    return wrong + [f"other bytes than tshark was asked about: {name}" for name, path in sorted(names.items())
                    if name in answers and answers[name].digest != tshark_answers.digest_of(path)]


def compare(program, paths, answers):
    """Returns how many fields are compared, and the differences of all captures."""
    def compare_path(path):
        return compare_capture(program, path, answers[os.path.basename(path)])

    with concurrent.futures.ThreadPoolExecutor(os.cpu_count()) as workers:
        results = list(workers.map(compare_path, paths))
    return sum(compared for compared, _ in results), [one for _, found in results for one in found]


def unlisted(differences, rows):
    """Returns the differences that no row covers. Each one counts for the first row that covers it."""
    found = []
    for one in differences:
        row = next((row for row in rows if row.covers(one)), None)
        if row is None:
            found.append(one)
        else:
            row.covered += 1
    return found


def main():
    parser = argparse.ArgumentParser(usage="real_captures.py [--reasons] PROGRAM FOLDER | --ask FOLDER")
    parser.add_argument("--ask", metavar="FOLDER")
    parser.add_argument("--reasons", action="store_true")
    parser.add_argument("paths", nargs="*")
    options = parser.parse_args()
    if options.ask:
        tshark_answers.ask(captures_in(options.ask), ANSWERS)
        return 0
    if len(options.paths) != 2:
        parser.error("PROGRAM and FOLDER are needed")
    program, folder = options.paths
    paths, answers, rows = captures_in(folder), tshark_answers.read(ANSWERS), read_table(TABLE)
    wrong = check_captures(paths, answers)
    known = [path for path in paths if os.path.basename(path) in answers]
    compared, differences = compare(program, known, answers)
    remaining = unlisted(differences, rows)
    wrong += [f"{row.covered} differences, not {row.count}: {row.text}" for row in rows if row.covered != row.count]
    for line in [*wrong, *(one.row() for one in remaining)]:
        print(line)
    if options.reasons:
        counts = collections.Counter()
        for row in rows:
            counts[row.reason] += row.covered
        for reason, count in counts.items():
            print(f"{count:6} {reason}")
    packets = sum(len(answer.packets) for answer in answers.values())
    print(f"captures={len(known)} packets={packets} fields={compared} listed={len(differences) - len(remaining)} "
          f"rows={len(rows)} wrong={len(wrong)} differences={len(remaining)}")
    return 1 if wrong or remaining else 0


if __name__ == "__main__":
    sys.exit(main())
