"""Runs of frame_bench whose answers are stored: each file NAME of `cases` is standard input, NAME.stdout the answers.

    python3 compare/cases.py out/frame_bench

Before any proof `rt try --cases cases` runs the same files. Lines that are too long to be stored are run after them.
The status is 1 if an answer differs.
"""

import pathlib
import subprocess
import sys

CASES = pathlib.Path(__file__).resolve().parent.parent / "cases"


def stored():
    """Yields the name, the input and the answers of each stored run."""
    for answers in sorted(CASES.glob("*.stdout")):
        yield answers.stem, answers.with_suffix("").read_bytes(), answers.read_bytes()


def long_lines():
    """Yields lines that extend over several chunks of input, and lines with an odd number of digits."""
    digits = b"a" * 240_000
    front = b"00000001000000000000000000001234"
    given, wanted = b"", b""
    for entry, answer in [
        (b"eth", b"ok eth - - - 1234" + digits),
        (b"sll", b"ok sll - - - " + digits),
        (b"ip", b"err ip-version 0"),
    ]:
        given += b"slice " + entry + b" -\r\nslice " + entry + b" " + front + digits + b"\n"
        wanted += b"err line\n" + answer + b"\n"
    yield "long lines", given, wanted
    digits = b"7" * (2 * (65_535 - 14))
    line = b"slice eth 0708090a0b0c0102030405061234" + digits
    yield "an odd digit", line + b"\n" + line + b"7\n", b"ok eth - - - " + digits + b"\nerr line\n"


def main(program):
    runs, lines, differences = 0, 0, 0
    for name, given, wanted in [*stored(), *long_lines()]:
        done = subprocess.run([program], input=given, capture_output=True, check=False)
        if (done.stdout, done.stderr, done.returncode) != (wanted, b"", 0):
            differences += 1
            shown = zip(given.split(b"\n"), wanted.split(b"\n"), done.stdout.split(b"\n"))
            first = next((row for row in shown if row[1] != row[2]), "how many, or how it ends")
            print("difference:", name, first, done.stderr, done.returncode)
        runs += 1
        lines += wanted.count(b"\n")
    print(f"frame_bench: runs={runs} answers={lines} differences={differences}")
    return 1 if differences or runs < 10 else 0


if __name__ == "__main__":
    sys.exit(main(sys.argv[1]))
