"""Runs of frame_bench with short reads and partial writes, or failing ones: python3 compare/short_io.py out/frame_bench

Each run has the results of its reads and of its writes (short_io.c, preloaded, on Linux with the GNU C library): the
maximum number of bytes, or the negated number of an error. The last result is also that of all further calls. Compares
output, exit status, standard error and mostly the numbers of calls, prints a line for each run that differs, and then
how many did.
"""

import collections
import errno
import itertools
import os
import pathlib
import shutil
import subprocess
import sys
import tempfile

HERE = pathlib.Path(__file__).resolve().parent
CASES = HERE.parent / "cases"
sys.dont_write_bytecode = True
import answers

ALL = 1 << 40
INTERRUPTED, WOULD_BLOCK, OTHER = -errno.EINTR, -errno.EAGAIN, -errno.EIO
READ, WRITE = b"frame_bench: read failed\n", b"frame_bench: write failed\n"

# A run: the results of the reads and of the writes, the error, the numbers of reads and writes (or None), the output.
Run = collections.namedtuple("Run", "name given reads writes error calls output")


def case(name):
    """Returns the lines of a stored run, and their answers."""
    return (CASES / name).read_bytes(), (CASES / f"{name}.stdout").read_bytes()


# Three lines: an invalid one, a frame of no bytes, and another invalid one, without a line feed at its end.
LINES = b"a\nslice eth -\nb"
ANSWERS = b"err line\nerr len 14 0 Slice Ethernet2Header 0\nerr line\n"
# Results of the reads, of the writes, the error, the numbers of calls, and the number of bytes of the answers.
ROWS = [
    # all bytes, or single bytes
    ([ALL], [ALL], b"", (2, 2), 55),
    ([ALL], [1], b"", (2, 55), 55),
    ([1], [ALL], b"", (16, 3), 55),
    # a reader that fails at each call, only at its first call, and once in the middle
    ([OTHER], [ALL], READ, (1, 0), 0),
    ([INTERRUPTED, ALL], [ALL], READ, (1, 0), 0),
    ([14, WOULD_BLOCK, ALL], [ALL], READ, (2, 1), 46),
    # a reader that returns no bytes once: at its first call, and before the end of a line
    ([0, ALL], [ALL], b"", (1, 0), 0),
    ([13, 0, ALL], [ALL], b"", (2, 2), 46),
    # a writer that fails at each call, only at its first call, once in the middle, and once at the last line
    ([ALL], [OTHER], WRITE, (1, 1), 0),
    ([ALL], [INTERRUPTED, ALL], WRITE, (1, 1), 0),
    ([ALL], [20, WOULD_BLOCK, ALL], WRITE, (1, 2), 20),
    ([ALL], [46, OTHER, ALL], WRITE, (2, 2), 46),
    # a writer that accepts nothing once
    ([ALL], [45, 0, ALL], WRITE, (1, 2), 45),
]


def rows():
    """Yields the runs of the table, on the three lines."""
    for number, (reads, writes, error, calls, count) in enumerate(ROWS, 1):
        yield Run(f"row {number}", LINES, reads, writes, error, calls, ANSWERS[:count])


def single_bytes():
    """Yields runs in which each call reads or writes one byte."""
    for name in ("streams_by_vlan", "limit"):
        given, wanted = case(name)
        yield Run(f"{name} in single bytes", given, [1], [1], b"", (len(given) + 1, len(wanted)), wanted)


# Five lines of 106 bytes with fragments of two datagrams, and the numbers of bytes of the answers to 0, 1, 2 .. lines.
LINE_LEN = 106
ANSWERS_LEN = [0, 5, 10, 54, 59, 103]


def after_one_call(count, then):
    """Returns results: a call of `count` bytes, if any, then the given result, then all bytes."""
    return [*([count] if count else []), then, ALL]


def failing_readers():
    """Yields runs whose reader fails after 0, 1, 2 .. bytes, even if a later read would succeed, or returns no bytes,
    which is the end of the input, even if a later read would return some."""
    given, wanted = case("streams_by_vlan")
    for count, then in itertools.product(range(5 * LINE_LEN + 1), (INTERRUPTED, OTHER)):
        answered = wanted[: ANSWERS_LEN[count // LINE_LEN]]
        reads = after_one_call(count, then)
        yield Run(f"a read fails after {count} bytes", given, reads, [ALL], READ, None, answered)
    for count in range(5 * LINE_LEN + 1):
        answered = "".join(f"{answer}\n" for answer in answers.answers_to(given[:count])).encode("ascii")
        reads = after_one_call(count, 0)
        yield Run(f"the input ends after {count} bytes", given, reads, [ALL], b"", None, answered)


def failing_writers():
    """Yields runs whose writer fails or accepts nothing after 0, 1, 2 .. bytes: bytes that it accepts by one call, and
    one by one, where each read returns a line."""
    given, wanted = case("streams_by_vlan")
    for count, then in itertools.product(range(len(wanted)), (INTERRUPTED, OTHER, 0)):
        name, output = f"a write fails after {count} bytes", wanted[:count]
        yield Run(name, given, [ALL], after_one_call(count, then), WRITE, None, output)
        yield Run(name, given, [LINE_LEN], [*[1] * count, then, ALL], WRITE, None, output)


def random_numbers():
    """Yields pseudo-random numbers from 1 to 64."""
    state = 1
    while True:
        state = (state * 6_364_136_223_846_793_005 + 1_442_695_040_888_963_407) % (1 << 64)
        yield 1 + (state >> 58)


def random_counts():
    """Yields runs whose reads and writes are of random numbers of bytes, which change no answer."""
    given, wanted = case("streams_by_vlan")
    numbers = random_numbers()
    for number in range(200):
        reads, writes = (list(itertools.islice(numbers, 50)) for _ in range(2))
        yield Run(f"random counts {number}", given, reads, writes, b"", None, wanted)


class Preloaded:
    """Runs of a program with given results of its reads and writes."""

    def __init__(self, program, folder):
        self.program, self.folder = program, folder
        self.library, self.calls = f"{folder}/short_io.so", pathlib.Path(folder, "calls")
        compiler = next(filter(shutil.which, ["cc", "gcc", "clang"]), None)
        if compiler is None:
            sys.exit("no C compiler")
        subprocess.run([compiler, "-O2", "-shared", "-fPIC", "-o", self.library, HERE / "short_io.c"], check=True)

    def difference(self, run):
        """Returns the difference of a run from what is wanted, or None."""
        self.calls.unlink(missing_ok=True)
        variables = {
            "LD_PRELOAD": self.library,
            "CALLS": str(self.calls),
            "READS": " ".join(map(str, run.reads)),
            "WRITES": " ".join(map(str, run.writes)),
        }
        with open(f"{self.folder}/given", "wb") as file:
            file.write(run.given)
        with open(f"{self.folder}/given", "rb") as file:
            done = subprocess.run(
                [self.program], stdin=file, capture_output=True, env={**os.environ, **variables}, check=False
            )
        calls = tuple(map(int, self.calls.read_text().split())) if self.calls.exists() else None
        found = (done.returncode, done.stderr, done.stdout, run.calls and calls)
        wanted = (1 if run.error else 0, run.error, run.output, run.calls)
        return None if found == wanted and calls else f"{found}, wanted {wanted}"


def main(program):
    counts = collections.Counter()
    with tempfile.TemporaryDirectory() as folder:
        preloaded = Preloaded(os.path.abspath(program), folder)
        for run in itertools.chain(rows(), single_bytes(), failing_readers(), failing_writers(), random_counts()):
            difference = preloaded.difference(run)
            counts["runs"] += 1
            if difference:
                counts["differences"] += 1
                print(f"{run.name}: {difference}")
    print(f"frame_bench, short reads and writes: runs={counts['runs']} differences={counts['differences']}")
    return 1 if counts["differences"] or not counts["runs"] else 0


if __name__ == "__main__":
    sys.exit(main(sys.argv[1]))
