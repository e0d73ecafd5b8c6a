#!/usr/bin/env python3
"""Makes each allocation fail in turn, of built tests and of the built program: python3 refuse.py [--write]

    rt test && (cd ../frame_bench && rt run < stdin)      # builds them, and so does rt ci

Runs each test of this crate except those of `ample`, with its first allocation failing, then with its second, until
none fails (refuse.c, preloaded). Each run has to pass, and has to name exactly one call for the failed allocation. Then
the program frame_bench is run in the same way: on lines that are read one at a time (short_io.c of frame_bench,
preloaded), on its file `stdin`, and on random lines with many limits. A run with a failed allocation ends with status 1
and `frame_bench: out of memory`, its output is a start of its answers, and the last run, where none fails, has all of
them. The allocations of each call, and of the program on the lines that are read singly, have to match the file
`requests`; --write writes that file. The status is 1 at the first difference.
"""
import collections
import difflib
import os
import pathlib
import random
import re
import shutil
import subprocess
import sys
import tempfile

HERE = pathlib.Path(__file__).resolve().parent
BENCH = HERE.parent / "frame_bench"
# Prefix of the names of tests that allocate too often to let each allocation fail.
AMPLE = "ample::"
MOST = 100_000
# A line of frame_bench, and its answer.
FRAME = (
    b"slice eth 0708090a0b0c0102030405060800"
    b"45000024000040001411e375c0a80101c0a80102001504d20010677f0102030405060708\n"
)
FRAME_ANSWER = b"ok eth - ipv4 udp 0102030405060708\n"
# Lines that are read singly, and their answers. After the first answer the buffers are large enough for the next three.
# A line with a limit replaces the pool, and the new pool allocates its own memory.
SINGLE_LINES = [
    ("one_frame", FRAME, FRAME_ANSWER),
    ("four_frames", 4 * FRAME, 4 * FRAME_ANSWER),
    ("limit_lines", (BENCH / "cases/limit").read_bytes(), (BENCH / "cases/limit.stdout").read_bytes()),
]
# Number of random lines, and number of lines `limit` among them.
LINES, LIMITS = 2000, 50

sys.dont_write_bytecode = True
sys.path.insert(0, str(BENCH / "compare"))
import answers
import hostile


def built(folder, name):
    """Returns the path of a built program."""
    program = folder / "out" / name
    if not program.exists():
        sys.exit(f"{program} is not built")
    return str(program)


class Refusing:
    """Runs with one failing allocation."""

    def __init__(self, folder):
        self.libraries = []
        self.met = folder / "met"
        compiler = next(filter(shutil.which, ["cc", "gcc", "clang"]), None)
        if compiler is None:
            sys.exit("no C compiler")
        for source in (HERE / "refuse.c", BENCH / "compare/short_io.c"):
            library = folder / f"{source.stem}.so"
            subprocess.run([compiler, "-O2", "-shared", "-fPIC", "-o", library, source], check=True)
            self.libraries.append(str(library))

    def run(self, command, nth, given=b"", reads=None):
        """Runs a program, whose reads return the numbers of bytes in `reads`, if given. Returns its output and status,
        and whether it made `nth` allocations."""
        self.met.unlink(missing_ok=True)
        variables = dict(os.environ, LD_PRELOAD=" ".join(self.libraries), REFUSE=str(nth), REFUSED=str(self.met))
        if reads:
            variables["READS"] = " ".join(map(str, reads))
        done = subprocess.run(command, input=given, env=variables, capture_output=True, check=False)
        return done, self.met.exists()


def requests_of(refusing, program, test):
    """Returns the call that each allocation of a test belongs to, in order."""
    calls = []
    for nth in range(1, MOST):
        done, is_met = refusing.run([program, test], nth)
        if done.returncode != 0:
            sys.exit(f"{test}, request {nth} refused:\n{done.stdout.decode()}{done.stderr.decode()}")
        said = re.findall(r"^refused: (.*)$", done.stdout.decode(), re.MULTILINE)
        if len(said) != int(is_met):
            sys.exit(f"{test}, request {nth} refused: no call is named, or more than one: {said}")
        if not is_met:
            return calls
        calls += said
    sys.exit(f"{test}: there is no end")


def ranges(numbers):
    """Returns numbers in order as text, such as 1-3 5."""
    texts, first = [], None
    for number in numbers:
        first = number if first is None else first
        if number + 1 not in numbers:
            texts.append(str(first) if first == number else f"{first}-{number}")
            first = None
    return " ".join(texts)


def table_of(refusing):
    """Returns the allocations of each call, in a line for each call of each test, and those of the program."""
    rows = []
    program = built(HERE, "memory_tests_tests")
    listed = subprocess.run([program, "--list"], capture_output=True, text=True, check=True).stdout
    for test in re.findall(r"^(\S+): test$", listed, re.MULTILINE):
        if test.startswith(AMPLE):
            continue
        numbers = collections.defaultdict(list)
        for nth, call in enumerate(requests_of(refusing, program, test), 1):
            numbers[call].append(nth)
        rows += [("memory_tests", test, asked, call) for call, asked in numbers.items()]
    for name, given, wanted in SINGLE_LINES:
        reads = [len(line) for line in given.splitlines(keepends=True)]
        count = program_refused(refusing, name, given, wanted, reads)
        rows.append(("frame_bench", name, list(range(1, count + 1)), "run"))
    return "".join(f"{name}: {test}: {call}: {ranges(asked)}\n" for name, test, asked, call in sorted(rows))


def requests_in(table):
    """Returns the number of allocations in a table."""
    spans = re.findall(r"(\d+)(?:-(\d+))?", " ".join(line.rpartition(": ")[2] for line in table.splitlines()))
    return sum(int(last or first) - int(first) + 1 for first, last in spans)


def program_refused(refusing, name, given, wanted, reads=None):
    """Checks that the program reports the failure after a start of its answers, whichever allocation fails. Returns the
    number of its allocations."""
    program = built(BENCH, "frame_bench")
    for nth in range(1, MOST):
        done, is_met = refusing.run([program], nth, given, reads)
        says = done.stderr == b"frame_bench: out of memory\n"
        whole = done.stdout == wanted and done.stderr == b""
        if is_met and not (done.returncode == 1 and says and wanted.startswith(done.stdout)):
            sys.exit(f"{name}, request {nth} refused:\n{done.stdout.decode()}{done.stderr.decode()}")
        if not is_met:
            if done.returncode != 0 or not whole:
                sys.exit(f"{name}: other answers where no request is refused")
            print(f"frame_bench, {name}: {nth - 1} requests refused in turn")
            return nth - 1
    sys.exit(f"{name}: there is no end")


def random_lines():
    """Returns random lines with many limits, and their answers by the second implementation."""
    lines = hostile.Lines(random.Random(1))
    rows = [lines.line() for _ in range(LINES)]
    rows[:: LINES // LIMITS] = [lines.limit_line().encode("ascii") for _ in range(LIMITS)]
    text = b"".join(row + b"\n" for row in rows)
    return text, "".join(f"{answer}\n" for answer in answers.answers_to(text)).encode("ascii")


def main(arguments):
    with tempfile.TemporaryDirectory() as folder:
        refusing = Refusing(pathlib.Path(folder))
        table = table_of(refusing)
        file = HERE / "requests"
        if arguments == ["--write"]:
            file.write_text(table)
        elif table != file.read_text():
            lines = difflib.unified_diff(file.read_text().splitlines(), table.splitlines(), file.name, "now", "", "", 0, "")
            sys.exit("\n".join(lines))
        print(f"tests: {requests_in(table)} requests of {table.count(chr(10))} calls refused in turn")
        program_refused(refusing, "stdin", (BENCH / "stdin").read_bytes(), (BENCH / "stdout").read_bytes())
        program_refused(refusing, f"{LINES:,} random lines", *random_lines())


if __name__ == "__main__":
    main(sys.argv[1:])
