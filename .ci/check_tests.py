#!/usr/bin/env python3
"""Checks that no assertion of a test was lost: python3 .ci/check_tests.py [--missing]

Compares the tests of the tree, and the helpers of tests, with those of commit 49c50871. For a test or helper that is
gone or has other assertions now, .ci/moved_tests.tsv has a line for each assertion that its body does not have any
more, with five columns:

    file of the test, its name, the assertion, file of the row or run that replaces it, text of this row or run

The text has to be in that file (white space and commas before a closing bracket are left out of the comparison). An
assertion of a test is a statement of its body: a call, a `let` that fails the test by `expect` or `else`, or a row of a
table of tuples that a loop visits. A helper is a function of test files that is no test. Of its statements those count
that call `assert..`, `panic` or a helper that does; a helper of this name in any test file of the crate may have them
now. --missing prints the lines that are missing, without their last two columns.
"""
import collections
import functools
import pathlib
import re
import subprocess
import sys

COMMIT = "49c50871"
TOP = pathlib.Path(__file__).resolve().parent.parent
TABLE = TOP / ".ci/moved_tests.tsv"
CLOSING = {"(": ")", "[": "]", "{": "}"}
TEST = re.compile(r"#\[test\]\s*fn (\w+)\([^)]*\)[^{]*\{")
TEST_FILE = re.compile(r"crates/(?:\w+/src/tests\b|(?:layer|memory)_tests/)")
FUNCTION = re.compile(r"\bfn (\w+)(?:<[^({]*>)?\s*\(")
CLAUSE = re.compile(r"\b(?:ensures|requires|decreases)\b[^{}]*$")
STRING = re.compile(r'b?"(?:[^"\\]|\\.)*"|b?\'(?:[^\'\\]|\\.)\'|//[^\n]*', re.DOTALL)


def normal(text):
    """Text without white space, and without commas before a closing bracket."""
    return re.sub(r",([)\]}])", r"\1", re.sub(r"\s", "", text))


def masked(text):
    """Text of the same length in which strings are blank; comments are blank in both results."""
    blank = STRING.sub(lambda found: " " * len(found[0]), text)
    plain = re.sub(STRING, lambda found: " " * len(found[0]) if found[0].startswith("//") else found[0], text)
    return plain, blank


def end_of(blank, start):
    """The index after the bracket that closes the one at `start`."""
    depth = 0
    for index in range(start, len(blank)):
        depth += (blank[index] in "([{") - (blank[index] in ")]}")
        if depth == 0:
            return index + 1
    raise ValueError("a bracket is not closed")


def parts(blank, start, end, marks):
    """Yields the ranges between marks that are in no inner bracket; a mark `}` also ends a part after a block."""
    begin = index = start
    while index < end:
        if blank[index] in "([{":
            is_block = blank[index] == "{" and "}" in marks
            index = end_of(blank, index)
            if is_block and not re.match(r"\s*(;|\.|else\b|\))", blank[index:end]):
                yield begin, index
                begin = index
            continue
        if blank[index] in marks:
            yield begin, index
            begin = index + 1
        index += 1
    yield begin, end


def rows_of(plain, blank, start, end):
    """Yields the rows of the tables of tuples between two places."""
    for found in re.finditer(r"\[\s*\(", blank[start:end]):
        opening = start + found.start()
        for row_start, row_end in parts(blank, opening + 1, end_of(blank, opening) - 1, ","):
            if re.match(r"\s*\((?!.*\)\s*;\s*\w+\s*$)", blank[row_start:row_end], re.DOTALL):
                yield plain[row_start:row_end]


def assertions(text):
    """The assertions in the body of a test."""
    plain, blank = masked(text)
    found = []

    def visit(start, end):
        for part_start, part_end in parts(blank, start, end, ";}"):
            code = blank[part_start:part_end].strip()
            loop = re.match(r"\s*for\b", blank[part_start:part_end])
            if loop:
                body = blank.rindex("{", part_start, part_end)
                depth_end = part_end
                for index in range(part_start, part_end):
                    if blank[index] == "{" and end_of(blank, index) == depth_end:
                        body = index
                        break
                found.extend(rows_of(plain, blank, part_start, body))
                visit(body + 1, part_end - 1)
            elif re.match(r"let\b", code):
                found.extend(rows_of(plain, blank, part_start, part_end))
                if re.search(r"\.expect\(\s*&?rt\b|\belse\s*\{", code):
                    found.append(plain[part_start:part_end])
            elif code and not re.match(r"[\w.\[\]]+ = ", code):
                found.append(plain[part_start:part_end])

    visit(0, len(text))
    return [re.sub(r"\s+", " ", one).strip() for one in found]


def tests_in(text):
    """The tests of a file: for each name, its assertions."""
    tests = {}
    _, blank = masked(text)
    for found in TEST.finditer(text):
        opening = found.end() - 1
        tests[found[1]] = assertions(text[opening + 1 : end_of(blank, opening) - 1])
    return tests


def helper_body(blank, opening):
    """The places of the body of a function whose parameters open here; None if it has no body."""
    start = end_of(blank, opening)
    while 0 <= (brace := blank.find("{", start)):
        if not CLAUSE.search(blank[start:brace]):
            return None if ";" in blank[start:brace] else (brace + 1, end_of(blank, brace) - 1)
        start = end_of(blank, brace)
    return None


def helpers_in(text):
    """The helpers of a test file: for each name, the statements of its bodies."""
    helpers = {}
    _, blank = masked(text)
    tests = {found.start(1) for found in TEST.finditer(text)}
    for found in FUNCTION.finditer(blank):
        if found.start(1) not in tests and (body := helper_body(blank, found.end() - 1)):
            helpers.setdefault(found[1], []).extend(assertions(text[slice(*body)]))
    return helpers


def git(*words):
    """What git prints for a command."""
    return subprocess.run(["git", *words], cwd=TOP, capture_output=True, text=True, check=True).stdout


def texts_before():
    """The files of code at the commit, and their texts."""
    names = git("ls-tree", "-r", "--name-only", COMMIT, "crates").split("\n")
    files = [name for name in names if re.fullmatch(r"crates/\w+/src/.*\.rt", name)]
    return {file: git("show", f"{COMMIT}:{file}") for file in files}


def texts_now():
    """The files of code of the tree, and their texts."""
    return {str(path.relative_to(TOP)): path.read_text() for path in sorted(TOP.glob("crates/*/src/**/*.rt"))}


def tests_of(texts):
    """The tests, by file and name."""
    return {(file, name): found for file, text in texts.items() for name, found in tests_in(text).items()}


def helpers_of(texts):
    """The helpers of test files that assert, by file and name."""
    files = {file: text for file, text in texts.items() if TEST_FILE.match(file)}
    helpers = {(file, name): found for file, text in files.items() for name, found in helpers_in(text).items()}
    names = {r"assert\w*", "panic"}
    while True:
        call = re.compile(rf"\b(?:{'|'.join(sorted(names))})!?\(")
        found = {key: [one for one in stated if call.search(one)] for key, stated in helpers.items()}
        asserting = {key: stated for key, stated in found.items() if stated}
        if names >= {name for _, name in asserting}:
            return asserting
        names |= {name for _, name in asserting}


@functools.cache
def contents(file):
    """The text of a file of the tree, normal; empty if there is no such file."""
    path = TOP / file
    return normal(path.read_text(errors="replace")) if path.is_file() else ""


def rows_of_table():
    """The assertions that are rows or runs now, by file and name, and what is wrong with the lines of the table."""
    moved, problems = {}, []
    for line in TABLE.read_text().splitlines():
        columns = line.split("\t")
        if not line or line.startswith("#"):
            continue
        if len(columns) != 5:
            problems.append(f"{len(columns)} columns: {line}")
            continue
        file, test, assertion, place, row = columns
        moved.setdefault((file, test), collections.Counter())[normal(assertion)] += 1
        if not normal(row) or normal(row) not in contents(place):
            problems.append(f"{file}: {test}: not in {place}: {row}")
    return moved, problems


def missing_of(before, now, moved):
    """The lines of assertions that neither a test, by file and name, nor a row has any more."""
    for (file, test), found in before.items():
        left = collections.Counter(map(normal, now.get((file, test), [])))
        left += moved.get((file, test), collections.Counter())
        for assertion in dict.fromkeys(found):
            if left[normal(assertion)] < found.count(assertion):
                yield f"{file}\t{test}\t{assertion}\t\t"


def missing_of_helpers(before, now, moved):
    """The lines of assertions that neither a helper of this name in the crate nor a row has any more."""
    left = collections.defaultdict(set)
    for (file, name), found in now.items():
        left[file.split("/")[1], name] |= set(map(normal, found))
    for (file, name), found in before.items():
        for assertion in dict.fromkeys(found):
            if normal(assertion) not in left[file.split("/")[1], name] | set(moved.get((file, name), ())):
                yield f"{file}\t{name}\t{assertion}\t\t"


def main(arguments):
    if git("rev-parse", "--is-shallow-repository").strip() == "true":
        print("check_tests: this clone has no history, so tests are not compared: git fetch --unshallow")
        return 0
    texts, texts_then = texts_now(), texts_before()
    tests, tests_then, helpers_then = tests_of(texts), tests_of(texts_then), helpers_of(texts_then)
    moved, problems = rows_of_table()
    problems += [f"{file}: {test}: no such test or helper at {COMMIT}"
                 for file, test in moved if (file, test) not in tests_then.keys() | helpers_then.keys()]
    missing = [*missing_of(tests_then, tests, moved), *missing_of_helpers(helpers_then, helpers_of(texts), moved)]
    printed = missing if arguments == ["--missing"] else problems + missing
    if printed:
        print("\n".join(printed))
    gone = sum(test not in tests for test in tests_then)
    rows = sum(map(len, moved.values()))
    counts = f"before={len(tests_then)} now={len(tests)} gone={gone} helpers={len(helpers_then)} rows={rows}"
    print(f"tests: {counts} problems={len(problems) + len(missing)}", file=sys.stderr)
    return 1 if problems or missing else 0


if __name__ == "__main__":
    sys.exit(main(sys.argv[1:]))
