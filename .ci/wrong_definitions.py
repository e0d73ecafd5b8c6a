#!/usr/bin/env python3
"""Replays wrong definitions: .ci/wrong_definitions.py [OPTION].. [CRATE | CRATE/NAME]..

.ci/wrong_definitions/CRATE/NAME.diff changes a definition of a crate, and its code alike, so something else than the
contracts has to refuse the fault. The lines before the diff state the fault as docs/DECISIONS.md does (with * at its
end if a contract refuses it, too), and what refuses it:

  what: WORDS
  refused by: test NAME       a test of layer_tests, or CRATE::NAME a test of another crate, which fails
  refused by: law NAME GOAL   a law of the crate, and the goal or lemma that is the first to have no proof
  refused by: run LINE        a stored run of packet_dump, which differs; no other run of the table has this line

Each diff is applied to a copy of the repository. There `rt try --test` builds and runs the tests without proof, the
prover checks the law alone over proved libraries, or `.ci/stored_runs` runs packet_dump, which `.ci/try_program` builds
without proof. Prints a line for each diff, and then how many were refused; the status is 1 if one was not.

--proved checks instead that the contracts of the changed functions hold (of those with * that they do not): the prover
looks at these functions alone, at all of a module if a type or a constant of it changes. A diff that leaves a written
answer or a lemma as it is for the right definition does not pass, though the contract may hold: its first goal is printed.
No run of --proved over all diffs has passed; it is no part of the gate. --apply replays nothing: each
diff has to apply, to name a test, law or run of the repository, and to have its row in the table of docs/DECISIONS.md,
with the test or the law that refuses it; each row has its diff.
"""
import argparse
import itertools
import os
import pathlib
import re
import shutil
import subprocess
import sys
import tempfile

sys.dont_write_bytecode = True
import prover

TOP = prover.TOP
FOLDER = TOP / ".ci" / "wrong_definitions"
DECISIONS = "docs/DECISIONS.md"
PROGRAM = "packet_dump"
TABLE = f"crates/{PROGRAM}/runs/table"


class WrongDefinition:
    """A wrong definition: its diff, and the test, law or run that refuses it."""

    def __init__(self, path):
        self.path, self.crate = path, path.parent.name
        self.name = f"{self.crate}/{path.stem}"
        head = path.read_text(encoding="utf-8").split("\ndiff ")[0]
        stated = dict(line.split(": ", 1) for line in head.strip().splitlines())
        if sorted(stated) != ["refused by", "what"]:
            raise SystemExit(f"{path}: not the two lines `what:` and `refused by:`")
        self.what = stated["what"]
        self.kind, self.refused_by = stated["refused by"].split(" ", 1)
        self.goal = None
        if self.kind == "law":
            self.refused_by, _, self.goal = self.refused_by.partition(" ")

    def applies(self, top, *options):
        """Applies the diff to the files of a folder, and returns whether all of it could be applied."""
        command = ["git", "apply", *options, self.path]
        return subprocess.run(command, cwd=top, env=outside_git(top)).returncode == 0

    def test(self):
        """Returns the crate of the test, and the test's name in the crate's module `tests`."""
        crate, _, name = self.refused_by.partition("::")
        return (crate, name) if (TOP / "crates" / crate).is_dir() else ("layer_tests", self.refused_by)

    def is_named(self):
        """Returns whether the repository has the test, law or run."""
        if self.kind == "run":
            return run_with(self.refused_by, TOP) is not None
        if self.kind == "law" and not self.goal:
            return False
        crate, name = self.test() if self.kind == "test" else (self.crate, self.refused_by)
        *modules, function = name.split("::")
        file = TOP / "crates" / crate / "src" / "/".join(["tests" if self.kind == "test" else "laws", *modules])
        file = file.with_suffix(".rt")
        return file.is_file() and re.search(rf"\bfn {function}\(", file.read_text(encoding="utf-8")) is not None

    def row(self):
        """Returns the row of the table in docs/DECISIONS.md; of a run, its words after `run` are free."""
        refused_by = {"test": f"`{self.refused_by}`", "law": f"law `{self.refused_by}`", "run": "run"}[self.kind]
        return self.crate, self.what, refused_by


def run_with(line, top):
    """Returns the lines of the stored run that has this line, or None unless exactly one line of the table is that."""
    lines = (top / TABLE).read_text(encoding="utf-8").splitlines()
    if lines.count(line) != 1:
        return None
    starts = [number for number, text in enumerate(lines) if text.startswith("$")] + [len(lines)]
    place = lines.index(line)
    return next(lines[start:end] for start, end in itertools.pairwise(starts) if place < end)


def outside_git(top):
    """Returns an environment in which git takes the folder for none of a repository, unless it is one's top."""
    return dict(os.environ, GIT_CEILING_DIRECTORIES=str(top.parent))


def copy_repository(folder):
    """Copies the files of the repository, with changes that are not committed."""
    listed = subprocess.run(
        ["git", "ls-files", "-z", "--cached", "--others", "--exclude-standard"],
        cwd=TOP, check=True, capture_output=True, text=True)
    for name in filter(None, listed.stdout.split("\0")):
        if (TOP / name).is_file():
            (folder / name).parent.mkdir(parents=True, exist_ok=True)
            shutil.copy(TOP / name, folder / name)


def run(command, folder):
    """Runs a command, and returns its status and what it prints."""
    done = subprocess.run(command, cwd=folder, stdin=subprocess.DEVNULL, stdout=subprocess.PIPE,
                          stderr=subprocess.STDOUT, text=True, errors="replace")
    return done.returncode, done.stdout


# ---- what refuses a wrong definition


def failed_tests(crate, top):
    """Runs the tests of a crate without proof. Returns the crate and the name of each that fails; none if none runs."""
    _, output = run(["rt", "try", "--test"], top / "crates" / crate)
    if "test result: " not in output:
        print(output[-2000:], file=sys.stderr)
        return set()
    return {(crate, name) for name in re.findall(r"^test tests::(\S+) \.\.\. FAILED", output, re.MULTILINE)}


def law_fails(wrong, top, libraries):
    """Returns whether the prover looks at the law, does not prove it, and finds the stated goal first."""
    law = f"laws::{wrong.refused_by}"
    status, output = prover.check(wrong.crate, top / "crates" / wrong.crate, libraries, [{law}])
    states = re.findall(rf"^fn {wrong.crate}::{law}: (.*)$", output, re.MULTILINE)
    unproved = status == 1 and any(state.startswith(("no proof", "not proved")) for state in states)
    goal = prover.first_goal(output)
    if not unproved or goal != wrong.goal:
        print(f"{wrong.name}: status {status}, first goal {goal}\n{output[-2000:]}", file=sys.stderr)
    return unproved and goal == wrong.goal


def run_differs(wrong, top):
    """Returns whether the stored run differs with the program of the copy, which is built without proof."""
    table = top / TABLE
    text = table.read_text(encoding="utf-8")
    variables = [f"STORED_RUNS_PROGRAM={top}/.ci/try_program", "STORED_RUNS_SECONDS=900"]
    try:
        table.write_text("\n".join([*run_with(wrong.refused_by, top), ""]), encoding="utf-8")
        _, output = run(["env", *variables, ".ci/stored_runs", PROGRAM], top)
    finally:
        table.write_text(text, encoding="utf-8")
    print(output, end="", file=sys.stderr)
    return "1 failed" in output and not re.search("no program|no end within", output)


def refused_in(applied, top, libraries):
    """Returns those of the applied diffs that are refused by what they name."""
    tests = [wrong for wrong in applied if wrong.kind == "test"]
    failed = set().union(*(failed_tests(crate, top) for crate in sorted({wrong.test()[0] for wrong in tests})))
    refused = [wrong for wrong in tests if wrong.test() in failed]
    refused += [wrong for wrong in applied if wrong.kind == "run" and run_differs(wrong, top)]
    return refused + [wrong for wrong in applied if wrong.kind == "law" and law_fails(wrong, top, libraries)]


# ---- its contracts


def changed_places(wrong):
    """Yields the file and the line, after the diff, of each change in src/ but for comments, attributes and imports."""
    file, number = "", 0
    for line in wrong.path.read_text(encoding="utf-8").splitlines():
        if found := re.match(r"\+\+\+ b/crates/\w+/(.*)", line):
            file = found[1]
        elif found := re.match(r"@@ -\S+ \+(\d+)", line):
            number = int(found[1])
        elif line[:1] in ("+", "-", " ") and not line.startswith("--- "):
            code = line[1:].strip()
            if line[0] != " " and file.startswith("src/") and not re.match(r"//|#\[|(pub )?(ghost )?use |$", code):
                yield file, number
            number += line[0] != "-"


def has_contracts_as_stated(wrong, top, libraries):
    """Returns whether the contracts of the changed functions hold in the copy; of a fault with *, whether one fails."""
    folder, scopes = top / "crates" / wrong.crate, set()
    for file, number in changed_places(wrong):
        text = (folder / file).read_text(encoding="utf-8")
        place = sum(len(line) for line in text.splitlines(keepends=True)[: number - 1])
        scopes.add(prover.scope_of(file, text, place))
    if not scopes:
        raise SystemExit(f"{wrong.path}: no function of {wrong.crate} changes")
    status, output = prover.check(wrong.crate, folder, libraries, [set(names) for names in zip(*scopes)])
    wanted = 1 if wrong.what.endswith(" *") else 0
    if status != wanted:
        print(f"{wrong.name}: status {status}, first goal {prover.first_goal(output)}\n{output[-2000:]}", file=sys.stderr)
    return status == wanted


# ---- the table of docs/DECISIONS.md


def rows_in_decisions():
    """Returns the rows of the table: the crate, the fault, and what refuses it."""
    text = (TOP / DECISIONS).read_text(encoding="utf-8").partition("\n## Wrong definitions\n")[2].partition("\n## ")[0]
    rows, crate = [], None
    for what, refused_by in re.findall(r"^\| (.*?) \| ?(.*?) ?\|$", text, re.MULTILINE):
        if found := re.fullmatch(r"\*\*`(\w+)`\*\*", what):
            crate = found[1]
        elif crate:
            rows.append((crate, what, "run" if refused_by.startswith("run ") else refused_by))
    return rows


def faults_of_all(wrongs):
    """Yields what is wrong with diffs that are not replayed, and with the table."""
    for wrong in wrongs:
        if not (wrong.applies(TOP, "--check") and wrong.is_named()):
            yield f"{wrong.name}: does not apply, or names no test, law with its goal, or run"
    rows, stated = rows_in_decisions(), [wrong.row() for wrong in wrongs]
    for row in sorted(set(rows) | set(stated)):
        crate, what, refused_by = row
        if rows.count(row) != stated.count(row):
            yield (f"{crate}: {rows.count(row)} rows of {DECISIONS} and {stated.count(row)} diffs have: "
                   f"{what}, refused by {refused_by}")


# ---- replaying


def groups_of(wrongs, together):
    """Splits the diffs into groups that are applied at the same time: one, or one of each crate."""
    if not together:
        return [[wrong] for wrong in wrongs]
    of_crates = itertools.groupby((wrong for wrong in wrongs if wrong.kind == "test"), lambda wrong: wrong.crate)
    columns = [list(of_crate) for _, of_crate in of_crates]
    return [list(filter(None, group)) for group in itertools.zip_longest(*columns)]


def replay(group, top, options):
    """Applies the diffs to the copy, looks for what is wanted of them, and takes them back. Returns those that pass."""
    applied = []
    try:
        applied = [wrong for wrong in group if wrong.applies(top)]
        if options.proved:
            return [wrong for wrong in applied if has_contracts_as_stated(wrong, top, options.libraries)]
        return refused_in(applied, top, options.libraries)
    finally:
        for wrong in reversed(applied):
            wrong.applies(top, "--reverse")


def replay_all(wrongs, options):
    """Replays the diffs, and prints a line for each. Returns how many pass."""
    count = 0
    with tempfile.TemporaryDirectory(prefix="wrong-definitions-") as folder:
        top = pathlib.Path(folder)
        copy_repository(top)
        for group in groups_of(wrongs, options.together):
            passed = replay(group, top, options)
            count += len(passed)
            for wrong in group:
                state = "contracts as stated" if options.proved else f"refused by {wrong.kind} {wrong.refused_by}"
                print(f"{wrong.name}: {'' if wrong in passed else 'NOT '}{state}", flush=True)
    return count


def arguments():
    """The options and names of the command."""
    parser = argparse.ArgumentParser(description=__doc__, formatter_class=argparse.RawDescriptionHelpFormatter)
    kinds = parser.add_mutually_exclusive_group()
    kinds.add_argument("--apply", action="store_true", help="replay nothing")
    kinds.add_argument("--proved", action="store_true", help="check the contracts of the changed functions")
    kinds.add_argument("--together", action="store_true",
                       help="apply one diff of each crate at a time, so that a build serves several tests; no laws or runs")
    parser.add_argument("--libraries", metavar="DIR",
                        help="the proved libraries, as DIR/NAME.rlib; by default those that `rt check` and `rt ci` leave")
    parser.add_argument("names", metavar="NAME", nargs="*", help="a crate, or a diff as CRATE/NAME")
    return parser.parse_args()


def main():
    options = arguments()
    wrongs = [WrongDefinition(path) for path in sorted(FOLDER.glob("*/*.diff"))]
    if options.apply:
        faults = list(faults_of_all(wrongs))
        for fault in faults:
            print(f"wrong definitions: {fault}")
        print(f"wrong definitions: {len(wrongs)} diffs, {len(faults)} faults")
        return 1 if faults or not wrongs else 0
    wrongs = [wrong for wrong in wrongs if not options.names or {wrong.crate, wrong.name} & set(options.names)]
    if options.together:
        wrongs = [wrong for wrong in wrongs if wrong.kind == "test"]
    passed = replay_all(wrongs, options)
    wanted = "with contracts as stated" if options.proved else "refused"
    print(f"wrong definitions: {passed} {wanted}, {len(wrongs) - passed} not")
    return 0 if wrongs and passed == len(wrongs) else 1


if __name__ == "__main__":
    sys.exit(main())
