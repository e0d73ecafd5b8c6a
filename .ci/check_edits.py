#!/usr/bin/env python3
"""Checks the edits that must fail: .ci/check_edits.py [--printed FILE]

An edit is a file crates/CRATE/must-fail/NAME.edit; `rt ci` plants it and wants the prover to reject the crate. Here

- each `old:` text is in its file exactly once, after the pairs before it, and its `new:` text differs;
- no two edits of a crate plant the same;
- each edit of a commit since 7dbf731 is still there, by its name or by its text, or has a row in
  .ci/edits_replaced.txt: its name, the edit that plants the same fault now, and the reason;
- .ci/edits.txt has a row for each edit, with four columns: CRATE/NAME; the file in which the prover rejects it; the
  goal that it breaks, in src/ as FUNCTION::GOAL; and `open` if the goal has an answer (the file is an Answers.antt)
  that was taken out once, after which the prover did not prove the goal, or else `-`;
- with --printed, `rt ci` printed this file, function and goal for the edit; FILE has what `rt ci` printed.

A column that was not looked at yet is `?`. While a row has one, what `rt ci` printed is compared, but no fault.

Each fault is printed on a line. The last line has the number of edits, of faults, of edits that are lost (`?` in a
clone without history), and of rows with `?`; the status is 1 if there is a fault or a lost edit.
"""
import pathlib
import re
import subprocess
import sys

sys.dont_write_bytecode = True
import prover
from edit_files import GOALS, TOP, all_edits, edited_text, function_at, name_of, pairs_in, rows_in

FIRST = "7dbf731"
REPLACED = TOP / ".ci" / "edits_replaced.txt"
# Of a line of the prover `rt ci` prints this many characters. If it ends within the goal, this many of it are needed.
PRINTED, LEAST = 160, 12


def wrong_in(edit):
    """The reason why an edit cannot be applied, or nothing."""
    texts = {}
    for path, old, new in pairs_in(edit):
        if path is None or not old:
            return "a `new:` line without `file:` and `old:` lines before it"
        if path not in texts:
            file = edit.parent.parent / path
            texts[path] = file.read_text(encoding="utf-8") if file.is_file() else ""
        if texts[path].count(old) != 1:
            return f"{texts[path].count(old)} places of {path} have: {old}"
        if old == new:
            return f"changes nothing: {old}"
        texts[path] = texts[path].replace(old, new)
    return None if texts else "has no `old:` and `new:` lines"


def equal_edits(edits):
    """The faults of edits of a crate that plant the same."""
    first = {}
    for edit in edits:
        other = first.setdefault((edit.parent, *pairs_in(edit)), edit)
        if other is not edit:
            yield f"{name_of(edit)}: plants the same as {other.stem}"


def git(*words):
    """What git prints for a command."""
    done = subprocess.run(["git", "-C", str(TOP), *words], capture_output=True, text=True)
    if done.returncode:
        why = f"git {' '.join(words[:2])} failed; the check needs the history since {FIRST}"
        sys.exit(f"check_edits: {why}: {done.stderr.strip()}")
    return done.stdout


def edits_since_first():
    """The names of the edits of each commit since the first, with the hashes of their texts; None without history."""
    if git("rev-parse", "--is-shallow-repository").strip() == "true":
        print("check_edits: this clone has no history, so lost edits are not looked for: git fetch --unshallow")
        return None
    found = {}
    for line in git("ls-tree", "-r", FIRST, "--", "crates").splitlines():
        (_, _, text), path = line.split("\t")[0].split(), line.split("\t")[1]
        if re.fullmatch(r"crates/\w+/must-fail/[^/]+\.edit", path):
            found.setdefault(pathlib.Path(path).stem, set()).add(text)
    options = ("-m", "--format=", "--raw", "--no-abbrev", "--no-renames")
    changes = git("log", *options, f"{FIRST}..HEAD", "--", "crates/*/must-fail/*.edit")
    for line in changes.splitlines():
        of, path = line.split("\t", 1)
        text, kind = of.split()[3:5]
        if kind != "D":
            found.setdefault(pathlib.Path(path).stem, set()).add(text)
    return found


def lost_edits(edits, before, replaced):
    """The names of edits that are gone, without a row that names a successor."""
    names = {edit.stem for edit in edits}
    texts = set(git("hash-object", "--", *map(str, edits)).split())
    return sorted(name for name, of in before.items() if name not in names | replaced and not of & texts)


def has_goal(file, goal):
    """Whether a file of a crate has the function, answer or lemma that a row names."""
    text = file.read_text(encoding="utf-8") if file.is_file() else ""
    if file.suffix == ".rt":
        return re.search(rf"\bfn {re.escape(goal.partition('::')[0])}\b", text) is not None
    return re.search(rf"^(pub )?{re.escape(goal)} ", text, re.M) is not None


def wrong_rows(edits, rows):
    """The faults of .ci/edits.txt."""
    names = {name_of(edit) for edit in edits}
    named = [row[0] for row in rows]
    yield from (f"{name} has no row in edits.txt" for name in sorted(names - set(named)))
    yield from (f"edits.txt has a row for {name}, which is not there" for name in sorted(set(named) - names))
    more = {name for name in named if named.count(name) > 1}
    yield from (f"edits.txt has {named.count(name)} rows for {name}" for name in sorted(more))
    for row in rows:
        if len(row) != 4:
            yield f"edits.txt: {len(row)} columns, not 4: {' '.join(row)}"
            continue
        name, file, goal, seen = row
        if "?" in (file, goal):
            continue
        if not file.startswith(("src/", "proofs/")):
            yield f"{name}: edits.txt names no file of src/ or proofs/"
        elif file.startswith("src/") and "::" not in goal:
            yield f"{name}: edits.txt names no function of {file}"
        elif not has_goal(TOP / "crates" / name.split("/")[0] / file, goal):
            yield f"{name}: edits.txt names {goal}, which {file} does not have"
        wanted = "open" if file.endswith("/Answers.antt") else "-"
        if seen not in (wanted, "?"):
            yield f"{name}: the last column of edits.txt is `{seen}`, not `{wanted}` (.ci/try_edits.py --without-answer)"


def wrong_successors(edits, before, replaced):
    """The faults of .ci/edits_replaced.txt."""
    names = {name_of(edit) for edit in edits}
    stems = {edit.stem for edit in edits}
    for row in replaced:
        if len(row) != 3:
            yield f"edits_replaced.txt: {len(row)} columns, not 3: {' '.join(row)}"
            continue
        name, successor, _ = row
        if successor not in names:
            yield f"edits_replaced.txt names {successor}, which is not there"
        if name in stems:
            yield f"edits_replaced.txt has a row for {name}, which is there"
        elif before is not None and name not in before:
            yield f"edits_replaced.txt has a row for {name}, which never was there"


def printed_lines(text):
    """What `rt ci` printed of the prover for each edit that was refused: the first characters of a line."""
    lines = re.finditer(r"^(?:rt: )?must-fail (\w+/[\w.-]+)\.edit: refused, as it must be(?:: (.*))?$", text, re.M)
    return {line[1]: line[2] or "" for line in lines}


def breaks_goal(line, edit, file, goal):
    """Whether a line of the prover states that the edit breaks this goal of a file, as far as the line is printed."""
    found = prover.GOAL.match(line)
    if not found or found[1] != file:
        return False
    _, number, printed, end = found.groups()
    function, _, goal = goal.rpartition("::")
    if function and function_at(edited_text(edit, file), int(number)) != function:
        return False
    if end:
        return printed == goal
    return len(line) == PRINTED and goal.startswith(printed) and len(printed) >= min(LEAST, len(goal))


def wrong_goals(edits, rows, printed):
    """The edits that break another goal than edits.txt states."""
    files = {name_of(edit): edit for edit in edits}
    for name, file, goal, _ in (row for row in rows if len(row) == 4 and row[0] in files):
        if name not in printed:
            yield f"{name}: not refused, or not tried"
        elif "?" in (file, goal):
            yield f"{name}: breaks {printed[name]}"
        elif not breaks_goal(printed[name], files[name], file, goal):
            yield f"{name}: does not break `{goal}` of {file}: {printed[name]}"


def main():
    if sys.argv[1:2] not in ([], ["--printed"]) or len(sys.argv) not in (1, 3):
        sys.exit(__doc__.split("\n")[0])
    edits, rows, replaced = all_edits(), rows_in(GOALS, 5), rows_in(REPLACED, 3)
    before = edits_since_first()
    faults = [f"{name_of(edit)}: {why}" for edit in edits if (why := wrong_in(edit))]
    faults += [*equal_edits(edits), *wrong_rows(edits, rows), *wrong_successors(edits, before, replaced)]
    unseen = sum("?" in row for row in rows)
    if len(sys.argv) == 3:
        printed = printed_lines(pathlib.Path(sys.argv[2]).read_text(encoding="utf-8", errors="replace"))
        differences = [*wrong_goals(edits, rows, printed)]
        for difference in differences if unseen else []:
            print(f"check_edits: not counted: {difference}")
        faults += [] if unseen else differences
    lost = [] if before is None else lost_edits(edits, before, {row[0] for row in replaced})
    for fault in (*faults, *(f"{name}: lost" for name in lost)):
        print(f"check_edits: {fault}")
    print(f"edits={len(edits)} bad={len(faults)} lost={'?' if before is None else len(lost)} unseen={unseen}")
    return 1 if faults or lost else 0


sys.exit(main())
