#!/usr/bin/env python3
"""Plants edits that must fail, and checks what each changes alone: .ci/try_edits.py [OPTION].. [CRATE | CRATE/NAME]..

Without names all edits are tried. The check reads proved libraries, and proves only the edited functions (of an edited
definition, the laws of its crate), so it needs no second proof of the crate. It decides nothing: `rt ci` does.

A line has the edit, what became of it, the share of the check's time in which the prover looked for lines to offer,
processor seconds, and the first line of the prover. `rt ci` checks more for an edit, so there the share is smaller.

  refused     the prover rejects the edit
  PROVED      it does not
  BAD         the edit cannot be applied, the prover ends otherwise, or its proof has no answer that .ci/edits.txt names
  open        with --without-answer: the prover does not prove the goal that the row of the edit names
  LOOK        with --without-answer: it rejects the edit for another goal
  no answer   with --without-answer: it rejects the edit, but its goal is in src/ or in a lemma, where no answer is

The status is 1 after PROVED, BAD or LOOK, or if a share is above 3 %.
"""
import argparse
import concurrent.futures
import pathlib
import re
import shutil
import sys
import tempfile

sys.dont_write_bytecode = True
import edit_files
import prover

MOST_OFFERS = 0.03
PASSED = ("refused", "open", "no answer")


def arguments():
    """The options and names of the command."""
    parser = argparse.ArgumentParser(description=__doc__, formatter_class=argparse.RawDescriptionHelpFormatter)
    parser.add_argument("--without-answer", action="store_true",
                        help="take the answer of the broken goal (.ci/edits.txt) out first: is the goal then open?")
    parser.add_argument("--libraries", metavar="DIR",
                        help="the proved libraries, as DIR/NAME.rlib; by default those that `rt check` and `rt ci` leave")
    parser.add_argument("--logs", metavar="DIR", type=pathlib.Path,
                        help="keep what the prover prints, in DIR/CRATE.NAME.log")
    parser.add_argument("--jobs", metavar="N", type=int, default=1, help="checks at a time, by default 1")
    parser.add_argument("names", metavar="NAME", nargs="*", help="a crate, or an edit as CRATE/NAME")
    return parser.parse_args()


def planted(edit, folder):
    """Applies an edit to a copy of its crate. Returns what the prover has to look at, and the modules of that."""
    scopes, modules = set(), set()
    for path, old, new in edit_files.pairs_in(edit):
        file = folder / path
        text = file.read_text(encoding="utf-8")
        if text.count(old) != 1:
            return None, None
        scope, module = prover.scope_of(path, text, text.index(old)) if path.startswith("src/") else ("laws", "laws")
        # Laws state what a change of a type or a constant breaks.
        laws = {"laws"} if (folder / "src" / "laws.rt").is_file() or (folder / "src" / "laws").is_dir() else set()
        scopes |= {scope} if scope != module else {module} | laws
        modules |= {module} | laws
        file.write_text(text.replace(old, new), encoding="utf-8")
    return scopes, modules


def take_answer_out(file, goal):
    """Takes the answer of a goal out of a proof file. Returns whether there was one."""
    text = file.read_text(encoding="utf-8")
    shorter = re.sub(rf"^pub {re.escape(goal)} : .*\n(?:(?:{re.escape(goal)} .*| +.*|)\n)*", "", text, flags=re.M)
    for line in re.findall(r"^use \S+\.Goals\.\{.*\}\n", shorter, re.M):
        # (a place that only this answer names)
        rest, places = shorter.replace(line, ""), line[line.index("{") + 1 : line.index("}")].split(", ")
        if not any(re.search(rf"(?<![\w-]){re.escape(place)}(?![\w-])", rest) for place in places):
            shorter = rest
    file.write_text(shorter, encoding="utf-8")
    return shorter != text


def times_of(folder):
    """The share of the time that the prover looked for lines to offer, and the check's processor seconds."""
    took = sum(map(float, re.findall(r"[\d.]+", (folder / "took").read_text().splitlines()[-1])))
    stages = (folder / "stages").read_text() if (folder / "stages").exists() else ""
    seconds = {name: float(time) for name, time in re.findall(r"^stage (\S+) ([\d.]+)", stages, re.M)}
    return seconds.get("offers", 0) / (sum(seconds.values()) or 1), took


def first_line(printed):
    """The first line of the prover that states why it rejects an edit, as `rt ci` prints it."""
    lines = [line for line in printed.splitlines() if re.match(r"(note: )?\S+:\d+:\d+:", line)]
    lines = [line for line in lines if ": error" in line or line.startswith("note: ")] or lines
    names = r"(note: )?(\./)?proofs/.*(has no field|is not in scope|has no `|was not admitted)"
    return next((line for line in lines if not re.match(names, line)), printed.strip().splitlines()[-1])


def verdict_of(status, printed, open_goal):
    """What became of an edit, whose goal without answer is this one, if it has one."""
    if status != 1:
        return "PROVED" if status == 0 else "BAD"
    if open_goal is None:
        return "refused"
    # (without an answer for all clauses of a goal, each clause is a goal)
    return "open" if re.search(rf"(not prove|no proof)[^\n]*`{re.escape(open_goal)}(-clause-[^`]*)?`", printed) else "LOOK"


def tried(edit, options, row):
    """Tries an edit. Returns what became of it, the share of offers, the processor seconds, and the first line."""
    crate, open_goal = edit.parent.parent.name, None
    with tempfile.TemporaryDirectory(prefix="try-edit-") as copy:
        folder = pathlib.Path(copy)
        for part in ("src", "specs", "proofs"):
            if (prover.TOP / "crates" / crate / part).is_dir():
                shutil.copytree(prover.TOP / "crates" / crate / part, folder / part)
        scopes = planted(edit, folder)
        if not scopes[0]:
            return "BAD", 0, 0, "it cannot be applied"
        if options.without_answer and "?" in row[:2]:
            return "BAD", 0, 0, ".ci/edits.txt does not name its goal yet"
        if options.without_answer and row[0].endswith("/Answers.antt"):
            open_goal = row[1]
            if not (folder / row[0]).is_file() or not take_answer_out(folder / row[0], open_goal):
                return "BAD", 0, 0, f"no answer {open_goal} in {row[0]}"
        status, printed = prover.check(crate, folder, options.libraries, scopes, measured=True)
        if options.logs:
            options.logs.mkdir(parents=True, exist_ok=True)
            (options.logs / f"{crate}.{edit.stem}.log").write_text(printed, encoding="utf-8")
        share, took = times_of(folder)
    verdict = verdict_of(status, printed, open_goal)
    if options.without_answer and verdict == "refused":
        verdict = "no answer"
    return verdict, share, took, first_line(printed)


def main():
    options = arguments()
    rows = {row[0]: row[1:3] for row in edit_files.rows_in(edit_files.GOALS, 4)}
    names = {edit: edit_files.name_of(edit) for edit in edit_files.all_edits()}
    chosen = {edit: name for edit, name in names.items()
              if not options.names or {name, name.split("/")[0]} & set(options.names)}
    status = 0 if chosen else 1
    with concurrent.futures.ThreadPoolExecutor(options.jobs) as pool:
        tries = [pool.submit(tried, edit, options, rows.get(name, ("-", "-"))) for edit, name in chosen.items()]
        for name, one in zip(chosen.values(), tries):
            verdict, share, took, first = one.result()
            print(f"{name}\t{verdict}\t{share:.0%}\t{took:.1f}\t{first[:300]}", flush=True)
            # (without its answer a goal has offers)
            if verdict not in PASSED or share > MOST_OFFERS and not options.without_answer:
                status = 1
    return status


if __name__ == "__main__":
    sys.exit(main())
