"""Edits that must fail: their files, what they change, and the goals that .ci/edits.txt names."""
import pathlib
import re

TOP = pathlib.Path(__file__).resolve().parent.parent
GOALS = TOP / ".ci" / "edits.txt"


def all_edits():
    """The files of all edits."""
    return sorted(TOP.glob("crates/*/must-fail/*.edit"))


def name_of(edit):
    """The crate and the name of an edit, as .ci/edits.txt writes them."""
    return f"{edit.parent.parent.name}/{edit.stem}"


def pairs_in(edit):
    """The changes of an edit: the file's path in the crate, and the texts before and after. A missing one is None."""
    path = old = None
    for line in edit.read_text(encoding="utf-8").splitlines():
        if line.startswith("file: "):
            path = line.removeprefix("file: ").strip()
        elif line.startswith("old: "):
            old = line.removeprefix("old: ")
        elif line.startswith("new:"):
            yield path, old, line.removeprefix("new:").removeprefix(" ")
            old = None


def edited_text(edit, path):
    """The text of a file of the edit's crate after the edit; empty if there is no such file."""
    file = edit.parent.parent / path
    text = file.read_text(encoding="utf-8") if file.is_file() else ""
    for changed, old, new in pairs_in(edit):
        if changed == path and old:
            text = text.replace(old, new)
    return text


def function_at(text, number):
    """The name of the function that has this line of a file of src/, or that begins after attributes there."""
    lines = text.split("\n")
    is_attribute = lines[number - 1 : number] and lines[number - 1].lstrip().startswith("#[")
    searched = lines[number - 1 :] if is_attribute else reversed(lines[:number])
    return next((found[1] for line in searched if (found := re.search(r"\bfn (\w+)", line))), "")


def rows_in(path, columns):
    """The rows of a table as lists of this many columns or fewer; lines that begin with `#` are comments."""
    lines = path.read_text(encoding="utf-8").splitlines()
    return [line.split(None, columns - 1) for line in lines if line.strip() and not line.startswith("#")]
