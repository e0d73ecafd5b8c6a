#!/usr/bin/env python3
"""Checks that unclear wording does not come back: .ci/check_wording.py [--list]

Counts ten phrases in comments and documents, in names of the code, of proofs and of scripts (a name is read as its
words), and in strings of code, bindings and scripts, and how often a comment opens with words that need the sentence
before it. Each count above its limit is a line, and the status is then 1; a limit is lowered when a count falls. --list
prints each place. docs/CONTRIBUTING.md describes the wording to use.
"""
import os
import re
import subprocess
import sys

# Each phrase, what to write in its place, and how many texts, names and strings may have it. Texts are comments and
# documents. Strings above 0 are stored output, names of rows there, and bytes of tests.
PHRASES = (
    (r"\bbehind\b", "after", (0, 0, 5)),
    (r"\bin front of\b", "before", (0, 0, 0)),
    (r"\b(put|puts|come|comes) together\b", "reassemble, build", (0, 0, 0)),
    (r"\bhand(s|ed)? out\b", "return", (0, 0, 0)),
    (r"\bwant of memory\b|\black(s|ing)? memory\b", "out of memory, the allocation fails", (0, 0, 0)),
    (r"\b(takes?|asks? for) memory\b", "allocates", (0, 0, 0)),
    (r"\b(of|with|by|from) which\b", "a clause of its own", (0, 0, 3)),
    (r"\bwhere (it|they|there) (does|do|is|are)\b", "if present, if it does", (0, 0, 0)),
    (r"\bso many\b|\bas many as\b", "the number", (0, 0, 2)),
    (r"\bthe front of\b", "the start of", (0, 0, 0)),
)
KINDS = ("texts", "names", "strings")
# A comment that opens with one of these needs the comment before it.
OPENING = (r"(The same|Those|That|These|What|Of which)\b", "a sentence that stands alone", (0, 0, 0))

SLASHES = r"^\s*(?:///?|//!|/\*+|\*(?= ))\s?(.*)$|\s//\s(.*)$"
COMMENTS = {".rt": SLASHES, ".rs": SLASHES, ".c": SLASHES, ".cc": SLASHES, ".h": SLASHES, ".antt": r"^\s*--\s?(.*)$",
            ".py": r"^\s*#\s?(.*)$", ".sh": r"^\s*#\s?(.*)$"}
DOUBLE = r'"(?:[^"\\]|\\.)*"'
STRINGS = {".rt": DOUBLE, ".rs": DOUBLE, ".c": DOUBLE, ".cc": DOUBLE, ".h": DOUBLE, ".py": rf'""".*?"""|{DOUBLE}',
           ".sh": rf"{DOUBLE}|'[^'\n]*'"}
SCRIPTS = (".py", ".sh")
WORD_ENDS = re.compile(r"[_'-]|(?<=[a-z0-9])(?=[A-Z])")


def ending(path):
    """The ending of a file's name; scripts and tables of runs without one have the comments of a shell script."""
    end = os.path.splitext(path)[1]
    if path == "crates.txt" or not end and (path.startswith((".ci/", "bench/")) or path.endswith(("/table", "test"))):
        with open(path, encoding="utf-8") as file:
            return ".py" if "python" in file.readline() else ".sh"
    return end


def texts_in(path):
    """The comments of a file, or all lines of a document: line numbers, texts, and whether each opens a comment."""
    pattern = COMMENTS.get(ending(path))
    before = False
    for number, line in enumerate(open(path, encoding="utf-8", errors="replace"), 1):
        found = re.search(pattern, line) if pattern else None
        if pattern and not found:
            before = False
            continue
        text = next(part for part in found.groups() if part is not None) if found else line
        yield number, text, bool(found) and not before
        before = True


def code_of(path):
    """The text of a file without its comments, whose line ends stay."""
    with open(path, encoding="utf-8", errors="replace") as file:
        text = file.read().replace("'\"'", "' '")
    if COMMENTS.get(ending(path)) == SLASHES:
        comment = rf"({DOUBLE})|//[^\n]*|/\*(?:[^*]|\*(?!/))*\*/"
        return re.sub(comment, lambda found: found[1] or "\n" * found[0].count("\n"), text, flags=re.S)
    comment = r"(^|(?<=\s))--(\s|-|$).*" if ending(path) == ".antt" else r"^\s*#.*"
    return re.sub(comment, "", text, flags=re.M)


def strings_in(path):
    """The strings of a file, with the numbers of their lines."""
    text = code_of(path)
    for found in re.finditer(STRINGS[ending(path)], text, re.S):
        yield text.count("\n", 0, found.start()) + 1, " ".join(found[0].split())


def names_in(path):
    """Each name of a file once, as its words in lower case."""
    text = re.sub(DOUBLE, '""', code_of(path), flags=re.S)
    for name in sorted(set(re.findall(r"[^\W\d][\w'-]*", text))):
        yield name, " ".join(WORD_ENDS.split(name)).lower()


def places_in(path):
    """The places of a file: the kind, the phrase, and a line to print."""
    for number, text, opens in texts_in(path):
        for phrase in PHRASES:
            if re.search(phrase[0], text):
                yield 0, phrase, f"{path}:{number}: {text.strip()}"
        if opens and re.match(OPENING[0], text):
            yield 0, OPENING, f"{path}:{number}: {text.strip()}"
    if re.match(r"crates/\w+/(src|proofs)/", path) or ending(path) in SCRIPTS:
        for name, words in names_in(path):
            yield from ((1, phrase, f"{path}: {name}") for phrase in PHRASES if re.search(phrase[0], words))
    if ending(path) in STRINGS:
        for number, text in strings_in(path):
            yield from ((2, phrase, f"{path}:{number}: {text[:100]}") for phrase in PHRASES if re.search(phrase[0], text))


def main():
    if sys.argv[1:] not in ([], ["--list"]):
        sys.exit(__doc__.split("\n")[0])
    os.chdir(os.path.join(os.path.dirname(os.path.abspath(__file__)), ".."))
    known = subprocess.run(["git", "ls-files"], capture_output=True, text=True, check=True).stdout.split("\n")
    paths = [path for path in known if os.path.isfile(path) and (path.endswith(".md") or ending(path) in COMMENTS)]
    places = {(phrase, kind): [] for phrase in (*PHRASES, OPENING) for kind in range(len(KINDS))}
    for path in paths:
        if path != os.path.relpath(__file__):
            for kind, phrase, place in places_in(path):
                places[phrase, kind].append(place)
    status = 0
    for ((pattern, instead, limits), kind), found in places.items():
        if "--list" in sys.argv and found:
            print("\n".join(found))
        if len(found) > limits[kind]:
            print(f"check_wording: {len(found)} {KINDS[kind]} have {pattern}, at most {limits[kind]} may: write {instead}")
            status = 1
    return status


sys.exit(main())
