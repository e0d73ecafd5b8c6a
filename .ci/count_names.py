#!/usr/bin/env python3
"""Counts nine words in the names of proofs: .ci/count_names.py [--list]

Names of proofs have the words of the code and of docs/CONTRIBUTING.md in their place. A name is split into its words at
`_`, `-` and capital letters. A name of `specs/`, of the code or of the kit does not count where a proof only uses it: in
a path, imported by its name, as a field, or as part of a longer name (`HeldNameLemmas`). The counts and their sum are
printed, and the status is 1 if the sum is above LIMIT. --list prints each name with its file.
"""
import collections
import os
import re
import sys

WORDS = ("front", "there", "behind", "whole", "held", "room", "stands", "said", "told")
LIMIT = 40

NAME = re.compile(r"[^\s(){}.;,@\"«»]+")
WORD_ENDS = re.compile(r"[_'-]|(?<=[a-z0-9])(?=[A-Z])")
COMMENT = re.compile(r"(^|\s)--(\s|-|$).*")
# A definition or a field: its name, before a colon.
DEFINED = re.compile(r"\s*(?:(?:abbrev|unfoldable|pattern|pub|record|data) )*([^\s(){}.;,@\"«»]+)(?: .*)? :(?: |$)")
# Files whose public names are those of the function that they are about.
OF_FUNCTIONS = ("Answers.antt", "Invariants.antt", "Proof.antt")


def words_of(name):
    return [word.lower() for word in WORD_ENDS.split(name)]


def files(part, ending):
    """The files of one part of the crates, as `proofs`, with the ending."""
    for crate in sorted(os.listdir("crates")):
        for folder, _, names in sorted(os.walk(f"crates/{crate}/{part}")):
            yield from (f"{folder}/{name}" for name in sorted(names) if name.endswith(ending))


def lines_of(path):
    with open(path, encoding="utf-8") as file:
        return [COMMENT.sub("", line.rstrip("\n")) for line in file]


def defined_names():
    """Names of the code, and of definitions and fields of `specs/`."""
    names = set()
    for path in files("specs", ".antt"):
        names.update(found[1] for line in lines_of(path) if (found := DEFINED.match(line)))
    for path in files("src", ".rt"):
        with open(path, encoding="utf-8") as file:
            code = re.sub(r"//.*|#\[tactic.*", "", file.read())
        code = re.sub(r'"(?:[^"\\]|\\.)*"', '""', code.replace("'\"'", "' '"), flags=re.S)
        names.update(re.findall(r"[^\W\d]\w*", code))
    return names


def imported(lines):
    """Names that a file imports from specs/, from the code or from the kit."""
    for line in lines:
        found = re.match(r"\s*(?:pub )?use ([^{]*)\.\{(.*)\}", line)
        if found and (".proofs." not in found[1] or not os.path.isdir(f"crates/{found[1].split('.')[1]}")):
            yield from (item.strip().split(" as ")[-1] for item in found[2].split(","))


def names_in(path, defined):
    """The names of a file of proofs that are its own or of other proofs."""
    lines = lines_of(path)
    foreign = set(imported(lines))
    for line in lines:
        if re.match(r"\s*(pub )?use ", line):
            yield from (name for name in re.findall(r"(?<=\.proofs\.)\w+", line) if name not in defined)
            continue
        of_goal = path.endswith(OF_FUNCTIONS) and DEFINED.match(line) and re.match(r"(abbrev )?pub ", line)
        for found in NAME.finditer(line):
            name = found[0]
            is_field = line[:found.start()].endswith(".") or line[found.end():].startswith(" = ")
            if name not in foreign and not (is_field and (name in defined or "-" in name)) and not of_goal:
                yield name


def own_words(name, compounds):
    """The words of a name without those of a longer name of the code that it contains."""
    text = "_" + "_".join(words_of(name)) + "_"
    for other in compounds:
        text = text.replace(f"_{other}_", "_")
    return text.split("_")


def main():
    if sys.argv[1:] not in ([], ["--list"]):
        sys.exit(__doc__.split("\n")[0])
    os.chdir(os.path.join(os.path.dirname(os.path.abspath(__file__)), ".."))
    defined = defined_names()
    compounds = {"_".join(words_of(name)) for name in defined if len(words_of(name)) > 1}
    compounds = {name for name in compounds if set(name.split("_")) & set(WORDS)}
    counts = collections.Counter()
    for path in files("proofs", ".antt"):
        for name in names_in(path, defined):
            found = [word for word in words_of(name) if word in WORDS]
            if found:
                found = [word for word in own_words(name, compounds) if word in WORDS]
                counts.update(found)
                if found and "--list" in sys.argv:
                    print(f"{path}: {name}")
    total = sum(counts.values())
    print(", ".join(f"{word} {counts[word]}" for word in WORDS))
    print(f"count_names: {total} of at most {LIMIT}")
    return total > LIMIT


sys.exit(main())
