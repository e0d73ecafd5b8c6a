#!/usr/bin/env python3
"""Checks names and links in the documents, and lists unused definitions: .ci/check_names.py [--unused]

In each document a name in backticks has to be in the code, and a link has to lead to a file, to a heading if it names
one, and to the file with the definition that its text names. docs/PERF.md is checked too, except its sections on former
code; all other documents have at most 30,000 words together. Each fault is printed on a line, and the status is then 1.
A lemma or a definition of `proofs/` or `specs/` that nothing else uses is printed on a line that begins with `unused:`,
and the status is then 1 with --unused.
"""
import collections
import os
import re
import subprocess
import sys

MOST_WORDS = 30_000
# The page on gains in speed, whose words are not counted, and its sections with names that are gone.
PERF = "docs/PERF.md"
PERF_PAST = ("Tried and dropped", "Words of private parts that changed")
# Names of Rust and of the toolchain, which no file of the repository has.
OTHERS = {"splice", "in_lanes", "rattle", "kit", "crates", "txt", "antt", "edit", "sh", "rlib", "README", "md"}
# Names that the tool looks for in a proof, so that nothing else uses them.
OF_TOOL = {"returns", "pub"}


def read(path):
    with open(path, errors="replace") as file:
        return file.read()


def listed():
    """The files of the repository: those that git knows, or, without git, all but what is made."""
    known = subprocess.run(["git", "ls-files"], capture_output=True, text=True)
    paths = known.stdout.split("\n")
    if known.returncode:
        paths = []
        for folder, folders, names in os.walk("."):
            folders[:] = [name for name in folders if name not in (".git", "out", "target")]
            paths += [os.path.normpath(os.path.join(folder, name)) for name in names]
    return sorted(path for path in paths if os.path.isfile(path))


def plain(text):
    """A document without its blocks of code."""
    return re.sub(r"```.*?```", "", text, flags=re.S)


def without_section(text, title):
    """A document without the section of a title."""
    return re.sub(rf"^## {title}$.*?(?=^## |\Z)", "", text, flags=re.M | re.S)


def without_others(path, text):
    """A document without names that no code has: in DIFFERENCES.md those of the Rust crate, its first column and what is
    left out; in PERF.md those of private parts that are gone.
    """
    if os.path.basename(path) == "DIFFERENCES.md":
        text = re.sub(r"^\|.*?\|", "|", without_section(text, "Left out"), flags=re.M)
    if path == PERF:
        for title in PERF_PAST:
            text = without_section(text, title)
    return text


def anchors(path):
    """The headings of a document, as links name them."""
    titles = re.findall(r"^#+ (.*)$", plain(read(path)), re.M)
    return {re.sub(r"[^\w\- ]", "", title.lower()).replace(" ", "-") for title in titles}


def names_in(text):
    """The names in backticks, without what is no single name."""
    for token in re.findall(r"`([^`]+)`", plain(text)):
        if not re.search(r"[ ≡+=<>?|\"#{}\[\]]", token):
            for name in re.split(r"::|[/().,:*-]+", token):
                if re.fullmatch(r"[A-Za-z_]\w*", name):
                    yield token, name


def links_in(path, text):
    """What is wrong with the links of a document."""
    for shown, link in re.findall(r"\[([^]]*)\]\(([^)]+)\)", plain(text)):
        target, _, anchor = link.partition("#")
        target = os.path.normpath(os.path.join(os.path.dirname(path), target)) if target else path
        if link.startswith("http"):
            continue
        if not os.path.exists(target):
            yield f"{link} leads nowhere"
            continue
        page = os.path.join(target, "README.md") if os.path.isdir(target) else target
        if re.fullmatch(r"`\w+`", shown) and target.endswith(".antt") and shown.strip("`") not in target:
            if not re.search(rf"^(pub |abbrev |data |record |unfoldable )+{shown.strip('`')}\b", read(target), re.M):
                yield f"{shown} is not defined in {target}"
        if anchor and anchor not in anchors(page):
            yield f"{link} names no heading"


def definitions_in(text):
    """What a file of definitions or lemmas defines: the names that each gives, and the text that is its own."""
    given = {}
    name, depth, is_data = "", 0, False
    for line in text.split("\n"):
        head = re.match(r"( {0,2})((?:(?:abbrev|unfoldable|pub|data|record) )*)([^\W\d][\w'-]*)(?: [({].*)? :(?: |$)", line)
        again = re.match(r"( {0,2})([^\W\d][\w'-]*)(?: |$)", line)
        apart = re.match(r"( {0,2})(use|pub use|module|mod|pub mod|--)( |$)", line)
        if apart:
            name = name if is_data and len(apart[1]) > depth else ""
        elif name and head and is_data and len(head[1]) > depth:
            given[name][0].add(head[3])
        elif head and (not name or len(head[1]) <= depth):
            name, depth, is_data = head[3], len(head[1]), re.search(r"data|record", head[2])
            given.setdefault(name, ({name}, []))
        elif again and len(again[1]) <= depth:
            name, is_data = (again[2], is_data) if again[2] in given else ("", False)
        if name:
            given[name][1].append(line)
    return given.values()


def unused(paths):
    """Lemmas and definitions whose names stand nowhere but in themselves, with their files."""
    code = [path for path in paths if not path.endswith(".md")]
    counts = collections.Counter(word for path in code for word in re.findall(r"[^\W\d][\w'-]*", read(path)))
    for path in code:
        file = os.path.basename(path)
        if not re.match(r"crates/\w+/(proofs|specs)/.*\.antt$", path) or file in ("Answers.antt", "Invariants.antt", "Proof.antt"):
            continue
        for names, lines in definitions_in(read(path)):
            own = collections.Counter(re.findall(r"[^\W\d][\w'-]*", "\n".join(lines)))
            if not names & OF_TOOL and all(counts[name] == own[name] for name in names):
                yield path, min(names, key="\n".join(lines).index)


def main():
    if sys.argv[1:] not in ([], ["--unused"]):
        sys.exit(__doc__.split("\n")[0])
    os.chdir(os.path.join(os.path.dirname(os.path.abspath(__file__)), ".."))
    paths = listed()
    documents = [path for path in paths if path.endswith(".md")]
    words = {word for path in paths if path not in documents for word in re.findall(r"\w+", read(path))}
    words.update(os.path.splitext(part)[0] for path in paths for part in path.split("/"))
    fronts = {word[:length] for word in words for length in range(3, len(word))}
    backs = {word[length:] for word in words for length in range(len(word)) if word[length] == "_"}
    wrong = []
    for path in documents:
        text = read(path)
        for token, name in names_in(without_others(path, text)):
            if not any(name in known for known in (words, fronts, backs, OTHERS)):
                wrong.append(f"{path}: `{token}` names {name}, which is nowhere")
        wrong += [f"{path}: {what}" for what in links_in(path, text)]
    count = sum(len(read(path).split()) for path in documents if path != PERF)
    if count > MOST_WORDS:
        wrong.append(f"the documents have {count} words, and may have {MOST_WORDS}")
    for line in wrong:
        print(line)
    idle = list(unused(paths))
    for path, name in idle:
        print(f"unused: {path}: {name}")
    sys.exit(bool(wrong) or bool(idle and "--unused" in sys.argv))


main()
