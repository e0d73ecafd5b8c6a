#!/usr/bin/env python3
"""Lists the files that a new header has to change, by existing headers: python3 .ci/header_files.py [SAMPLE..] [--names]

The samples are headers of the same kind as the new one: udp tcp (transport headers, the default), arp (a network layer),
macsec vlan (link extensions), ip_auth (an extension header), linux_sll (a link header). Prints the files of the first
sample alone, and each other file that names all samples: it needs a case for the new header. With --names it also
prints the definitions and functions that name the first sample.
"""
import os
import re
import subprocess
import sys

CODE = (".rt", ".antt", ".edit", ".h", ".c", ".cc", ".rs", ".py")
# The first line of a function, a type or a definition, by the ending of its file.
HEADS = {
    ".rt": r"\s*(?:pub(?:\(crate\))? )?(?:const |unsafe |extern \"C\" )*(?:fn|struct|enum|trait|impl|mod|const)\b[<\w', >]*?\s(\w+)",
    ".antt": r"(?:abbrev |unfoldable |pub |data |record )*([^\W\d]\w*)(?: .*)? :",
    ".rs": r"\s*(?:pub )?(?:fn|struct|enum|impl|mod) (\w+)",
    ".py": r"\s*(?:def|class) (\w+)",
}


def parts(name):
    """The words of a name: `UdpHeader` and `udp_header` are udp and header."""
    return [word.lower() for word in re.findall(r"[A-Z]+(?![a-z])|[A-Z]?[a-z]+|\d+", name)]


def names(text, sample):
    """Whether some name in a text has the words of the sample, one after the other."""
    for name in re.findall(r"\w+", text):
        words = parts(name)
        if any(words[at : at + len(sample)] == sample for at in range(len(words))):
            return True
    return False


def around(path, sample):
    """The items of a file with a line that names the sample, in order."""
    head = HEADS.get(os.path.splitext(path)[1])
    found, item = [], ""
    with open(path, errors="replace") as file:
        for line in file:
            begun = head and re.match(head, line)
            item = begun[1] if begun else item
            if names(line, sample) and not re.match(r"\s*(ghost )?(pub )?use ", line) and item not in found:
                found.append(item)
    return found


def main():
    words = [word for word in sys.argv[1:] if word != "--names"] or ["udp", "tcp"]
    if any(word.startswith("-") for word in words):
        sys.exit(__doc__.split("\n")[0])
    first, *others = map(parts, words)
    os.chdir(os.path.join(os.path.dirname(os.path.abspath(__file__)), ".."))
    listed = subprocess.run(["git", "ls-files"], capture_output=True, text=True)
    if listed.returncode:
        sys.exit(f"the files are those of git: {listed.stderr.strip()}")
    code = [path for path in listed.stdout.split("\n") if path.endswith(CODE) and os.path.exists(path)]
    code = [path for path in code if not path.startswith(".ci/")]
    # a header's own files are named for it, or lie in a folder that is
    own = [path for path in code if any(names(part, first) for part in path.split("/")[-2:])]
    found = {path: around(path, first) for path in code}
    cases = [path for path in code if path not in own and found[path] and all(around(path, other) for other in others)]
    if not cases:
        sys.exit(f"no file names {' and '.join(words)}")
    for title, paths in ((f"of {words[0]} alone", own), ("with a case of it", cases)):
        print(f"{title}: {len(paths)} files")
        for path in paths:
            items = ", ".join(filter(None, found[path])) if "--names" in sys.argv else ""
            print(f"  {path}{': ' if items else ''}{items}")


main()
