#!/usr/bin/env python3
"""Checks that each crate uses the libraries that crates.txt names for it: .ci/check_crates.py

A crate uses a library if a file of its src/, specs/ or proofs/ has a path that begins with the library's name, as
`thiserror::Error` or `Rattle.ep_base.specs.Bytes`. Comments don't count. Each library that no file uses is printed on a
line, and the status is then 1.
"""
import pathlib
import re
import sys

TOP = pathlib.Path(__file__).resolve().parent.parent
COMMENTS = {".rt": r"//.*", ".antt": r"--.*"}


def code_of(crate):
    """The code, the definitions and the proofs of a crate, without comments."""
    files = [path for folder in ("src", "specs", "proofs") for path in (TOP / "crates" / crate / folder).rglob("*.*")]
    return "\n".join(re.sub(COMMENTS[path.suffix], "", path.read_text()) for path in files if path.suffix in COMMENTS)


def named_libraries():
    """The crates of crates.txt, each with the libraries that it names."""
    for line in (TOP / "crates.txt").read_text().splitlines():
        crate, _, libraries = line.partition("#")[0].partition(":")
        if crate.strip():
            yield crate.split()[0], libraries.split()


def uses(code, library):
    """Whether code has a path that begins with the name of a library."""
    return re.search(rf"(?<![\w:.])(Rattle\.{library}\.|{library}::|use {library}\b)", code) is not None


def main():
    if sys.argv[1:]:
        sys.exit(__doc__.split("\n")[0])
    status = 0
    for crate, libraries in named_libraries():
        code = code_of(crate)
        for library in libraries:
            if not uses(code, library):
                print(f"crates.txt: no file of {crate} uses {library}")
                status = 1
    return status


sys.exit(main())
