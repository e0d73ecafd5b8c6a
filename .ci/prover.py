"""Checks of single functions by the prover, over proved libraries."""
import pathlib
import re
import subprocess

TOP = pathlib.Path(__file__).resolve().parent.parent
KIT = "/opt/rattle"
# A line of the prover that names a goal or a lemma: its file, its line there, its name, and the backtick after that.
GOAL = re.compile(r"(?:note: )?(?:\./)?([^\s:]+):(\d+):\d+: (?:error: |it is not proved .*?\()`([^`\n]*)(`?)")


def first_goal(printed):
    """The first goal or lemma that the prover does not prove, of what it prints; None if it names none."""
    found = next(filter(None, map(GOAL.match, printed.splitlines())), None)
    return found and found[3]


def scope_of(path, text, place):
    """The function with this place in a file of src/, as the prover names it, or its module, and the module."""
    modules = [part for part in path.removeprefix("src/").removesuffix(".rt").split("/") if part not in ("lib", "main")]
    owner = function = ""
    for line in text[: text.find("\n", place)].split("\n"):
        if found := re.match(r"(?:unsafe )?impl(?:<[^>]*>)? (.*?)(?:\s*where.*)?\s*\{?$", line):
            trait, _, kind = found[1].rpartition(" for ")
            owner, function = re.sub(r"<.*>", "", kind) + re.sub(r"\W", "", trait), ""
        elif re.match(r"(?:pub(?:\([^)]*\))? )?(?:struct|enum|trait|const|#\[|derive)", line) or line == "}":
            owner = function = ""
        if found := re.match(r"(    )?(?:pub(?:\([^)]*\))? )?(?:const )?(?:unsafe )?(?:extern \"C\" )?fn (\w+)", line):
            owner, function = owner if found[1] else "", found[2]
    names = [*modules, *([owner] if owner else []), function] if function else modules
    return "::".join(names), "::".join(modules)


def library(name, libraries):
    """The folder of a proved library: in the folder of them all, or where `rt check` and `rt ci` leave it."""
    return f"{libraries}/{name}.rlib" if libraries else f"{TOP}/crates/{name}/out/rlib/{name}.rlib"


def libraries_of(crate):
    """Whether a crate is a static library, and the libraries that it names, as crates.txt states."""
    for line in (TOP / "crates.txt").read_text(encoding="utf-8").splitlines():
        kind, _, names = line.partition("#")[0].partition(":")
        if kind.split()[:1] == [crate]:
            return "staticlib" in kind.split(), names.split()
    raise SystemExit(f"crates.txt has no crate {crate}")


def check_command(crate, folder, libraries, scopes):
    """The words of a check of these functions and modules of a crate, in a folder with its src/, specs/ and proofs/."""
    root = "src/main.rt" if (folder / "src/main.rt").exists() else "src/lib.rt"
    is_static, names = libraries_of(crate)
    words = [f"{KIT}/bin/rattle", "check", "--crate-name", crate, root, "--extern", f"std={KIT}/rlibs/std.rlib"]
    for name in names:
        own = (TOP / "crates" / name).is_dir()
        words += ["--extern", f"{name}={library(name, libraries) if own else f'{KIT}/rlibs/{name}.rlib'}"]
    for place in [libraries] if libraries else sorted({str(it.parent) for it in TOP.glob("crates/*/out/rlib/*.rlib")}):
        words += ["-L", f"dependency={place}"]
    words += ["-L", f"dependency={KIT}/rlibs", "--antt-project", f"{KIT}/rattle/logic/antt-project.json"]
    words += ["--logic-built", f"{KIT}/logic_built", "--links", f"{crate}=", "--jobs", "1"]
    words += ["--crate-type", "staticlib"] if is_static else []
    return words + [f"--only={scope}" for scope in sorted(scopes) if scope]


def check(crate, folder, libraries, sets, measured=False):
    """Checks the first of these sets of functions and modules of a crate that the prover knows, in a folder with the
    crate's files. Returns its status and what it prints. If measured, the folder then has the files `took`, processor
    seconds, and `stages`."""
    for scopes in sets:
        command = check_command(crate, folder, libraries, scopes)
        if measured:
            command = ["/usr/bin/time", "-f", "%U %S", "-o", "took", *command, "--stage-times", "stages"]
        done = subprocess.run(command, cwd=folder, stdin=subprocess.DEVNULL, stdout=subprocess.PIPE,
                              stderr=subprocess.STDOUT, text=True, errors="replace")
        if done.returncode != 2:
            break
    return done.returncode, done.stdout
