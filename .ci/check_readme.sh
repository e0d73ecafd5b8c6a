#!/usr/bin/env bash
# Runs the commands of a document in a fresh clone: .ci/check_readme.sh [--short|--long] [DOCUMENT..]
#
# Without DOCUMENT it is README.md. Its quotations are compared too: the kit with `rt version`, its length and width,
# and blocks ```rust, also those of the crates' READMEs, with the code of the crates, which the gate proves and runs.
# With --short nothing is run, and all but the kit is compared in the working tree.
# Commands are the lines of the blocks ```sh. Each block is run in one shell, up to its first failure: from the top of
# the clone, or in the folder of the document's crate. A line whose comment begins with `long:` takes minutes or hours,
# and is skipped without --long. Each line of a following block ```text has to be in the output of the block. Committed
# files are run. The status is 0 if all comparisons and commands succeeded.
set -uo pipefail
cd "$(dirname "$0")/.."
form=usual
documents=()
for argument in "$@"; do
    case $argument in
        --short | --long) form=${argument#--} ;;
        --*) sed -n '2,10s/^# \?//p' "$0"; exit 2 ;;
        *) documents+=("$argument") ;;
    esac
done
((${#documents[@]})) || documents=(README.md)
work=$(mktemp -d)
trap 'rm -rf "$work"' EXIT
clone=$PWD
if [ "$form" != short ]; then
    clone=$work/clone
    git clone --quiet . "$clone" || exit 1
fi
status=0
wrong() { echo "check_readme: $*" >&2; status=1; }

# Compares the quotations of the README.
compare() {
    local readme=$clone/README.md
    python3 - "$clone" << 'END' || status=1
import pathlib
import re
import sys

top = pathlib.Path(sys.argv[1])
text = (top / "README.md").read_text()
wrong = [f"line {at} has {len(line)} columns" for at, line in enumerate(text.split("\n"), 1)
         if len(line) > 100 and not line.startswith("|")]
if text.count("\n") > 150:
    wrong.append(f"it has {text.count(chr(10))} lines")
wrong = [f"README.md: {line}" for line in wrong]
sources = [path.read_text() for path in top.glob("crates/*/src/**/*.rt")]
for path in [top / "README.md", *sorted(top.glob("crates/*/README.md"))]:
    wrong += [f"{path.relative_to(top)}: no crate has this code:\n{code}"
              for code in re.findall(r"^```rust\n(.*?)^```", path.read_text(), re.M | re.S)
              if not any(code in source for source in sources)]
for line in wrong:
    print(f"check_readme: {line}", file=sys.stderr)
sys.exit(bool(wrong))
END
    # (the gate runs with whatever kit there is)
    [ "$form" = short ] || grep -qF "$(rt version)" "$readme" || wrong "the README names another kit than $(rt version)"
}

# The blocks of a document: block.1.sh, block.2.sh .., and what is wanted of each in block.1.text ..
blocks() {
    awk -v name="$work/block." '
        /^```sh$/ { open = "sh"; blocks++; next }
        /^```text$/ { open = "text"; next }
        /^```/ { open = ""; next }
        open == "sh" { print > (name blocks ".sh") }
        open == "text" && blocks { print > (name blocks ".text") }' "$clone/$1"
}

ran=0
left_out=0
for document in "${documents[@]}"; do
    [ "$document" = README.md ] && compare
    [ "$form" = short ] && continue
    rm -f "$work"/block.*
    blocks "$document"
    folder=$clone
    [[ $document == crates/* ]] && folder=$clone/$(dirname "$document")
    for block in $(ls "$work"/block.*.sh 2> /dev/null | sort -V); do
        # The lines to run; before each, a line that prints it.
        skipped=0
        while IFS= read -r line; do
            if [ "$form" != long ] && [[ $line == *"# long:"* ]]; then
                echo "skipped: $line" >&2
                skipped=$((skipped + 1))
            elif [[ -n $line ]]; then
                printf 'echo %q >&2\n{ %s\n} || exit 1\n' "runs: $line" "$line"
                ran=$((ran + 1))
            fi
        done < "$block" > "$block.run"
        left_out=$((left_out + skipped))
        (cd "$folder" && bash "$block.run" < /dev/null) > "$block.out"
        ended=$?
        cat "$block.out"
        ((ended == 0)) || wrong "$document: the last command failed"
        while IFS= read -r line; do
            grep -qxF -- "$line" "$block.out" || ((skipped)) || wrong "$document: nothing printed: $line"
        done < <(cat "${block%.sh}.text" 2> /dev/null)
    done
done
echo "check_readme: $ran commands, $left_out skipped, status $status"
exit $status
