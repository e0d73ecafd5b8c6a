#!/usr/bin/env bash
# Runs the commands of README.md, word by word, in a clean folder with only a release and without `rt` on the path, and
# compares their output with the output in README.md: clean_test.sh RELEASE.tar.gz
set -euo pipefail
here=$(cd "$(dirname "$0")" && pwd)
release=$(realpath "$1")
for needed in cc make pkg-config cmake cargo python3; do
    if ! command -v "$needed" > /dev/null; then
        echo "bindings: no $needed, so the commands of bindings/README.md were not tried"
        exit 0
    fi
done
if PATH=/usr/bin:/bin command -v rt > /dev/null; then
    echo "bindings: rt is where the compiler is, so the commands of bindings/README.md were not tried without it"
    exit 0
fi
cargo=$(cargo --version | cut -d ' ' -f 2)
if [ "$(printf '%s\n' 1.81 "$cargo" | sort -V | head -n 1)" != 1.81 ] ||
    ! python3 -c 'import sys; sys.exit(sys.version_info < (3, 9))'; then
    echo "bindings: cargo is $cargo, or python3 is older than 3.9, so the commands of bindings/README.md were not tried"
    exit 0
fi
work=$(mktemp -d)
trap 'rm -rf "$work"' EXIT
mkdir "$work/bin" "$work/home" "$work/clean"
# The tools that README.md names, and nothing else from folders that may contain `rt`.
ln -s "$(command -v cargo)" "$(command -v rustc)" "$work/bin"
ln -s "$(python3 -c 'import sys; print(sys.executable)')" "$work/bin/python3"
cp "$release" "$work/clean"
python3 - "$here/README.md" > "$work/commands" <<'END'
# Each block of commands prints to a file, which is compared with the block of text after it.
import re
import sys

text = open(sys.argv[1]).read()
blocks = re.findall(r"^```(\w+)\n(.*?)^```$", text, re.MULTILINE | re.DOTALL)
for i, (kind, block) in enumerate(blocks):
    if kind == "sh":
        print("{", block, '} > "$OLD/printed"', sep="\n")
        if blocks[i + 1 :] and blocks[i + 1][0] == "text":
            print(f"cmp - \"$OLD/printed\" <<'SAID'\n{blocks[i + 1][1]}SAID")
print("echo 'bindings: the commands of README.md did what it says, in a clean folder without rt'")
END
cd "$work/clean"
rustup=${RUSTUP_HOME:-$HOME/.rustup}
env -i HOME="$work/home" OLD="$work" PATH="$work/bin:/usr/bin:/bin" CARGO_HOME="$work/home/cargo" \
    RUSTUP_HOME="$rustup" RUSTUP_TOOLCHAIN="${RUSTUP_TOOLCHAIN:-}" bash -euo pipefail -c '
    [ -n "$RUSTUP_TOOLCHAIN" ] || unset RUSTUP_TOOLCHAIN
    if command -v rt > /dev/null; then echo "there is an rt on the path"; exit 1; fi
    . "$OLD/commands"'
