#!/usr/bin/env bash
# Builds crates/etherparse_c/out/libetherparse_c.a, as `rt lib` in that folder does.
#
# `rt lib` proves the libraries below again unless your own check has kept them, which takes half an hour. `rt ci`
# leaves the libraries that it proved in crates/*/out/rlib, but without the mark that `rt lib` looks for. So directly
# after `rt ci`, and only then, `bindings/c/build.sh after-ci` uses these libraries. It then runs the build command of
# `rt lib`, which proves etherparse_c itself.
#
# The line of the verdict (`logic=proved ..`) is written to crates/etherparse_c/out/verdict, for a release.
set -euo pipefail
top=$(cd "$(dirname "$0")/../.." && pwd)
cd "$top/crates/etherparse_c"
libraries=$(sed -n 's/^etherparse_c staticlib: *//p' "$top/crates.txt")
words=()

# Runs a command that builds the archive, and keeps the line of the verdict.
build() {
    mkdir -p out
    rm -f out/verdict
    "$@" 2>&1 | tee out/build.log
    grep '^logic=proved' out/build.log > out/verdict
    exit 0
}

if [ "${1:-}" = after-ci ]; then
    for name in $libraries; do
        if [ -e "$top/crates/$name/out/rlib/stamp" ] || [ ! -e "$top/crates/$name/out/rlib/$name.rlib" ]; then
            words=() # kept by your own check, or missing: rt lib handles both
            break
        fi
        words+=(--extern "$name=$top/crates/$name/out/rlib/$name.rlib")
    done
fi
if [ ${#words[@]} -eq 0 ]; then
    build rt lib
fi
for folder in "$top"/crates/*/out/rlib; do
    words+=(-L "dependency=$folder")
    # an interrupted run of the gate may have left no library
    for library in "$folder"/*.rlib; do
        [ -e "$library" ] || build rt lib
    done
done
kit=$(dirname "$(dirname "$(readlink -f "$(command -v rt)")")")
build "$kit/bin/rattle" build --crate-name etherparse_c src/lib.rt --extern "std=$kit/rlibs/std.rlib" \
    -L "dependency=$kit/rlibs" "${words[@]}" --antt-project "$kit/rattle/logic/antt-project.json" \
    --logic-built "$kit/logic_built" --jobs 1 --links etherparse_c= --crate-type staticlib \
    --toolchain "$kit/toolchain" --backend llvm -o out/libetherparse_c.a
