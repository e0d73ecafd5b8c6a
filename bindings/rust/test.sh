#!/usr/bin/env bash
# Tests the crates with the archive: test.sh [CAPTURE], where CAPTURE is the capture that bindings/run.sh creates.
set -euo pipefail
cd "$(dirname "$0")"
archive=${ETHERPARSE_C_ARCHIVE:-$PWD/../../crates/etherparse_c/out/libetherparse_c.a}
needed=1.81
cargo=$(cargo --version 2> /dev/null | cut -d ' ' -f 2) || true
if [ -z "$cargo" ] || ! "${CC:-cc}" --version > /dev/null 2>&1; then
    echo "bindings: no cargo or no ${CC:-cc}, so the Rust crates and their examples were not run"
    exit 0
elif [ "$(printf '%s\n' "$needed" "$cargo" | sort -V | head -n 1)" != "$needed" ]; then
    echo "bindings: cargo is $cargo, and the Rust crates need $needed, so they and their examples were not run"
    exit 0
fi
[ -e "$archive" ] || { echo "bindings: no $archive: run bindings/c/build.sh first"; exit 1; }
archive=$(realpath "$archive")
ETHERPARSE_C_DIR=$(dirname "$archive")
export ETHERPARSE_C_DIR
work=$(mktemp -d)
trap 'rm -rf "$work"' EXIT
if ! RUSTFLAGS="${RUSTFLAGS:-} -D warnings" cargo test --quiet --offline --workspace > "$work/out" 2>&1; then
    cat "$work/out"
    exit 1
fi
tests=$(awk '/^test result/ { sum += $4 } END { print sum }' "$work/out")
for name in slicing headers building; do
    cargo run --quiet --offline --example $name > "$work/out"
    cmp "$work/out" etherparse-c/examples/$name.out
done
if [ $# -gt 0 ]; then
    cargo run --quiet --offline --example filter -- 1234 "$1" > "$work/out"
    cmp "$work/out" etherparse-c/examples/filter.out
fi
# No documentation is missing.
RUSTDOCFLAGS="-D warnings" cargo doc --quiet --offline --no-deps
# Without an archive, or without one for the target, one line states what to do; CC is used if the archive has no
# allocator.
plain() { # expected message, variable to set, and further arguments
    local said=$1 set=$2
    shift 2
    if env "$set" cargo check --quiet --offline -p etherparse-c-sys --target-dir "$work/target" "$@" \
        2> "$work/said"; then
        echo "bindings: etherparse-c-sys was built with $set $*"
        exit 1
    fi
    grep -q "^ *etherparse-c-sys: $said" "$work/said" || { cat "$work/said"; exit 1; }
}
plain "no libetherparse_c.a in $work or $work/lib, which ETHERPARSE_C_DIR names" ETHERPARSE_C_DIR="$work"
plain "there is no libetherparse_c.a for i686-unknown-linux-gnu" CC=false --target i686-unknown-linux-gnu
# A package has the source of the allocator only in a release, so it is packaged here with an archive that includes the
# allocator.
whole=$work/whole
mkdir "$whole"
cp "$archive" "$whole/libetherparse_c.a"
chmod u+w "$whole/libetherparse_c.a"
if ! nm -g --defined-only "$archive" 2> /dev/null | grep -q ' rattle_alloc$'; then
    plain "false failed" CC=false
    "${CC:-cc}" -O2 -fPIC -c ../c/etherparse_heap.c -o "$work/etherparse_heap.o"
    "${AR:-ar}" rs "$whole/libetherparse_c.a" "$work/etherparse_heap.o" 2> /dev/null
fi
packaged=
if [ "$(printf '%s\n' 1.90 "$cargo" | sort -V | head -n 1)" = 1.90 ]; then
    if ! ETHERPARSE_C_DIR=$whole cargo package --quiet --workspace --offline --allow-dirty \
        --target-dir "$work/target" 2> "$work/said"; then
        cat "$work/said"
        exit 1
    fi
    packaged=", and both can be packaged"
fi
echo "bindings: $tests tests of the Rust crates passed, their examples printed what they must$packaged"
