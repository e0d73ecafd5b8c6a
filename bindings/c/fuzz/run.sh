#!/usr/bin/env bash
# Runs fuzz.c with libFuzzer: run.sh [SECONDS] (default 60). It needs clang with libFuzzer, python3 and the archive that
# bindings/c/build.sh leaves, or ETHERPARSE_C_ARCHIVE. The driver and the allocator are built with AddressSanitizer and
# UndefinedBehaviorSanitizer; the archive is used as built.
set -euo pipefail
here=$(cd "$(dirname "$0")" && pwd)
archive=${ETHERPARSE_C_ARCHIVE:-$here/../../../crates/etherparse_c/out/libetherparse_c.a}
work=$(mktemp -d)
trap 'rm -rf "$work"' EXIT
python3 "$here/seeds.py" "$work/seeds"
mkdir "$work/corpus"
${CLANG:-clang} -g -O1 -fsanitize=fuzzer,address,undefined -fno-sanitize-recover=all -Wall -Wextra -I"$here/.." \
    "$here/fuzz.c" "$here/../etherparse_heap.c" "$archive" -o "$work/fuzz"
cd "$work" # libFuzzer writes a failing input here
if ! ./fuzz -max_total_time="${1:-60}" -print_final_stats=1 -max_len=4096 corpus seeds 2> log; then
    tail -n 40 log
    cp crash-* "$OLDPWD" 2> /dev/null || true
    echo "fuzz: failed; the input is beside where this was run"
    exit 1
fi
grep -E '^(stat|Done|INFO: seed corpus)' log
