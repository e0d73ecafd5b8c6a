#!/usr/bin/env bash
# Runs the test of the statuses, and fuzz/fuzz.c on the inputs of fuzz/seeds.py, with the sanitizers of gcc and in
# valgrind, in valgrind the test of the fields too, and then fuzz.c on random inputs by libFuzzer, for
# ETHERPARSE_FUZZ_SECONDS (default 10). The archive is ETHERPARSE_C_ARCHIVE, as built: valgrind watches what it reads
# and writes, and so do the unreadable pages of fuzz.c.
set -euo pipefail
here=$(cd "$(dirname "$0")" && pwd)
archive=${ETHERPARSE_C_ARCHIVE:-$here/../../crates/etherparse_c/out/libetherparse_c.a}
if ! gcc --version > /dev/null 2>&1 || ! python3 --version > /dev/null 2>&1; then
    echo "bindings: no gcc or no python3, so nothing was run with sanitizers or in valgrind"
    exit 0
fi
work=$(mktemp -d)
trap 'rm -rf "$work"' EXIT
python3 "$here/fuzz/seeds.py" "$work/seeds" > "$work/log"
ways=() skipped=()

# Builds both programs with these flags, runs them by the command in `run`, and compares their output.
check() {
    local words=(-std=gnu11 -g -O1 -Wall -Wextra -Werror -DETHERPARSE_FUZZ_ONCE -I"$here" "$@")
    gcc "${words[@]}" "$here/tests/statuses.c" "$archive" -o "$work/statuses" # with its own allocator
    gcc "${words[@]}" "$here/fuzz/fuzz.c" "$here/etherparse_heap.c" "$archive" -o "$work/inputs"
    "${run[@]}" "$work/statuses" | cmp - "$here/tests/statuses.out"
    "${run[@]}" "$work/inputs" "$work"/seeds/* | cmp - <(echo "100 inputs")
}

# Returns whether the compiler builds a program with these flags.
builds() { echo "$2" | "$1" -x c "${@:3}" - -o "$work/main" 2> "$work/log"; }

sanitizers=(-fsanitize=address,undefined -fno-sanitize-recover=all)
if builds gcc 'int main(void) { return 0; }' "${sanitizers[@]}"; then
    run=(env)
    check "${sanitizers[@]}"
    ways+=("with sanitizers,")
else
    skipped+=("no sanitizers")
fi
if valgrind --version > "$work/log" 2>&1; then
    run=(valgrind -q --error-exitcode=9 --leak-check=full)
    check
    gcc -std=c99 -g -O1 -I"$here" "$here/tests/fields.c" "$here/etherparse_heap.c" "$archive" -o "$work/fields"
    "${run[@]}" "$work/fields" | cmp - "$here/tests/fields.out"
    ways+=("in valgrind,")
else
    skipped+=("no valgrind")
fi
if builds "${CLANG:-clang}" 'int LLVMFuzzerTestOneInput(void) { return 0; }' -fsanitize=fuzzer,address,undefined; then
    ETHERPARSE_C_ARCHIVE=$archive bash "$here/fuzz/run.sh" "${ETHERPARSE_FUZZ_SECONDS:-10}" > "$work/log" ||
        { cat "$work/log"; exit 1; }
    ways+=("by libFuzzer: $(sed -n 's/^Done \([0-9]* runs\).*/\1/p' "$work/log"),")
else
    skipped+=("no libFuzzer")
fi
echo "bindings: the calls of C ran ${ways[*]:-not again,} without a fault${skipped[*]:+ (${skipped[*]})}"
