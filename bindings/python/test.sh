#!/usr/bin/env bash
# Tests the Python module with the shared object of the archive: test.sh
set -euo pipefail
here=$(cd "$(dirname "$0")" && pwd)
if ! python3 -c 'import sys; sys.exit(sys.version_info < (3, 9))' 2> /dev/null; then
    echo "bindings: no python3 of version 3.9 or later, so its module was not tested"
    exit 0
elif ! "${CC:-cc}" --version > /dev/null 2>&1; then
    echo "bindings: no ${CC:-cc}, which links the shared object, so the Python module was not tested"
    exit 0
fi
work=$(mktemp -d)
trap 'rm -rf "$work"' EXIT
ETHERPARSE_VERDICT=${ETHERPARSE_VERDICT:-"verdict: a test"} "$here/../c/release.sh" "$work" > "$work/log"
tar -xzf "$work"/etherparse-c-*.tar.gz -C "$work"
cd "$here"
ETHERPARSE_C_LIBRARY=$(echo "$work"/etherparse-c-*-linux/lib/libetherparse_c.so) PYTHONDONTWRITEBYTECODE=1 \
    python3 -m unittest discover --quiet --start-directory tests > "$work/log" 2>&1 || { cat "$work/log"; exit 1; }
typed=
if mypy --version > /dev/null 2>&1; then
    mypy --strict --no-error-summary --cache-dir "$work/types" etherparse_c
    typed=", and mypy has nothing to say of its types"
fi
echo "bindings: the Python module: $(grep '^Ran' "$work/log")$typed"
