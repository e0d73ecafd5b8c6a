#!/usr/bin/env bash
# Builds the examples and tests of C, Rust and Python against the archive that `rt lib` left in crates/etherparse_c/out,
# runs them on input that is created here, and compares their output. Prints which of them were skipped for a missing
# compiler. The exit status is 0 if all that ran passed.
set -euo pipefail
cd "$(dirname "$0")"
top=$(cd .. && pwd)
archive=${ETHERPARSE_C_ARCHIVE:-$top/crates/etherparse_c/out/libetherparse_c.a}
if [ ! -e "$archive" ]; then
    echo "bindings: no $archive: run 'rt lib' in crates/etherparse_c first"
    exit 1
fi
work=$(mktemp -d)
trap 'rm -rf "$work"' EXIT

# Print little-endian numbers of four bytes, and bytes from hexadecimal.
byte() { printf "\\x$(printf %02x $(($1 & 255)))"; }
word() { local i; for ((i = 0; i < 32; i += 8)); do byte $(($1 >> i)); done; }
bytes() { local i; for ((i = 0; i < ${#1}; i += 2)); do printf "\\x${1:i:2}"; done; }
record() { word 0; word 0; word $((${#1} / 2)); word $((${#1} / 2)); bytes "$1"; }

# A capture: a datagram to port 1234, one after a VLAN tag, one to another port, and a truncated one.
addresses=0708090a0b0c010203040506
datagram=450000240000400014 # up to the TTL of the IPv4 header
datagram=${datagram}11e375c0a80101c0a80102 # the rest of the IPv4 header
datagram=${datagram}001504d20010677f0102030405060708
other=${datagram/04d2/0035}
{
    word $((0xa1b2c3d4)); bytes 0200040000000000000000000000040001000000
    record "${addresses}0800$datagram"
    record "${addresses}8100002a0800$datagram"
    record "${addresses}0800$other"
    record "${addresses}0800${datagram%0708}"
} > "$work/capture"

if gcc --version > /dev/null 2>&1; then
    build() { # folder, name, files to link
        gcc -std=c99 -pedantic -Wall -Wextra -Werror -O2 -Ic "c/$1/$2.c" "${@:3}" "$archive" -o "$work/$2"
    }
    heap=c/etherparse_heap.c
    build examples filter "$heap"
    "$work/filter" 1234 "$work/capture" | tee "$work/filter.out"
    cmp "$work/filter.out" c/examples/filter.out
    for name in build reassemble bounded headers; do
        build examples "$name" "$heap"
        "$work/$name" | tee "$work/$name.out"
        cmp "$work/$name.out" "c/examples/$name.out"
    done
    build examples expression "$heap"
    {
        "$work/expression" "udp port 53 and not host 192.168.1.2"
        "$work/expression" "udp port 53 and hots 192.168.1.2" || [ $? = 2 ]
        "$work/expression" $'udp\tport 53\nand host' || [ $? = 2 ] # control characters are printed as spaces
        "$work/expression" "$(printf '%65537s' tcp)" || [ $? = 2 ]
    } | tee "$work/expression.out"
    cmp "$work/expression.out" c/examples/expression.out
    build tests statuses # with its own allocator
    build tests stack "$heap" -pthread -Wl,-z,now # lazy binding needs stack too
    build tests fields "$heap"
    for name in statuses stack fields; do
        "$work/$name" | tee "$work/$name.out"
        cmp "$work/$name.out" "c/tests/$name.out"
    done
    # Mistakes of a caller that a compiler must reject, and a header of another layout, which must not link.
    for mistake in NULL_PACKET NULL_FRAME NULL_BYTES SHORT_SEED SHORT_MATCHES STATUS_IGNORED STATUS_FORGOTTEN; do
        if gcc -std=c99 -Wall -Wextra -Werror -O2 -Ic -D"$mistake" -c c/tests/mistakes.c -o "$work/mistake.o" \
            2> /dev/null; then
            echo "bindings: the compiler says nothing of $mistake" && exit 1
        fi
    done
    gcc -std=c99 -Wall -Wextra -Werror -O2 -Ic -c c/tests/mistakes.c -o "$work/mistake.o"
    sed 's/etherparse_2_/etherparse_3_/g' c/etherparse.h > "$work/etherparse.h"
    if gcc -std=c99 -O2 -I"$work" c/examples/build.c "$heap" "$archive" -o "$work/other" 2> /dev/null; then
        echo "bindings: a header of another layout links" && exit 1
    fi
    echo "bindings: the C examples and tests printed what they must"
else
    echo "bindings: no gcc, so the C examples were not run"
fi
if g++ --version > /dev/null 2>&1; then
    g++ -std=c++98 -Wall -Wextra -Wshadow -Werror -fsyntax-only -x c++ c/etherparse.h
    g++ -std=c++17 -Wall -Wextra -Werror -fsyntax-only c/examples/compare.cc
    g++ -std=c++17 -Wall -Wextra -Werror -fsyntax-only -x c++ c/etherparse_heap.c
    echo "bindings: the header and the memory are C++ too, and c/examples/compare.cc compiles"
else
    echo "bindings: no g++, so the header was not read as C++"
fi

# The other languages and the installation; each script prints what it skips.
export ETHERPARSE_C_ARCHIVE=$archive
bash rust/test.sh "$work/capture"
bash python/test.sh
bash c/debug_test.sh
bash c/install_test.sh "$work/capture"
