#!/usr/bin/env bash
# Builds a release of the archive, installs it into its own folder, and builds all examples by its Makefile, one with
# pkg-config, one with CMake and one with the shared object; runs a program with its own allocator on the archive;
# compares their output: install_test.sh [CAPTURE]. Without the capture of run.sh the filter is not run.
set -euo pipefail
here=$(cd "$(dirname "$0")" && pwd)
CC=${CC:-cc}
if ! "$CC" --version > /dev/null 2>&1 || ! make --version > /dev/null 2>&1; then
    echo "bindings: no $CC or no make, so no release was installed"
    exit 0
fi
work=$(mktemp -d)
trap 'rm -rf "$work"' EXIT
# (not published: the line of the verdict is not searched)
ETHERPARSE_VERDICT=${ETHERPARSE_VERDICT:-"verdict: a test"} "$here/release.sh" "$work" > "$work/log"
tar -xzf "$work"/etherparse-c-*-x86_64-linux.tar.gz -C "$work"
release=$(echo "$work"/etherparse-c-*-x86_64-linux)
prefix=$work/prefix
make -s -C "$release" check
make -s -C "$release" install PREFIX="$prefix"
# The manual pages are installed, name each other and this version, and are formatted without a warning.
for page in man3/etherparse.3 man7/etherparse-filter.7; do
    grep -q '^\.TH .* "etherparse-c [0-9.]*" ' "$prefix/share/man/$page"
    if groff --version > /dev/null 2>&1; then
        groff -man -Tutf8 -ww "$prefix/share/man/$page" 2>&1 > /dev/null | tee "$work/log"
        [ ! -s "$work/log" ]
    fi
done
grep -q '^\.BR etherparse\\-filter (7)' "$prefix/share/man/man3/etherparse.3"
grep -q '^\.BR etherparse (3)' "$prefix/share/man/man7/etherparse-filter.7"
flags=(-std=c99 -Wall -Wextra -Werror -O2)

make -s -C "$release" examples CC="$CC" CFLAGS="${flags[*]}"
for name in build reassemble bounded headers; do
    "$release/out/$name" | cmp - "$here/examples/$name.out"
done
"$release/out/expression" "udp port 53 and not host 192.168.1.2" | cmp - <(head -n 2 "$here/examples/expression.out")
if [ -n "${1:-}" ]; then "$release/out/filter" 1234 "$1" | cmp - "$here/examples/filter.out"; fi

# With pkg-config, from the installed release and from the unpacked one. Without pkg-config its flags are set here.
for folder in "$prefix" "$release"; do
    if pkg-config --version > /dev/null 2>&1; then
        told=$(PKG_CONFIG_PATH=$folder/lib/pkgconfig pkg-config --cflags --libs etherparse)
    else
        told="-I$folder/include -L$folder/lib -l:libetherparse_c.a"
    fi
    # shellcheck disable=SC2086
    "$CC" "${flags[@]}" "$here/examples/build.c" $told -o "$work/build"
    "$work/build" | cmp - "$here/examples/build.out"
done
ways="pkg-config"

if cmake --version > /dev/null 2>&1; then
    mkdir "$work/by_cmake"
    cat > "$work/by_cmake/CMakeLists.txt" <<END
cmake_minimum_required(VERSION 3.16)
project(test C)
find_package(etherparse 0.2 REQUIRED)
add_executable(by_archive "$here/examples/reassemble.c")
target_link_libraries(by_archive etherparse::etherparse)
add_executable(by_shared "$here/examples/reassemble.c")
target_link_libraries(by_shared etherparse::shared)
END
    cmake -S "$work/by_cmake" -B "$work/by_cmake/build" -DCMAKE_C_COMPILER="$CC" -DCMAKE_PREFIX_PATH="$prefix" \
        > "$work/log"
    cmake --build "$work/by_cmake/build" > "$work/log" || { cat "$work/log"; exit 1; }
    for name in by_archive by_shared; do
        "$work/by_cmake/build/$name" | cmp - "$here/examples/reassemble.out"
    done
    # another minor version is not accepted
    sed -i 's/etherparse 0.2/etherparse 0.3/' "$work/by_cmake/CMakeLists.txt"
    ! cmake -S "$work/by_cmake" -B "$work/by_cmake/other" -DCMAKE_PREFIX_PATH="$prefix" > "$work/log" 2>&1
    grep -q 'compatible with requested version "0.3"' "$work/log"
    ways="$ways, CMake"
fi

"$CC" "${flags[@]}" "$here/examples/reassemble.c" -I"$prefix/include" -L"$prefix/lib" -letherparse_c \
    -Wl,-rpath,"$prefix/lib" -o "$work/reassemble"
"$work/reassemble" | cmp - "$here/examples/reassemble.out"
if command -v readelf > /dev/null; then # the program needs the shared object
    readelf -d "$work/reassemble" | grep -q 'NEEDED.*libetherparse_c.so.2'
fi
# The program's own allocator replaces the archive's.
"$CC" "${flags[@]}" "$here/tests/statuses.c" -I"$prefix/include" "$prefix/lib/libetherparse_c.a" -o "$work/statuses"
"$work/statuses" | cmp - "$here/tests/statuses.out"
make -s -C "$release" uninstall PREFIX="$prefix"
[ -z "$(find "$prefix" -type f -o -type l)" ] || { echo "not removed:"; find "$prefix" -type f; exit 1; }
echo "bindings: a release was installed; examples built by make, $ways and with the shared object are right"
"$here/../clean_test.sh" "$work"/etherparse-c-*-x86_64-linux.tar.gz
