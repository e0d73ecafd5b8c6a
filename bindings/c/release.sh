#!/usr/bin/env bash
# Builds etherparse-c-VERSION-x86_64-linux.tar.gz in FOLDER (default crates/etherparse_c/out): release.sh [FOLDER]
#
# It needs a C compiler (CC), ar, nm and the archive that bindings/c/build.sh leaves, or ETHERPARSE_C_ARCHIVE; in the
# folder of the archive the file `verdict` with the line of the crate's proof, or that line as
# ETHERPARSE_VERDICT. With ARCH=aarch64, after bindings/c/build.sh, it builds a release for that processor: the kit
# builds the archive, and clang the allocator. There is no C library for it here, so the release has no shared object,
# and nothing of it is run.
set -euo pipefail
here=$(cd "$(dirname "$0")" && pwd)
top=$(cd "$here/../.." && pwd)
arch=${ARCH:-x86_64}
out=$top/crates/etherparse_c/out
folder=$(realpath -m "${1:-$out}")
say() { echo "release.sh: $*"; }
fail() { say "$*" >&2; exit 1; }

# Builds the archive for another processor, from the same proved code and the libraries that are already proved.
build_for() {
    local kit words=() library
    kit=$(dirname "$(dirname "$(readlink -f "$(command -v rt)")")")
    for library in "$top"/crates/*/out/rlib; do words+=(-L "dependency=$library"); done
    for library in $(sed -n 's/^etherparse_c staticlib: *//p' "$top/crates.txt"); do
        words+=(--extern "$library=$top/crates/$library/out/rlib/$library.rlib")
    done
    mkdir -p "$out/$1"
    (cd "$top/crates/etherparse_c" && "$kit/bin/rattle" build --crate-name etherparse_c src/lib.rt \
        --extern "std=$kit/rlibs/std.rlib" -L "dependency=$kit/rlibs" "${words[@]}" --links etherparse_c= --jobs 1 \
        --antt-project "$kit/rattle/logic/antt-project.json" --logic-built "$kit/logic_built" \
        --incremental "$out/incremental" \
        --crate-type staticlib --target "$1-unknown-linux-gnu" --toolchain "$kit/toolchain" --backend llvm \
        -o "$out/$1/libetherparse_c.a") > "$out/$1/log" 2>&1 || { tail "$out/$1/log"; fail "no archive for $1"; }
    grep '^logic=proved' "$out/$1/log" > "$out/$1/verdict"
}

if [ "$arch" = aarch64 ] && [ -z "${ETHERPARSE_C_ARCHIVE:-}" ]; then
    build_for aarch64
    archive=$out/aarch64/libetherparse_c.a
else
    archive=${ETHERPARSE_C_ARCHIVE:-$out/libetherparse_c.a}
fi

[ -e "$archive" ] || fail "no $archive: run bindings/c/build.sh first"
verdict=${ETHERPARSE_VERDICT:-$(cat "$(dirname "$archive")/verdict" 2> /dev/null || true)}
[ -n "$verdict" ] || fail "no verdict beside $archive: run bindings/c/build.sh, which keeps its line"
version=$(sed -n 's/^#define ETHERPARSE_VERSION_TEXT "\(.*\)"$/\1/p' "$here/etherparse.h")
[ -n "$version" ] || fail "etherparse.h names no ETHERPARSE_VERSION_TEXT"
kit=$(rt version 2> /dev/null) || fail "no rt on the path, which tells its version"

name=etherparse-c-$version-$arch-linux
work=$(mktemp -d)
trap 'rm -rf "$work"' EXIT
stage=$work/$name
mkdir -p "$stage"/{include,lib/pkgconfig,lib/cmake/etherparse,share/man/man{3,7},examples,python}

# The archive, with its allocator as a separate member, which is linked unless the program defines these functions.
case $arch in
    x86_64) compile=(${CC:-cc} -O2 -fPIC) ;;
    aarch64) # without the headers of a C library for it: these are the functions that the allocator calls
        mkdir "$work/declared"
        echo '#include <stddef.h>
void *malloc(size_t len); void *realloc(void *block, size_t len); void free(void *block);' > "$work/declared/stdlib.h"
        compile=("${CLANG:-clang}" --target=aarch64-linux-gnu -ffreestanding -isystem "$work/declared" -O2 -fPIC) ;;
    *) fail "no release for $arch" ;;
esac
cp "$archive" "$stage/lib/libetherparse_c.a"
chmod 644 "$stage/lib/libetherparse_c.a"
"${compile[@]}" -c "$here/etherparse_heap.c" -o "$work/etherparse_heap.o"
${AR:-ar} rsD "$stage/lib/libetherparse_c.a" "$work/etherparse_heap.o" 2> /dev/null

# The header's calls use these exports; all other symbols of the archive are private.
exports=$(sed -n '/^\/\* ---- What is linked/,/^\/\* The version of the archive/p' "$here/etherparse.h" |
    grep -o 'etherparse_[0-9]*_[a-z_]*(' | tr -d '(' | sort)
[ -n "$exports" ] || fail "etherparse.h declares no export where it says what is linked"
defined() { ${NM:-nm} "$@" --defined-only 2> /dev/null | awk '$2 == "T" {print $3}' | sed 's/@.*//' | sort; }
missing=$(comm -23 <(echo "$exports") <(defined -g "$archive"))
[ -z "$missing" ] || fail "the header declares what the archive has not:" $missing
if [ "$arch" = x86_64 ]; then
    layout=$(echo "$exports" | sed -n '1s/etherparse_\([0-9]*\)_.*/\1/p')
    printf 'ETHERPARSE_%s {\nglobal:\n%s\nlocal: *;\n};\n' "$layout" "${exports//$'\n'/;$'\n'};" > "$work/exports"
    "${compile[@]}" -shared -o "$stage/lib/libetherparse_c.so.$layout" "-Wl,-soname,libetherparse_c.so.$layout" \
        -Wl,--version-script="$work/exports" -Wl,-z,defs -Wl,-z,text -Wl,-z,noexecstack -Wl,-z,relro -Wl,-z,now \
        -Wl,--build-id=none -Wl,--whole-archive "$stage/lib/libetherparse_c.a" -Wl,--no-whole-archive
    ln -s "libetherparse_c.so.$layout" "$stage/lib/libetherparse_c.so"
    chmod 644 "$stage/lib/libetherparse_c.so.$layout"
    shown=$(defined -D "$stage/lib/libetherparse_c.so")
    [ "$shown" = "$exports" ] || fail "the shared object shows other calls than the header's:" $shown
else
    say "no shared object for $arch: there is no C library here to link it with; nothing of this release was run"
fi

minor=$(echo "$version" | cut -d . -f 2)
filled() { sed -e "s/@VERSION@/$version/g" -e "s/@MAJOR@/${version%%.*}/g" -e "s/@MINOR@/$minor/g" "$1"; }
cp "$here/etherparse.h" "$stage/include"
filled "$here/etherparse.pc.in" > "$stage/lib/pkgconfig/etherparse.pc"
cp "$here/etherparse-config.cmake" "$stage/lib/cmake/etherparse"
filled "$here/etherparse-config-version.cmake.in" > "$stage/lib/cmake/etherparse/etherparse-config-version.cmake"
filled "$here/etherparse.3" > "$stage/share/man/man3/etherparse.3"
filled "$here/etherparse-filter.7" > "$stage/share/man/man7/etherparse-filter.7"
cp "$here/Makefile" "$here/../README.md" "$stage"
cp "$here/etherparse_heap.c" "$stage/examples"
cp "$here"/examples/*.c "$here"/examples/*.out "$stage/examples"
# The Rust crates, with the archive where the package searches its own copy, and the Python module.
mkdir -p "$stage/rust/etherparse-c-sys/native/$arch-linux"
(cd "$here/../rust" && cp --parents --dereference --recursive Cargo.toml Cargo.lock \
    etherparse-c/{Cargo.toml,README.md,src,examples} etherparse-c-sys/{Cargo.toml,README.md,build.rs,src} "$stage/rust")
cp "$here/etherparse_heap.c" "$stage/rust/etherparse-c-sys"
rm "$stage/rust/etherparse-c/examples/compare.rs" # a benchmark that needs the repository
cp "$stage/lib/libetherparse_c.a" "$stage/rust/etherparse-c-sys/native/$arch-linux"
(cd "$here/../python" && cp --parents README.md pyproject.toml etherparse_c/{__init__.py,py.typed} "$stage/python")
{
    echo "etherparse-c $version for $arch-linux"
    echo "$kit"
    echo "$verdict"
    [ "$arch" = x86_64 ] || echo "built for $arch, and not run"
} > "$stage/VERSION"
(cd "$stage" && find ./* -type f | cut -c 3- | LC_ALL=C sort | xargs -d '\n' sha256sum > "$work/sums" &&
    cp "$work/sums" SHA256SUMS)

mkdir -p "$folder"
tar -c --sort=name --mtime=@0 --owner=0 --group=0 --numeric-owner -C "$work" "$name" | gzip -9n > "$folder/$name.tar.gz"
say "$folder/$name.tar.gz, $(wc -c < "$folder/$name.tar.gz") bytes"
