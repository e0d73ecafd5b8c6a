#!/usr/bin/env bash
# Runs the tests of this crate, without proof, on more cases: 100,000 streams at once, and 1,000 streams whose keys
# collide. It takes some minutes, works on a copy of the repository, and ends with the last line of `rt try`.
set -eu
top=$(cd "$(dirname "$0")/../.." && pwd)
copy=$(mktemp -d)
trap 'rm -rf "$copy"' EXIT
mkdir "$copy/crates"
cp "$top/crates.txt" "$copy"
while IFS=: read -r name _; do
    name=${name%% *}
    [ -d "$top/crates/$name/src" ] || continue
    mkdir "$copy/crates/$name"
    for part in src specs proofs; do
        [ ! -d "$top/crates/$name/$part" ] || cp -r "$top/crates/$name/$part" "$copy/crates/$name"
    done
done < "$top/crates.txt"
cd "$copy/crates/etherparse"
git init -q "$copy"
sed -i -e '/const STREAMS/s/= .*;/= 100_000;/' -e '/const COLLIDING_STREAMS/s/= .*;/= 1_000;/' src/tests/sizes.rt
rt try --test --seconds 1800
