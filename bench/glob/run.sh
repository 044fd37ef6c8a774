#!/bin/sh
# Compares the time of `salt_glob::glob` with that of C's fnmatch on the same patterns and texts.
# Usage: bench/glob/run.sh, at the top of the repository. It needs the kit's command `rt` and a C compiler,
# and works in a folder of its own that it removes.
set -eu
top=$(cd "$(dirname "$0")/../.." && pwd)
work=$(mktemp -d)
trap 'rm -rf "$work"' EXIT
mkdir -p "$work/crates/glob_bench/src" "$work/crates/glob_bench/specs" "$work/crates/glob_bench/proofs"
cp -r "$top/crates/salt_glob" "$work/crates/salt_glob"
printf 'salt_glob: memchr\nglob_bench: salt_glob\n' > "$work/crates.txt"
cp "$top/bench/glob/main.rust" "$work/crates/glob_bench/src/main.rt"
cp "$top/bench/glob/fnmatch.c" "$work/fnmatch.c"
cc -O2 -o "$work/fnmatch" "$work/fnmatch.c"
echo "C's fnmatch:"
"$work/fnmatch"
echo "salt_glob::glob:"
cd "$work/crates/glob_bench"
rt run 2>"$work/log" || { tail -20 "$work/log"; exit 1; }
