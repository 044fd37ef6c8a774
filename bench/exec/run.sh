#!/usr/bin/env bash
# Counts the instructions of 1,000,000 calls of `data.incr`, of `test.echo` with 20 pairs, and of `grains.get` on a minion with 200 grains,
# and those of a plain Rust program that does the same, by callgrind: of 20,000 calls less none, times 50.
# Usage: bench/exec/run.sh, with the kit's command `rt`, rustc and valgrind. It works in a folder of its own that it removes.
set -eu
top=$(cd "$(dirname "$0")/../.." && pwd)
work=$(mktemp -d)
trap 'rm -rf "$work"' EXIT
mkdir -p "$work/crates/exec_bench/src" "$work/crates/exec_bench/specs" "$work/crates/exec_bench/proofs"
for name in salt_value exec_functions; do
    mkdir -p "$work/crates/$name"
    cp -r "$top/crates/$name/src" "$top/crates/$name/specs" "$top/crates/$name/proofs" "$work/crates/$name/"
    grep "^$name:" "$top/crates.txt" >>"$work/crates.txt"
done
echo 'exec_bench: salt_value exec_functions sqlite_items anyhow' >>"$work/crates.txt"
cp "$top/bench/exec/main.rust" "$work/crates/exec_bench/src/main.rt"
cd "$work"
rustc -O --edition 2021 -o plain "$top/bench/exec/plain.rs"
(cd crates/exec_bench && echo 'echo 0' | rt run >"$work/log" 2>&1) || { tail -20 "$work/log"; exit 1; }
count() { echo "$2 $3" | valgrind --tool=callgrind --callgrind-out-file=/dev/null "$1" 2>&1 | awk '/Collected/ {print $4}'; }
for what in incr echo get; do
    for program in crates/exec_bench/out/exec_bench ./plain; do
        with=$(count "$program" "$what" 20000)
        without=$(count "$program" "$what" 0)
        echo "$what $program $(((with - without) * 50))"
    done
done
