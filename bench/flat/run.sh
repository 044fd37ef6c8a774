#!/usr/bin/env bash
# Counts the instructions of the flat reports of 4,096 minions and 20 jobs, each `data.incr` on every minion, by targets that are a glob of
# ids and a glob of grains, and those of a plain Rust program that does the same, by callgrind: of the whole program, and of the jobs
# alone, which is the whole less a run without jobs.
# Usage: bench/flat/run.sh, with the kit's command `rt`, rustc and valgrind. It works in a folder of its own that it removes.
set -eu
top=$(cd "$(dirname "$0")/../.." && pwd)
work=$(mktemp -d)
trap 'rm -rf "$work"' EXIT
bench="$work/crates/flat_bench"
mkdir -p "$bench/src" "$bench/specs" "$bench/proofs/matchers"
for name in salt_value salt_glob target_tree target_match salt_wire exec_functions minion_core flat_fleet; do
    mkdir -p "$work/crates/$name"
    cp -r "$top/crates/$name/src" "$top/crates/$name/specs" "$top/crates/$name/proofs" "$work/crates/$name/"
    grep "^$name:" "$top/crates.txt" >>"$work/crates.txt"
done
echo 'flat_bench: salt_value target_tree target_match salt_wire exec_functions flat_fleet sqlite_items anyhow' >>"$work/crates.txt"
cp "$top/bench/flat/main.rust" "$bench/src/main.rt"
cp "$top/bench/flat/invariants.txt" "$bench/proofs/matchers/Invariants.antt"
cd "$work"
rustc -O --edition 2021 -o plain "$top/bench/flat/plain.rs"
(cd "$bench" && echo 'glob 1 1' | rt run >"$work/log" 2>&1) || { tail -20 "$work/log"; exit 1; }
count() { echo "$2 4096 $3" | valgrind --tool=callgrind --callgrind-out-file=/dev/null "$1" 2>&1 | awk '/Collected/ {print $4}'; }
ratio() { awk "BEGIN {printf \"%.2f\", $1 / $2}"; }
for what in glob grain; do
    if [ "$(echo "$what 4096 20" | "$bench/out/flat_bench")" != "$(echo "$what 4096 20" | ./plain)" ]; then
        echo "$what: the answers differ"
        exit 1
    fi
    whole=$(count "$bench/out/flat_bench" "$what" 20)
    whole_plain=$(count ./plain "$what" 20)
    jobs=$((whole - $(count "$bench/out/flat_bench" "$what" 0)))
    jobs_plain=$((whole_plain - $(count ./plain "$what" 0)))
    echo "$what: the whole $whole, plain Rust $whole_plain, ratio $(ratio "$whole" "$whole_plain")"
    echo "$what: the jobs alone $jobs, plain Rust $jobs_plain, ratio $(ratio "$jobs" "$jobs_plain")"
done
