#!/usr/bin/env bash
# Counts the instructions of a load of a minion from the log on its disk, by callgrind: of a run that loads it three times, less those of one
# that does so once, by two. Prints them for each number of records, with those for a record and for a byte of the journal.
# Usage: bench/load/run.sh [RECORDS ..], with the kit's command `rt` and valgrind; without numbers 8192, 32768 and 65535, the most jobs of a
# minion. It proves the program and the crates below it in a folder of its own that it removes, which takes some minutes.
set -eu
top=$(cd "$(dirname "$0")/../.." && pwd)
[ $# -gt 0 ] || set -- 8192 32768 65535
work=$(mktemp -d)
trap 'rm -rf "$work"' EXIT
bench="$work/crates/load_bench"
mkdir -p "$bench/src" "$bench/specs" "$bench/proofs"

# The crates of this repository that a crate stands on, and that crate.
crates_of() {
    local used
    for used in $(sed -n "s/^$1: *//p" "$top/crates.txt"); do
        ! [ -d "$top/crates/$used" ] || crates_of "$used"
    done
    echo "$1"
}
for name in $(crates_of journalled_node | awk '!seen[$0]++'); do
    mkdir -p "$work/crates/$name"
    for part in src specs proofs; do
        ! [ -d "$top/crates/$name/$part" ] || cp -r "$top/crates/$name/$part" "$work/crates/$name/"
    done
    grep "^$name:" "$top/crates.txt" >>"$work/crates.txt"
done
echo 'load_bench: salt_value salt_disk exec_functions fleet_config node_core journalled_node anyhow' >>"$work/crates.txt"
cp "$top/bench/load/main.rust" "$bench/src/main.rt"
(cd "$bench" && echo '1 1' | rt run >"$work/log" 2>&1) || { tail -20 "$work/log"; exit 1; }
program="$bench/out/load_bench"

count() { echo "$1 $2" | valgrind --tool=callgrind --callgrind-out-file=/dev/null "$program" 2>&1 | awk '/Collected/ {print $4}'; }

for records; do
    [ "$(echo "$records 1" | "$program")" = "$records" ] || { echo "a load of $records records finds others"; exit 1; }
    once=$(count "$records" 1)
    thrice=$(count "$records" 3)
    awk -v n="$records" -v a="$once" -v b="$thrice" 'BEGIN {
        load = (b - a) / 2; bytes = 17 + 15 * n
        printf "%6d records, %8d bytes: %12d instructions, %d for a record, %.0f for a byte\n", n, bytes, load, load / n, load / bytes
    }'
done
