#!/usr/bin/env bash
# Counts the instructions of a settle over a tree with syndics, by callgrind, beside those of a plain Rust program that does the same: a top,
# 8 syndics under it, 7 under each of these, and the minions evenly under the lower 56; each job is `test.ping` for all minions. Prints for
# each size the packets with their bound, the instructions of both programs and their ratio, the instructions for a packet, and the peak memory.
# Usage: bench/tree/run.sh ["MINIONS UPPER LOWER JOBS" ..], with the kit's command `rt`, rustc and valgrind; without sizes "4096 8 7 20" and
# "64 8 7 1000", which take minutes. "64 8 7 20" takes seconds. It works in a folder of its own that it removes.
set -eu
top=$(cd "$(dirname "$0")/../.." && pwd)
[ $# -gt 0 ] || set -- "4096 8 7 20" "64 8 7 1000"
work=$(mktemp -d)
trap 'rm -rf "$work"' EXIT
bench="$work/crates/tree_bench"
mkdir -p "$bench/src" "$bench/specs" "$bench/proofs"

# The crates of this repository that a crate stands on, and that crate.
crates_of() {
    local used
    for used in $(sed -n "s/^$1: *//p" "$top/crates.txt"); do
        ! [ -d "$top/crates/$used" ] || crates_of "$used"
    done
    echo "$1"
}
for name in $(crates_of tree_world | awk '!seen[$0]++'); do
    mkdir -p "$work/crates/$name"
    for part in src specs proofs; do
        ! [ -d "$top/crates/$name/$part" ] || cp -r "$top/crates/$name/$part" "$work/crates/$name/"
    done
    grep "^$name:" "$top/crates.txt" >>"$work/crates.txt"
done
echo 'tree_bench: salt_value salt_outside target_tree exec_functions fleet_config tree_world anyhow' >>"$work/crates.txt"
cp "$top/bench/tree/main.rust" "$bench/src/main.rt"
cd "$work"
rustc -O --edition 2021 -o plain "$top/bench/tree/plain.rs"
(cd "$bench" && echo '1 1 1 1' | rt run >"$work/log" 2>&1) || { tail -20 "$work/log"; exit 1; }
program="$bench/out/tree_bench"

count() { echo "$2" | valgrind --tool=callgrind --callgrind-out-file=/dev/null "$1" 2>&1 | awk '/Collected/ {print $4}'; }
ratio() { awk "BEGIN {printf \"%.2f\", $1 / $2}"; }

# The peak memory in kB. Without time it is asked of /proc once both lines are there, while the program waits for another one.
peak() {
    if [ -x /usr/bin/time ]; then
        echo "$2" | /usr/bin/time -f %M "$1" 2>&1 >/dev/null
        return
    fi
    local pid line
    coproc SETTLE { exec "$1"; }
    pid=$SETTLE_PID
    echo "$2" >&"${SETTLE[1]}"
    for line in packets report; do
        read -r line <&"${SETTLE[0]}"
    done
    awk '/VmHWM/ {print $2}' "/proc/$pid/status"
    eval "exec ${SETTLE[1]}>&-"
    wait "$pid"
}

for size; do
    answer=$(echo "$size" | "$program")
    if [ "$answer" != "$(echo "$size" | ./plain)" ]; then
        echo "$size: the answers differ"
        exit 1
    fi
    echo "$size:"
    echo "$answer"
    packets=$(echo "$answer" | awk '/^packets/ {print $2}')
    ours=$(count "$program" "$size")
    plain=$(count ./plain "$size")
    echo "instructions $ours, plain Rust $plain, ratio $(ratio "$ours" "$plain")"
    echo "instructions for a packet $((ours / packets)), plain Rust $((plain / packets))"
    echo "peak memory in kB $(peak "$program" "$size"), plain Rust $(peak ./plain "$size")"
done
