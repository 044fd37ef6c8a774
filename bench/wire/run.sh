#!/bin/sh
# Times encoding and decoding 1,000,000 messages of each of three kinds, and of one of about 60 KiB as many as have the bytes of
# those with a map; and the same in plain Rust with Debian's byteorder (package librust-byteorder-dev; set BYTEORDER to its
# src/lib.rs where it lies elsewhere). The two programs run in turns, RUNS times each (9 if not set), in ten parts for each figure,
# of which the fastest counts, in processor time. Each program checks the messages that it decodes and the bodies that it encodes,
# and the bodies of the two are compared.
# Usage: bench/wire/run.sh, with the kit's command `rt` and rustc. It works in a folder of its own that it removes, or in WORK,
# which stays, with what was proved there.
set -eu
top=$(cd "$(dirname "$0")/../.." && pwd)
byteorder=${BYTEORDER:-$(ls /usr/share/cargo/registry/byteorder-*/src/lib.rs)}
runs=${RUNS:-9}
if [ -n "${WORK:-}" ]; then
    mkdir -p "$WORK"
    work=$(cd "$WORK" && pwd)
else
    work=$(mktemp -d)
    trap 'rm -rf "$work"' EXIT
fi
mkdir -p "$work/crates/wire_bench/src" "$work/crates/wire_bench/specs" "$work/crates/wire_bench/proofs"
echo 'wire_bench: salt_value target_tree salt_wire sqlite_items anyhow' >"$work/crates.txt"
for name in salt_value target_tree salt_wire; do
    mkdir -p "$work/crates/$name"
    cp -r "$top/crates/$name/src" "$top/crates/$name/specs" "$top/crates/$name/proofs" "$work/crates/$name/"
    grep "^$name:" "$top/crates.txt" >>"$work/crates.txt"
done
cp "$top/bench/wire/main.rust" "$work/crates/wire_bench/src/main.rt"
cd "$work"
rustc -O --edition 2021 --crate-type rlib --crate-name byteorder --cfg 'feature="std"' --cap-lints allow -o libbyteorder.rlib "$byteorder"
rustc -O --edition 2021 --extern byteorder=libbyteorder.rlib --cap-lints allow -o plain "$top/bench/wire/plain.rs"
(cd crates/wire_bench && rt run) >first 2>log || { tail -20 first log; exit 1; }
: >times
for _ in $(seq "$runs"); do
    ./plain | sed 's/^/plain /' >>times
    crates/wire_bench/out/wire_bench | sed 's/^/salt_wire /' >>times
done
awk '
    $2 == "body" {
        if ($3 in body && body[$3] != $4 " " $5) { print $3 ": the two programs have other bodies"; exit failed = 1 }
        body[$3] = $4 " " $5
    }
    $2 == "time" {
        each = $7 / $6
        key = $3 " " $4
        if (!(key in size)) { order[++rows] = key; size[key] = $5 }
        if (!(($1, key) in least) || each < least[$1, key]) least[$1, key] = each
        count[$1, key]++
    }
    END {
        if (failed) exit 1
        print "message, way, bytes, plain ns, salt_wire ns, plain MB/s, salt_wire MB/s, ratio, runs"
        for (row = 1; row <= rows; row++) {
            key = order[row]
            plain = least["plain", key]
            own = least["salt_wire", key]
            printf "%s %d %.1f %.1f ", key, size[key], plain, own
            printf "%.0f %.0f %.2f ", 1000 * size[key] / plain, 1000 * size[key] / own, own / plain
            printf "%d+%d\n", count["plain", key], count["salt_wire", key]
        }
    }' times
