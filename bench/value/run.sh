#!/bin/sh
# Times writing and reading a map of 20 pairs and a list of 151 such maps, about 60 KiB, and the same in plain Rust
# with Debian's byteorder (package librust-byteorder-dev; set BYTEORDER to its src/lib.rs where it lies elsewhere).
# Usage: bench/value/run.sh, with the kit's command `rt` and rustc. It works in a folder of its own that it removes.
set -eu
top=$(cd "$(dirname "$0")/../.." && pwd)
byteorder=${BYTEORDER:-$(ls /usr/share/cargo/registry/byteorder-*/src/lib.rs)}
work=$(mktemp -d)
trap 'rm -rf "$work"' EXIT
mkdir -p "$work/crates/value_bench/src" "$work/crates/value_bench/specs" "$work/crates/value_bench/proofs"
mkdir -p "$work/crates/salt_value"
cp -r "$top/crates/salt_value/src" "$top/crates/salt_value/specs" "$top/crates/salt_value/proofs" "$work/crates/salt_value/"
grep '^salt_value:' "$top/crates.txt" >"$work/crates.txt"
echo 'value_bench: salt_value sqlite_items anyhow' >>"$work/crates.txt"
cp "$top/bench/value/main.rust" "$work/crates/value_bench/src/main.rt"
cd "$work"
rustc -O --edition 2021 --crate-type rlib --crate-name byteorder --cfg 'feature="std"' --cap-lints allow -o libbyteorder.rlib "$byteorder"
rustc -O --edition 2021 --extern byteorder=libbyteorder.rlib --cap-lints allow -o plain "$top/bench/value/plain.rs"
echo "plain Rust:"
./plain
echo "salt_value:"
cd "$work/crates/value_bench"
rt run 2>"$work/log" || { tail -20 "$work/log"; exit 1; }
