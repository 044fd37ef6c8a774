#!/bin/sh
# Times `Matcher::holds` over 4,096 minions for targets of each kind, and the same decisions in plain Rust with Debian's regex
# (packages librust-regex-dev, librust-aho-corasick-dev and librust-memchr-dev).
# Usage: bench/match/run.sh, with the kit's command `rt` and rustc. It works in a folder of its own that it removes.
set -eu
top=$(cd "$(dirname "$0")/../.." && pwd)
registry=/usr/share/cargo/registry
work=$(mktemp -d)
trap 'rm -rf "$work"' EXIT
mkdir -p "$work/crates/match_bench/src" "$work/crates/match_bench/specs" "$work/crates/match_bench/proofs"
for name in salt_value salt_glob target_tree target_match; do
    mkdir -p "$work/crates/$name"
    cp -r "$top/crates/$name/src" "$top/crates/$name/specs" "$top/crates/$name/proofs" "$work/crates/$name/"
    grep "^$name:" "$top/crates.txt" >>"$work/crates.txt"
done
echo 'match_bench: salt_value target_tree target_match sqlite_items anyhow' >>"$work/crates.txt"
cp "$top/bench/match/main.rust" "$work/crates/match_bench/src/main.rt"
cd "$work"
library() {
    name=$1
    folder=$2
    shift 2
    rustc -O --edition 2018 --crate-type rlib --crate-name "$name" --cap-lints allow -L . "$@" -o "lib$name.rlib" "$(ls $registry/$folder-*/src/lib.rs | grep "/$folder-[0-9]" | head -1)"
}
library memchr memchr --cfg 'feature="std"' --cfg memchr_runtime_simd --cfg memchr_runtime_sse2 --cfg memchr_runtime_avx
library aho_corasick aho-corasick --cfg 'feature="std"' --extern memchr=libmemchr.rlib
unicode=""
for part in "" -age -bool -case -gencat -perl -script -segment; do
    unicode="$unicode --cfg feature=\"unicode$part\""
done
library regex_syntax regex-syntax $unicode
performance=""
for part in "" -cache -dfa -inline -literal; do
    performance="$performance --cfg feature=\"perf$part\""
done
library regex regex --cfg 'feature="std"' $unicode $performance --cfg 'feature="aho-corasick"' --cfg 'feature="memchr"' --extern memchr=libmemchr.rlib --extern aho_corasick=libaho_corasick.rlib --extern regex_syntax=libregex_syntax.rlib
rustc -O --edition 2021 --extern regex=libregex.rlib -L . --cap-lints allow -o plain "$top/bench/match/plain.rs"
echo "plain Rust:"
./plain
echo "target_match:"
cd "$work/crates/match_bench"
rt run 2>"$work/log" || { tail -20 "$work/log"; exit 1; }
