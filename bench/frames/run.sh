#!/bin/sh
# Feeds a stream of 64 MiB of frames in pieces of 1, 7, 100, 1,460, 65,536 and 1,048,576 bytes, and prints the processor
# time of a feed and of a byte. Usage: bench/frames/run.sh, at the top of the repository. It needs the kit's command `rt`,
# works in a folder of its own that it removes, and takes no part in the gate.
set -eu
top=$(cd "$(dirname "$0")/../.." && pwd)
work=$(mktemp -d)
trap 'rm -rf "$work"' EXIT
mkdir -p "$work/crates/salt_frame" "$work/crates/frames_bench/src"
cp -r "$top/crates/salt_frame/src" "$top/crates/salt_frame/specs" "$top/crates/salt_frame/proofs" "$work/crates/salt_frame/"
printf 'salt_frame: thiserror\nframes_bench: salt_frame anyhow\n' > "$work/crates.txt"
cp "$top/bench/frames/main.rust" "$work/crates/frames_bench/src/main.rt"
cd "$work/crates/frames_bench"
rt run 2>"$work/log" || { tail -20 "$work/log"; exit 1; }
