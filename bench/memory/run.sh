#!/usr/bin/env bash
# Replays examples/ping.script once for each allocation that the program makes, of which that one finds no memory. Each run must end
# with status 1 and have printed a front of the whole text. Prints how many allocations there are.
set -eu
top=$(cd "$(dirname "$0")/../.." && pwd)
script=$top/examples/ping.script
whole=$("$top/run" replay <"$script")
program=$top/crates/salt_node_cli/out/salt_node_cli
folder=$(mktemp -d)
trap 'rm -rf "$folder"' EXIT
cc -O2 -shared -fPIC -o "$folder/fail_nth.so" "$top/bench/memory/fail_nth.c"

n=1
while :; do
    rm -f "$folder/failed"
    status=0
    FAIL_NTH=$n FAILED_AT=$folder/failed LD_PRELOAD=$folder/fail_nth.so "$program" replay <"$script" >"$folder/out" || status=$?
    if [ ! -e "$folder/failed" ]; then
        [ "$status" = 0 ] && [ "$(cat "$folder/out")" = "$whole" ] || { echo "without a failure: status $status" >&2; exit 1; }
        break
    fi
    text=$(cat "$folder/out")
    case $whole in
        "$text"*) ;;
        *) echo "allocation $n: what was printed is no front of the text" >&2; exit 1 ;;
    esac
    [ "$status" = 1 ] || { echo "allocation $n: status $status" >&2; exit 1; }
    n=$((n + 1))
done
echo "each of $((n - 1)) allocations failed once: status 1, and a front of the text"
