#!/usr/bin/env bash
# Times the built program on scripts in which 64, 512 and 4,096 minions each get, run and return one ping and one report is printed.
# Prints for each size the turns, the seconds (the least of five runs), the peak memory and the time for a turn.
set -eu
top=$(cd "$(dirname "$0")/../.." && pwd)
"$top/run" replay <"$top/examples/ping.script" >/dev/null
program=$top/crates/salt_node_cli/out/salt_node_cli
folder=$(mktemp -d)
trap 'rm -rf "$folder"' EXIT

python3 - "$folder" "$program" <<'PY'
import os, resource, subprocess, sys, time
folder, program = sys.argv[1:]

def script(count):
    ids = [f"m{i:04}" for i in range(count)]
    lines = ["%fleet", "nodes:", "- id: top", "  role: top"]
    for i in ids:
        lines += [f"- id: {i}", "  role: minion", "  parent: top"]
    turns = ['publish 1700000000000000 glob test.ping ["*"]']
    packet = 0
    for i in ids:
        # the job, its count, the start and the return, and the two counts that answer them
        turns += [f"send top {i} 1", f"deliver {packet}", f"send {i} top 3",
                  f"deliver {packet + 2}", f"deliver {packet + 3}", f"deliver {packet + 4}"]
        packet += 7
    turns += ["report 20231114221320000000"]
    return "\n".join(lines + ["%schedule"] + turns + ["%end"]) + "\n", len(turns)

per_turn = {}
for count in (64, 512, 4096):
    text, turns = script(count)
    path = os.path.join(folder, f"{count}.script")
    open(path, "w").write(text)
    best, peak = None, 0
    for _ in range(5):
        out = os.path.join(folder, "out")
        with open(path) as source, open(out, "w") as sink:
            start = time.perf_counter()
            child = subprocess.Popen([program, "replay"], stdin=source, stdout=sink)
            _, status, usage = os.wait4(child.pid, 0)
            seconds = time.perf_counter() - start
        assert os.waitstatus_to_exitcode(status) == 0, status
        lines = open(out).read().splitlines()
        assert lines[1] == f"report 20231114221320000000 test.ping {count}", lines[:3]
        assert len(lines) == count + 3 and lines[-1] == "end"
        best = seconds if best is None else min(best, seconds)
        peak = max(peak, usage.ru_maxrss)
    per_turn[count] = best / turns * 1e6
    print(f"{count:5} minions  {turns:6} turns  {best:8.4f} s  {peak / 1024:7.1f} MB  {per_turn[count]:7.3f} us a turn")
print(f"a turn at 4,096 takes {per_turn[4096] / per_turn[64]:.2f} times that at 64; {os.cpu_count()} processors")
PY
