#!/usr/bin/env bash
# Eight clients that commit, and one standby: events, wake-ups by a change, sleeps of any kind and processor time for each
# commit. Run after `cd crates/bench_parts && rt run -- turn 2 1000`, on a machine that does nothing else; BENCH names another
# program of the same arguments.
set -eu
cd "$(dirname "$0")/.."
exec python3 - "${BENCH:-crates/bench_parts/out/bench_parts}" <<'PYTHON'
import resource
import subprocess
import sys

for each, steps in ((200, 100_000), (1000, 20_000)):
    before = resource.getrusage(resource.RUSAGE_CHILDREN)
    words = [sys.argv[1], "commit", str(each), str(steps)]
    line = subprocess.run(words, capture_output=True, text=True, check=True).stdout
    after = resource.getrusage(resource.RUSAGE_CHILDREN)
    commits, events, wakes = (int(word) for word in line.split()[:3])
    sleeps = after.ru_nvcsw - before.ru_nvcsw
    seconds = after.ru_utime + after.ru_stime - before.ru_utime - before.ru_stime
    print(
        f"a flush of {steps} steps: {events / commits:.1f} events, {wakes / commits:.1f} wake-ups by a change, "
        f"{sleeps / commits:.1f} sleeps, {seconds / commits * 1e6:.0f} microseconds of processor a commit"
    )
PYTHON
