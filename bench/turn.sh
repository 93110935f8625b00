#!/usr/bin/env bash
# Events on a shared counter under a turn and under std's Mutex, by one, two and four threads: events in a second of each,
# and their ratio. BENCH names another program of the same arguments. Run after `cd crates/bench_parts && rt run -- turn 2 1000`, on a machine that does nothing else.
set -eu
cd "$(dirname "$0")/.."
bench=${BENCH:-crates/bench_parts/out/bench_parts}
events=${1:-2000000}

seconds() { # WAY THREADS EVENTS
  local TIMEFORMAT=%R
  { time "$bench" "$1" "$2" "$3" > /dev/null; } 2>&1
}

for threads in 1 2 4; do
  each=$((events / threads))
  turn=$(seconds turn "$threads" "$each")
  mutex=$(seconds mutex "$threads" "$each")
  awk -v n="$((each * threads))" -v t="$turn" -v m="$mutex" -v k="$threads" \
    'BEGIN { printf "%d threads: turn %.0f events a second, mutex %.0f, ratio %.2f\n", k, n / t, n / m, m / t }'
done
