#!/usr/bin/env bash
# A standby that receives a log, beside `dd`, and what an append costs. MiB a second that a node receives over a folder, in
# pieces of 128 KiB with a flush after each segment of 16 MiB, of records with bodies of 8 KiB that were laid out before;
# and that `dd` writes with the same syncs: a file for each segment, which is synced, then a control of 56 bytes that is
# written aside, synced and renamed, and the folder, which is synced. Then records with bodies of 100 bytes that a primary
# appends in a second, with one flush after the last. Five runs of each by turns; the figures are medians. At last the
# instructions of an append, counted by valgrind's callgrind as the difference of two runs.
# Run after `cd crates/bench_node && rt run`. The folder is made in the present one, or in FOLDER. BENCH names another
# program.
set -eu
top=$(cd "$(dirname "$0")/.." && pwd)
bench=${BENCH:-$top/crates/bench_node/out/bench_node}
mib=${1:-1024}
appends=${2:-100000}
place=$(mktemp -d "${FOLDER:-.}/node_bench.XXXXXX")
trap 'rm -rf "$place"' EXIT

# Runs the bench in a folder of its own, and prints the microseconds of the calls and of the laying out.
by_node() { # COUNT [appends]
  mkdir "$place/node"
  sync
  "$bench" "$place/node" "$@" > "$place/said"
  rm -r "$place/node"
  sed -n 's|^flushed up to [0-9A-F]*/[0-9A-F]* in \([0-9]*\) microseconds, beside \([0-9]*\) of laying out$|\1 \2|p' "$place/said"
}

by_dd() {
  local segment
  mkdir "$place/dd"
  for segment in $(seq 1 $((mib / 16))); do
    dd if=/dev/zero of="$place/dd/$segment" bs=131072 count=128 conv=fsync status=none
    dd if=/dev/zero of="$place/dd/control.tmp" bs=56 count=1 conv=fsync status=none
    mv "$place/dd/control.tmp" "$place/dd/control"
    sync "$place/dd"
  done
}

# Prints the microseconds that `dd` takes.
time_dd() {
  local start end
  sync
  start=$(date +%s%N)
  by_dd
  end=$(date +%s%N)
  rm -r "$place/dd"
  echo $(((end - start) / 1000))
}

instructions() { # COUNT
  mkdir "$place/node"
  valgrind --tool=callgrind --callgrind-out-file=/dev/null "$bench" "$place/node" "$1" appends 2>&1 > /dev/null |
    sed -n 's/.*Collected : //p'
  rm -r "$place/node"
}

median() { # FILE COLUMN
  awk -v c="$2" '{ print $c }' "$1" | sort -n | sed -n 3p
}

for _ in 1 2 3 4 5; do
  by_node "$mib" >> "$place/received"
  time_dd >> "$place/dd_took"
  by_node "$appends" appends >> "$place/appended"
done
grep -q '[1-9]' "$place/received"
awk -v n="$(median "$place/received" 1)" -v l="$(median "$place/received" 2)" -v d="$(median "$place/dd_took" 1)" -v m="$mib" \
  'BEGIN { printf "receive %.0f MiB/s, dd %.0f MiB/s, ratio %.2f; laid out at %.0f MiB/s\n", m / n * 1e6, m / d * 1e6, d / n, m / l * 1e6 }'
awk -v n="$(median "$place/appended" 1)" -v c="$appends" 'BEGIN { printf "append %.0f records/s\n", c / n * 1e6 }'
few=$(instructions 10000)
many=$(instructions 60000)
awk -v f="$few" -v m="$many" 'BEGIN { printf "append %.0f instructions a record\n", (m - f) / 50000 }'
