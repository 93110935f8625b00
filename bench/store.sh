#!/usr/bin/env bash
# MiB a second that a store writes into a folder, in pieces of 128 KiB with a flush after each segment of 16 MiB, beside
# `dd` with the same syncs: a file for each segment, which is synced, then a control of 56 bytes that is written aside,
# synced and renamed, and the folder, which is synced. Five runs of each by turns; the figures are medians.
# Run after `cd crates/bench_store && rt run`. The folder is made in the present one, or in FOLDER.
set -eu
bench=$(cd "$(dirname "$0")/.." && pwd)/crates/bench_store/out/bench_store
mib=${1:-1024}
place=$(mktemp -d "${FOLDER:-.}/store_bench.XXXXXX")
trap 'rm -rf "$place"' EXIT

by_store() {
  mkdir "$place/store"
  "$bench" "$place/store" "$mib" > "$place/said"
  grep -qx "flushed up to $(printf '%X/%X' $(((16 + mib) >> 12)) $((((16 + mib) << 20) & 0xffffffff)))" "$place/said"
  rm -r "$place/store"
}

by_dd() {
  local segment
  mkdir "$place/dd"
  for segment in $(seq 1 $(((mib + 15) / 16))); do
    dd if=/dev/zero of="$place/dd/$segment" bs=131072 count=128 conv=fsync status=none
    dd if=/dev/zero of="$place/dd/control.tmp" bs=56 count=1 conv=fsync status=none
    mv "$place/dd/control.tmp" "$place/dd/control"
    sync "$place/dd"
  done
  rm -r "$place/dd"
}

seconds() { # WAY
  local start end
  sync
  start=$(date +%s.%N)
  "$1"
  end=$(date +%s.%N)
  awk -v a="$start" -v b="$end" 'BEGIN { printf "%.3f\n", b - a }'
}

for _ in 1 2 3 4 5; do
  seconds by_store >> "$place/by_store"
  seconds by_dd >> "$place/by_dd"
done
store=$(sort -n "$place/by_store" | sed -n 3p)
dd=$(sort -n "$place/by_dd" | sed -n 3p)
awk -v s="$store" -v d="$dd" -v m="$mib" 'BEGIN { printf "store %.0f MiB/s, dd %.0f MiB/s, ratio %.2f\n", m / s, m / d, d / s }'
