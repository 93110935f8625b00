#!/usr/bin/env bash
# Instructions for each byte: of the checksum over 64 KiB, of a walk over a log of 128 records with bodies of 8 KiB, and of
# laying one such record out, counted by valgrind's callgrind as the difference of two runs, so that what stands before
# does not count. Run after `cd crates/bench_parts && rt run -- turn 2 1000`.
set -eu
cd "$(dirname "$0")/.."
bench=crates/bench_parts/out/bench_parts

instructions() { # WAY SIZE ROUNDS
  valgrind --tool=callgrind --callgrind-out-file=/dev/null "$bench" "$1" "$2" "$3" 2>&1 > /dev/null |
    sed -n 's/.*Collected : //p'
}

figure() { # WAY SIZE BYTES_A_ROUND
  local few many
  few=$(instructions "$1" "$2" 10)
  many=$(instructions "$1" "$2" 60)
  awk -v f="$few" -v m="$many" -v b="$3" -v w="$1" -v s="$2" 'BEGIN { printf "%s %d: %.2f instructions a byte\n", w, s, (m - f) / (50 * b) }'
}

figure crc32c 65536 65536
figure walk 8192 $((128 * 8192))
figure lay_out 8192 8192
figure walk 100 $((128 * 100))
figure lay_out 100 100
