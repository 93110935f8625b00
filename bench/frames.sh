#!/usr/bin/env bash
# What `pgnode frames front` costs: instructions for each byte of input, counted by callgrind over 64 MiB of
# small, large and mixed messages, and the memory that a gigabyte takes. Run after `make`; wants valgrind,
# Python 3 and GNU time. Sizes may be given: frames.sh [BYTES [BIG]].
set -euo pipefail
cd "$(dirname "$0")/.."
bytes=${1:-67108864}
big=${2:-1073741824}
work=$(mktemp -d)
trap 'rm -rf "$work"' EXIT

for kind in small large mixed; do
  python3 bench/inputs.py "$kind" "$bytes" > "$work/input"
  valgrind --tool=callgrind --callgrind-out-file="$work/callgrind" bin/pgnode frames front \
    < "$work/input" > "$work/lines" 2> "$work/log"
  instructions=$(sed -n 's/^.*Collected : //p' "$work/log")
  size=$(stat -c %s "$work/input")
  echo "$kind: $(wc -l < "$work/lines") messages, $(awk "BEGIN { printf \"%.2f\", $instructions / $size }") instructions a byte"
done

for size in "$((big / 64))" "$big"; do
  python3 bench/inputs.py small "$size" \
    | /usr/bin/time -f "$size bytes: %M KiB at most, %e s" bin/pgnode frames front > /dev/null
done
