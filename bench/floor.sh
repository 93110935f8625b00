#!/usr/bin/env bash
# The floor under turn.sh: what an event costs where threads take turns, first come, first served, in a small C program
# (floor.c says in which ways). Medians of five runs, on a machine that does nothing else. CC names the compiler.
set -eu
cd "$(dirname "$0")"
room=$(mktemp -d)
trap 'rm -rf "$room"' EXIT
"${CC:-cc}" -O2 -pthread -o "$room/floor" floor.c
events=${1:-1000000}

for threads in 2 4; do
  for way in ring ticket apart own late; do
    for _ in 1 2 3 4 5; do "$room/floor" "$way" "$threads" $((events / threads)); done | sort -n | sed -n 3p |
      awk -v w="$way" -v k="$threads" '{ printf "%d threads, %s: %.0f ns an event, %.1f million events a second\n", k, w, $1, 1000 / $1 }'
  done
done
