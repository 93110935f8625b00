#!/usr/bin/env bash
# MiB a second that `pgnode check` judges, over a store whose records have bodies of 8 KiB, beside `pg_waldump --stats` over as
# many bytes of PostgreSQL's own log, whose records are messages of 8 KiB. Five runs of each by turns after one that warms
# the system's cache; the figures are medians. Then the most memory that a run of each holds.
# Run after `make` and `cd crates/bench_store && rt run`: check.sh [MIB]. Wants PostgreSQL 15 or later, in PGBIN, and GNU
# time. A server does not run as root: there it runs as the user `postgres`. The folder is made in /tmp, or in FOLDER. CHECK and FILL
# name other programs.
set -euo pipefail
top=$(cd "$(dirname "$0")/.." && pwd)
check=${CHECK:-$top/bin/pgnode}
fill=${FILL:-$top/crates/bench_store/out/bench_store}
pg=${PGBIN:-/usr/lib/postgresql/15/bin}
mib=${1:-1024}
place=$(mktemp -d "${FOLDER:-/tmp}/check_bench.XXXXXX")
chmod 755 "$place"

as_server() { # COMMAND..
  if [ "$(id -u)" = 0 ]; then
    runuser -u postgres -- "$@"
  else
    "$@"
  fi
}

leave() {
  as_server "$pg/pg_ctl" -D "$place/pg/data" -m immediate stop > /dev/null 2>&1 || true
  rm -rf "$place"
}
trap leave EXIT

ask() { # STATEMENT
  as_server "$pg/psql" -X -A -t -q -h "$place/pg" -d postgres -c "$1"
}

# A store of as many MiB of records.
mkdir "$place/store"
"$fill" "$place/store" "$mib" records > "$place/said"
grep -qv 'flushed up to 0/0$' "$place/said" || { cat "$place/said"; exit 1; }

# A server's log of as many MiB, whose segments all stay. A message of 8 KiB takes some 8,250 bytes with what stands before it
# and with its part of the pages' headers.
mkdir "$place/pg"
if [ "$(id -u)" = 0 ]; then chown postgres "$place/pg"; fi
as_server "$pg/initdb" -D "$place/pg/data" -A trust -N > "$place/initdb.log" 2>&1
as_server "$pg/pg_ctl" -D "$place/pg/data" -l "$place/pg/log" -w -o "-c listen_addresses='' -c unix_socket_directories='$place/pg' \
  -c wal_level=logical -c wal_keep_size=$((2 * mib + 256))MB -c max_wal_size=$((4 * mib + 256))MB -c checkpoint_timeout=1h \
  -c fsync=off -c autovacuum=off" start > "$place/start.log" 2>&1
ask "select pg_switch_wal()" > /dev/null
start=$(ask "select pg_current_wal_lsn()")
ask "select count(pg_logical_emit_message(false, 'x', repeat('a', 8192))) from generate_series(1, $mib * 1048576 / 8276)" > /dev/null
end=$(ask "select pg_current_wal_insert_lsn()")
ask "select pg_switch_wal()" > /dev/null
bytes=$(ask "select pg_wal_lsn_diff('$end', '$start')")
as_server "$pg/pg_ctl" -D "$place/pg/data" -m fast -w stop > /dev/null

by_check() {
  "$check" -D "$place/store" check > "$place/checked"
  grep -qx ok "$place/checked"
}

by_waldump() {
  "$pg/pg_waldump" --stats -p "$place/pg/data/pg_wal" -s "$start" -e "$end" > "$place/dumped" 2> "$place/dump.log"
  grep -q LogicalMessage "$place/dumped"
}

seconds() { # WAY
  local begun ended
  begun=$(date +%s.%N)
  "$1"
  ended=$(date +%s.%N)
  awk -v a="$begun" -v b="$ended" 'BEGIN { printf "%.3f\n", b - a }'
}

by_check
by_waldump
for _ in 1 2 3 4 5; do
  seconds by_check >> "$place/by_check"
  seconds by_waldump >> "$place/by_waldump"
done
ours=$(sort -n "$place/by_check" | sed -n 3p)
theirs=$(sort -n "$place/by_waldump" | sed -n 3p)
# The store's bytes, from its floor to its flushed end.
held=$(awk '/^7 / { split($4, a, "/"); split($6, b, "/"); print a[1] " " a[2] " " b[1] " " b[2] }' "$place/checked")
read -r floor_high floor_low end_high end_low <<< "$held"
log=$(((16#$end_high << 32) + 16#$end_low - (16#$floor_high << 32) - 16#$floor_low))
awk -v s="$ours" -v t="$theirs" -v a="$log" -v b="$bytes" 'BEGIN {
  a /= 1048576; b /= 1048576
  printf "check %.0f MiB/s over %.0f MiB, pg_waldump --stats %.0f MiB/s over %.0f MiB, ratio %.2f\n", a / s, a, b / t, b, a / s / (b / t)
}'

# The most memory that is held.
/usr/bin/time -o "$place/memory" -f '%M' "$check" -D "$place/store" check > /dev/null
/usr/bin/time -o "$place/other" -f '%M' "$pg/pg_waldump" --stats -p "$place/pg/data/pg_wal" -s "$start" -e "$end" > /dev/null 2>&1
echo "memory at most: check $(cat "$place/memory") KiB, pg_waldump $(cat "$place/other") KiB"
if [ "$(cat "$place/memory")" -ge 8192 ]; then
  echo 'check holds 8 MiB or more' >&2
  exit 1
fi
