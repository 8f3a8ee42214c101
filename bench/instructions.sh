#!/usr/bin/env bash
# instructions.sh [DEPTH [COLUMN..]]: prints how many instructions a round of pair, ring, full and batch takes one thread, at depth
# 1024 unless told otherwise: what callgrind counts of one run more than of a run of half as many rounds. What else the machine does
# changes nothing. A round of batch is one tag of eight. The columns are map, queue, pool and cache, which tag_bench measures (it is
# built already: rt run), and c and c-cache, the calls of tags.h by calls.c, from a pool without and with caches of 8 tags; all of
# them unless some are named. c and c-cache are of c/out/libtags.a, or of OUT/libtags.a. valgrind is on the path, and gcc for these.
set -euo pipefail
cd "$(dirname "$0")/.."
depth=${1:-1024}
columns=("${@:2}")
if [ ${#columns[@]} = 0 ]; then columns=(map queue pool cache c c-cache); fi
bench=crates/tag_bench/out/tag_bench
# Each case of tag_bench is seven runs, and both hints apart and hints from 0 are run.
runs=14
rounds=20000
calls=$(mktemp)
trap 'rm -f "$calls"' EXIT

for column in "${columns[@]}"; do
  case $column in
    map | queue | pool | cache) [ -x "$bench" ] || { echo "instructions.sh: $bench is not built" >&2 && exit 1; } ;;
    c | c-cache) gcc -std=c99 -O2 -Wall -Wextra bench/calls.c bench/kernel/c_tags.c -o "$calls" "${OUT:-c/out}/libtags.a" -pthread ;;
    *) echo "instructions.sh: there is no column $column: map, queue, pool, cache, c or c-cache" >&2 && exit 2 ;;
  esac
done

count() {
  valgrind --tool=callgrind --callgrind-out-file=/dev/null "$@" 2>&1 > /dev/null | sed -n 's/.*Collected : //p'
}

# What so many rounds take in a column.
run() {
  case $column in
    map) count "$bench" "$workload" --json --threads 1 --depth "$depth" --rounds "$1" ;;
    c) count "$calls" "$workload" 0 "$depth" "$1" ;;
    c-cache) count "$calls" "$workload" 8 "$depth" "$1" ;;
    *) count "$bench" "$column" "$workload" --json --threads 1 --depth "$depth" --rounds "$1" ;;
  esac
}

row() {
  local few many times
  for column in "${columns[@]}"; do
    times=$runs
    case "$workload $column" in
      *c | *c-cache) times=1 ;;
      batch\ map) ;;
      batch*) printf ' |' && continue ;;
    esac
    few=$(run $rounds)
    many=$(run $((2 * rounds)))
    printf ' %s |' $(((many - few) / (times * rounds)))
  done
}

printf '| workload |' && printf ' %s |' "${columns[@]}"
printf '\n|---|' && printf -- '---|%.0s' "${columns[@]}"
for workload in pair ring full batch; do
  printf '\n| %s |' "$workload" && row
done
echo
