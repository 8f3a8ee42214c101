#!/usr/bin/env bash
# compare.sh WORKLOAD [ALTERNATIONS [OPTION..]]: runs a workload of tag_bench and the same of bench/baseline in alternation,
# five times unless told otherwise, and prints a table, by the clock for waiters, whose threads sleep, and otherwise in processor
# time. Options, such as --threads 4, go to both.
# rt, rustc and python3 are on the path.
set -euo pipefail
cd "$(dirname "$0")/.."
workload=${1:?plain, map, shared, wakes or waiters}
alternations=${2:-5}
options=("${@:3}")
ours=("$workload")
time=processor
if [ "$workload" = waiters ]; then
  ours=(queue waiters)
  time=ns
fi

made=$(mktemp -d)
trap 'rm -rf "$made"' EXIT
rustc -O -C target-cpu=x86-64-v2 --edition 2021 -o "$made/baseline" bench/baseline/main.rs
(cd crates/tag_bench && rt run > "$made/smoke")

cat /proc/loadavg > "$made/load"
for ((run = 1; run <= alternations; run++)); do
  echo "alternation $run of $alternations" >&2
  crates/tag_bench/out/tag_bench "${ours[@]}" --json "${options[@]}" >> "$made/lines"
  "$made/baseline" "$workload" "${options[@]}" >> "$made/lines"
done
echo "$(date +%F), $(rt version), $(rustc --version), $(nproc) processors, load $(cut -d ' ' -f 1 "$made/load") at the start"
python3 bench/table.py "$made/lines" "$time"
