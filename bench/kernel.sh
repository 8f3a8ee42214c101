#!/usr/bin/env bash
# kernel.sh [REPETITIONS [ROUNDS [DEPTH..]]]: runs pair, ring, full, handoff and batch of tag_bench, over the map, the queue, a
# pool and caches, and of what stands beside it in alternation, three times with 1000000 rounds at depths 64, 1024 and 10240
# unless told otherwise, and prints tables. With far fewer rounds a thread has ended before the next one begins, which is said. Where depth 1024 is among them it prints more and draws bench/out/kernel.svg.
# rt, gcc, rustc, python3, apt-get and dpkg-deb are on the path; the first run downloads 154 MB from Debian's archive. With
# BUILT=1 it proves and builds nothing, and measures what is there.
set -euo pipefail
cd "$(dirname "$0")/.."
repetitions=${1:-3}
rounds=${2:-1000000}
depths=("${@:3}")
if [ ${#depths[@]} = 0 ]; then depths=(64 1024 10240); fi
out=bench/out
workloads=(pair ring full handoff batch)
bench=crates/tag_bench/out/tag_bench

if [ -z "${BUILT:-}" ]; then
  c/library.sh build > /dev/null
  bench/kernel/build.sh "$out"
  (cd crates/tag_bench && rt run > /dev/null)
fi

# The lines of one program at one case, with the number of the repetition. Each of its threads has a processor of its own, as far
# as there are enough. A round of batch is an eighth of a call.
measure() {
  local count=$rounds
  if [ "$workload" = batch ]; then count=$((8 * rounds)); fi
  LD_PRELOAD=$PWD/$out/pin.so "$@" --depth "$depth" --threads "$threads" --rounds "$count" \
    | sed "s/^{/{\"repetition\":$repetition,/" >> "$out/kernel.json"
}
ours() {
  measure "$bench" "$workload" --json
  if [ "$workload" = batch ]; then return; fi
  for layer in queue pool cache; do measure "$bench" "$layer" "$workload" --json; done
}
others() { measure "$out/contenders" "$workload"; }

rm -f "$out"/kernel.{json,svg}
load=$(cut -d ' ' -f 1 /proc/loadavg)
for ((repetition = 1; repetition <= repetitions; repetition++)); do
  echo "repetition $repetition of $repetitions" >&2
  for workload in "${workloads[@]}"; do
    for depth in "${depths[@]}"; do
      for threads in 1 2 4; do
        [ "$workload $threads" = "handoff 1" ] && continue
        if ((repetition % 2)); then
          ours
          others
        else
          others
          ours
        fi
      done
    done
  done
done
echo "$(date +%F), $(rt version), $(rustc --version), $(gcc --version | head -n 1), $(cat "$out/version")"
echo "$(nproc) processors of $(sed -n 's/^model name.*: //p' /proc/cpuinfo | head -n 1), load $load at the start," \
  "repetitions $repetitions, rounds $rounds"
echo
python3 bench/kernel/report.py "$out/kernel.json" "$out/kernel.svg"
