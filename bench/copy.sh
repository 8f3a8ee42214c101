#!/usr/bin/env bash
# copy.sh [MEBIBYTES [REPETITIONS]]: c/examples/copy_file.c over a pool, and over a list behind a lock: a table by block size.
# A cell has the median. c/library.sh build comes first; gcc and liburing are installed, and the machine has nothing else to do.
set -euo pipefail
here=$(cd "$(dirname "$0")" && pwd)
mebibytes=${1:-64}
repetitions=${2:-9}
made=$(mktemp -d)
trap 'rm -rf "$made"' EXIT
[ -f "$here/../c/out/libtags.a" ] || "$here/../c/library.sh" build
head -c "${mebibytes}M" /dev/urandom > "$made/from"

# The middle of the times of the repetitions, by the clock and of the processors, in nanoseconds for each block.
median() {
  local blocks=$1 column=$2
  shift 2
  cut -d' ' -f"$column" "$@" | sort -n | sed -n "$(((repetitions + 1) / 2))p" | awk -v blocks="$blocks" '{ printf "%.0f", $1 * 1e9 / blocks }'
}

TIMEFORMAT='%R %U %S'
echo "| bytes a block | ns a block by the clock, tags | list | processor ns a block, tags | list |"
echo "|---|---|---|---|---|"
for block in 512 4096 65536; do
  build=(gcc -std=c99 -O2 -D_DEFAULT_SOURCE "-DBLOCK=$block" "$here/../c/examples/copy_file.c")
  "${build[@]}" -I"$here/../c" -o "$made/tags" "$here/../c/out/libtags.a" -pthread -luring
  "${build[@]}" -I"$here/copy" -o "$made/list" -pthread -luring
  rm -f "$made"/*.times
  for _ in $(seq "$repetitions"); do
    for contender in tags list; do
      { time "$made/$contender" "$made/from" "$made/to" > "$made/said"; } 2>> "$made/$contender.times"
      cmp "$made/from" "$made/to"
    done
  done
  for contender in tags list; do
    awk '{ print $1, $2 + $3 }' "$made/$contender.times" > "$made/$contender.sums"
  done
  blocks=$((mebibytes * 1048576 / block))
  echo "| $block | $(median "$blocks" 1 "$made/tags.sums") | $(median "$blocks" 1 "$made/list.sums") | $(median "$blocks" 2 "$made/tags.sums") | $(median "$blocks" 2 "$made/list.sums") |"
done
