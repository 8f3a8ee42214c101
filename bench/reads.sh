#!/usr/bin/env bash
# reads.sh [MEBIBYTES [REPETITIONS]]: reads through io_uring, with a tag for each from a pool, a pool with caches, a list behind a
# mutex, and a list for each thread: a table. A cell has the median, and the least and the most. c/library.sh build comes first;
# gcc and liburing are installed, the temporary folder is on a disk, and the machine has nothing else to do.
set -euo pipefail
here=$(cd "$(dirname "$0")" && pwd)
mebibytes=${1:-256}
repetitions=${2:-5}
made=$(mktemp -d)
trap 'rm -rf "$made"' EXIT
[ -f "$here/../c/out/libtags.a" ] || "$here/../c/library.sh" build
gcc -std=c99 -O2 -Wall -Wextra -I"$here/../c" "$here/reads.c" -o "$made/reads" "$here/../c/out/libtags.a" -pthread -luring
head -c "${mebibytes}M" /dev/urandom > "$made/file"

# The middle, the least and the most of a column of a file.
cell() {
  cut -d' ' -f"$2" "$1" | sort -n | awk '{ all[NR] = $1 } END { printf " %s (%s-%s) |", all[int((NR + 1) / 2)], all[1], all[NR] }'
}

echo "| reads, threads | ns by the clock, pool | caches | list | own lists | processor ns, pool | caches | list | own lists |"
echo "|---|---|---|---|---|---|---|---|---|"
for how in cached direct; do
  count=100000
  [ $how = cached ] || count=20000
  for threads in 1 4; do
    rm -f "$made"/*.ns
    for _ in $(seq "$repetitions"); do
      for kind in pool caches list own-lists; do
        "$made/reads" $kind $threads "$made/file" $count ${how#cached} >> "$made/$kind.ns"
      done
    done
    row="| $how, $threads |"
    for column in 1 2; do
      for kind in pool caches list own-lists; do row+=$(cell "$made/$kind.ns" $column); done
    done
    echo "$row"
  done
done
