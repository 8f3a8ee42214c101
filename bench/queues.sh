#!/usr/bin/env bash
# queues.sh [--quick | MILLISECONDS [REPETITIONS]]: requests that 1 to 4 threads hand over to as many others, by a queue of the pool, by a
# ring behind a mutex with a condition variable, by a ring without a lock that is polled, and by that with a semaphore: two tables, for
# takers that mostly wait and for such as always find a request. A cell has nanoseconds of each request: of processor time, and by the
# clock. Each is the median of the repetitions, which alternate. --quick tries all of it in a few seconds; its figures mean nothing.
# c/library.sh build comes first; gcc is on the path, and the machine has nothing else to do.
set -euo pipefail
here=$(cd "$(dirname "$0")" && pwd)
if [ "${1:-}" = --quick ]; then
  set -- 20 1
fi
milliseconds=${1:-500}
repetitions=${2:-5}
contenders="tags list polled semaphore"
made=$(mktemp -d)
trap 'rm -rf "$made"' EXIT
[ -f "$here/../c/out/libtags.a" ] || "$here/../c/library.sh" build
gcc -std=c99 -O2 -Wall -Wextra "$here/queues.c" -o "$made/queues" "$here/../c/out/libtags.a" -pthread

# The medians of the two numbers of each line.
medians() {
  for column in 1 2; do
    cut -d ' ' -f "$column" "$1" | sort -n | sed -n "$(((repetitions + 1) / 2))p"
  done | paste -sd ' '
}

row() {
  local load=$1 threads=$2 contender
  for _ in $(seq "$repetitions"); do
    for contender in $contenders; do
      "$made/queues" "$contender" "$load" "$threads" "$milliseconds" >> "$made/$contender"
    done
  done
  for contender in $contenders; do
    medians "$made/$contender" && rm "$made/$contender"
  done | awk '{ cells = cells " " $1 ", " $2 " |" } END { print cells }'
}

table() {
  echo "$2: nanoseconds of processor time, and $3:"
  echo "| threads on each side | ${contenders// / | } |"
  echo "|---|---|---|---|---|"
  for threads in 1 2 3 4; do
    echo "| $threads |$(row "$1" "$threads")"
  done
}

table idle "A request of each submitter every 50 us and more" "from its submit until it was taken"
echo
table loaded "As many requests as go" "by the clock for each request of all threads"
