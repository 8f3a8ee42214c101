#!/usr/bin/env bash
# hands.sh [MILLISECONDS [REPETITIONS]]: threads that get and clear tags, each with a hand of its own, with hands that they share, one
# for each processor, or all with one hand behind a lock; and where there is cargo, the same in Rust. A cell has the nanoseconds of a get
# and a clear: of processor time, and of the time that passed, over all threads. Each is the median of the repetitions, which alternate.
# c/library.sh build comes first; gcc is on the path.
set -euo pipefail
here=$(cd "$(dirname "$0")" && pwd)
milliseconds=${1:-300}
repetitions=${2:-5}
made=$(mktemp -d)
trap 'rm -rf "$made"' EXIT
[ -f "$here/../c/out/libtags.a" ] || "$here/../c/library.sh" build
gcc -std=c99 -O2 -Wall -Wextra "$here/hands.c" -o "$made/hands" "$here/../c/out/libtags.a" -pthread
programs=("$made/hands")
if command -v cargo > /dev/null; then
  (cd "$here/../rust" && cargo build --quiet --offline --release -p tags --example hands)
  programs+=("$here/../rust/target/release/examples/hands")
fi

# The medians of the two numbers of each line.
medians() {
  for column in 1 2; do
    cut -d ' ' -f "$column" "$1" | sort -n | sed -n "$(((repetitions + 1) / 2))p"
  done | paste -sd ' '
}

row() {
  local program=$1 threads=$2 held=$3 contender
  for _ in $(seq "$repetitions"); do
    for contender in own shared mutex; do
      "$program" "$contender" "$threads" "$held" "$milliseconds" >> "$made/$contender"
    done
  done
  for contender in own shared mutex; do
    medians "$made/$contender" && rm "$made/$contender"
  done | awk '{ cells = cells sprintf(" %.0f, %.0f |", $1, $2) } END { print cells }'
}

for program in "${programs[@]}"; do
  for held in 0 8; do
    echo "$(basename "$(dirname "$program")" | sed 's/tmp.*/C/; s/examples/Rust/'), $held tags held all the while:"
    echo "| threads | a hand of its own | shared hands | one hand |"
    echo "|---|---|---|---|"
    for threads in 1 2 4 8 16; do
      echo "| $threads |$(row "$program" "$threads" "$held")"
    done
    echo
  done
done
