#!/usr/bin/env bash
# waits.sh [SECONDS [REPETITIONS]]: threads that wait for few tags: a pool, without caches and with caches of 8, beside a list behind a
# mutex, with a condition variable and with a semaphore: two tables. Where there is cargo, the same in Rust: a pool, one with caches of 8,
# and a list behind a mutex with a condition variable.
# A cell has the median. c/library.sh build comes first; gcc is on the path, and the machine has nothing else to do.
set -euo pipefail
here=$(cd "$(dirname "$0")" && pwd)
seconds=${1:-1.5}
repetitions=${2:-3}
program=$(mktemp)
trap 'rm -f "$program"' EXIT
[ -f "$here/../c/out/libtags.a" ] || "$here/../c/library.sh" build
gcc -std=c99 -O2 -Wall -Wextra "$here/waits.c" -o "$program" "$here/../c/out/libtags.a" -pthread

# The middle line of the repetitions, by rounds a second.
median() {
  local made=$program
  case "$1" in rust*) made=$here/../rust/target/release/examples/waits ;; esac
  for _ in $(seq "$repetitions"); do "$made" "$@"; done | sort -n | sed -n "$(((repetitions + 1) / 2))p"
}

contenders="tags cached list semaphore"
if command -v cargo > /dev/null; then
  contenders="$contenders rust rust-cached rust-list"
  (cd "$here/../rust" && cargo build --quiet --offline --release -p tags --example waits)
fi

table() {
  local us=$1 row threads tags contender cells
  shift
  echo "| threads, tags | rounds/ms: $contenders | processor us a round | switches a round |"
  echo "|---|---|---|---|"
  for row in "$@"; do
    read -r threads tags <<< "$row"
    cells=$(for contender in $contenders; do median "$contender" "$threads" "$tags" "$us" "$seconds"; done)
    echo "| $threads, $tags | $(awk '{ a = a " " $1; b = b " " $2; c = c " " $3 } END { print a " |" b " |" c " |" }' <<< "$cells")"
  done
}

echo "About a microsecond of work with each tag:"
table 0 "8 1" "8 4" "8 7" "16 1" "16 8" "32 4" "32 31"
echo
echo "Each tag held for a sleep of 50 us:"
table 50 "32 1" "32 4" "8 1" "8 4" "32 16" "40 128"
