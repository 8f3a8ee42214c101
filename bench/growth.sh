#!/usr/bin/env bash
# growth.sh [--quick]: how a pair grows with tags and threads, idle and under load, and what a request takes that one thread hands to
# another, as tables, in four minutes: a pool in C without caches and with caches of 8, bitmaps of a program's own, one of them with
# a semaphore, the kernel's sbitmap and, where it is installed, DPDK's rte_mempool. A cell is the median of three alternate repetitions.
# gcc, g++ and python3 are on the path, and the machine has nothing else to do. The first run downloads 154 MB from Debian's archive.
# With --quick some of it takes a few seconds, downloads nothing, and leaves out the kernel's sbitmap unless it was built before. The
# figures mean nothing then. OUT is another folder than c/out/.
set -euo pipefail
cd "$(dirname "$0")/.."
repetitions=3 idle=250 loaded=600 handed=1000 quick=
depths=(64 1024 10240) counts=(1 2 4 8 16 32 64) in_flight=(64 8) busy=$((2 * $(nproc)))
case "$*" in
  '') ;;
  --quick) repetitions=1 idle=5 loaded=5 handed=20 quick=1 depths=(64) counts=(1 64) in_flight=(8) busy=1 ;;
  *) sed -n '2,8s/^# //p' "$0" >&2 && exit 2 ;;
esac
library=${OUT:-c/out}/libtags.a
others=bench/out
made=$(mktemp -d)
trap 'rm -rf "$made"' EXIT

build() {
  local parts=()
  [ -f "$library" ] || c/library.sh build
  [ -n "$quick" ] || bench/kernel/others.sh "$others"
  [ ! -f "$others/libsbitmap.a" ] || parts+=(-DKERNEL "$others/libsbitmap.a")
  if [ -f "$others/libmempool.a" ]; then
    parts+=(-DMEMPOOL "$others/libmempool.a")
    read -ra flags < <(pkg-config --libs libdpdk)
    parts+=("${flags[@]}")
  fi
  gcc -std=gnu11 -O2 -march=x86-64-v2 -Wall -Wextra bench/growth/{pairs,contenders,others}.c bench/kernel/c_tags.c "${parts[@]}" "$library" \
    -pthread -o "$made/pairs"
  g++ -std=c++20 -O2 -march=x86-64-v2 -Wall -Wextra bench/growth/handover.cpp "$library" -pthread -o "$made/handover"
}

# Notes a line of one program. Its status is 3 where a contender has no room for so many threads.
note() {
  local part=$1 tags=$2 threads=$3 who=$4 status=0 times
  times=$("${@:5}") || status=$?
  [ "$status" != 3 ] || return 0
  [ "$status" = 0 ] || { echo "growth.sh: ${*:5} ended with status $status" >&2 && exit 1; }
  printf '%s\t%s\t%s\t%s\t%s\t%s\n' "$part" "$tags" "$threads" "$who" "${times% *}" "${times#* }" >> "$made/lines"
}

# The contenders of a program, in the other order in each second repetition.
contenders() {
  if ((repetition % 2)); then "$1"; else "$1" | tac; fi
}

pairs() {
  local part=$1 busy=$2 milliseconds=$3 tags threads who
  for tags in "${@:4}"; do
    for threads in "${counts[@]}"; do
      for who in $(contenders "$made/pairs"); do
        note "$part" "$tags" "$threads" "$who" "$made/pairs" "$who" "$tags" "$threads" "$busy" "$milliseconds"
      done
    done
  done
}

handovers() {
  local part=$1 busy=$2 milliseconds=$3 tags who
  for tags in "${in_flight[@]}"; do
    for who in $(contenders "$made/handover"); do
      note "$part" "$tags" 2 "$who" "$made/handover" "$who" "$tags" "$busy" "$milliseconds"
    done
  done
}

build
load=$(cut -d ' ' -f 1 /proc/loadavg)
for ((repetition = 1; repetition <= repetitions; repetition++)); do
  pairs pairs 0 "$idle" "${depths[@]}"
  pairs 'pairs, loaded' "$busy" "$loaded" 1024
  handovers handover 0 "$idle"
  handovers 'handover, loaded' "$busy" "$handed"
done
echo "$(date +%F), $(gcc --version | head -n 1), $(cat "$others/version" 2> /dev/null || echo "without the kernel's sbitmap")"
echo "$(nproc) processors of $(sed -n 's/^model name.*: //p' /proc/cpuinfo | head -n 1), load $load at the start"
[ -f "$others/libmempool.a" ] || echo "DPDK is not installed here, so rte_mempool is left out."
python3 bench/growth/report.py "$made/lines"
