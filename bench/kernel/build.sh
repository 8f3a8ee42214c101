#!/usr/bin/env bash
# build.sh OUT [--here]: builds what kernel.sh measures as OUT/contenders. The kernel's files, and those of the queues, come from Debian's
# packages, and are compiled as they are; with --here the program lacks these, and nothing is downloaded. The C library is in c/out
# already, or is OUT/libtags.a of the environment.
set -euo pipefail
here=$(cd "$(dirname "$0")" && pwd)
library=$(cd "${OUT:-$here/../../c/out}" && pwd)
out=$(mkdir -p "$1" && cd "$1" && pwd)
debian=(librust-cfg-if-dev librust-crossbeam-utils-dev librust-crossbeam-queue-dev libboost1.74-dev libconcurrentqueue-dev)
crates=$out/usr/share/cargo/registry
parts=()

# archive NAME COMPILER..: compiles a source of this folder into OUT/libNAME.a, which the program then has
archive() {
  "${@:2}" -O2 -march=x86-64-v2 -Wall -Wextra -o "$out/$1.o"
  rm -f "$out/lib$1.a"
  ar rcs "$out/lib$1.a" "$out/$1.o"
  parts+=(-l "static=$1")
}
# As Cargo builds by default: no link-time optimization, and no processor in particular.
rust() {
  rustc -C opt-level=3 --cap-lints allow --out-dir "$out" -L "$out" "$@"
}
crate() {
  rust --crate-type rlib --edition 2018 --crate-name "$1" "${@:3}" "$crates/$2"/src/lib.rs
}

fetch() {
  local package
  "$here/others.sh" "$out"
  for package in "${debian[@]}"; do
    if [ ! -e "$out/usr/share/doc/$package" ]; then
      "$here/fetch.sh" "$out" "$package"
      dpkg-deb -x "$out/$package"_*.deb "$out"
    fi
  done
  archive queues g++ -std=c++17 -isystem "$out/usr/include" -c "$here/queues.cpp"
  crate cfg_if "$(basename "$crates"/cfg-if-*)"
  crate crossbeam_utils "$(basename "$crates"/crossbeam-utils-*)" --cfg 'feature="std"' --extern "cfg_if=$out/libcfg_if.rlib"
  crate crossbeam_queue "$(basename "$crates"/crossbeam-queue-*)" --cfg 'feature="std"' --cfg 'feature="alloc"' \
    --extern "cfg_if=$out/libcfg_if.rlib" --extern "crossbeam_utils=$out/libcrossbeam_utils.rlib"
  parts+=(--cfg fetched -l static=sbitmap -l stdc++ --extern "crossbeam_queue=$out/libcrossbeam_queue.rlib")
  # DPDK's pool is measured where Debian's libdpdk-dev is installed.
  if [ -e "$out/libmempool.a" ]; then
    parts+=(--cfg mempool -l static=mempool -l rte_mempool -l rte_mempool_ring -l rte_ring -l rte_eal)
  fi
}

[ "${2:-}" = --here ] || fetch
archive c_tags gcc -std=c99 -c "$here/c_tags.c"
gcc -std=gnu11 -O2 -Wall -Wextra -shared -fPIC "$here/pin.c" -o "$out/pin.so" -ldl
rust --edition 2021 --crate-type rlib --crate-name tags --cfg 'feature="std"' "$here/../../rust/tags/src/lib.rs"
rust --edition 2021 --cap-lints warn --crate-name contenders --extern "tags=$out/libtags.rlib" \
  --check-cfg 'cfg(fetched, mempool)' -L "native=$library" "${parts[@]}" -l static=tags "$here/main.rs"
