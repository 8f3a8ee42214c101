#!/usr/bin/env bash
# others.sh OUT: builds those that are C and of other projects: OUT/libsbitmap.a of the kernel's files, which come from Debian's package
# and are compiled as they are, and OUT/libmempool.a where DPDK is installed. gcc, apt-get and dpkg-deb are on the path.
set -euo pipefail
here=$(cd "$(dirname "$0")" && pwd)
out=$(mkdir -p "$1" && cd "$1" && pwd)
linux='linux-source-6.12'
kernel=$out/$linux

if [ ! -e "$kernel/include/linux/find.h" ]; then
  "$here/fetch.sh" "$out" $linux
  files=(lib/sbitmap.c lib/find_bit.c include/linux/sbitmap.h include/linux/find.h)
  dpkg-deb --fsys-tarfile "$out/$linux"_*.deb | tar -xO ./usr/src/$linux.tar.xz \
    | tar -xJ -C "$out" "${files[@]/#/$linux/}"
fi

# Each header that the kernel's files name is the shim, but for their own two.
headers=$out/headers
mkdir -p "$headers/linux"
cp "$kernel"/include/linux/{sbitmap,find}.h "$headers/linux"
sed -n 's,^#include <linux/\(.*\)>.*,\1,p' "$kernel"/lib/*.c "$kernel"/include/linux/*.h | sort -u | while read -r name; do
  case $name in
    sbitmap.h) ;;
    bitmap.h | bitops.h) printf '#include "kernel.h"\n#include <linux/find.h>\n' > "$headers/linux/$name" ;;
    *) echo '#include "kernel.h"' > "$headers/linux/$name" ;;
  esac
done
compile() {
  gcc -std=gnu11 -O2 -march=x86-64-v2 -fno-strict-aliasing -include "$here/shim/kernel.h" -I"$here/shim" -I"$headers" \
    "${@:3}" -c "$1" -o "$out/$2.o"
}
compile "$kernel/lib/sbitmap.c" sbitmap -w
compile "$kernel/lib/find_bit.c" find_bit -w
compile "$here/sbitmap_tags.c" sbitmap_tags -Wall -Wextra -Wno-sign-compare -Wno-unused-parameter
rm -f "$out"/lib{sbitmap,mempool}.a
ar rcs "$out/libsbitmap.a" "$out"/{sbitmap,find_bit,sbitmap_tags}.o
echo "$linux $(dpkg-deb -f "$out/$linux"_*.deb Version)" > "$out/version"

if pkg-config --exists libdpdk 2> /dev/null; then
  read -ra flags < <(pkg-config --cflags libdpdk)
  gcc -std=gnu11 -O2 "${flags[@]}" -march=x86-64-v2 -Wall -Wextra -c "$here/mempool_tags.c" -o "$out/mempool_tags.o"
  ar rcs "$out/libmempool.a" "$out/mempool_tags.o"
else
  echo "pkg-config finds no libdpdk: rte_mempool is left out" >&2
fi
