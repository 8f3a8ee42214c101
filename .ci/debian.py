"""Which package of Debian has a tool that the gate runs. In CI each of them has to be there; elsewhere what needs it is left out, and
that is said."""
import os
import shutil
import subprocess
import sys

PACKAGES = {
    "gcc": "gcc", "g++": "g++", "clang": "clang", "clang++": "clang", "cargo": "cargo", "rustc": "rustc", "rustfmt": "rustfmt", "cargo-clippy": "rust-clippy",
    "valgrind": "valgrind", "pkg-config": "pkg-config", "taskset": "util-linux",
    "cmake": "cmake", "make": "make", "ninja": "ninja-build", "man": "man-db", "musl-gcc": "musl-tools", "dpkg": "dpkg", "dpkg-deb": "dpkg", "tar": "tar", "ldconfig": "libc-bin",
    "fio": "fio", "nbdcopy": "libnbd-bin", "nbdinfo": "libnbd-bin", "nbdkit": "nbdkit", "qemu-img": "qemu-utils", "qemu-io": "qemu-utils",
    "spin": "spin", "qemu-aarch64": "qemu-user", "qemu-x86_64": "qemu-user", "aarch64-linux-gnu-g++": "g++-aarch64-linux-gnu",
    **dict.fromkeys("addr2line ar ld nm objcopy objdump readelf strip".split(), "binutils"),
    **dict.fromkeys([f"aarch64-linux-gnu-{it}" for it in ("gcc", "ar", "ld", "nm", "objcopy")], "gcc-aarch64-linux-gnu"),
}
# Headers: what a compiler has to find, of which package.
HEADERS = {("aarch64-linux-gnu-gcc", "stdlib.h"): "libc6-dev-arm64-cross", ("gcc", "stdlib.h"): "libc6-dev", ("gcc", "liburing.h"): "liburing-dev"}
IN_CI = os.environ.get("CI", "") not in ("", "0", "false")


def missing(tools):
    return [it for it in tools if not shutil.which(it)]


def advice(tools):
    """What is said of tools that are missing."""
    packages = sorted({PACKAGES[it] for it in tools if it in PACKAGES})
    return f"there is no {', no '.join(tools)} here" + (f": install {' '.join(packages)} (.ci/needs installs all)" if packages else "")


def finds(compiler, header):
    """Whether a compiler finds a header; one that is not there finds none."""
    if not shutil.which(compiler):
        return False
    how = {"input": f"#include <{header}>\n", "text": True, "stdout": subprocess.DEVNULL, "stderr": subprocess.DEVNULL, "check": False}
    return subprocess.run([compiler, "-fsyntax-only", "-x", "c", "-"], **how).returncode == 0


def main():
    """Prints the packages of all that is missing."""
    packages = {PACKAGES[it] for it in missing(PACKAGES)}
    packages |= {package for (compiler, header), package in HEADERS.items() if not finds(compiler, header)}
    print(" ".join(sorted(packages)))


if __name__ == "__main__":
    sys.exit(main())
