#!/usr/bin/env python3
"""Makes dist/ beside c/library.sh: the C library as a tar.gz and as Debian packages, for x86-64 and for 64-bit ARM, and the program
tagplay for x86-64. The library is made of generated/, which has to be of the sources as they are; the program takes the kit.

The same sources and tools give the same bytes: the date of all files is SOURCE_DATE_EPOCH, or that of the last commit. ARM is left
out where gcc-aarch64-linux-gnu is not installed. `--of amd64` or `--of arm64` makes those of one processor alone, and
`--only library` or `--only tagplay` one of the two. `--as-built` packs the program that `rt ci` has just left, which is compiled for
x86-64-v2: a test, and nothing to pass on. DIST names another folder than dist/, and OUT another one for what is compiled.
"""
import argparse
import hashlib
import os
import re
import shutil
import subprocess
import sys

sys.path.insert(0, os.path.dirname(os.path.abspath(__file__)))
sys.dont_write_bytecode = True

import manual  # noqa: E402
import tagplay  # noqa: E402
from packing import (  # noqa: E402
    C, DIST, HERE, OUT, PROCESSORS, copy, debian, fields_of, least_libc, package, packed, proved_text, put_documents, ran, read, say,
    set_date, tarball, version, write,
)

# Each 0.x has another interface, and so a library and a package of another name.
SONAME, RUNTIME = f"libtags.so.{version()}", f"libtags{version()}"
EXAMPLES = ["quick_start.c", "io_queue.c", "event_loop.c", "copy_file.c", "quick_start.cpp", "io_queue.cpp", "coroutines.cpp"]


def build(processor):
    """Builds the library for a processor: what was proved, and by which logic."""
    assembly = ran(f"{C}/library.sh", "assembly", processor.gnu).strip()
    known = {**os.environ, "OUT": f"{processor.made}/out", "CROSS_COMPILE": processor.tools}
    subprocess.run([f"{C}/library.sh", "build"], check=True, env=known)
    subprocess.run([processor.tool("strip"), "--strip-unneeded", *shared(processor)], check=True)
    head = dict(re.findall(r"^ \* ([A-Z][a-z ]+): (.*)$", read(assembly).partition("*/")[0], re.M))
    return head["Proved"], head["With"]


def shared(processor):
    """The shared library, for every processor of the kind and for newer ones."""
    folders = ["", *(f"{it.folder}/" for it in processor.newer if it.folder)]
    return [f"{processor.made}/out/{it}{SONAME}" for it in folders]


def put(processor, folder, prefix, libdir):
    """Puts the libraries with their headers, tags.pc and CMake files below a folder."""
    known = {**os.environ, "OUT": f"{processor.made}/out", "DESTDIR": folder, "LIBDIR": libdir}
    subprocess.run(["bash", "-c", 'umask 022 && exec "$0" put "$1"', f"{C}/library.sh", prefix], check=True, env=known)
    return f"{folder}{prefix}/{libdir}".replace("//", "/")


def put_manual(folder):
    for name, page in manual.pages(read(f"{C}/tags.h")).items():
        write(f"{folder}/{name}.gz", packed(page))


ABOUT = """
A tag is a small number with a slot of 64 bits, as of a request that is in
flight. Threads take tags of a pool, hand them on and give them back without a
lock. The library is proved: no tag and no slot ever has two holders.
"""


def make_packages(processor, proved, work):
    """The shared library, as libtags0.3, and libtags-dev, as Debian names them."""
    runtime, dev = f"{work}/{RUNTIME}", f"{work}/libtags-dev"
    lib = put(processor, dev, "/usr", f"lib/{processor.gnu}")
    for file in shared(processor):
        name = os.path.relpath(file, f"{processor.made}/out")
        os.renames(f"{lib}/{name}", f"{runtime}/usr/lib/{processor.gnu}/{name}")
    put_manual(f"{dev}/usr/share/man/man3")
    for name in EXAMPLES:
        copy(f"{C}/examples/{name}", f"{dev}/usr/share/doc/libtags-dev/examples/{name}")
    put_documents(f"{runtime}/usr/share/doc/{RUNTIME}", RUNTIME, processor, proved)
    put_documents(f"{dev}/usr/share/doc/libtags-dev", "libtags-dev", processor, proved)
    libc = least_libc(processor, *shared(processor))
    scripts = {"shlibs": f"libtags {version()} {RUNTIME} (>= {version()})\n", "triggers": "activate-noawait ldconfig\n"}
    same = {"Multi-Arch": "same"}
    package(
        runtime, processor,
        fields_of(RUNTIME, "pool of tags that threads share without a lock", ABOUT, Section="libs", Depends=f"libc6 (>= {libc})", **same),
        scripts,
    )
    more = ABOUT + "\nThis package has the headers for C and C++, the static library and the manual."
    package(
        dev, processor,
        fields_of(
            "libtags-dev", "pool of tags that threads share without a lock (development)", more, Section="libdevel",
            Depends=f"{RUNTIME} (= {debian(version())}), libc6-dev", Suggests="pkg-config, cmake", **same,
        ),
        {},
    )


def make_tarball(processor, proved, work):
    """The same files below one folder, which may lie anywhere."""
    name = f"tags-{version()}-{processor.gnu.removesuffix('-gnu')}"
    folder = f"{work}/{name}"
    put(processor, folder, "/", "lib")
    file = f"{folder}/lib/pkgconfig/tags.pc"
    found = re.sub(r"^prefix=.*", "prefix=${pcfiledir}/../..", read(file), flags=re.M)
    write(file, re.sub(r"^libdir=.*", "libdir=${prefix}/lib", found, flags=re.M))
    put_manual(f"{folder}/share/man/man3")
    for example in EXAMPLES:
        copy(f"{C}/examples/{example}", f"{folder}/share/doc/tags/examples/{example}")
    put_documents(f"{folder}/share/doc/tags", "tags", processor, proved)
    tarball(folder, f"{DIST}/{name}.tar.gz")


def lacking(processor):
    """Which of its tools are not here, or the headers of a C library for its compiler."""
    missing = [it for it in map(processor.tool, ("gcc", "ar", "strip", "objdump")) if not shutil.which(it)]
    command = [processor.tool("gcc"), "-fsyntax-only", "-x", "c", "-"]
    asked = {"input": "#include <stdlib.h>\n", "text": True, "stderr": subprocess.DEVNULL, "check": False}
    if not missing and subprocess.run(command, **asked).returncode:
        missing.append(f"C library for {command[0]}")
    return missing


def make_library(processor, work):
    missing = lacking(processor)
    if missing:
        say(f"there is no {', no '.join(missing)} here, so {processor.name} is left out")
        return
    proved = proved_text("tag_c", processor, *build(processor))
    make_packages(processor, proved, work)
    make_tarball(processor, proved, work)


def wanted():
    read_words = argparse.ArgumentParser(description=__doc__, formatter_class=argparse.RawDescriptionHelpFormatter)
    read_words.add_argument("--of", choices=[it.name for it in PROCESSORS])
    read_words.add_argument("--only", choices=["library", "tagplay"])
    read_words.add_argument("--as-built", action="store_true")
    return read_words.parse_args()


def clear():
    """Empties the folder for the packages, if it holds nothing else."""
    found = os.listdir(DIST) if os.path.isdir(DIST) else []
    if not all(it.endswith((".deb", ".tar.gz")) for it in found):
        sys.exit(f"{DIST} holds other files than packages: name another folder")
    shutil.rmtree(DIST, ignore_errors=True)
    os.makedirs(DIST)


def main():
    words = wanted()
    set_date()
    clear()
    work = f"{OUT}/work"
    for processor in PROCESSORS:
        if words.of in (None, processor.name) and words.only != "tagplay":
            shutil.rmtree(work, ignore_errors=True)
            make_library(processor, work)
    if words.of in (None, tagplay.PROCESSOR.name) and words.only != "library":
        shutil.rmtree(work, ignore_errors=True)
        tagplay.make(work, words.as_built)
    shutil.rmtree(work, ignore_errors=True)
    for name in sorted(os.listdir(DIST)):
        with open(f"{DIST}/{name}", "rb") as opened:
            print(f"{hashlib.sha256(opened.read()).hexdigest()}  {name}")
    say(f"done: {os.path.relpath(DIST)}")


main()
