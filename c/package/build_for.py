#!/usr/bin/env python3
"""build_for.py CRATE TARGET CPU FILE: builds a crate for another processor than `rt` does: a static library, or a program.

TARGET is x86_64-unknown-linux-gnu or aarch64-unknown-linux-gnu. A proof is the same for each processor, so nothing is proved again
that `rt lib` or `rt run` has kept; what they have not is proved here, in the crates below too. It says how far it is and what the
verdict is; all that the kit prints is in FILE.log, which is named if this fails. Beside FILE it writes FILE.verdict, the line in which
the toolchain says what it proved, and for a static library FILE.s, its assembly; and of the same module FILE.LEVEL.o and
FILE.LEVEL.s, an object and its assembly for each level above CPU. Nothing is done where FILE was made of the same sources by the same
kit.
"""
import os
import re
import sys
import tempfile

sys.path.insert(0, os.path.dirname(os.path.abspath(__file__)))
sys.dont_write_bytecode = True

import kit  # noqa: E402
from packing import PROCESSORS  # noqa: E402

ROOT = os.path.dirname(os.path.dirname(os.path.dirname(os.path.abspath(__file__))))

# In place of the toolchain's clang: it does what that is asked for, and then makes more files of a module that becomes an object, in
# the same way but for the kind of file, its name and a flag.
CLANG = """#!/bin/sh
'{clang}' "$@" || exit
more() {{
  kind=$1 file=$2 flag=$3
  shift 3
  before=
  for it; do
    shift
    case "$before $it" in
      -o\\ *) set -- "$@" "$file" ;;
      *\\ -c) set -- "$@" "$kind" ;;
      *) set -- "$@" "$it" ;;
    esac
    before=$it
  done
  '{clang}' "$@" $flag || exit
}}
case " $* " in
  *" -c "*) ;;
  *) exit ;;
esac
{more}
"""


def say(text):
    print(f"build_for.py: {text}", file=sys.stderr, flush=True)


class Told:
    """Where crates print: into a file. How far they are is said, and the verdict and the numbers of proofs kept are noted."""

    def __init__(self, file):
        self.file, self.verdict, self.loaded, self.checked = file, "", "0", "0"

    def write(self, text):
        self.file.write(text)
        for line in text.splitlines():
            if line.startswith("so far: "):
                say(f"    {line}")
            if line.startswith("logic=proved "):
                self.verdict = line
            found = re.match(r"crate \w+: modules loaded=(\d+) checked=(\d+)", line)
            if found:
                self.loaded, self.checked = found.groups()

    def flush(self):
        self.file.flush()


def read(file):
    if not os.path.exists(file):
        return None
    with open(file, encoding="utf-8") as opened:
        return opened.read()


def write(file, text):
    with open(file, "w", encoding="utf-8") as opened:
        opened.write(text)


def levels_of(target):
    """Those above every processor of the kind."""
    return next(it.newer for it in PROCESSORS if it.triple == target)


def toolchain_into(folder, toolchain, target, made):
    """A toolchain of links to the kit's own, whose clang writes the assembly too, and both for newer processors."""
    wanted = [("-S", f"{made}.s", "")]
    for level in levels_of(target):
        wanted += [(kind, f"{made}.{level.name}.{end}", f"-march={level.march}") for kind, end in {"-c": "o", "-S": "s"}.items()]
    more = "\n".join(f"more {kind} '{file}' '{flag}' \"$@\"" for kind, file, flag in wanted)
    os.mkdir(f"{folder}/bin")
    for name in os.listdir(toolchain):
        if name != "bin":
            os.symlink(f"{toolchain}/{name}", f"{folder}/{name}")
    for name in os.listdir(f"{toolchain}/bin"):
        if name != "clang":
            os.symlink(f"{toolchain}/bin/{name}", f"{folder}/bin/{name}")
    write(f"{folder}/bin/clang", CLANG.format(clang=f"{toolchain}/bin/clang", more=more))
    os.chmod(f"{folder}/bin/clang", 0o755)
    return folder


def build(rtlib, crate, target, cpu, made):
    """Builds over what is kept: the exit status."""
    # A program is linked of an object file, and a static library is what is built.
    compiled = f"{made}.o" if crate.is_program else made
    toolchain = f"{rtlib.KIT}/toolchain"
    with tempfile.TemporaryDirectory() as folder:
        used = toolchain if crate.is_program else toolchain_into(folder, toolchain, target, made)
        words = [*crate.words([]), "--target", target, "--cpu", cpu, "--toolchain", used]
        status = crate.call(rtlib.RATTLE, "build", *words, *rtlib.KEPT, "-o", compiled)
    if status or not crate.is_program:
        return status
    parts = [f"{rtlib.KIT}/c/libos_c.a", f"{rtlib.KIT}/c/liblibc_c.a"]
    linker = f"{rtlib.KIT}/bin/rattle-link"
    return crate.call(linker, "--target", target, "--toolchain", toolchain, "-o", made, compiled, *parts)


def build_all(rtlib, crate, target, cpu, made, told):
    """Builds a crate, over those below it, each of which is proved first where it is not: the exit status."""
    below = crate.below()
    # The locks are held until this process ends.
    rtlib.lock([*below, crate])
    for number, it in enumerate([*below, crate], 1):
        it.out = told
        say(f"{number} of {len(below) + 1}: {it.name}" + (f", for {cpu}" if it is crate else ""))
        if it is not crate and it.build_rlib([], False):
            return 1
    return build(rtlib, crate, target, cpu, made)


def main():
    if len(sys.argv) != 5:
        sys.exit(__doc__)
    name, target, cpu, made = *sys.argv[1:4], os.path.abspath(sys.argv[4])
    rtlib = kit.load()
    crate = next(it for it in rtlib.crates_below(ROOT) if it.name == name)
    levels = " ".join(it.march for it in levels_of(target))
    stamp = f"{crate.stamp()} {target} {cpu} {levels} {rtlib.sum_of(__file__)} "
    if os.path.exists(made) and read(f"{made}.stamp") == stamp + rtlib.sum_of(made):
        return 0
    os.makedirs(os.path.dirname(made), exist_ok=True)
    with open(f"{made}.log", "w", encoding="utf-8") as log:
        told = Told(log)
        status = build_all(rtlib, crate, target, cpu, made, told)
    if status:
        say(f"{name} was not built: {made}.log says why")
        return status
    write(f"{made}.verdict", told.verdict + "\n")
    write(f"{made}.stamp", stamp + rtlib.sum_of(made))
    say(f"{told.loaded} modules were proved before, {told.checked} now")
    say(told.verdict)
    return 0


if __name__ == "__main__":
    sys.exit(main())
