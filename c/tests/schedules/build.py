#!/usr/bin/env python3
"""build.py PROGRAM [model|true [FOLDER]]: makes an explorer of the C files in FOLDER, c/ if it is not named, as they are: over the
model of the library (map.c), or over the library itself. It takes gcc, g++ and binutils, on x86-64 Linux.

gcc makes each access to memory of the explored code a call (-fsanitize=thread), and objcopy gives the calls of the C library other
names, those of kernel.c and calls.c.
"""
import concurrent.futures
import os
import pathlib
import re
import subprocess
import sys
import tempfile

HERE = pathlib.Path(__file__).resolve().parent
C = HERE.parent.parent
MODEL, TRUE = KINDS = ["model", "true"]

# The engine, and the kernel as the explored code sees it.
ENGINE = "threads memory states seen steps search wander trace main kernel calls accesses".split()
# What threads run, and so is explored; and what looks at it from outside.
PROGRAMS = "stage gets loops behind futures slots submits nexts reserves lives gated shares noted nests".split()
RULES = "rules bell_rules scenarios".split()
# Of the library's own files: the exports, which the explored code has inline; the memory, which is no step; and handles that one thread
# alone uses.
EXPORTS, HEAP, OWN = "symbols", "heap", "own_hands"

# The variables of the library's C files, which are part of a state; and one that only the thread sanitizer's runtime would use.
VARIABLES, UNUSED = "gates locks key has_key".split(), "tags_library_order"
VARIABLE = re.compile(r" O \.(?:bss|data(?!\.rel\.ro)).* (\S+)$", re.M)

# Frame pointers and fixed addresses are for traces. Nothing is put on a stack that differs from run to run.
FLAGS = "-g -fno-pie -fno-stack-protector -fcf-protection=none -fno-omit-frame-pointer -Wall -Wextra -Werror".split()
EXPLORED = ["-fsanitize=thread", "--param", "tsan-instrument-func-entry-exit=0", "-Wno-tsan", "-include", f"{HERE}/shim.h"]
PLAIN, PLUS = ["gcc", "-std=gnu11"], ["g++", "-std=gnu++20", "-fno-exceptions", "-fno-rtti", "-fno-threadsafe-statics"]
# A resize of the library takes more of a stack than all else.
STACK = {MODEL: 8192, TRUE: 81920}


class Failed(Exception):
    """What a compiler said."""


def run(command, output=subprocess.PIPE):
    ran = subprocess.run([str(word) for word in command], stdout=output, stderr=subprocess.PIPE, text=True, check=False)
    if ran.returncode:
        raise Failed(f"{' '.join(map(str, command))}\n{ran.stderr}")


def compiled(made, source, *options, renames=False, compiler=tuple(PLAIN)):
    target = made / f"{source.stem}.o"
    run([*compiler, *FLAGS, *options, "-c", source, "-o", target])
    if renames:
        run(["objcopy", f"--redefine-syms={HERE}/names.txt", target])


def compiled_library(made, source, *options):
    """A C file of the library. Its variables are put where states.c finds them, and bell_rules.c names them."""
    compiled(made, source, "-fdata-sections", *options, renames=True)
    target = made / f"{source.stem}.o"
    sections = [f"--rename-section=.{it}.{name}=variables" for name in VARIABLES for it in ("data", "bss")]
    run(["objcopy", *sections, *(f"--globalize-symbol={name}" for name in VARIABLES), target])
    listed = subprocess.run(["objdump", "--syms", target], capture_output=True, text=True, check=True).stdout
    lost = [name for name in VARIABLE.findall(listed) if name != UNUSED]
    if lost:
        raise Failed(f"{source.name}: what VARIABLES lacks is in no state: {', '.join(lost)}")


def assembled(made, folder):
    """The library itself, with a call before each access to memory."""
    with open(made / "tag_c.s", "w", encoding="utf-8") as file:
        run([sys.executable, HERE / "instrument.py", folder / "generated" / "tag_c-x86_64.s"], output=file)
    run(["gcc", "-c", made / "tag_c.s", "-o", made / "tag_c.o"])


def fixed_jobs(made, folder, kind):
    """What does not depend on the C files."""
    common = [f"-I{folder}", f"-DSTACK_SIZE={STACK[kind]}"]
    for name in ENGINE:
        yield lambda it=name: compiled(made, HERE / f"{it}.c", *common, "-O2")
    if kind == TRUE:
        yield lambda: compiled(made, HERE / "assembly.c", *common, "-O2", "-mgeneral-regs-only")
        yield lambda: assembled(made, folder)


def explored_jobs(made, folder, kind):
    here, common = folder / "tests" / "schedules", [f"-I{folder}", f"-DSTACK_SIZE={STACK[kind]}", "-O1"]
    if folder != C:
        common.append("-w")
    library = sorted(it for it in folder.glob("*.c") if it.stem not in (EXPORTS, HEAP, OWN))
    for source in library:
        yield lambda it=source: compiled_library(made, it, *common, *EXPLORED)
    for name in PROGRAMS:
        yield lambda it=name: compiled(made, here / f"{it}.c", *common, *EXPLORED, renames=True)
    for name in RULES:
        yield lambda it=name: compiled(made, here / f"{it}.c", *common, renames=True)
    if kind == MODEL:
        yield lambda: compiled(made, here / "map.c", *common)
    else:
        yield lambda: compiled(made, folder / f"{HEAP}.c", *common, renames=True)
        yield lambda: compiled(made, here / "plus.cpp", *common, *EXPLORED, renames=True, compiler=PLUS)


def carry_out(jobs):
    with concurrent.futures.ThreadPoolExecutor(max(2, (os.cpu_count() or 2) // 2)) as threads:
        for done in [threads.submit(job) for job in jobs]:
            done.result()


def make_fixed(made, kind, folder=C):
    """Compiles what several explorers have in common."""
    carry_out(fixed_jobs(made, folder, kind))


def build(program, kind=MODEL, folder=C, fixed=None):
    """Raises Failed if something can't be compiled. What they have in common is in the folder `fixed`, if that was made before."""
    folder = pathlib.Path(folder)
    with tempfile.TemporaryDirectory() as made:
        made = pathlib.Path(made)
        carry_out([*explored_jobs(made, folder, kind), *([] if fixed else fixed_jobs(made, folder, kind))])
        objects = [*sorted(made.glob("*.o")), *sorted(fixed.glob("*.o") if fixed else [])]
        run(["g++" if kind == TRUE else "gcc", "-no-pie", *objects, "-o", program])


def main():
    arguments = sys.argv[1:]
    if not arguments or arguments[1:2] and arguments[1] not in KINDS:
        sys.exit(__doc__)
    try:
        build(*arguments)
    except Failed as why:
        sys.exit(f"build.py: {why}")


if __name__ == "__main__":
    main()
