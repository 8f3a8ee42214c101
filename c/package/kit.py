"""The kit's own module rtlib, which knows how a crate is proved and built. It is private to the kit, so no other file loads it."""
import importlib.machinery
import importlib.util
import os
import shutil
import sys

# The kit may be read-only.
sys.dont_write_bytecode = True
# The kit whose rtlib.py was read, and what is used of it: names of the module, and of its class Crate.
READ = "rattle-kit-13f"
OF_MODULE = "crates_below files_of lock sum_of KIT RATTLE KEPT Crate".split()
OF_CRATE = "below build_rlib call stamp words".split()


def folder():
    """Where the kit is."""
    rt = shutil.which("rt")
    if rt is None:
        sys.exit("there is no rt on the path: it comes with the kit")
    return os.path.dirname(os.path.dirname(os.path.realpath(rt)))


def version():
    """What `rt version` prints: the kit and its logic."""
    with open(f"{folder()}/KIT-ID", encoding="utf-8") as file:
        return file.readline().strip()


def logic():
    """The logic alone, as `rt version` prints it: kits that share it prove the same."""
    return version().partition(" ")[2]


def load():
    """The module. A kit that has it otherwise is refused, and one that was not read is told."""
    file, found = f"{folder()}/bin/rtlib.py", version().split()[0]
    loader = importlib.machinery.SourceFileLoader("rtlib", file)
    loaded = importlib.util.module_from_spec(importlib.util.spec_from_loader("rtlib", loader))
    sys.modules["rtlib"] = loaded
    loader.exec_module(loaded)
    lacking = [it for it in OF_MODULE if not hasattr(loaded, it)]
    lacking += [it for it in OF_CRATE if not hasattr(loaded.Crate, it)]
    if lacking:
        sys.exit(f"rtlib.py of {found} lacks {', '.join(lacking)}, which {READ} has: change c/package/kit.py and what uses it")
    if found != READ:
        print(f"kit.py: {found} is used as {READ}, the kit whose rtlib.py was read: if this fails, read the new one", file=sys.stderr)
    return loaded
