"""Uses the packages of the C library as somebody does who has nothing else of this repository."""
import filecmp
import glob
import gzip
import os
import re
import shutil
import subprocess

from telling import EXAMPLES, HERE, expected, lacks, makes, out, run, tell, untested

# The first processor of the kind that qemu knows, and one that has all that it knows.
OLDEST, NEWEST = ["qemu-x86_64", "-cpu", "Opteron_G1"], ["qemu-x86_64", "-cpu", "max"]
NEWER = 'int main(void) { unsigned long it = 7; __asm__("popcnt %0, %0" : "+r"(it)); return it != 3; }'
# How programs are linked by what pkg-config says: its option, and the compiler's.
LINKED = {"shared": ([], []), "static": (["--static"], ["-static"]), "static PIE": (["--static"], ["-fPIE", "-static-pie"])}
OF_NEWER = r"\b(andn|bls[ir]|bzhi|s[ah][lr]x|rorx|lzcnt|popcnt)\b"
NO_NEWER = r"\b(popcnt|crc32\w?|pinsr[bdq]|pextr[bdq]|ptest|pshufb|v?pcmp[ei]str\w|v[mp][a-z]+|lzcnt)\b"
with open(f"{os.path.dirname(EXAMPLES)}/tags.h", encoding="utf-8") as header:
    VERSION = ".".join(re.findall(r"^#define TAGS_VERSION_M\w+ (\d+)", header.read(), re.M))
SONAME, RUNTIME = f"libtags.so.{VERSION}", f"libtags{VERSION}"
# The shared library for newer x86-64 processors, and where the loader is that looks for it.
FOR_NEWER, LOADER = f"glibc-hwcaps/x86-64-v3/{SONAME}", "/lib64/ld-linux-x86-64.so.2"
FLAGS = "-std=c99 -D_DEFAULT_SOURCE -O2 -Wall -Werror".split()


class Target:
    """A processor: its names, the tools for it, how its programs are run, and a folder in which packages are installed."""

    def __init__(self, name, gnu, folder):
        self.name, self.gnu = name, gnu
        self.is_native = os.uname().machine == gnu.split("-")[0]
        self.tools = "" if self.is_native else f"{gnu}-"
        self.root, self.work = f"{folder}/{name}/root", f"{folder}/{name}/work"
        self.lib = f"{self.root}/usr/lib/{gnu}"
        self.runner = [] if self.is_native else ["qemu-aarch64", "-L", f"/usr/{gnu}", "-E", f"LD_LIBRARY_PATH={self.lib}"]
        os.makedirs(f"{self.root}/var/lib/dpkg/updates")
        os.makedirs(f"{self.root}/var/lib/dpkg/info")
        os.makedirs(self.work)

    def environment(self):
        known = {"PKG_CONFIG_LIBDIR": f"{self.lib}/pkgconfig", "PKG_CONFIG_SYSROOT_DIR": self.root, "LC_ALL": "C.UTF-8"}
        known |= {"PKG_CONFIG_ALLOW_SYSTEM_CFLAGS": "1", "PKG_CONFIG_ALLOW_CROSS": "1"}
        return {**os.environ, **known, **({"LD_LIBRARY_PATH": self.lib} if self.is_native else {})}

    def dpkg(self, *words):
        forced = [f"--force-{it}" for it in ("not-root", "architecture", "bad-path")]
        return ["dpkg", f"--root={self.root}", f"--log={self.work}/log", *forced, *words]


def install(target, dist, *packages):
    """Installs packages in a folder in which there is a C library alone, by what dpkg knows."""
    libc = os.confstr("CS_GNU_LIBC_VERSION").split()[1]
    text = "Package: {0}\nStatus: install ok installed\nMaintainer: {0}\nArchitecture: {1}\nMulti-Arch: same\nVersion: {2}\nDescription: {0}\n\n"
    with open(f"{target.root}/var/lib/dpkg/status", "w", encoding="utf-8") as file:
        file.write("".join(text.format(it, target.name, libc) for it in ("libc6", "libc6-dev")))
    files = [it for name in packages for it in glob.glob(f"{dist}/{name}_*_{target.name}.deb")]
    if not tell(f"{target.name}: there is one package of each name", len(files) == len(packages), "\n".join(files)):
        return False
    return run(f"{target.name}: dpkg installs {', '.join(packages)}", target.dpkg("-i", *files))


def check_removal(target, *packages):
    run(f"{target.name}: dpkg removes {', '.join(packages)}", target.dpkg("-P", *packages))
    left = out(["find", target.root, "-mindepth", "1", "-path", f"{target.root}/var", "-prune", "-o", "-print"])
    tell(f"{target.name}: the removal leaves nothing", left == "", left)


def needed(target, file):
    """What a program or a shared library asks the loader for, the loader itself aside."""
    dynamic = out([f"{target.tools}readelf", "-d", file])
    return set(re.findall(r"\(NEEDED\).*\[(?!ld-linux)(.*)\]", dynamic))


def pages(target):
    found = sorted(glob.glob(f"{target.root}/usr/share/man/man3/*.3.gz"))
    return {os.path.basename(it).removesuffix(".3.gz"): it for it in found}


def check_shared(target):
    """A soname, the names of the library alone, and nothing needed but libc."""
    library = os.path.realpath(f"{target.lib}/libtags.so")
    check_links(target, target.name, library)
    newer = f"{target.lib}/{FOR_NEWER}"
    tell(f"{target.name}: for which processors it has shared libraries", os.path.exists(newer) == (target.name == "amd64"))
    if target.is_native:
        run(f"{target.name}: the loader finds what the library needs", ["ldd", library])
        # An older processor reads tzcnt as bsf, which counts the same of all but 0.
        found = re.findall(NO_NEWER, out(["objdump", "-d", "--no-show-raw-insn", library]))
        tell(f"{target.name}: no instruction of a newer processor", not found, " ".join(found))
    if target.name == "amd64":
        check_links(target, "for newer processors", newer)
        found = re.findall(OF_NEWER, out([f"{target.tools}objdump", "-d", "--no-show-raw-insn", newer]))
        tell("for newer processors: there are their instructions", found)
        names = [out([f"{target.tools}nm", "-D", "--defined-only", "--format=posix", it]) for it in (library, newer)]
        exports = [[line.split()[0] for line in it.splitlines()] for it in names]
        tell("for newer processors: the same exports", exports[0] == exports[1])


def check_links(target, what, library):
    """What other programs see of a shared library, and what it asks for."""
    dynamic = out([f"{target.tools}readelf", "-d", library])
    tell(f"{what}: soname", f"[{SONAME}]" in dynamic, dynamic)
    tell(f"{what}: no text relocations", "TEXTREL" not in dynamic, dynamic)
    tell(f"{what}: nothing is needed but libc", needed(target, library) == {"libc.so.6"}, dynamic)
    names = {it.split()[-1].split("@")[0] for it in out([f"{target.tools}nm", "-D", "--defined-only", library]).splitlines()}
    others = {it for it in names if not it.startswith("tags_")} - {f"TAGS_{VERSION}"}
    tell(f"{what}: only names of the library are exported", not others, " ".join(others))
    missing = pages(target).keys() - {"tags"} - names
    tell(f"{what}: each call with a page is exported", not missing, " ".join(missing))


def check_loader(what, program, folder, known):
    """The loader takes the library for newer processors where the processor is one, by what the loader itself tells of it."""
    for where, runner in {"here": [], "on an old processor": OLDEST, "on a new processor": NEWEST}.items():
        if lacks(f"the loader {where} is", *runner[:1]):
            continue
        told = out([*runner, LOADER, "--help"])
        if "x86-64-v3" not in told:
            untested(f"the loader {where} is", "glibc before 2.33 looks for no library for newer processors")
            continue
        wanted = FOR_NEWER if "x86-64-v3 (supported, searched)" in told else SONAME
        found = re.findall(rf"{re.escape(SONAME)} => (\S+)", out([*runner, LOADER, "--list", program], env=known))
        tell(f"{what}: the loader takes {wanted} {where}", found == [f"{folder}/{wanted}"], " ".join(found))
        run(f"{what}: quick_start {where}", [*runner, program], wanted=expected("quick_start"), env=known)


def check_c(target):
    """The examples by pkg-config, shared and static, and on the oldest processor of the kind."""
    known, ask = target.environment(), ["pkg-config", "--cflags", "--libs", "tags"]
    is_old = target.is_native and not lacks("an old x86-64 processor is", OLDEST[0])
    if is_old and not tell("qemu refuses popcnt on an old processor", not makes("gcc", "c", NEWER, OLDEST)):
        is_old = False
    tell(f"{target.name}: copy_file.c is among the examples", os.path.exists(f"{target.root}/usr/share/doc/libtags-dev/examples/copy_file.c"))
    for name in ("quick_start", "io_queue", "event_loop"):
        for kind, (more, options) in LINKED.items():
            program, what = f"{target.work}/{name}_{kind}", f"{target.name}: {name}, {kind}"
            source = f"{target.root}/usr/share/doc/libtags-dev/examples/{name}.c"
            flags = out([*ask, *more], env=known).split()
            if not run(f"build of {what}", [f"{target.tools}gcc", *FLAGS, source, "-o", program, *flags, *options]):
                continue
            run(what, [*target.runner, program], wanted=expected(name), env=known)
            links = {SONAME, "libc.so.6"} if kind == "shared" else set()
            tell(f"{what}: what it needs", needed(target, program) == links, " ".join(needed(target, program)))
            if is_old:
                run(f"{what}, on an old processor", [*OLDEST, program], wanted=expected(name), env=known)
    if target.name == "amd64" and target.is_native:
        check_loader("packages", f"{target.work}/quick_start_shared", target.lib, known)


def has_plus(target):
    return makes(f"{target.tools}g++", "c++", "#include <cstdio>\nint main() { std::puts(\"\"); }", target.runner)


def check_plus(target):
    """tags.h in C++, and the examples over tags.hpp by pkg-config, shared and static."""
    if not has_plus(target):
        return untested(f"C++ for {target.name} is", f"{target.tools}g++ makes no program here")
    known, examples = target.environment(), f"{target.root}/usr/share/doc/libtags-dev/examples"
    sources = {f"{HERE}/plus.cpp": "done\n"} | {f"{examples}/{it}.cpp": expected(it) for it in ("quick_start", "io_queue", "coroutines")}
    for source, wanted in sources.items():
        for kind, (more, options) in LINKED.items():
            program, what = f"{target.work}/plus", f"{target.name}: {os.path.basename(source)}, {kind}"
            flags = out(["pkg-config", "--cflags", "--libs", *more, "tags"], env=known).split()
            standard = "-std=c++20" if "coroutines" in source else "-std=c++17"
            command = [f"{target.tools}g++", standard, "-O2", "-Wall", "-Wextra", "-Werror", source, "-o", program, *flags, *options]
            if run(f"build of {what}", command):
                run(what, [*target.runner, program], wanted=wanted, env=known)


def check_cmake(target, prefix, what):
    """The quick start by find_package(), shared and static."""
    folder = f"{target.work}/cmake_{what}"
    os.makedirs(folder)
    shutil.copy(f"{EXAMPLES}/quick_start.c", folder)
    shutil.copy(f"{EXAMPLES}/quick_start.cpp", folder)
    shutil.copy(f"{HERE}/CMakeLists.txt", folder)
    options = [f"-DCMAKE_PREFIX_PATH={prefix}", f"-DWANTED={VERSION}"]
    if not target.is_native:
        options += ["-DCMAKE_SYSTEM_NAME=Linux", f"-DCMAKE_C_COMPILER={target.tools}gcc", f"-DCMAKE_CXX_COMPILER={target.tools}g++"]
    kinds = ["shared", "static"]
    if has_plus(target):
        options.append("-DPLUS=ON")
        kinds += ["plus_shared", "plus_static"]
    name = f"{target.name}: {what} by CMake"
    if run(f"{name}: cmake", ["cmake", "-S", folder, "-B", f"{folder}/out", *options]):
        if run(f"{name}: cmake --build", ["cmake", "--build", f"{folder}/out"]):
            for kind in kinds:
                program = [*target.runner, f"{folder}/out/{kind}"]
                run(f"{name}, {kind}", program, wanted=expected("quick_start"), env=target.environment())
    refused = ["cmake", "-S", folder, "-B", f"{folder}/other", *options, "-DWANTED=99.0"]
    run(f"{name}: another version is not found", refused, status=1)


def check_page(page, name, *wanted):
    """Whether a page has these words, how `man` shows it, and whether `mandoc` finds fault with it, where they are."""
    with gzip.open(page, "rt", encoding="utf-8") as file:
        text = file.read()
    missing = [it for it in wanted if it not in text]
    tell(f"man {name}: what the page has", not missing, " ".join(missing))
    if shutil.which("mandoc"):
        linted = subprocess.run(["mandoc", "-Tlint", "-Wwarning"], input=text, capture_output=True, text=True, check=False)
        tell(f"mandoc {name}", linted.returncode == 0, linted.stdout)
    if not shutil.which("man"):
        return
    known = {**os.environ, "LC_ALL": "C.UTF-8", "MANWIDTH": "80"}
    said = subprocess.run(["man", "--warnings", "-l", page], capture_output=True, text=True, check=False, env=known)
    shown = re.sub(r"\s+", " ", said.stdout)
    tell(f"man {name}", said.returncode == 0 and not said.stderr and f"NAME {name} - " in shown, said.stderr)


def check_manual(target):
    found = pages(target)
    tell(f"{target.name}: there is a page for each call", len(found) > 20 and "tags_get" in found)
    if target.is_native:
        lacks("how man shows the pages is", "man")
        for name, page in found.items():
            check_page(page, name, "SEE ALSO")


def check_archive(target, dist):
    """The archive, unpacked into a folder of another name: what pkg-config says of it, and its shared library."""
    found = glob.glob(f"{dist}/tags-[0-9]*-{target.gnu.removesuffix('-gnu')}.tar.gz")
    if not tell(f"{target.name}: there is one archive of the library", len(found) == 1):
        return
    tags, program = f"{target.work}/archive", f"{target.work}/of_archive"
    os.makedirs(tags)
    run(f"{target.name}: the archive is unpacked", ["tar", "-xzf", found[0], "--strip-components=1", "-C", tags])
    known = {**os.environ, "PKG_CONFIG_PATH": f"{tags}/lib/pkgconfig", "LD_LIBRARY_PATH": f"{tags}/lib"}
    flags = out(["pkg-config", "--cflags", "--libs", "tags"], env=known).split()
    source = f"{tags}/share/doc/tags/examples/quick_start.c"
    shared = [it if it != "-ltags-static" else "-ltags" for it in flags]
    kinds = {"static": flags, "static PIE": ["-fPIE", "-static-pie", *flags], "shared": shared}
    for kind, options in kinds.items():
        what = f"{target.name}: quick_start over the archive, {kind}"
        if run(f"build of {what}", [f"{target.tools}gcc", *FLAGS, source, "-o", program, *options]):
            runner = [it.replace(target.lib, f"{tags}/lib") for it in target.runner]
            run(what, [*runner, program], wanted=expected("quick_start"), env=known)
            has_shared = SONAME in needed(target, program)
            tell(f"{what}: what it needs", has_shared == (kind == "shared"), " ".join(needed(target, program)))
    if target.name == "amd64" and target.is_native:
        check_loader("archive", program, f"{tags}/lib", known)
    return tags


def check(target, dist):
    """All that the packages of one processor hold."""
    has_cmake = not lacks(f"CMake for {target.name} is", "cmake", "make")
    if install(target, dist, RUNTIME, "libtags-dev"):
        check_shared(target)
        check_c(target)
        check_plus(target)
        check_manual(target)
        if has_cmake:
            check_cmake(target, f"{target.root}/usr", "packages")
    tags = check_archive(target, dist)
    if tags and has_cmake:
        check_cmake(target, tags, "archive")


def check_same(targets):
    """Packages of two processors may be installed at once: what both hold outside the folders of libraries is the same."""
    one, other = (it.root for it in targets)
    shared = [os.path.relpath(f"{at}/{name}", one) for at, _, names in os.walk(f"{one}/usr") for name in names]
    shared = [it for it in shared if not it.startswith("usr/lib/") and os.path.exists(f"{other}/{it}")]
    differ = filecmp.cmpfiles(one, other, shared, shallow=False)[1:]
    tell("packages of two processors agree on what both hold", shared and not any(differ), str(differ))
