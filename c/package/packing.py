"""How an archive and a Debian package are made of a folder, so that the same sources and tools give the same bytes."""
import email.utils
import gzip
import hashlib
import os
import re
import subprocess
import sys

HERE = os.path.dirname(os.path.abspath(__file__))
C = os.path.dirname(HERE)
ROOT = os.path.dirname(C)
# Where what is compiled lies, and where the packages go.
OUT = os.path.abspath(os.environ.get("OUT") or f"{C}/out")
DIST = os.path.abspath(os.environ.get("DIST") or f"{C}/dist")

MAINTAINER = "The authors of Yalmosti <unset@example.invalid>"


class Level:
    """Newer processors of a kind: by the name here, by compilers' option -march and in words; what assemblers have to be told, and
    where a loader looks for a library for them."""

    def __init__(self, name, march, kind, directive="", folder=""):
        self.name, self.march, self.kind, self.directive, self.folder = name, march, kind, directive, folder


class Processor:
    """A processor by Debian's name, with what other tools call it, the toolchain's least model of it, and levels above that."""

    def __init__(self, name, gnu, cpu, kind, *newer):
        self.name, self.gnu, self.cpu, self.kind, self.newer = name, gnu, cpu, kind, newer
        self.triple = gnu.replace("-linux", "-unknown-linux")
        self.tools = "" if os.uname().machine == gnu.split("-")[0] else f"{gnu}-"
        self.made = f"{OUT}/{name}"

    def tool(self, name):
        return f"{self.tools}{name}"

    def assembly(self, level=None):
        """The name of a file of generated/."""
        return f"tag_c-{self.gnu.split('-')[0]}{f'-{level.name}' if level else ''}.s"


PROCESSORS = [
    Processor(
        "amd64", "x86_64-linux-gnu", "x86-64", "every x86-64 processor",
        Level("v3", "x86-64-v3", "each x86-64 processor that has all of x86-64-v3", folder="glibc-hwcaps/x86-64-v3"),
    ),
    Processor(
        "arm64", "aarch64-linux-gnu", "generic", "every 64-bit ARM processor",
        Level("lse", "armv8.1-a", "each 64-bit ARM processor that has the atomic instructions of ARMv8.1 (LSE)", directive=".arch_extension lse"),
    ),
]


# What `rt` compiles for.
AS_BUILT = Processor("amd64", "x86_64-linux-gnu", "x86-64-v2", "x86-64-v2")


def say(text):
    print(f"dist: {text}", file=sys.stderr, flush=True)


def ran(*command, **more):
    return subprocess.run(command, check=True, stdout=subprocess.PIPE, text=True, **more).stdout


def read(file):
    with open(file, encoding="utf-8") as opened:
        return opened.read()


def write(file, text, mode=0o644):
    os.makedirs(os.path.dirname(file), exist_ok=True)
    with open(file, "wb") as opened:
        opened.write(text if isinstance(text, bytes) else text.encode())
    os.chmod(file, mode)


def copy(source, file, mode=0o644):
    with open(source, "rb") as opened:
        write(file, opened.read(), mode)


def packed(text):
    return gzip.compress(text if isinstance(text, bytes) else text.encode(), 9, mtime=0)


def version():
    return ".".join(re.findall(r"^#define TAGS_VERSION_M\w+ (\d+)", read(f"{C}/tags.h"), re.M))


def debian(of):
    """The version of the first package of a version."""
    return f"{of}-1"


def commit():
    """The commit, and whether the files differ from it."""
    try:
        name = ran("git", "-C", ROOT, "rev-parse", "HEAD").strip()
        return name + (", with changes that are not committed" if ran("git", "-C", ROOT, "status", "--porcelain").strip() else "")
    except (OSError, subprocess.CalledProcessError):
        return "unknown"


def set_date():
    if "SOURCE_DATE_EPOCH" not in os.environ:
        try:
            os.environ["SOURCE_DATE_EPOCH"] = ran("git", "-C", ROOT, "log", "-1", "--format=%ct").strip()
        except (OSError, subprocess.CalledProcessError):
            os.environ["SOURCE_DATE_EPOCH"] = "0"


def copyright_text(name):
    return f"""{name} is part of Yalmosti.

No licence is set. Whoever owns the work has not chosen one yet, so nobody is allowed to copy, change or pass on the program beyond
what the law allows without a licence.
"""


def crates_below(crate):
    """The crates of this repository that a crate stands on, lowest first."""
    known = dict(re.findall(r"^(\w+)[^:#\n]*: *(.*)$", read(f"{ROOT}/crates.txt"), re.M))
    found, more = set(), [crate]
    while more:
        new = set(known[more.pop()].split()) & known.keys() - found
        found, more = found | new, more + sorted(new)
    return [it for it in known if it in found]


def proved_text(crate, processor, verdict, logic):
    """What was proved, by which logic, of which commit."""
    parts = sorted(it for it in os.listdir(C) if it.endswith(".c"))
    of_c = f"Written in C, and tested but not proved: {', '.join(parts)}, the inline calls in tags_detail.h, tags.hpp and tags_async.hpp.\n"
    kind = ": every processor of this kind" if processor in PROCESSORS else ""
    if crate == "tag_c":
        kind += "".join(f"; of the same proved module, {it.folder}: {it.march}" for it in processor.newer if it.folder)
    return f"""Proved: the crate {crate}, over these crates, each of which is proved:
    {' '.join(crates_below(crate))}
With:      {logic}
Of commit: {commit()}
For:       {processor.triple}, cpu {processor.cpu}{kind}
Verdict:   {verdict.strip()}

{of_c if crate == 'tag_c' else ''}A proof rests on the toolchain, on the C library of the system and on what the ported crates of the kit state.
"""


def put_documents(folder, name, processor, proved):
    """What was proved is said by processor, since packages for two of them may be installed at once."""
    write(f"{folder}/copyright", copyright_text(name))
    write(f"{folder}/PROVED.{processor.name}", proved)
    write(f"{folder}/changelog.gz", packed(read(f"{ROOT}/CHANGELOG.md")))


def settle(folder):
    """Gives all files one date, and folders one mode."""
    date = int(os.environ["SOURCE_DATE_EPOCH"])
    for at, folders, files in os.walk(folder, topdown=False):
        for name in [*folders, *files]:
            os.utime(f"{at}/{name}", (date, date), follow_symlinks=False)
        os.chmod(at, 0o755)
    os.utime(folder, (date, date))


def tarball(folder, file):
    settle(folder)
    options = "--sort=name --owner=0 --group=0 --numeric-owner --format=gnu".split()
    date = f"--mtime=@{os.environ['SOURCE_DATE_EPOCH']}"
    made = subprocess.run(
        ["tar", *options, date, "-C", os.path.dirname(folder), "-cf", "-", os.path.basename(folder)], check=True, stdout=subprocess.PIPE
    )
    write(file, packed(made.stdout))


def least_libc(processor, *files):
    """The version of the C library in which all names that the files take from it are there."""
    found = {(2, 17 if processor.name == "arm64" else 2)}
    for file in files:
        said = ran(processor.tool("objdump"), "-T", file)
        found |= {tuple(map(int, it.split("."))) for it in re.findall(r"\(?GLIBC_(\d+\.\d+)", said)}
    return ".".join(map(str, max(found)))


def changes(fields):
    """The changelog of the packaging itself."""
    date = email.utils.formatdate(int(os.environ["SOURCE_DATE_EPOCH"]))
    head = f"{fields['Source']} ({fields['Version']}) unstable; urgency=medium"
    return f"{head}\n\n  * Made of commit {commit()}.\n\n -- {MAINTAINER}  {date}\n"


def package(folder, processor, fields, scripts):
    """Makes a .deb of a folder."""
    write(f"{folder}/usr/share/doc/{fields['Package']}/changelog.Debian.gz", packed(changes(fields)))
    sums, size = [], 0
    for at, folders, files in os.walk(folder):
        folders.sort()
        for name in sorted(files):
            file = f"{at}/{name}"
            size += 1024 if os.path.islink(file) else os.path.getsize(file)
            if not os.path.islink(file):
                with open(file, "rb") as opened:
                    sums.append(f"{hashlib.md5(opened.read()).hexdigest()}  {os.path.relpath(file, folder)}\n")
    fields = {**fields, "Architecture": processor.name, "Installed-Size": str(size // 1024 + 1)}
    order = "Package Source Version Architecture Multi-Arch Maintainer Installed-Size Depends Suggests Section Priority Description"
    control = "".join(f"{it}: {fields[it]}\n" for it in order.split() if it in fields)
    for name, text in {"control": control, "md5sums": "".join(sums), **scripts}.items():
        write(f"{folder}/DEBIAN/{name}", text)
    settle(folder)
    file = f"{DIST}/{fields['Package']}_{fields['Version']}_{processor.name}.deb"
    subprocess.run(["dpkg-deb", "--root-owner-group", "-Zxz", "--build", folder, file], check=True, stdout=subprocess.DEVNULL)


def fields_of(name, summary, text, **more):
    described = summary + "".join(f"\n {line}" if line else "\n ." for line in text.strip().split("\n"))
    return {
        "Package": name, "Source": "yalmosti", "Version": debian(version()), "Maintainer": MAINTAINER, "Priority": "optional",
        "Description": described, **more,
    }
