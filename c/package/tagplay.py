"""Makes the archive and the Debian package of the program tagplay, for x86-64 alone: the kit links programs for no other processor."""
import os
import re
import subprocess
import sys

import kit
import program
from packing import (
    AS_BUILT, DIST, HERE, PROCESSORS, ROOT, copy, debian, fields_of, least_libc, package, packed, proved_text, put_documents, ran,
    read, say, tarball, write,
)

PROCESSOR = PROCESSORS[0]
BUILT = f"{PROCESSOR.made}/tagplay"
LEFT = f"{ROOT}/crates/tagplay/out/tagplay"
ABOUT = """
tagplay runs the proved tag allocator of Yalmosti from a command line: scripts
of callers that share tags, lists of events, of which it decides whether they
are possible, and I/O logs of fio, which threads carry out under tags on a
block device in memory.
"""
FILES = {
    "/usr/share/doc/tagplay/FORMATS.md": "the lines, the outputs, and the number of each refusal",
    "/usr/share/doc/tagplay/examples": "inputs with their outputs, and README.md, which says how each is run",
    "/usr/share/doc/tagplay/PROVED.amd64": "what was proved, with which kit, of which commit",
}


def build():
    """Builds the program for every processor of the kind: its verdict."""
    say("tagplay: compiling it; what is not proved yet is proved first, which takes half an hour in a fresh clone")
    subprocess.run([f"{HERE}/build_for.py", "tagplay", PROCESSOR.triple, PROCESSOR.cpu, BUILT], check=True, stdout=sys.stderr)
    return read(f"{BUILT}.verdict")


def as_built():
    """Says what the verdict on the program is that `rt` left, which has to be newer than all that it is made of."""
    rtlib = kit.load()
    crate = next(it for it in rtlib.crates_below(ROOT) if it.name == "tagplay")
    sources = [f"{ROOT}/crates.txt", *(file for it in [crate, *crate.below()] for file in rtlib.files_of(it.folder))]
    if not os.path.exists(LEFT) or os.path.getmtime(LEFT) < max(map(os.path.getmtime, sources)):
        sys.exit(f"{LEFT} is not what rt makes of the files as they are: run rt ci")
    return "rt proved it, and then left this program"


def version_of(file):
    """The version of the program, whose own line has to name the logic by which it was proved."""
    said, wanted = ran(file, "--version").strip(), kit.logic()
    found = re.fullmatch(r"tagplay (\S+), proved with (.*)", said)
    if not found or found[2] != wanted:
        sys.exit(f"tagplay --version prints '{said}', and the kit has the {wanted}: change crates/tagplay/src/options.rt")
    return found[1]


def put(built, folder, share, version, proved):
    """Puts the program below a folder with all that belongs to it: the folder of its documents is doc/tagplay of `share`."""
    others = {name.replace("/usr/share/doc/tagplay/", f"{share}/doc/tagplay/"): text for name, text in FILES.items()}
    copy(built, f"{folder}/bin/tagplay", 0o755)
    write(f"{folder}/share/man/man1/tagplay.1.gz", packed(program.page(built, version, others)))
    write(f"{folder}/share/bash-completion/completions/tagplay", program.completions(built))
    documents = f"{folder}/share/doc/tagplay"
    put_documents(documents, "tagplay", PROCESSOR, proved)
    copy(f"{ROOT}/docs/FORMATS.md", f"{documents}/FORMATS.md")
    for name in ran("git", "-C", ROOT, "ls-files", "examples").split():
        copy(f"{ROOT}/{name}", f"{documents}/{name}")


def make(work, is_as_built):
    processor, built = (AS_BUILT, LEFT) if is_as_built else (PROCESSOR, BUILT)
    proved = proved_text("tagplay", processor, as_built() if is_as_built else build(), kit.logic())
    version = version_of(built)
    put(built, f"{work}/tagplay/usr", "/usr/share", version, proved)
    summary = "proved tag allocator for scripts, lists of events and I/O logs"
    depends = f"libc6 (>= {least_libc(processor, built)})"
    fields = {**fields_of("tagplay", summary, ABOUT, Section="utils", Depends=depends), "Version": debian(version)}
    package(f"{work}/tagplay", processor, fields, {})
    name = f"tagplay-{version}-{processor.gnu.removesuffix('-gnu')}"
    put(built, f"{work}/{name}", "share", version, proved)
    tarball(f"{work}/{name}", f"{DIST}/{name}.tar.gz")
