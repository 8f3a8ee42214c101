"""Uses the packages of tagplay as somebody does who has nothing else of this repository."""
import glob
import os
import re
import subprocess

from library import OLDEST, check_page, check_removal, install, needed
from telling import SECONDS, lacks, out, run, tell

COMPLETED = """. "$1"
COMP_WORDS=(tagplay play --q) COMP_CWORD=2; _tagplay; echo "${COMPREPLY[@]}"
COMP_WORDS=(tagplay c) COMP_CWORD=1; _tagplay; echo "${COMPREPLY[@]}"
COMP_WORDS=(tagplay play --tags "") COMP_CWORD=3; _tagplay; echo "${#COMPREPLY[@]}"
"""
ROW = re.compile(r"^\| `([^`]+)` \| `tagplay ([^`]+)` \| (\d+) \|", re.M)


def check_examples(root, program):
    """Each example of the package, as the README beside them says."""
    folder = f"{root}/usr/share/doc/tagplay/examples"
    with open(f"{folder}/README.md", encoding="utf-8") as file:
        rows = ROW.findall(file.read())
    tell("tagplay: there are examples", len(rows) > 10)
    for name, words, status in rows:
        with open(f"{folder}/{name}", "rb") as given, open(f"{folder}/{os.path.splitext(name)[0]}.out", "rb") as wanted:
            ran = subprocess.run([program, *words.split()], stdin=given, capture_output=True, timeout=SECONDS, check=False)
            tell(f"tagplay: {name}", (ran.returncode, ran.stdout) == (int(status), wanted.read()), ran.stderr.decode())


def check_processor(program, proved):
    """Compiled for each processor of the kind it runs on an old one, and else it ends there with status 127."""
    if not lacks("tagplay on an old processor is", OLDEST[0]):
        runs = re.search(r"^For: .* cpu x86-64[:\n]", proved, re.M)
        run("tagplay on an old processor", [*OLDEST, program, "--version"], status=0 if runs else 127)


def check_manual(share, program):
    options = re.findall(r"--[a-z][a-z-]*", out([program, "play", "--help"]))
    check_page(f"{share}/man/man1/tagplay.1.gz", "tagplay", *(it.replace("-", "\\-") for it in options))


def check(target, dist):
    """The program as it is installed, and what comes with it."""
    if not install(target, dist, "tagplay"):
        return
    program, share = f"{target.root}/usr/bin/tagplay", f"{target.root}/usr/share"
    said = out([program, "--version"])
    with open(f"{share}/doc/tagplay/PROVED.{target.name}", encoding="utf-8") as file:
        proved = file.read()
    logic = re.search(r"^With: +(.+)$", proved, re.M)
    tell("tagplay: --version names the logic that proved it", logic and said.endswith(f", proved with {logic[1]}\n"), said)
    links = needed(target, program)
    tell("tagplay: it needs libc alone", links <= {"libc.so.6", "libm.so.6"}, " ".join(links))
    check_processor(program, proved)
    check_examples(target.root, program)
    completed = ["bash", "--norc", "-c", COMPLETED, "bash", f"{share}/bash-completion/completions/tagplay"]
    run("tagplay: completions", completed, wanted="--queue\ncheck\n0\n")
    check_manual(share, program)
    check_archive(target, dist)
    check_removal(target, "tagplay")


def check_archive(target, dist):
    found = glob.glob(f"{dist}/tagplay-[0-9]*-{target.gnu.removesuffix('-gnu')}.tar.gz")
    if tell("there is one archive of tagplay", len(found) == 1):
        folder = f"{target.work}/archive"
        os.makedirs(folder)
        run("the archive of tagplay", ["tar", "-xzf", found[0], "--strip-components=1", "-C", folder])
        run("tagplay of the archive", [f"{folder}/bin/tagplay", "--version"])
