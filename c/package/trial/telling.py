"""Runs commands and counts what passes; what fails is told, with the last lines that it printed.

It is for scripts of .ci/, beside which debian.py says which package has a tool.
"""
import os
import subprocess
import sys
import tempfile

import debian

HERE = os.path.dirname(os.path.abspath(__file__))
EXAMPLES = os.path.join(os.path.dirname(os.path.dirname(HERE)), "examples")
SECONDS = 300
# The script that tells.
WHO = os.path.basename(sys.argv[0])

counts = {True: 0, False: 0}


def tell(name, is_well, said=""):
    counts[bool(is_well)] += 1
    if not is_well:
        print(f"{WHO}: FAILED: {name}", *said.splitlines()[-20:], sep="\n  ", flush=True)
    return bool(is_well)


def run(name, command, wanted=None, status=0, seconds=SECONDS, **more):
    """Runs a command, which has to end with a status and, with `wanted`, to print just that."""
    how = {"stdin": subprocess.DEVNULL, "stdout": subprocess.PIPE, "stderr": subprocess.STDOUT, "text": True, "errors": "replace"}
    try:
        ran = subprocess.run(command, timeout=seconds, check=False, **how, **more)
    except (OSError, subprocess.TimeoutExpired) as error:
        return tell(name, False, str(error))
    is_well = ran.returncode == status and wanted in (None, ran.stdout)
    return tell(name, is_well, f"{ran.stdout}\nstatus {ran.returncode}")


def out(command, **more):
    """What a command prints, or nothing if it can't be run."""
    try:
        return subprocess.run(command, stdout=subprocess.PIPE, stderr=subprocess.DEVNULL, text=True, check=False, **more).stdout
    except OSError:
        return ""


def untested(what, why):
    print(f"{WHO}: {what} not tested, since {why}", flush=True)


def lacks(what, *tools):
    """Whether a tool is missing here, which is then said; in CI that is a failure."""
    missing = debian.missing(tools)
    if missing:
        untested(what, debian.advice(missing))
        counts[False] += debian.IN_CI
    return bool(missing)


def makes(compiler, language, text, runner=()):
    """Whether a compiler makes a program that runs here, which takes more than the compiler."""
    with tempfile.TemporaryDirectory() as folder:
        how = {"stdout": subprocess.DEVNULL, "stderr": subprocess.DEVNULL, "check": True, "text": True}
        try:
            subprocess.run([compiler, "-x", language, "-", "-o", f"{folder}/program"], input=text, **how)
            subprocess.run([*runner, f"{folder}/program"], stdin=subprocess.DEVNULL, **how)
        except (OSError, subprocess.CalledProcessError):
            return False
        return True


def expected(name):
    with open(f"{EXAMPLES}/{name}.out", encoding="utf-8") as file:
        return file.read()
