"""Errors to plant, one at a time, in a copy of the C files; and whether the explorer finds them.

Each is a file of mutants/: `file:` names what to change, `found by:` the options with which it is found fast, and each `old:` is a text
that is in the file named last once, which `new:` replaces. A text stands on the line of its name, or is the lines below it.
"""
import pathlib
import re
import shutil

import build

FOLDER = build.HERE / "mutants"
KEY = re.compile(r"^(file|found by|over|old|new):[ ]?(.*)\n", re.M)


class Stale(Exception):
    """The code has changed, so the mutant has to change too."""


class Mutant:
    """An error, with the explorer that finds it: over the model, unless it names another one."""

    def __init__(self, path):
        text = path.read_text(encoding="utf-8")
        parts = KEY.split(text)[1:]
        self.name, self.kind, self.edits = path.stem, build.MODEL, []
        for key, inline, block in zip(parts[::3], parts[1::3], parts[2::3]):
            self.note(key, inline, inline or block)

    def note(self, key, inline, text):
        if key == "file":
            self.file = inline
        elif key == "found by":
            self.options = inline.split()
        elif key == "over":
            self.kind = inline
        elif key == "old":
            self.edits.append([self.file, text, None])
        else:
            self.edits[-1][2] = text

    def plant(self, folder):
        for file, old, new in self.edits:
            path = folder / file
            text = path.read_text(encoding="utf-8")
            if text.count(old) != 1:
                raise Stale(f"{self.name}: {file} has this {text.count(old)} times, not once:\n{old}")
            path.write_text(text.replace(old, new), encoding="utf-8")


def read(names=()):
    """All mutants, or those named."""
    found = [Mutant(it) for it in sorted(FOLDER.glob("*.edit"))]
    lacking = sorted(set(names) - {it.name for it in found})
    if lacking:
        raise Stale(f"there is no mutant {', '.join(lacking)}")
    return [it for it in found if not names or it.name in names]


def copy(folder):
    """Copies what an explorer is built of."""
    here = folder / "tests" / "schedules"
    shutil.rmtree(folder, ignore_errors=True)
    here.mkdir(parents=True)
    for path in build.C.iterdir():
        if path.suffix in (".c", ".h", ".hpp"):
            shutil.copy(path, folder)
    for path in build.HERE.iterdir():
        if path.suffix in (".c", ".h", ".cpp"):
            shutil.copy(path, here)
    (folder / "generated").symlink_to(build.C / "generated")


def make(mutant, made, fixed):
    """Builds an explorer with the error, in the folder `made`."""
    folder, program = made / "c", made / mutant.name
    copy(folder)
    mutant.plant(folder)
    build.build(program, mutant.kind, folder, fixed)
    return program
