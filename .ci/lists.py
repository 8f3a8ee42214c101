#!/usr/bin/env python3
"""Compares the lists of the C library's calls with its headers, in which alone a call is declared: c/tags.map, the exports in c/abi, the
list of calls that the explorer's model lacks, the exports of crates/tag_c, and the functions of the C files. .ci/documents looks.

`.ci/lists.py --write` makes the list of the explorer and tags.map, and adds to c/abi what is new there.
"""
import os
import re
import sys

ROOT = os.path.dirname(os.path.dirname(os.path.abspath(__file__)))
# What programs call; what their inline parts call; and what the C files and other languages call beside that.
HEADERS = PUBLIC, INLINE, SHARED = "c/tags.h", "c/tags_detail.h", "c/bell.h"
MAP, LACKS, MODEL = "c/tags.map", "c/tests/schedules/lacks.h", "c/tests/schedules/map.c"
# Exports of the crate that no C file calls, or only tests, and the heap that the crate calls.
UNCALLED, HEAP = ["tags_library_is_cached", "tags_library_is_told", "tags_library_open"], "c/heap.c"

COMMENT = re.compile(r"/\*.*?\*/|//[^\n]*", re.S)
# What begins a line and is not local to its file: a function with its parameters and its end, or a variable.
FUNCTION = re.compile(r"^(?!static\b|typedef\b|#|\s)[\w \t*]*?\b(tags_\w+)\(((?:[^();]|\([^()]*\))*)\)\s*(;|\{)", re.M)
VARIABLE = re.compile(r"^(?!static\b|#|\s)[\w \t*]*?\b(tags_\w+)\[[^;{]*\];", re.M)
HIDDEN = re.compile(r"#pragma GCC visibility push\(hidden\)(.*?)#pragma GCC visibility pop", re.S)
EXPORT = re.compile(r'^pub extern "C" fn tags_(\w+)', re.M)
HEAD_OF_MAP = """# What the shared library exports: the calls of tags.h, and what their inline parts and other languages call. Others stay inside.
# .ci/lists.py --write makes this file of the headers.
"""
HEAD_OF_LACKS = """/* The calls that the model of the library (map.c) lacks: .ci/lists.py --write makes this file of the headers. */
"""


def names_in(text):
    return {it[1] for expression in (FUNCTION, VARIABLE) for it in expression.finditer(text)}


class Calls:
    """The calls of the library: where each is declared, which of them are exported, and which have a body."""

    def __init__(self, files, read):
        plain = {it: COMMENT.sub("", read(it)) for it in files if re.fullmatch(r"c/\w+\.[ch]", it)}
        self.headers = {name: header for header in HEADERS for name in names_in(HIDDEN.sub("", plain[header]))}
        self.hidden = {name: SHARED for part in HIDDEN.findall(plain[SHARED]) for name in names_in(part)}
        self.prototypes = {it[1]: re.sub(r"\s+", " ", it[2]) for header in HEADERS for it in FUNCTION.finditer(plain[header])}
        self.bodies = {it[1]: file for file, text in plain.items() for it in FUNCTION.finditer(text) if it[3] == "{"}
        self.bodies |= {it[1]: file for file, text in plain.items() if file.endswith(".c") for it in VARIABLE.finditer(text)}
        crate = [it for it in files if re.fullmatch(r"crates/tag_c/src/\w+\.rt", it)]
        self.crate = {f"tags_library_{name}": it for it in crate for name in EXPORT.findall(read(it))}

    def exported(self):
        return sorted(self.headers)

    def lacking(self, model):
        """The lines of the list of the explorer."""
        inside = names_in(COMMENT.sub("", model))
        declared = {**self.headers, **self.hidden}
        return [f"LACKS({it}, {self.prototypes[it]})" for it in sorted({*self.crate} & {*declared} - inside)]


def abi(read):
    version = ".".join(re.findall(r"^#define TAGS_VERSION_M\w+ (\d+)", read(PUBLIC), re.M))
    return f"c/abi/{version}"


def differences(listed, wanted, where, told):
    """What stands in one list alone, by name."""
    yield from (f"{told(it)}: {it}: not in {where}" for it in wanted if it not in listed)
    yield from (f"{where}: {it}: in no header" for it in listed if it not in wanted)


def wrong_bodies(calls):
    """Calls that are declared and nowhere made, or made and nowhere declared."""
    declared = {**calls.headers, **calls.hidden}
    for name, header in sorted(declared.items()):
        if name not in calls.bodies and name not in calls.crate:
            yield f"{header}: {name}: in no C file, and no export of crates/tag_c"
    for name, file in sorted({**calls.crate, **calls.bodies}.items()):
        if name not in declared and file != HEAP and not (name in UNCALLED and name in calls.crate):
            yield f"{file}: {name}: in no header"
    yield from (f".ci/lists.py: {it}: no export of crates/tag_c" for it in UNCALLED if it not in calls.crate)


def wrong_lists(files, read):
    calls = Calls(files, read)
    exported = calls.exported()
    yield from wrong_bodies(calls)
    yield from differences(re.findall(r"^\t\t(\w+);$", read(MAP), re.M), exported, MAP, calls.headers.get)
    yield from differences(re.findall(r"^export (\w+)$", read(abi(read)), re.M), exported, abi(read), calls.headers.get)
    wanted, found = calls.lacking(read(MODEL)), re.findall(r"^LACKS.*", read(LACKS), re.M)
    yield from (f"{MODEL}: {it}: neither there nor in {LACKS}" for it in wanted if it not in found)
    yield from (f"{LACKS}: {it}: in {MODEL}, or in no header" for it in found if it not in wanted)


def write(files, read):
    calls = Calls(files, read)
    exported = calls.exported()
    body = "".join(f"\t\t{it};\n" for it in exported)
    yield MAP, f"{HEAD_OF_MAP}TAGS_{abi(read).rpartition('/')[2]} {{\n\tglobal:\n{body}\tlocal: *;\n}};\n"
    kept = read(abi(read))
    more = {f"export {it}" for it in exported} - {*kept.split("\n")}
    lines = [it for it in kept.split("\n") if it]
    others = [it for it in lines if not it.startswith("export ")]
    yield abi(read), "\n".join([*others, *sorted({*lines, *more} - {*others}), ""])
    yield LACKS, HEAD_OF_LACKS + "".join(f"{it}\n" for it in calls.lacking(read(MODEL)))


def main():
    def read(name):
        with open(f"{ROOT}/{name}", encoding="utf-8") as file:
            return file.read()

    if sys.argv[1:] != ["--write"]:
        sys.exit(__doc__)
    files = [f"{folder}/{it}" for folder in ("c", "crates/tag_c/src") for it in sorted(os.listdir(f"{ROOT}/{folder}"))]
    for name, text in [*write(files, read)]:
        with open(f"{ROOT}/{name}", "w", encoding="utf-8") as file:
            file.write(text)


if __name__ == "__main__":
    main()
