#!/usr/bin/env python3
"""generate.py [FOLDER]: makes c/generated, or FOLDER: the crate tag_c as assembly, for each of the two processors and for the newer
ones of each kind.

It is what the kit's clang makes of the crate once it is proved, of one module for all processors of a kind, in a form that every
assembler takes: without comments, and with plain names in place of quoted ones. For x86-64 it is marked as fit for shadow stacks. The
exports get the names by which tags.h calls them, and so do the three functions by which the crate allocates; no other name is visible
outside. The first lines of a file say what it is, and have the sums by which c/library.sh knows whether it was edited and whether the
sources are still those that it was made of. The same sources and kit give the same bytes.
"""
import hashlib
import os
import re
import subprocess
import sys

sys.path.insert(0, os.path.dirname(os.path.abspath(__file__)))
sys.dont_write_bytecode = True

import kit  # noqa: E402
from packing import C, HERE, OUT, PROCESSORS, crates_below, ran, read, write  # noqa: E402

# A comment, as clang writes it for each processor.
COMMENT = {"amd64": "#", "arm64": "//"}
# Directives that say nothing of the code: one that GNU as lacks, the name of the source, and who compiled it.
LEFT_OUT = (".addrsig", ".file", ".ident")
# Directives whose words in quotes are text, and no names.
TEXT = (".ascii", ".asciz", ".string")
# What is left in quotes: names and flags of sections.
SECTION = re.compile(r"[\w.-]*")
QUOTED = re.compile(r'"((?:[^"\\]|\\.)*)"')
# What is said of the code beside it. Each function of clang's returns to where it was called from, so it may run with a shadow stack.
# That indirect jumps lead to marked places (IBT; BTI on ARM) is not said, since no place is marked.
MARKS = {"amd64": """\
	.section .note.gnu.property,"a",@note
	.p2align 3
	.long 4
	.long 16
	.long 5
	.asciz "GNU"
	.long 0xc0000002
	.long 4
	.long 2
	.long 0
"""}
# The names of exports, and those of the functions in heap.c.
OUTSIDE = re.compile(r"\b(?:tags_(?=\w)|rattle_(?=(?:alloc|realloc|dealloc)\b))")

HEAD = """/*
 * The crate tag_c, proved and compiled, for {kind}.
 * Made by: c/library.sh generate. Don't edit it.
 *
 * Proved: {verdict}
 * With: {logic}
 * Of the crates: {crates}
 * Sources: {sources}
 * Lines below: {lines}
 *
 * "Sources" is the SHA-256 sum of what decides these lines and what the proof says of them: src/ and specs/ of the crates and their
 * lines of crates.txt. "Lines below" is that of all lines below this comment.
 */
"""


def without_comment(line, mark):
    """A line without the comment that ends it: a mark in quotes begins none."""
    parts = QUOTED.split(line)
    for at in range(0, len(parts), 2):
        code, found, _ = parts[at].partition(mark)
        if found:
            return "".join(f'"{it}"' if odd % 2 else it for odd, it in enumerate(parts[:at])) + code
    return line


class Names:
    """Plain names for quoted ones, each for one of them alone."""

    def __init__(self):
        self.plain, self.taken = {}, set()

    def of(self, name):
        if name not in self.plain:
            # Lengths and brackets say nothing to a reader.
            base = re.sub(r"\d+'|[^\w.]+$", "", name).replace("::<", "_").replace("::", ".")
            base = re.sub(r"[^\w.]+", "_", base)
            found, number = base, 1
            while found in self.taken:
                number += 1
                found = f"{base}.{number}"
            self.taken.add(found)
            self.plain[name] = found
        return self.plain[name]


def line_of(line, names):
    """A line with plain names, those of the exports and of the heap as tags.h and heap.c have them."""
    if line.startswith(TEXT):
        return line
    parts = QUOTED.split(line)
    plain = [OUTSIDE.sub("tags_library_", it) for it in parts[::2]]
    quoted = [f'"{it}"' if SECTION.fullmatch(it) else names.of(it) for it in parts[1::2]]
    return "".join(it for pair in zip(plain, [*quoted, ""]) for it in pair)


def body_of(assembly, mark):
    names, lines = Names(), []
    for line in assembly.splitlines():
        line = without_comment(line, mark).rstrip().replace("\t", " ").lstrip(" ")
        if line and not line.startswith(LEFT_OUT):
            lines.append(line_of(line, names) if line.endswith(":") else f"\t{line_of(line, names)}")
    return "\n".join([*lines, ""])


def file_of(processor, level, made):
    """The whole file for a level, or for every processor of the kind, of what build_for.py made."""
    crates = [*crates_below("tag_c"), "tag_c"]
    body = body_of(read(f"{made}.{level.name}.s" if level else f"{made}.s"), COMMENT[processor.name]) + MARKS.get(processor.name, "")
    if level and level.directive:
        body = f"\t{level.directive}\n{body}"
    sources = ran(f"{C}/library.sh", "sum", *crates).strip()
    lines = hashlib.sha256(body.encode()).hexdigest()
    verdict = read(f"{made}.verdict").strip()
    kind = (level or processor).kind
    head = HEAD.format(kind=kind, verdict=verdict, logic=kit.logic(), crates=" ".join(crates), sources=sources, lines=lines)
    return head + body


def main():
    folder = os.path.abspath(sys.argv[1]) if sys.argv[1:] else f"{C}/generated"
    for it in PROCESSORS:
        made = f"{OUT}/kit/{it.name}/libtag_c.a"
        subprocess.run([f"{HERE}/build_for.py", "tag_c", it.triple, it.cpu, made], check=True, stdout=sys.stderr)
        for level in (None, *it.newer):
            write(f"{folder}/{it.assembly(level)}", file_of(it, level, made))
            print(f"generate.py: made {folder}/{it.assembly(level)}", file=sys.stderr)


if __name__ == "__main__":
    try:
        main()
    except subprocess.CalledProcessError as error:
        sys.exit(error.returncode)
