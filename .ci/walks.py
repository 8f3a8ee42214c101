"""Checks the walks of docs/DESIGN.md against the code: the tables that begin with a column of files and functions.

A cell of that column names a file and functions in it, or several files with theirs. Each function has to stand in its file, and to
be called by one named before it in the walk; where the text says that each row calls the next, by one of its own row or of the row
above. A label in the last column has to be that of a clause of one of these functions. A table with the head of the one before it in
its section goes on with the same walk.
"""
import re

PAGE = "docs/DESIGN.md"
HEADING = re.compile(r"^#+ ", re.M)
HEAD = re.compile(r"^\| file(?:, function)? \|")
STRICT = "Each row calls the next"
# Files without a crate are below this folder, if the text says so.
BELOW = re.compile(r"Files without a\s+crate\s+are\s+in\s+`(\w+/src)`")
COMMENT = re.compile(r"//[^\n]*|/\*.*?\*/", re.S)
LABEL = re.compile(r"[a-z_]+")


class Function:
    """A function that a walk names: its file, and the bodies of that name there."""

    def __init__(self, name, path, read):
        self.name, self.path = name, path
        self.bodies = list(bodies(read(path), name)) if path else []

    def calls(self, other):
        """Whether it calls another one, also by the name that an export has in the library, or hands it on."""
        exported = re.escape(other.removeprefix("tags_"))
        call = re.compile(rf"\b(?:{re.escape(other)}|tags_library_{exported})\b\s*(?:::<[^(]*>)?\s*[(,)]")
        return any(call.search(it) for it in self.bodies)


def bodies(text, name):
    """What stands in braces behind each definition of a function, without comments."""
    text = COMMENT.sub("", text)
    for found in re.finditer(rf"(?:\bfn |^[^\n;{{}}#]*?[\s*]){re.escape(name)}\s*(?:<[^{{]*?>)?\s*\(", text, re.M):
        start = re.compile(r"^ *\{$|\{$", re.M).search(text, found.end())
        if not start or ";\n" in text[found.end() : start.start()]:
            continue
        line = text.rfind("\n", 0, start.start()) + 1
        indent = re.match(r" *", text[line:])[0]
        end = re.compile(rf"^{indent}\}}", re.M).search(text, start.end())
        yield text[start.end() : end.start() if end else len(text)]


def named(cell, below, last, read):
    """The functions of a cell; a file may be named as from the top, from crates/, from `below` or beside the last file."""
    path = None
    for name in re.findall(r"`([^`]+)`", cell):
        if re.search(r"\.(rt|c|h)$", name):
            folders = ["", "crates/", f"crates/{below}/", f"{last.rpartition('/')[0]}/"]
            path = next((f"{it}{name}" for it in folders if read(f"{it}{name}") is not None), None)
            last = path or last
        else:
            yield Function(name.rpartition("::")[2], path, read)


def rows(section):
    """The rows of each walk: the line, its first and last cells, and whether a walk begins."""
    head, is_walk, begins = "", False, False
    for at, line in enumerate(section.split("\n")):
        if not line.startswith("|"):
            is_walk = False
        elif HEAD.match(line):
            is_walk, begins, head = True, line != head, line
        elif is_walk and not line.startswith("|--"):
            cells = line.strip("| ").split(" | ")
            yield at, cells[0], cells[2] if len(cells) > 2 else "", begins
            begins = False


def has_label(functions, label, read):
    for it in functions:
        text = read(it.path) or ""
        calls = read(re.sub(r"/src/.*", "/specs/Calls.antt", it.path)) or ""
        if re.search(rf"\bensures\*? {label} ", text) or re.search(rf"^ {{2,4}}pub {label} :", calls, re.M):
            return True
    return False


def wrong_in(section, first, read):
    below, is_strict = BELOW.search(section), STRICT in section
    before, above, last = [], [], ""
    for at, cell, says, begins in rows(section):
        where = f"{PAGE}:{first + at}"
        before, above = ([], []) if begins else (before, above)
        here = []
        for it in named(cell, below and below[1], last, read):
            last = it.path or last
            if not it.bodies:
                yield f"{where}: {it.name} is not in {it.path or 'the file named'}"
            callers = (above if is_strict else before) + here
            if callers and not any(other.calls(it.name) for other in callers):
                yield f"{where}: {callers[-1].name} does not call {it.name}"
            here.append(it)
        before, above = before + here, here
        for label in filter(LABEL.fullmatch, re.findall(r"`([^`]+)`", says)):
            if not has_label([it for it in here if it.path], label, read):
                yield f"{where}: no clause of {', '.join(it.name for it in here)}: {label}"


def wrong_walks(read):
    """The places of DESIGN.md that the code contradicts. `read` returns a file's text, or None."""
    text = read(PAGE)
    starts = [it.start() for it in HEADING.finditer(text)] + [len(text)]
    for start, end in zip(starts, starts[1:]):
        yield from wrong_in(text[start:end], text.count("\n", 0, start) + 1, read)
