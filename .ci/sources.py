"""What the sources of the crates say: each function with the clauses of its contract, each type with what it always
keeps, and the wrong bodies under must-fail/. A part is public if another crate, or a C program, can name it.
"""
import functools
import os
import re

ROOT = os.path.dirname(os.path.dirname(os.path.abspath(__file__)))
LONE = "(one)"
# The label of a clause that is one record, whose fields are the call's clauses.
RECORD = "does"
IMPL = re.compile(r"^impl\b(?:<[^{]*?>)?\s+(?:(?P<trait>[\w:]+)(?:<.*?>)?\s+for\s+)?(?P<type>\w+)")
TRAIT = re.compile(r"^(?P<pub>pub )?trait (?P<name>\w+)")
TYPE = re.compile(r"^(?P<pub>pub )?(?:struct|enum) (?P<name>\w+)")
FUNCTION = re.compile(
    r'^(?P<indent> *)(?P<pub>pub )?(?:pub\(\w+\) )?(?:const )?(?:unsafe )?(?:extern "C" )?fn (?P<name>\w+)'
)
CLAUSE = re.compile(r"^ *ensures\*? +(?:(\w+) +)?\{", re.M)
# What a type keeps; the rule of a table or a queue, the invariant of a type, and what Display writes of it.
KEPT = re.compile(r"^    ghost (\w+): \{", re.M)
RULE = re.compile(r"^    ghost (holds|invariant|output) = \{", re.M)
# A public definition of specs/ with the comment above it; what else begins with pub there names files and definitions.
DEFINITION = re.compile(r"^(?P<said>(?:--(?: .*)?\n)*)(?:\w+ )?pub (?!mod\b|use\b)(?:record |data )?(?P<name>[^\s(){}:]+)", re.M)
# A record of specs/, to the next blank line, and what begins a definition or a constant.
FIELDS = re.compile(r"^pub record (?P<name>[\w'?-]+).*\n(?:.+\n)*", re.M)
DEFINED = re.compile(r"^(?!--)(?:abbrev )?(?:pub )?(?:const |record |data )?([\w'?-]+)", re.M)


class Part:
    """A function or a type of a crate, or a definition in which a wrong body stands."""

    def __init__(self, crate, name, path, line, text=""):
        self.crate, self.name, self.path, self.line, self.text = crate, name, path, line, text
        self.public, self.is_type, self.is_described, self.clauses, self.edits = False, False, False, [], []

    def last(self):
        return self.name.rpartition("::")[2]

    def labels(self):
        """The labels of its clauses; a clause that is one record stands for the record's fields."""
        for label, text in self.clauses:
            name = re.match(r"\w*", text)[0]
            yield from label == RECORD and records_of(home_of(name, self)).get(name) or [label]


def plain(name):
    """`Map::number` of `<Map as Numbered>::number`."""
    return re.sub(r"^<(\w+) as [\w:]+>", r"\1", name)


def read(path):
    with open(f"{ROOT}/{path}", encoding="utf-8") as file:
        return file.read()


def crates():
    for line in read("crates.txt").split("\n"):
        if line.strip() and not line.startswith("#"):
            yield line.split(":")[0].split()[0]


def files_of(crate, folder, ending):
    for top, folders, names in sorted(os.walk(f"{ROOT}/crates/{crate}/{folder}")):
        folders[:] = [it for it in folders if it != "tests"]
        for name in sorted(names):
            if name.endswith(ending) and name != f"tests{ending}":
                yield os.path.relpath(os.path.join(top, name), ROOT)


@functools.cache
def exported(crate):
    """The names that a library's root hands on, and its public modules."""
    root = f"crates/{crate}/src/lib.rt"
    text = read(root) if os.path.exists(f"{ROOT}/{root}") else ""
    names = set()
    for listed, lone in re.findall(r"^pub use [\w:]+::(?:\{([^}]*)\}|(\w+));", text, re.M):
        names.update(re.findall(r"\w+", listed) or [lone])
    return names, set(re.findall(r"^pub mod (\w+);", text, re.M))


def home_of(name, part):
    """The crate of a definition that a part cites."""
    found = re.search(rf"use Rattle\.(\w+)\.specs\.\w+\.\{{[^}}]*\b{name}\b", read(part.path))
    return found[1] if found else part.crate


@functools.cache
def records_of(crate):
    """The fields of the records of specs/, by the record's name."""
    records = [it for path in files_of(crate, "specs", ".antt") for it in FIELDS.finditer(read(path))]
    return {it["name"]: re.findall(r"^ {2,4}pub (\w+) :", it[0], re.M) for it in records}


def braced(text, start):
    """What stands in the braces that open right before `start`."""
    depth, at = 1, start
    while depth:
        depth += {"{": 1, "}": -1}.get(text[at], 0)
        at += 1
    return text[start : at - 1]


def clauses(expression, text):
    return [(it[1] or LONE, braced(text, it.end()).strip()) for it in expression.finditer(text)]


def header(lines, at):
    """A function's lines before its body, without their indent."""
    found, depth = [], 0
    indent = len(lines[at]) - len(lines[at].lstrip())
    for line in lines[at:]:
        if re.match(r"^ *\{(?:\})?$", line):
            break
        depth += line.count("{") - line.count("}")
        ends = re.search(r" \{$| \{.*\}$", line) if not found else None
        found.append((line[: ends.start()] if ends else line)[indent:])
        if ends or (depth == 0 and line.endswith(";")):
            break
    return "\n".join(found)


def is_described(lines, at):
    """Whether a doc comment stands above a line."""
    while at > 0 and re.match(r"^ *(?:///|#\[|// )", lines[at - 1]):
        at -= 1
        if lines[at].lstrip().startswith("///"):
            return True
    return False


def block(lines, at):
    """The lines of a type or an impl, to its last brace."""
    end = next((it for it in range(at, len(lines)) if re.match(r"\}|\S.*;$", lines[it])), at)
    return "\n".join(lines[at : end + 1])


def parts_of_file(crate, path):
    """The functions and types of a file in order, and for each type its rule or invariant, which an impl states."""
    names, modules = exported(crate)
    lines, owner, is_open = read(path).split("\n"), None, False
    module = path.split("/src/")[1].removesuffix(".rt")
    for at, line in enumerate(lines):
        if found := IMPL.match(line):
            owner = f"<{found['type']} as {found['trait']}>" if found["trait"] else found["type"]
            is_open = bool(found["trait"]) and found["type"] in names
            yield owner, clauses(RULE, block(lines, at))
        elif found := TRAIT.match(line):
            owner, is_open = found["name"], bool(found["pub"]) and found["name"] in names
        elif found := TYPE.match(line):
            part = Part(crate, found["name"], path, at)
            part.is_type, part.public = True, bool(found["pub"]) and found["name"] in names
            part.clauses = clauses(KEPT, block(lines, at))
            yield part
        elif line == "}":
            owner, is_open = None, False
        elif found := FUNCTION.match(line):
            inside = owner if owner and found["indent"] else module if module in modules else None
            name = f"{inside}::{found['name']}" if inside else found["name"]
            part = Part(crate, name, path, at, header(lines, at))
            part.clauses, part.is_described = clauses(CLAUSE, part.text), is_described(lines, at)
            is_named = (owner or found["name"]) in names or module in modules or 'extern "C"' in line
            is_method = is_open and bool(found["indent"]) and (bool(part.clauses) or found["name"] != "fmt")
            part.public = is_method or (bool(found["pub"]) and is_named)
            yield part


def give_rules(found):
    """The parts alone: each rule and invariant goes to the type that it is of."""
    parts = [it for it in found if isinstance(it, Part)]
    types = {it.name: it for it in parts if it.is_type}
    for owner, rule in (it for it in found if not isinstance(it, Part)):
        if part := types.get(re.match(r"<?(\w+)", owner)[1]):
            part.clauses += rule
    return [it for it in parts if not it.is_type or it.clauses]


def place_edits(crate, parts):
    """Puts each wrong body to the function in which its first text stands, or to a definition. Returns the latter."""
    folder, definitions = f"crates/{crate}/must-fail", {}
    for name in sorted(os.listdir(f"{ROOT}/{folder}")) if os.path.isdir(f"{ROOT}/{folder}") else []:
        lines = read(f"{folder}/{name}").split("\n")
        path = f"crates/{crate}/" + next(it for it in lines if it.startswith("file:"))[5:].strip()
        text, old = read(path), next(it for it in lines if it.startswith("old:"))[5:]
        start = text.index(old)
        line = text.count("\n", 0, start)
        part = next((it for it in reversed(parts) if it.path == path and it.line <= line and not it.is_type), None)
        if not part:
            defined = DEFINED.findall(text[: start + len(old)])[-1]
            part = definitions.setdefault((path, defined), Part(crate, defined, path, line))
        part.edits.append(name.removesuffix(".edit"))
    return [*definitions.values()]


@functools.cache
def parts_of(crate):
    """The parts of a crate in the order of its files."""
    parts = give_rules([it for path in files_of(crate, "src", ".rt") for it in parts_of_file(crate, path)])
    return parts + place_edits(crate, parts)


def definitions_of(crate):
    """The public definitions of specs/: their names, their files, and what the comments above them say. One without a comment
    shares that of the one before."""
    said = ""
    for path in files_of(crate, "specs", ".antt"):
        for it in DEFINITION.finditer(read(path)):
            said = re.sub(r"(?:^|\n)--(?: |$)", " ", it["said"]).strip() or said
            yield it["name"], path, said
