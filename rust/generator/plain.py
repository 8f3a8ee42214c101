"""Rust of the crates of the plan, as texts by their paths: `plain(plan)`."""
import re

from bodies import (
    first_argument_only, literals_without_snapshots, rust_macros, snapshot_fields, statements_without_snapshots,
    struct_without_snapshots, with_unused_marked, without_bounds, without_proof_turbofish,
)
from items import File
from paths import exported, imports_of, mapped, used_imports
from scan import Token, Unknown, closing, code, parts, scan, text_of

PROOF_DERIVES = ("Drop", "Error")


def read_crate(plan, crate):
    """The files of a crate that are not for tests, by their paths."""
    source, files = f"crates/{crate}/src", {}
    first = "lib" if plan.has(f"{source}/lib.rt") else "main"
    waiting = [first]
    while waiting:
        path = waiting.pop()
        name = f"{source}/{path}.rt"
        files[path] = File(crate, path, name, plan.edited(name))
        below = "" if path == first else f"{path}/"
        waiting += [below + it.name for it in files[path].items if it.kind == "mod"]
    return files


def proof_impls(plan, files):
    """Drops the impls of traits that rules and views are stated with, and laws. Returns the markers of steps."""
    markers = set()
    for file in files:
        kept = []
        for item in file.items:
            if item.kind == "impl" and item.trait in plan.proof_traits:
                markers |= {item.name} if item.trait in plan.markers else set()
            elif not is_law(item):
                kept.append(item)
            if item.kind == "impl":
                item.body = [it for it in item.body if not is_law(it)]
        file.items = kept
    return markers


def is_law(item):
    """Whether a function is given nothing and does nothing: what it ensures is all that it is for."""
    is_empty = item.kind == "fn" and item.body and not code(item.body[1:-1])
    return is_empty and bool(re.search(r"\((?:&self)?\)\s*$", text_of(item.head)))


def origins(files):
    """For each crate, where the names come from that its files import from other crates and that its root has of them."""
    found, roots = {}, {}
    for file in files:
        for it in imports_of(file):
            if it.path[:1] and it.path[0] != file.crate:
                found.setdefault((file.name, it.known_as()), (it.path[0], it.name))
                if it.visibility and file.path in ("lib", "main"):
                    roots[file.crate, it.known_as()] = (it.path[0], it.name)
    return found, roots


def live_items(files):
    """Drops types, traits and private constants that no function mentions, directly or by what it mentions."""
    named = {}
    for file in files:
        for item in file.items:
            if item.kind in ("struct", "enum", "trait", "type", "const"):
                named.setdefault((file.crate, item.name), []).append((file, item))
    imported, roots = origins(files)
    live, waiting = set(), []

    def mention(file, item):
        for name in item.words():
            key = imported.get((file.name, name), (file.crate, name))
            while key not in named and key in roots:
                key = roots[key]
            waiting.append(key if key in named else (file.crate, name))

    for file in files:
        for item in file.items:
            works = item.kind == "impl" and any(it.kind == "fn" for it in item.body)
            if item.kind == "fn" or (item.kind == "const" and item.is_public) or works:
                mention(file, item)
    while waiting:
        key = waiting.pop()
        if key in named and key not in live:
            live.add(key)
            for file, item in named[key]:
                mention(file, item)
    for file in files:
        gone = {name for crate, name in named if crate == file.crate and (crate, name) not in live}
        is_left = lambda it: it.kind in ("use", "mod", "fn") or not {it.name, it.trait} & gone
        file.items = [it for it in file.items if is_left(it) and (it.kind != "impl" or it.trait or it.body)]


def live_modules(files):
    """Drops modules in which nothing is left."""

    def is_live(path):
        own = any(it.kind not in ("use", "mod") for it in files[path].items)
        return own or any(is_live(it) for it in files if it.startswith(f"{path}/"))

    for path in [it for it in files if it not in ("lib", "main") and not is_live(it)]:
        del files[path]
    for path, file in files.items():
        below = "" if path in ("lib", "main") else f"{path}/"
        file.items = [it for it in file.items if it.kind != "mod" or below + it.name in files]


def attributes(lead):
    """What stands before an item, without what is derived for proofs, and the texts of an error that is a struct."""
    kept = []
    for it in lead:
        if it.text.startswith("#[derive"):
            names = [n.strip() for n in it.text[len("#[derive(") : -2].split(",")]
            names = [n for n in names if n and n not in PROOF_DERIVES]
            it = it._replace(text=f"#[derive({', '.join(names)})]" if names else "")
        if it.text and not it.text.startswith("#[error"):
            kept.append(it)
        elif kept and kept[-1].kind == "space":
            kept.pop()
    return kept


def in_each_unit(lead):
    """What stands before a function of the library, so that each unit of a program that calls it has a copy: rustc has a call of
    another unit go through a pointer. What `inline(never)` keeps out of line, the interface of `tags` calls from cold functions."""
    lead = [it._replace(text="#[inline]") if it.text == "#[inline(never)]" else it for it in lead]
    if not any(it.text.startswith("#[inline") for it in lead):
        lead += [Token("attribute", "#[inline]", 0), Token("space", "\n", 0)]
    return lead


ORDINALS = "first second third".split()


def display(item):
    """What writes an error, by the texts of its `#[error(..)]`, or nothing."""
    head = next((it.text for it in item.lead if it.text.startswith("#[error")), None)
    tokens = item.body if item.kind in ("enum", "struct") and item.body else []
    if head:
        text = head[len("#[error(") : -2]
        names = sorted(set(re.findall(r"\{(\w+)\}", text)))
        arms = f"let Self {{ {', '.join(names)} }} = self; write!(f, {text})"
    elif any(it.text.startswith("#[error") for it in tokens):
        arms = ""
        for at, it in enumerate(tokens):
            if it.text.startswith("#[error"):
                variant = next(i for i in range(at, len(tokens)) if tokens[i].kind == "word")
                arms += arm(it.text[len("#[error(") : -2], tokens[variant].text, tokens[variant + 1 :])
        arms = f"match self {{ {arms} }}"
    else:
        return ""
    return (
        f"\n\nimpl fmt::Display for {item.name} {{ fn fmt(&self, f: &mut fmt::Formatter<'_>) -> fmt::Result {{ {arms} }} }}"
        f"\n\nimpl core::error::Error for {item.name} {{}}"
    )


def arm(text, variant, behind):
    """The arm of a `match` that writes a variant by its text. `behind` is what follows the variant's name."""
    count = len(parts(behind[1 : closing(behind, 0)], True)) if behind[0].text == "(" else 0
    used = [n for n in range(count) if f"{{{n}}}" in text]
    for n in used:
        text = text.replace(f"{{{n}}}", f"{{{ORDINALS[n]}}}")
    fields = "(" + ", ".join(ORDINALS[n] if n in used else "_" for n in range(count)) + ")" if count else ""
    return f"Self::{variant}{fields} => " + (f"write!(f, {text})," if used else f"f.write_str({text}),")


def rust_of(file, plan, snapshots, markers):
    """Changes what is within the items of a file."""
    tables = plan.table_types(imports_of(file))

    def changed(tokens, own):
        tokens = first_argument_only(without_bounds(tokens, file.name), tables)
        tokens = without_proof_turbofish(tokens, markers)
        return rust_macros(literals_without_snapshots(tokens, snapshots, own, file.name), file.name)

    def change(item, own):
        item.display = display(item)
        item.lead = attributes(item.lead)
        if item.kind == "struct" and item.body and item.name in snapshots:
            item.body = struct_without_snapshots(item, *snapshots[item.name])
        item.head = changed(item.head, own) if item.kind != "use" else item.head
        for part in item.parts():
            change(part, item.name)
        if item.kind not in ("trait", "impl") and item.body:
            item.body = changed(item.body, own)
            if item.kind == "fn":
                item.lead = in_each_unit(item.lead) if file.crate in plan.library else item.lead
                item.body = statements_without_snapshots(item.body, file.name)
                item.head = with_unused_marked(item.head, item.body)
            item.body = [it for it in item.body if not it.text.startswith("#[error")]

    for item in file.items:
        change(item, None)


def module_text(file, files, plan, exports, traits):
    """The text of a module: its imports in one block, then its items."""
    private, public = used_imports(file, files, plan, exports, traits)
    mods = "".join(it.text() for it in file.items if it.kind == "mod")
    rest = "".join(it.text() + it.display for it in file.items if it.kind not in ("use", "mod"))
    if "fmt::Formatter" in rest and not any(it.name == "fmt" for it in imports_of(file)):
        private.append("use core::fmt;")
    rest = text_of(mapped(scan(file.name, rest), file, plan))
    origin = f"// Made of {file.name}, where the contracts are, by rust/generate."
    head = [origin, file.doc, "\n".join(private), mods, "\n".join(public), rest]
    return "\n\n".join(it.strip() for it in head if it.strip()) + "\n"


def plain(plan):
    """The texts of all modules, by their paths."""
    all_files = {crate: read_crate(plan, crate) for crate in plan.crates}
    if plan.edits:
        raise Unknown(f"{min(plan.edits)}: an edit of a file that is not read")
    flat = [file for files in all_files.values() for file in files.values()]
    markers = proof_impls(plan, flat)
    structs = [item for file in flat for item in file.items if item.kind == "struct"]
    snapshots = {item.name: fields for item in structs if any(fields := snapshot_fields(item))}
    for file in flat:
        rust_of(file, plan, snapshots, markers)
    live_items(flat)
    traits = {it.name: {part.name for part in it.parts()} for file in flat for it in file.items if it.kind == "trait"}
    exports, texts = {}, {}
    for crate, files in all_files.items():
        live_modules(files)
        for path, file in files.items():
            name = "mod" if path in ("lib", "main") else path
            texts[f"{crate}/{name}.rs"] = module_text(file, files, plan, exports, traits)
        exports[crate] = exported(files.get("lib") or files["main"], files, exports)
    return texts
