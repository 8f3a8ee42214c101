"""Paths and imports: where the names of a file are in the crates that are made."""
from scan import code, unknown


class Import:
    """One name of a `use`."""

    def __init__(self, visibility, path, name, alias, line):
        self.visibility, self.path, self.name, self.alias, self.line = visibility, path, name, alias, line

    def known_as(self):
        return self.alias or self.name


def imports_of(file):
    """All names that a file imports, one by one."""
    found = []
    for item in file.items:
        if item.kind == "use":
            texts = [it.text for it in code(item.head)]
            start = texts.index("use")
            visibility = "".join(texts[:start])
            brace = texts.index("{") if "{" in texts else None
            path = [it for it in texts[start + 1 : brace or -1] if it != "::"]
            names = "".join(f" {it} " for it in texts[brace + 1 : -2]).split(",") if brace else None
            if names is None and "as" in path:
                names, path = [" ".join(path[-3:])], path[:-3]
            elif names is None:
                names, path = [path[-1]], path[:-1]
            for name in filter(None, (it.split() for it in names)):
                alias = name[2] if len(name) == 3 else None
                at = (path[:-1], path[-1]) if name[0] == "self" else (path, name[0])
                found.append(Import(visibility, *at, alias, item.line))
    return found


def resolve(path, file, plan, line):
    """The path of this in the crate that is made."""
    if path[0] == "crate":
        return ["crate", "proved", file.crate, *path[1:]]
    if path[0] in plan.crates:
        return ["crate", "proved", *path]
    for length in range(len(path), 0, -1):
        if "::".join(path[:length]) in plan.paths:
            return plan.paths["::".join(path[:length])].split("::") + path[length:]
    if path[0] in plan.roots:
        unknown(file.name, line, f"the path {'::'.join(path)}")
    return path


def mapped(tokens, file, plan):
    """The tokens, with each path from a crate's root resolved."""
    kept, at = [], 0
    while at < len(tokens):
        path, end = [tokens[at].text], at + 1
        is_first = tokens[at].kind == "word" and (at == 0 or tokens[at - 1].text not in ("::", "."))
        while is_first and end + 1 < len(tokens) and tokens[end].text == "::" and tokens[end + 1].kind == "word":
            path.append(tokens[end + 1].text)
            end += 2
        if len(path) > 1:
            text = "::".join(resolve(path, file, plan, tokens[at].line))
            kept.append(tokens[at]._replace(text=text))
        else:
            kept.append(tokens[at])
        at = end
    return kept


def is_there(it, files, exports):
    """Whether what a public `use` names is still there."""
    if it.path[0] in exports:
        return it.name in exports[it.path[0]]
    module = "/".join(it.path[1:] if it.path[0] == "crate" else it.path)
    if module not in files:
        return it.path[0] in ("std", "core")
    return it.name in exported(files[module], files, exports)


def exported(file, files, exports):
    """The names that a file has for others."""
    own = {item.name for item in file.items if item.kind not in ("use", "impl", "mod")}
    return own | {it.known_as() for it in imports_of(file) if it.visibility and is_there(it, files, exports)}


def used_imports(file, files, plan, exports, traits):
    """The private and the public imports of a file as texts, without those that nothing uses."""
    mentioned = set().union(*(item.words() for item in file.items if item.kind not in ("use", "mod")))
    private, public = set(), set()
    imported = imports_of(file)
    for it in imported:
        is_used = it.known_as() in mentioned or traits.get(it.name, set()) & mentioned
        if it.visibility:
            is_used = is_there(it, files, exports)
        if is_used:
            path = resolve([*it.path, it.name], file, plan, it.line)
            alias = it.alias or (it.name if path[-1] != it.name else None)
            (public if it.visibility else private).add((it.visibility, "::".join(path[:-1]), path[-1], alias))
    known = {it.known_as() for it in imported} | {item.name for item in file.items}
    for name in sorted(set(plan.prelude) & mentioned - known):
        path = plan.prelude[name].split("::")
        private.add(("", "::".join(path[:-1]), path[-1], None))
    return lines(private), lines(public)


def lines(imports):
    """One `use` for each parent."""
    grouped = {}
    for visibility, parent, name, alias in sorted(imports, key=str):
        grouped.setdefault((visibility, parent), []).append(f"{name} as {alias}" if alias else name)
    return [f"{visibility} use {parent}::{{{', '.join(names)}}};".strip() if parent else f"use {names[0]};"
            for (visibility, parent), names in grouped.items()]
