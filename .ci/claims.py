"""Checks what pages claim of the tree: that links lead to headings, that commands can be given as they stand, that each crate is spoken of
where all have to be, that a promise names clauses that its call has, and what the proof rests on.
"""
import functools
import os
import re
import subprocess

import sources

ASSEMBLY = [f"c/generated/tag_c-{it}.s" for it in ("x86_64", "x86_64-v3", "aarch64", "aarch64-lse")]
LINK = re.compile(r"\]\(([^)#\s]*)#([^)\s]+)\)")
BLOCK = re.compile(r"^```sh\n(.*?)^```", re.M | re.S)
# Pages that cite contracts: a call with clauses, wrong bodies that are refused, and a call alone.
CITING = "README.md", "docs/PROOFS.md"
PROMISED = re.compile(r"`((?:\w+::)?\w+)` \(((?:`[a-z_]+`(?:, )?)+)(?:; refused: [^)]*)?\)")
REFUSED = re.compile(r"\brefused: ((?:`\w+`(?:, )?)+)")
NAMED = re.compile(r"`((?:\w+::)+[a-z_]\w*)`")
# A name of two words or more: of a call, a clause, a wrong body, a definition or a crate. Those of others are named below.
NAME = re.compile(r"`([a-z]+(?:_[a-z0-9]+)+)`")
OTHERS = {"Arc", "counted_slot", "sbitmap_queue"}
# Pages whose commands are those of a user.
COMMANDS = re.compile(r"README\.md|docs/(?:USING\w*|BLOCK_DEVICE)\.md|c/README\.md")
# Where pages begin to speak of all crates.
LISTS = {"README.md": "The crates, lowest first", "docs/DESIGN.md": "## The crates\n", "docs/PROOFS.md": "#", "docs/crates.svg": "<svg"}
MOST_LINES = 180


def slug(heading):
    """The anchor of a heading."""
    heading = re.sub(r"\[([^\]]*)\]\([^)]*\)", r"\1", heading).replace("`", "")
    return re.sub(r"[^\w\- ]", "", heading.strip().lower()).replace(" ", "-")


@functools.cache
def anchors(text):
    return {slug(it) for it in re.findall(r"^#+ (.*)$", re.sub(r"^```.*?^```", "", text, flags=re.M | re.S), re.M)}


def wrong_anchors(name, text, read):
    for found in LINK.finditer(text):
        target = os.path.normpath(os.path.join(os.path.dirname(name), found[1])) if found[1] else name
        page = read(target) if target.endswith(".md") else None
        if "://" not in found[1] and page is not None and found[2] not in anchors(page):
            yield f"{name}:{text.count(chr(10), 0, found.start()) + 1}: no such heading: {found[1]}#{found[2]}"


def wrong_words(command, files, read):
    """The words of a command that name nothing: files of this repository, calls of library.sh, and options of tagplay."""
    at = re.search(r"\bcd ([\w/]+)", command)
    for word in re.findall(r"(?<![\w/.~-])(?:\.\./)*(?:c|\.ci|crates|examples|bench)/[\w./*-]+", command):
        inside = f"{at[1]}/" if at and word.startswith("../") else ""
        path = os.path.normpath(f"{inside}{word}")
        if "*" not in word and not path.startswith("c/out/") and not any(it == path or it.startswith(f"{path}/") for it in files):
            yield f"there is no {path}"
    for word in re.findall(r"\blibrary\.sh (\w+)", command):
        if not re.search(rf"^  [\d*]:{word}(?: \||\))", read("c/library.sh"), re.M):
            yield f"library.sh has no {word}"
    for word in re.findall(r" --([\w-]+)", command.partition(" -- ")[2]):
        if f'"{word}"' not in read("crates/tagplay/src/options.rt"):
            yield f"tagplay has no --{word}"
    if re.search(r"PKG_CONFIG_PATH=\S+ (?!pkg-config)", command):
        yield "PKG_CONFIG_PATH does not reach pkg-config"


def wrong_commands(name, text, files, read):
    for block in BLOCK.finditer(text):
        where = f"{name}:{text.count(chr(10), 0, block.start()) + 1}"
        parsed = subprocess.run(["bash", "-n", "-c", block[1]], capture_output=True, text=True, check=False)
        if parsed.returncode:
            yield f"{where}: bash can't parse it: {parsed.stderr.strip()}"
        for line in block[1].rstrip("\n").split("\n"):
            yield from (f"{where}: {it}: {line}" for it in wrong_words(line, files, read))


def crates(read):
    return [it.split(":")[0].split()[0] for it in read("crates.txt").split("\n") if it.strip() and not it.startswith("#")]


def unnamed_crates(read):
    """Crates of which a page says nothing that has to speak of all."""
    for page, start in LISTS.items():
        text = read(page).partition(start)[2]
        for crate in crates(read):
            if not re.search(rf"`{crate}`|^## {crate}$|>{crate}<", text, re.M):
                yield f"{page}: nothing of the crate {crate}"


@functools.cache
def clauses():
    """The labels of the clauses of each call and type, by its name: of the public ones, or of the private ones where none has the name."""
    found = {True: {}, False: {}}
    for part in (it for crate in sources.crates() for it in sources.parts_of(crate)):
        labels = {*part.labels(), *(label for label, _ in part.clauses)}
        found[part.public].setdefault(sources.plain(part.name), set()).update(labels)
    return found[True], {**found[False], **found[True]}


def wrong_promises(name, text):
    """The clauses that a page cites and its call does not have. A call without its type has that of the one before."""
    (public, known), owner = clauses(), ""
    for found in PROMISED.finditer(text):
        call = found[1]
        owner = call.rpartition("::")[0] or owner
        labels = public.get(call, known.get(f"{owner}::{call}", known.get(call, set())))
        for label in sorted(set(re.findall(r"`(\w+)`", found[2])) - labels):
            yield f"{name}: {call} has no clause {label}"


@functools.cache
def cited_names():
    """The names of all calls, with their types and without, of clauses, wrong bodies, definitions and crates."""
    found = {*clauses()[1], *sources.crates()}
    for crate in sources.crates():
        found.update(name for name, _, _ in sources.definitions_of(crate))
        for part in sources.parts_of(crate):
            found.update([part.last(), *part.labels(), *part.edits])
    return found


def wrong_citations(read):
    """What README.md and docs/PROOFS.md cite of contracts and is not there: clauses, calls, wrong bodies and definitions."""
    bodies = {it for crate in sources.crates() for part in sources.parts_of(crate) for it in part.edits}
    for name in CITING:
        text = re.sub(r"\s+", " ", re.sub(r"^```.*?^```", "", read(name), flags=re.M | re.S))
        yield from wrong_promises(name, text)
        named = {it for it in [*NAMED.findall(text), *NAME.findall(text)] if it.split("::")[0] not in OTHERS}
        yield from (f"{name}: no such call, clause, wrong body or definition: {it}" for it in sorted(named - cited_names()))
        refused = {it for found in REFUSED.findall(text) for it in re.findall(r"\w+", found)}
        yield from (f"{name}: no such wrong body: {it}" for it in sorted(refused - bodies))


def wrong_ground(read):
    """What docs/TRUST.md and others say the proofs rest on, and the assembly's first lines and library.sh do not."""
    trust, heads = read("docs/TRUST.md"), [read(it)[:2000] for it in ASSEMBLY]
    for head, name in zip(heads, ASSEMBLY):
        if "axioms=3 " in head and "**Three axioms**" in trust:
            continue
        yield f"docs/TRUST.md: not as many axioms as {name} has"
    renamed = re.search(r"printf 'rattle_%s tags_library_%s\\n' ([a-z ]+?) >>", read("c/library.sh"))[1].split()
    axioms = set(re.findall(r"`rattle_(\w+)`", trust))
    if axioms != set(renamed):
        yield f"docs/TRUST.md: axioms {', '.join(sorted(axioms))}, and library.sh has {', '.join(sorted(set(renamed)))}"
    kit = {it for line in read("crates.txt").split("\n") if not line.startswith("#") for it in line.partition(":")[2].split()}
    yield from (f"docs/TRUST.md: nothing of the kit's {it}" for it in sorted(kit - set(crates(read))) if f"`{it}`" not in trust)
    logic = re.search(r"With: logic (\w+)", heads[0])[1]
    for page in ("README.md", "docs/TRUST.md", "docs/PERFORMANCE.md"):
        for told in re.findall(r"`([0-9a-f]{16})`", read(page)):
            if told != logic:
                yield f"{page}: the logic {told}, and the assembly has {logic}"


def wrong_claims(files, read):
    for name in files:
        if name.endswith(".md"):
            yield from wrong_anchors(name, read(name), read)
            if COMMANDS.fullmatch(name):
                yield from wrong_commands(name, read(name), files, read)
    yield from unnamed_crates(read)
    yield from wrong_citations(read)
    yield from wrong_ground(read)
    lines = read("README.md").count("\n")
    if lines > MOST_LINES:
        yield f"README.md: {lines} lines, more than {MOST_LINES}"
