#!/usr/bin/env python3
"""manual.py FOLDER: writes man pages of section 3, made from the texts of tags.h: tags.3 and one page for each call.

What tags.h says of a call is the page: its summary, its paragraphs, its parameters, and the parts that begin with a word and a colon
(Threads, Return), with what the comment above its part of the header says of all calls there. A parameter of which it says nothing is
what the header's first comment says of all such. Each status that it may return is explained: as the call's own text does, if that says
when it comes (TAGS_X if .., TAGS_X for .., TAGS_X (..)), and otherwise as the header's enum does. The example is the shortest function of EXAMPLES that makes the call. Types, macros and constants are in tags.3.
The date is SOURCE_DATE_EPOCH, or today.
"""
import os
import re
import sys
import textwrap
import time

C = os.path.dirname(os.path.dirname(os.path.abspath(__file__)))
HEADER, EXAMPLE = f"{C}/tags.h", f"{C}/examples/quick_start.c"
# Where examples of single calls are from: tests run the first, and build and run the others.
EXAMPLES = ["tests/calls.c", "examples/io_queue.c", "examples/event_loop.c"]
FUNCTION = re.compile(r"^/\* (?:(?!\*/).)*? \*/\nstatic [^;{}]*?\)\n\{\n.*?^\}\n", re.M | re.S)
# The comment above a part of the header.
HEADLINE = re.compile(r"^/\*\n \* ((?:(?!\*/).)*?)\n? ?\*/\n", re.M | re.S)
DOC = re.compile(r"^/\*\*\n \* (\w+)\(\) - (.*?)\n(.*?)^ \*/\n(.*?)(?:;|\n\{)", re.M | re.S)
# A comment of one line, or of several.
TEXT = r"^/\*\*((?:(?!\*/).)*)\*/\n"
TYPE = re.compile(rf"{TEXT}(enum|struct) (\w+) \{{\n(.*?)^\}};", re.M | re.S)
MACROS = re.compile(rf"{TEXT}((?:#define TAGS_\w+[^\n]*\n)+)", re.M | re.S)
CONSTANTS = re.compile(r"^enum \{\n(.*?)^\};", re.M | re.S)
# Macros of the header that are not for programs.
PRIVATE = re.compile(r"TAGS_H$|TAGS_DETAIL_")
MEMBER = re.compile(r"^\t([^;,/\n]+?)[;,]? */\*\*<(.*?)\*/", re.M | re.S)
# What a parameter is of which a call says nothing.
USUAL = re.compile(r"^ \*   @(\w+): (.*)[,.]$", re.M)
PARAMETER = re.compile(r"(\w+)(?:\)\([^()]*\))?[,)](?= |$)")
PART = re.compile(r"^(Threads|Return): ")
SECTIONS = ["NAME", "SYNOPSIS", "DESCRIPTION", "RETURN VALUE", "ERRORS", "NOTES", "EXAMPLES", "SEE ALSO"]
# Pages of calls that return a pointer.
WITHOUT_ERRORS = ["tags_strerror.3", "tags_thread_hand.3"]
# Verbs that begin a summary, or go on in it behind "and" or "or".
VERBS = "fill change end let sleep close take give put read write offer report call describe return publish empty be have".split()
THIRD = {"empty": "empties", "publish": "publishes", "be": "is", "have": "has"}
# When a call returns a status, as its own text says.
WHEN = re.compile(r"(TAGS_\w+) (?:(?:if|for) (.*?)(?=,? (?:or|and) TAGS_|, TAGS_|[;.])|\((?!of )(.*?)\))")


def unstarred(comment):
    """The text of a comment without the stars that begin its lines."""
    return "\n".join(re.sub(r"^\s*\* ?", "", line) for line in comment.split("\n")).strip("\n")


def roff(text, own=""):
    """A text in roff, where names of calls and of statuses are bold, and parameters are in italics."""
    text = re.sub(r"\s+", " ", text).strip().replace("\\", "\\e").replace("-", "\\-")
    text = re.sub(r"@(\w+)", r"\\fI\1\\fR", text)
    text = re.sub(r"\b(tags_\w+)\(\)", lambda it: f"\\fB{it[1]}\\fR{'()' if it[1] == own else '(3)'}", text)
    text = re.sub(r"\b(tags_\w+)\((?=[^3)])", r"\\fB\1\\fR(", text)
    text = re.sub(r"\b(TAGS_[A-Z0-9_]+)\b", r"\\fB\1\\fR", text)
    return re.sub(r"^([.'])", r"\\&\1", text)


def head(name, version, summary):
    date = time.strftime("%Y-%m-%d", time.gmtime(int(os.environ.get("SOURCE_DATE_EPOCH") or time.time())))
    return [f'.TH {name.upper()} 3 "{date}" "tags {version}" "Tags for C programs"', ".SH NAME", f"{name} \\- {roff(summary)}"]


def paragraphs(text):
    return [it for it in re.split(r"\n\s*\n", text) if it.strip()]


def prototype(text):
    """The lines of a prototype as a program sees it, without the words of the header's own macros, wrapped between parameters."""
    whole = re.sub(r"\s+", " ", re.sub(r"\bTAGS_DETAIL_(CALL|CHECKED|ANSWER)\b", "", text)).strip() + ";"
    line = ""
    for it in re.split(r"(?<=,) ", whole):
        if line and len(line) + len(it) > 70:
            yield line
            line = f"    {it}"
        else:
            line = f"{line} {it}" if line else it
    yield line


def third(verb):
    return THIRD.get(verb, f"{verb}s")


def told(summary):
    """A summary as what a call does: it takes a tag, or tells how many there are."""
    if not re.match(rf"({'|'.join(VERBS)}) ", summary):
        return f"{'tells' if summary.startswith('whether') else 'returns'} {summary}"
    return re.sub(rf"(^|,? (?:and|or) )({'|'.join(VERBS)}) ", lambda it: f"{it[1]}{third(it[2])} ", summary)


class Call:
    """A call of the header: what is said of it, and what it stands among."""

    def __init__(self, found, text):
        self.name, self.summary, self.prototype = found[1], found[2], found[4]
        said = paragraphs(unstarred(found[3]))
        self.prose = [it for it in said if not it.startswith("@") and not PART.match(it)]
        own = dict(re.findall(r"^@(\w+): (.*?)(?=^@|\Z)", "\n\n".join(it for it in said if it.startswith("@")), re.M | re.S))
        known = {**dict(USUAL.findall(text)), **own}
        flat = re.sub(r"\s+", " ", self.prototype)
        self.parameters = [(it, known.get(it, "")) for it in PARAMETER.findall(flat.partition(f"{self.name}(")[2])]
        names = [it for it, _ in self.parameters]
        self.wrong = [*(it for it in own if it not in names), *(it for it, meaning in self.parameters if not meaning)]
        self.parts = {PART.match(it)[1]: it[PART.match(it).end() :].strip() for it in said if PART.match(it)}
        above = [it for it in HEADLINE.finditer(text) if it.start() < found.start()][-1]
        self.part, _, self.note = unstarred(above[1]).partition(". ")
        if len(self.part.split()) > 8:  # a sentence, and no title
            self.note = unstarred(above[1])

    def returns(self, calls):
        """What it returns, and where that is as another call returns, what that is."""
        said = self.parts["Return"]
        other = re.match(r"as (tags_\w+)\(\)\.", said)
        return f"what {other[1]}() returns: {calls[other[1]].returns(calls)} {said[other.end() :]}".strip() if other else said

    def pointers(self):
        """The parameters that may not be NULL."""
        found = [name for name, meaning in self.parameters if "NULL" not in meaning]
        return [it for it in found if re.search(rf"\*{it}\b", self.prototype)]

    def errors(self, calls, meanings):
        """The statuses below 0 that it may return, in order, with what each means. What returns a pointer returns none."""
        if re.search(rf"\*{self.name}\(", self.prototype):
            return {}
        said = re.sub(r"\s+", " ", self.parts["Return"])
        *others, last = [f"@{it}" for it in self.pointers()] or [""]
        found = {"TAGS_NULL": f"{', '.join(others)}{' or ' if others else ''}{last} is NULL"} if last else {}
        # What fills an empty handle, and says no more of handles, has no other.
        if self.handles() and ("TAGS_NOT_EMPTY" not in said or "TAGS_BAD_HANDLE" in said):
            found["TAGS_BAD_HANDLE"] = self.meaning("TAGS_BAD_HANDLE", meanings)
        own = {it[1]: it[2] or it[3] for it in WHEN.finditer(said)}
        never = re.findall(r"\bexcept (TAGS_\w+)", said)
        for it in re.findall(r"TAGS_\w+|\b(?:as|as from|what) tags_\w+(?=\(\))", said):
            if it in meanings:
                found.setdefault(it, own.get(it) or self.meaning(it, meanings))
            elif not it.startswith("TAGS_"):
                for name, meaning in calls[it.split()[-1]].errors(calls, meanings).items():
                    found.setdefault(name, own.get(name) or meaning)
        return {name: meaning for name, meaning in found.items() if name not in never}

    def meaning(self, status, meanings):
        """What a status means, of what the header says of it in all calls."""
        names = [name for name, _ in self.parameters]
        if status == "TAGS_BAD_HANDLE":
            own, other = ("pool", "hand") if "pool" in names else ("hand", "pool")
            return f"@{own} is empty, or the handle of a {other}"
        if status == "TAGS_NOT_EMPTY":
            return f"@{'hand' if 'hand' in names else 'pool'} is not empty"
        if status == "TAGS_NO_SUCH_TAG":
            return "@tag is out of range" if "tag" in names else meanings[status].partition(";")[0]
        return meanings[status]

    def handles(self):
        return {kind for kind in ("pool", "hand") if f"struct tags_{kind} *" in self.prototype}

    def threads(self):
        """Which calls may run at once, as tags.h says of all of them."""
        kinds = self.handles()
        if kinds == {"hand"}:
            return "A hand may be in one call at a time; different hands may be used at once, on any threads. See Threads in tags(3)."
        if kinds:
            return "The handle of a pool may be in any number of calls at once. See Threads in tags(3)."
        return "It may be called on any thread."


def statuses(text):
    """What the enum of the header says of each status but TAGS_OK."""
    body = next(it[3] for it in (found.groups("") for found in TYPE.finditer(text)) if it[2] == "tags_status")
    return {name: meaning for name, meaning in members(body) if name != "TAGS_OK"}


def example_of(name):
    """The shortest function with a comment that makes a call, from the first file that has one."""
    for file in EXAMPLES:
        with open(f"{C}/{file}", encoding="utf-8") as source:
            found = [it[0] for it in FUNCTION.finditer(source.read()) if re.search(rf"\b{name}\(", it[0])]
        if found:
            return min(found, key=len)
    return ""


def description(call):
    """What it does first, and then the arguments."""
    yield f"\\fB{call.name}\\fR() {roff(told(call.summary), call.name)}."
    for it in call.prose:
        yield from (".PP", roff(it, call.name))
    yield from (".PP", "Its arguments:" if len(call.parameters) > 1 else "Its argument:")
    for parameter, meaning in call.parameters:
        yield from (".TP", f".I {parameter}", roff(meaning, call.name))


def outcome(call, calls, meanings):
    """What a call returns, with each status below 0."""
    said = re.sub(r"\bOtherwise\s+(?=TAGS_|the |what )", "Otherwise it returns ", call.returns(calls))
    yield from (".SH RETURN VALUE", f"\\fB{call.name}\\fR() returns {roff(said, call.name)}")
    found = call.errors(calls, meanings)
    if found:
        changes = "" if "then the hand does not wait" in re.sub(r"\s+", " ", said) else " A call that is refused changes nothing."
        yield from (".PP", f"Each status but \\fBTAGS_OK\\fR is negative.{changes}", ".SH ERRORS")
    for it, meaning in found.items():
        yield from (".TP", f".B {it}", sentence(meaning))


def related(call, calls):
    """The calls that it mentions, and those beside it in the header."""
    whole = " ".join([call.summary, *call.prose, *call.parts.values(), *(meaning for _, meaning in call.parameters)])
    mentioned = [it for it in re.findall(r"\btags_\w+(?=\()", whole) if it in calls]
    beside = [it.name for it in calls.values() if it.part == call.part]
    return sorted({*mentioned, *beside} - {call.name})


def page_of_call(call, version, calls, meanings):
    lines = [*head(call.name, version, call.summary), ".SH SYNOPSIS", ".nf", ".B #include <tags.h>", ".PP"]
    lines += [re.sub(r"^( *)(.*)$", r"\1\\fB\2\\fR", it) for it in prototype(call.prototype)]
    lines += [".fi", ".SH DESCRIPTION", *description(call), *outcome(call, calls, meanings)]
    notes = [it for it in (call.threads(), call.parts.get("Threads"), call.note) if it]
    for at, it in enumerate(notes):
        lines += [".PP" if at else ".SH NOTES", roff(it[0].upper() + it[1:], call.name)]
    example = example_of(call.name)
    if example:
        lines += [".SH EXAMPLES", ".nf", *listing(example), ".fi"]
    others = "".join(f",\n.BR {it} (3)" for it in related(call, calls))
    return "\n".join([*lines, ".SH SEE ALSO", f".BR tags (3){others}", ""])


def introduction(text):
    """The header's first comment: paragraphs, and parts under a word of their own."""
    comment = unstarred(re.match(r"/\*\n(.*?)\*/", text, re.S)[1])
    for number, it in enumerate(paragraphs(comment)[1:]):
        first, _, rest = it.partition("\n")
        if rest.startswith("  ") and not first.startswith(" "):
            yield f".SS {first}"
            it = rest
        elif number:
            yield ".PP"
        yield roff(it)


def members(text):
    for member, comment in MEMBER.findall(text):
        yield re.sub(r"\s*=.*", "", member.strip()), comment.strip()


def listing(text):
    """A program as it stands."""
    for line in text.rstrip("\n").replace("\t", "    ").split("\n"):
        yield re.sub(r"^([.'])", r"\\&\1", line.replace("\\", "\\e").replace("-", "\\-").replace("'", "\\(aq"))


def sentence(text):
    text = roff(text.strip())
    return text[0].upper() + text[1:] + ("" if text.endswith(".") else ".")


def title_of(kind, name):
    return ".SH STATUSES" if name == "tags_status" else f'.SH "{kind.upper()} {name.upper()}"'


def macros(text):
    """The macros that programs use, with what is said of them; several under one comment stand together."""
    for comment, defined in MACROS.findall(text):
        names = re.findall(r"^#define (\w+)", defined, re.M)
        if not all(map(PRIVATE.match, names)):
            yield ", ".join(names), unstarred(comment)


def page_of_all(text, version, calls):
    lines = head("tags", version, re.match(r"/\*\n \* tags\.h - (.*)", text)[1])
    lines += [".SH SYNOPSIS", ".nf", ".B #include <tags.h>", ".PP"]
    lines += [".B cc file.c $(pkg\\-config \\-\\-cflags \\-\\-libs tags)", ".fi", ".SH DESCRIPTION", *introduction(text)]
    lines += [".SH CALLS"]
    for found in calls:
        lines += [".TP", f".BR {found[1]} (3)", roff(found[2])]
    for comment, kind, name, body in TYPE.findall(text):
        first, *rest = paragraphs(unstarred(comment).strip())
        lines += [title_of(kind, name), sentence(first.partition(" - ")[2])]
        for it in rest:
            lines += [".PP", roff(it)]
        for member, meaning in members(body):
            lines += [".TP", f".B {member}", roff(meaning)]
    lines += [".SH MACROS"]
    for names, meaning in macros(text):
        lines += [".TP", f".B {names}", sentence(meaning)]
    lines += [".SH CONSTANTS"]
    for body in CONSTANTS.findall(text):
        for member, meaning in members(body):
            lines += [".TP", f".B {member}", roff(meaning)]
    with open(EXAMPLE, encoding="utf-8") as file:
        lines += [".SH EXAMPLES", ".nf", *listing(file.read()), ".fi"]
    return "\n".join([*lines, ".SH SEE ALSO", ",\n".join(f".BR {it[1]} (3)" for it in calls), ""])


def filled(page):
    """A page whose lines of prose have at most 80 columns. None of them begins as a request does."""
    is_filled = True
    for line in page.split("\n"):
        is_filled = line == ".fi" or (is_filled and line != ".nf")
        if line.startswith(".") or not is_filled or len(line) <= 80:
            yield line
            continue
        for it in textwrap.wrap(line, 78, break_long_words=False, break_on_hyphens=False):
            yield re.sub(r"^([.'])", r"\\&\1", it)


def pages(text):
    """Each page by its name."""
    version = ".".join(re.findall(r"^#define TAGS_VERSION_M\w+ (\d+)", text, re.M))
    found, meanings = list(DOC.finditer(text)), statuses(text)
    calls = {it[1]: Call(it, text) for it in found}
    made = {f"{name}.3": page_of_call(it, version, calls, meanings) for name, it in calls.items()}
    return {name: "\n".join(filled(page)) for name, page in {"tags.3": page_of_all(text, version, found), **made}.items()}


def unnamed(text):
    """Each struct, enum, macro and call of the header that no page has, by another reading of it."""
    found = pages(text)
    whole = found["tags.3"]
    for kind, name in re.findall(r"^(struct|enum) (tags_\w+) \{", text, re.M):
        if title_of(kind, name) not in whole:
            yield f"{kind} {name}"
    named = set(re.findall(r"\w+", " ".join(re.findall(r"^\.B (.*)$", whole, re.M))))
    macros_found = {*re.findall(r"^[ \t]*#[ \t]*define (TAGS_\w+)", text, re.M)}
    for name in sorted(it for it in macros_found - named if not PRIVATE.match(it)):
        yield name
    for name in sorted({*re.findall(r"^\t(TAGS_\w+)(?: = .*)?,?$", text, re.M)} - named):
        yield name
    for it in map(lambda found: Call(found, text), DOC.finditer(text)):
        yield from (f"@{name} of {it.name}()" for name in it.wrong)
    calls = re.findall(r"^(?!static|#|[ \t/*])[\w \t*]*?\b(tags_(?!library_|detail_)\w+)\(", text, re.M)
    for name in calls:
        if f"{name}.3" not in found:
            yield f"{name}()"


def lacking(text):
    """Each page of a call without one of its sections, or with an empty one; those of calls that refuse nothing have no errors."""
    for name, page in pages(text).items():
        for section in SECTIONS if name != "tags.3" else ["NAME", "SYNOPSIS", "DESCRIPTION", "EXAMPLES", "SEE ALSO"]:
            if not re.search(rf"^\.SH {section}\n(?!\.SH|\Z)", page, re.M) and (section != "ERRORS" or name not in WITHOUT_ERRORS):
                yield f"{name}: no {section}"


def unmatched(text, exported):
    """Each call that the shared library exports and no page describes, and each page of a call that it does not export."""
    found = {it.removesuffix(".3") for it in pages(text)} - {"tags"}
    names = {it for it in re.findall(r"^\t\t(tags_\w+);$", exported, re.M) if not it.startswith("tags_library_")}
    yield from (f"no page of {it}" for it in sorted(names - found))
    yield from (f"a page of {it}, which is not exported" for it in sorted(found - names))


def main():
    with open(HEADER, encoding="utf-8") as file:
        text = file.read()
    os.makedirs(sys.argv[1], exist_ok=True)
    for name, page in pages(text).items():
        with open(f"{sys.argv[1]}/{name}", "w", encoding="utf-8") as file:
            file.write(page)


if __name__ == "__main__":
    main()
