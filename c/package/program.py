"""The man page of section 1 and the completions for bash of a program, made from what it prints under --help.

The help is clap's: a summary, a line that begins with Usage, Commands and Options of a row each, and then a text as it stands.
"""
import os
import re
import subprocess
import time
from dataclasses import dataclass, field

ROW = re.compile(r"^  (?:(-\w), |    )?(--[\w-]+)(?: <(\w+)>)?(?:  +(.*))?$")
COMMAND = re.compile(r"^  ([a-z][\w-]*)  +(.*)$")


@dataclass
class Option:
    short: str
    long: str
    value: str
    text: str


@dataclass
class Help:
    """What a program or one of its subcommands prints under --help."""

    summary: str = ""
    usage: str = ""
    commands: dict = field(default_factory=dict)
    options: list = field(default_factory=list)
    rest: list = field(default_factory=list)


def help_of(program, *words):
    ran = subprocess.run([program, *words, "--help"], stdin=subprocess.DEVNULL, stdout=subprocess.PIPE, text=True, check=True)
    found, part = Help(), "summary"
    for line in ran.stdout.splitlines():
        if line.startswith("Usage: "):
            found.usage = line.removeprefix("Usage: ")
        elif line in ("Commands:", "Options:"):
            part = line.removesuffix(":").lower()
        elif part == "summary":
            found.summary = f"{found.summary} {line}".strip()
        elif part == "commands" and COMMAND.match(line):
            name, text = COMMAND.match(line).groups()
            found.commands[name] = text
        elif part == "options" and ROW.match(line):
            short, long, value, text = ROW.match(line).groups()
            found.options.append(Option(short or "", long, value or "", text or ""))
        elif part == "options" and not line:
            part = "rest"
        elif part == "rest":
            found.rest.append(line)
        elif line:
            raise ValueError(f"help of {' '.join(words) or 'the program'}: what is this line? {line}")
    return found


def helps_of(program):
    """The help of the program, and that of each of its subcommands."""
    own = help_of(program)
    return own, {name: help_of(program, name) for name in own.commands if name != "help"}


def roff(text):
    text = text.replace("\\", "\\e").replace("-", "\\-").replace("'", "\\(aq").replace("^", "\\(ha")
    return re.sub(r"^\.", r"\\&.", text)


def filled(lines):
    """A text of which a line that ends a sentence is followed by another line, however wide the page is."""
    for before, line in zip(["."] + lines, lines):
        if before.endswith((".", ":")):
            yield ".br"
        yield roff(line)


def rows(options):
    for it in options:
        names = ", ".join(f"\\fB{roff(name)}\\fR" for name in (it.short, it.long) if name)
        yield from [".TP", names + (f" \\fI{it.value}\\fR" if it.value else ""), roff(it.text)]


def usage(line):
    """A line of usage, where names are bold and what stands for a value is in italics."""
    line = re.sub(r"<(\w+)>", r"\\fI\1\\fR", roff(line))
    return re.sub(r"(?<![\w\\])((?:\\-)+[a-z][\w\\-]*|^tagplay(?: [a-z]+)?)", r"\\fB\1\\fR", line)


EXAMPLES = [
    ("Two tags are taken and one is given back:", "printf '0 get\\n0 get\\n0 clear 0\\n' | tagplay script --tags 4"),
    ("A log that fio wrote is carried out by six threads under 32 tags:", "tagplay play --tags 32 --submitters 4 --completers 2 --with-times < FILE"),
]


def page(program, version, others):
    """The man page. `others` names the files that the page refers to."""
    own, each = helps_of(program)
    date = time.strftime("%Y-%m-%d", time.gmtime(int(os.environ.get("SOURCE_DATE_EPOCH") or time.time())))
    lines = [f'.TH TAGPLAY 1 "{date}" "tagplay {version}" "User Commands"', ".SH NAME"]
    lines += [f"tagplay \\- {roff(own.summary[0].lower() + own.summary[1:])}", ".SH SYNOPSIS", ".nf"]
    lines += [*(usage(it.usage) for it in each.values()), ".fi", ".SH DESCRIPTION", roff(own.summary) + "."]
    for name, it in each.items():
        lines += [f".SH {name.upper()}", usage(it.usage), ".PP", roff(it.summary) + ".", *rows(it.options)]
        lines += [".PP", *list(filled(it.rest))[1:]] if it.rest else []
    lines += [".SH OPTIONS", *rows(own.options), ".SH EXAMPLES"]
    for text, command in EXAMPLES:
        lines += [roff(text), ".PP", ".nf", f"    {roff(command)}", ".fi", ".PP"]
    lines.pop()
    lines += [".SH FILES", *(it for name, text in others.items() for it in (".TP", f".I {roff(name)}", roff(text)))]
    return "\n".join([*lines, ""])


def completions(program):
    """A function of bash that completes the subcommands, and the options of each; a value is a number and has none."""
    own, each = helps_of(program)
    names = lambda options: " ".join(name for it in options for name in (it.short, it.long) if name)
    valued = sorted({it.long for found in each.values() for it in found.options if it.value})
    lines = ["# Completions of tagplay for bash, made from its --help.", "_tagplay()", "{"]
    lines += ["    local word=${COMP_WORDS[COMP_CWORD]} before=${COMP_WORDS[COMP_CWORD - 1]} command= it", "    COMPREPLY=()"]
    lines += ['    for it in "${COMP_WORDS[@]:1:COMP_CWORD - 1}"; do', '        case "$it" in']
    lines += [f"        {' | '.join(each)}) command=$it ;;", "        esac", "    done", '    case "$before" in']
    lines += [f"    {' | '.join(valued)}) return ;;", "    esac", "    local words", '    case "$command" in']
    lines += [f'    {name}) words="{names(it.options)}" ;;' for name, it in each.items()]
    lines += [f'    *) words="{" ".join(own.commands)} {names(own.options)}" ;;', "    esac"]
    lines += ['    mapfile -t COMPREPLY < <(compgen -W "$words" -- "$word")', "}", "complete -F _tagplay tagplay", ""]
    return "\n".join(lines)
