"""Tokens of a source file, without contracts, ghost items and tactics."""
import re
import sys
from typing import NamedTuple


class Token(NamedTuple):
    """A piece of the source. Its kind is space, doc, comment, attribute, text (of a string or character), life, word,
    number or mark."""

    kind: str
    text: str
    line: int


class Unknown(Exception):
    """The source has what the generator does not know."""


def unknown(file, line, what):
    raise Unknown(f"{file}:{line}: {what}")


PIECE = re.compile(
    r"""(?P<space>\s+)|(?P<doc>//[/!][^\n]*)|(?P<comment>//[^\n]*)
    |(?P<attribute>\#!?\[(?:"(?:\\.|[^"\\])*"|\[[^\]]*\]|[^"\[\]])*\])
    |(?P<text>b?"(?:\\.|[^"\\])*"|b?'(?:\\[^']+|[^\\'])')|(?P<life>'[a-z_]+)
    |(?P<word>[A-Za-z_][A-Za-z0-9_]*)|(?P<number>[0-9][A-Za-z0-9_]*)
    |(?P<mark>::|->|=>|\.\.=?|[!-/:-@\[-`{-~])""",
    re.X | re.S,
)
CONTRACT = re.compile(r"(?:requires|ensures)\*?\s+(?:[a-z_]+\s*)?(?=\{)")
GHOST = re.compile(r"(?:pub(?:\(crate\))?\s+)?ghost\s+\w+")
TACTIC = re.compile(r"#!?\[(?:tactic|read_as|lang)\b")


def braces_end(text, at):
    """The index behind the partner of the brace at `at`, in ghost text, which has no strings."""
    depth = 0
    while True:
        depth += (text[at] == "{") - (text[at] == "}")
        at += 1
        if depth == 0:
            return at


def ghost_end(text, at):
    """The index behind a ghost item: at its `;` or `,`, or at the end of what it stands in."""
    while text[at] not in ";,}":
        at = braces_end(text, at) if text[at] == "{" else at + 1
    return at + (text[at] != "}")


def left_out(text, at):
    """The index behind what the generator leaves out here, if there is such, and the kinds of what goes before it."""
    if found := CONTRACT.match(text, at):
        return braces_end(text, found.end()), ("space", "comment")
    if found := GHOST.match(text, at):
        return ghost_end(text, found.end()), ("space", "comment", "///")
    if found := TACTIC.match(text, at):
        return text.index("]", found.end()) + 1, ("space",)
    return None, ()


def scan(file, text):
    """All tokens. Comments that stand before what is left out go with it."""
    tokens, at, line = [], 0, 1
    while at < len(text):
        end, before = left_out(text, at) if text[at] in "regp#" and not text[at - 1 : at].isalnum() else (None, ())
        if end:
            while tokens and (tokens[-1].kind in before or tokens[-1].text[:3] in before):
                tokens.pop()
            tokens.append(Token("space", "\n" if "///" in before else " ", line))
        elif found := PIECE.match(text, at):
            end = found.end()
            tokens.append(Token(found.lastgroup, found.group(), line))
        else:
            unknown(file, line, f"no token begins with {text[at]!r}")
        line += text.count("\n", at, end)
        at = end
    return tokens


OPENS = {"(": ")", "[": "]", "{": "}"}


def closing(tokens, at):
    """The index of the partner of the bracket at `at`."""
    depth = 0
    for index in range(at, len(tokens)):
        if tokens[index].kind == "mark":
            depth += (tokens[index].text in "([{") - (tokens[index].text in ")]}")
        if depth == 0:
            return index
    sys.exit(f"line {tokens[at].line}: no partner of {tokens[at].text}")


def angle_end(tokens, at):
    """The index of the partner of the `<` at `at`."""
    depth = 0
    for index in range(at, len(tokens)):
        depth += (tokens[index].text == "<") - (tokens[index].text == ">")
        if depth == 0:
            return index
    sys.exit(f"line {tokens[at].line}: no partner of <")


def parts(tokens, angles):
    """The pieces between commas. With `angles` a comma between < and > is none of these."""
    pieces, piece, at = [], [], 0
    while at < len(tokens):
        text = tokens[at].text
        turbofish = text == "<" and (angles or (piece and piece[-1].text == "::"))
        end = closing(tokens, at) if text in OPENS else angle_end(tokens, at) if turbofish else at
        if text == ",":
            pieces.append(piece)
            piece = []
        else:
            piece.extend(tokens[at : end + 1])
        at = end + 1
    return pieces + [piece] if any(it.kind != "space" for it in piece) else pieces


def code(tokens):
    """The tokens that are no space, comment or attribute."""
    return [it for it in tokens if it.kind not in ("space", "doc", "comment", "attribute")]


def text_of(tokens):
    return "".join(it.text for it in tokens)


def words(tokens):
    """All names that are mentioned, also those in the braces of a text."""
    found = {it.text for it in tokens if it.kind == "word"}
    for it in tokens:
        if it.kind == "text":
            found.update(re.findall(r"\{(\w+)[}:]", it.text))
    return found
