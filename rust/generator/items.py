"""The items of a file, with what stands before each."""
from scan import OPENS, closing, code, scan, text_of, unknown, words

KINDS = "use mod const type struct enum trait impl fn".split()
# Attributes and macros that mean the same in Rust.
ATTRIBUTES = "#[inline #[derive #[error #[cold #[cfg(test)]".split()
MACROS = "unreachable matches write vec value_parser eprintln".split()


class Item:
    """An item: what stands before it, its head, and its body, which is a list of items, or tokens with their braces."""

    def __init__(self, lead, head, body, kind):
        self.lead, self.head, self.body, self.kind = lead, head, body, kind
        names = [it for it in code(head)]
        at = next(i for i, it in enumerate(names) if it.text == kind)
        self.name = names[at + 1].text if kind != "impl" else implemented(names)[-1]
        self.trait = implemented(names)[0] if kind == "impl" else None
        self.is_public = head[0].text == "pub" and (len(head) < 2 or head[1].text != "(")
        self.line = head[0].line

    def parts(self):
        """The items of the body."""
        return self.body if self.kind in ("trait", "impl") else []

    def tokens(self):
        """All tokens of the item itself."""
        inner = [t for part in self.parts() for t in part.lead + part.tokens()]
        return self.head + (inner if self.kind in ("trait", "impl") else self.body or [])

    def words(self):
        return words(self.tokens())

    def text(self):
        if self.kind in ("trait", "impl"):
            body = "{" + "".join(it.text() for it in self.body) + "\n}"
        else:
            body = text_of(self.body or [])
        return text_of(self.lead) + text_of(self.head) + body


def implemented(names):
    """The trait (or None) and the type of an `impl`."""
    depth, found, past = 0, [None], False
    last = None
    for it in names[1:]:
        if it.text == "where":
            break
        if depth == 0 and it.text == "for":
            found, last = [last], None
        depth += (it.text == "<") - (it.text == ">")
        if depth == 0 and it.kind == "word" and it.text != "for":
            last = it.text
    return [found[0], last]


class File:
    """A source file: the doc comments of the file, and its items."""

    def __init__(self, crate, path, name, text):
        self.crate, self.path, self.name = crate, path, name
        tokens = scan(name, text)
        start = 0
        while start < len(tokens) and (tokens[start].kind == "space" or tokens[start].text.startswith("//!")):
            start += 1
        self.doc = text_of(tokens[:start]).strip()
        self.items = self.read(tokens[start:])

    def read(self, tokens):
        """The items that these tokens are."""
        found, at = [], 0
        while True:
            begin = at
            while at < len(tokens) and tokens[at].kind in ("space", "doc", "comment", "attribute"):
                at += 1
            if at == len(tokens):
                return found
            lead, start = tokens[begin:at], at
            kind = self.kind(tokens, at)
            ends = ";" if kind in ("use", "const", "type") else ";{"
            while tokens[at].text not in ends:
                at = closing(tokens, at) + 1 if tokens[at].text in OPENS else at + 1
            head, body = tokens[start:at], None
            if tokens[at].text == ";":
                head = tokens[start : at + 1]
            else:
                end = closing(tokens, at)
                body = tokens[at : end + 1]
                if kind in ("trait", "impl"):
                    body = self.read(body[1:-1])
                at = end
            at += 1
            item = Item(lead, head, body, kind)
            self.inspect(item)
            if not any(it.text == "#[cfg(test)]" for it in lead):
                found.append(item)

    def kind(self, tokens, at):
        for it in tokens[at : at + 8]:
            if it.kind == "word" and it.text not in ("pub", "crate", "super"):
                if it.text not in KINDS:
                    unknown(self.name, it.line, f"no item begins with `{it.text}`")
                return it.text
        return unknown(self.name, tokens[at].line, "no item")

    def inspect(self, item):
        """Fails at an attribute or a macro that the generator does not know."""
        tokens = item.lead + (item.head if item.parts() else item.tokens())
        for at, it in enumerate(tokens):
            if it.kind == "attribute" and not it.text.startswith(tuple(ATTRIBUTES)):
                unknown(self.name, it.line, f"the attribute {it.text}")
            is_macro = it.kind == "word" and text_of(tokens[at + 1 : at + 3])[:2] in ("!(", "![", "!{")
            if is_macro and it.text not in MACROS:
                unknown(self.name, it.line, f"the macro {it.text}!")
