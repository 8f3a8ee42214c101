"""What changes within heads and bodies: arguments for proofs, snapshots, bounds on `Drop`, and forms of Rattle's library."""
from scan import Token, angle_end, closing, code, parts, scan, text_of, unknown, words


def significant(tokens, at, step):
    """The index of the next token from `at` on, in this direction, that is no space or comment, or None."""
    while 0 <= at < len(tokens):
        if tokens[at].kind not in ("space", "doc", "comment", "attribute"):
            return at
        at += step
    return None


def before(tokens, at):
    found = significant(tokens, at - 1, -1)
    return tokens[found].text if found is not None else ""


def without_bounds(tokens, file):
    """Without `Drop` among bounds: in Rattle it says that a value need not be used up."""
    kept, at = list(tokens), 0
    while at < len(kept):
        if kept[at].text == "Drop" and kept[at].kind == "word":
            left, right = significant(kept, at - 1, -1), significant(kept, at + 1, 1)
            if kept[right].text == "+":
                del kept[at : significant(kept, right + 1, 1)]
            elif kept[left].text in ("+", ":"):
                del kept[left : at + 1]
            else:
                unknown(file, kept[at].line, "`Drop` that is no bound")
            at = max(left - 1, 0)
        at += 1
    return kept


def first_argument_only(tokens, names):
    """Of these types only the first argument is left: the others are what the table's rule is stated with."""
    kept, at = [], 0
    while at < len(tokens):
        kept.append(tokens[at])
        following = tokens[at + 1].text if at + 1 < len(tokens) else ""
        if tokens[at].kind == "word" and tokens[at].text in names and following == "<":
            end = angle_end(tokens, at + 1)
            inner = first_argument_only(parts(tokens[at + 2 : end], True)[0], names)
            kept += [tokens[at + 1], *inner, tokens[end]]
            at = end
        at += 1
    return kept


def without_proof_turbofish(tokens, proof_types):
    """A call whose turbofish names a type for proofs goes without it."""
    kept, at = [], 0
    while at < len(tokens):
        if tokens[at].text == "::" and at + 1 < len(tokens) and tokens[at + 1].text == "<":
            end = angle_end(tokens, at + 1)
            if any(it.text in proof_types for it in tokens[at:end]):
                at = end + 1
                continue
        kept.append(tokens[at])
        at += 1
    return kept


def field_name(piece):
    """The name of a field, in a struct, a literal or a pattern."""
    names = [it.text for it in code(piece) if it.text not in ("pub", "(", "crate", "super", ")", "mut", "ref")]
    return names[0] if names else None


def snapshot_fields(item):
    """The fields of a struct that are snapshots, and those of them that keep a type parameter in use."""
    gone, phantoms = set(), {}
    if item.kind != "struct" or not item.body:
        return gone, phantoms
    pieces = parts(item.body[1:-1], True)
    generic = {it.text for it in item.head if it.kind == "word"} - {"pub", "crate", "struct", item.name}
    for piece in pieces:
        names = [it.text for it in code(piece)]
        if "Snapshot" in names:
            inner = names[names.index("Snapshot") + 2 : -1]
            used = [it for other in pieces if "Snapshot" not in text_of(other) for it in text_of(other).split()]
            if len(inner) == 1 and inner[0] in generic and inner[0] not in used:
                phantoms[field_name(piece)] = inner[0]
            else:
                gone.add(field_name(piece))
    return gone, phantoms


def struct_without_snapshots(item, gone, phantoms):
    fields = []
    for piece in parts(item.body[1:-1], True):
        name = field_name(piece)
        if name in phantoms:
            at = next(i for i, it in enumerate(piece) if it.text == "Snapshot")
            piece = piece[:at] + scan("", f"PhantomData<fn() -> {phantoms[name]}>")
        if name not in gone:
            fields.append(piece)
    return [item.body[0], *with_commas(fields), item.body[-1]]


def with_commas(pieces):
    """The pieces, with a comma between each two."""
    comma = Token("mark", ",", 0)
    return [it for piece in pieces for it in (comma, *piece)][1:]


def calls_nothing(tokens):
    """Whether this expression makes no call but `Snapshot::of`: a name before a parenthesis is then that of a variant."""
    texts = [it.text for it in code(tokens)]
    return all(after != "(" or not it[0].islower() or it == "of" for it, after in zip(texts, texts[1:]))


def literals_without_snapshots(tokens, snapshots, own, file):
    """Literals and patterns of these structs, without the fields that are gone."""
    kept, at = [], 0
    while at < len(tokens):
        name = own if tokens[at].text == "Self" else tokens[at].text
        brace = significant(tokens, at + 1, 1) if tokens[at].kind == "word" and name in snapshots else None
        kept.append(tokens[at])
        if brace and tokens[brace].text == "{" and before(tokens, at) != "->":
            gone, phantoms = snapshots[name]
            end, fields = closing(tokens, brace), []
            for piece in parts(tokens[brace + 1 : end], False):
                field = field_name(piece)
                if field in gone and not calls_nothing(piece):
                    unknown(file, piece[-1].line, "a call for a field that is a snapshot")
                if field in phantoms and any(it.text == "Snapshot" for it in piece):
                    colon = next(i for i, it in enumerate(piece) if it.text == ":")
                    piece = piece[: colon + 1] + scan(file, " PhantomData")
                if field not in gone:
                    fields.append(literals_without_snapshots(piece, snapshots, own, file))
            kept += [*tokens[at + 1 : brace + 1], *with_commas(fields), tokens[end]]
            at = end
        at += 1
    return kept


def statements_without_snapshots(tokens, file):
    """Without statements that make a snapshot: `let was = Snapshot::of(..);` and `caller.shape = Snapshot::of(..);`."""
    kept, at = [], 0
    while at < len(tokens):
        if tokens[at].text == "Snapshot":
            start = max(i for i, it in enumerate(kept) if it.text in (";", "{", "}")) + 1
            end = next(i for i in range(at, len(tokens)) if tokens[i].text == "(")
            end = closing(tokens, end) + 1
            is_all = before(tokens, at) == "=" and tokens[end].text == ";" and calls_nothing(kept[start:] + tokens[at:end])
            if not is_all:
                unknown(file, tokens[at].line, "a snapshot that is not all of a statement")
            del kept[start:]
            at = end
        else:
            kept.append(tokens[at])
        at += 1
    return kept


def rust_macros(tokens, file):
    """`vec![in alloc; item; count]` and `eprintln!(rt; ..)`, which Rust has not."""
    kept, at = [], 0
    while at < len(tokens):
        it = tokens[at]
        is_macro = it.text in ("vec", "eprintln") and at + 2 < len(tokens) and tokens[at + 1].text == "!"
        if not is_macro:
            kept.append(it)
            at += 1
            continue
        end = closing(tokens, at + 2)
        pieces, piece = [], []
        for inner in rust_macros(tokens[at + 3 : end], file):
            if inner.text == ";":
                pieces.append(text_of(piece).strip())
                piece = []
            else:
                piece.append(inner)
        pieces.append(text_of(piece).strip())
        if it.text == "vec" and len(pieces) == 3 and pieces[0].startswith("in "):
            kept += scan(file, f"Vec::filled({pieces[0][3:]}, {pieces[1]}, {pieces[2]})")
        elif it.text == "eprintln" and len(pieces) == 2:
            kept += scan(file, f"{pieces[0]}.eprintln(format_args!({pieces[1]}))")
        else:
            unknown(file, it.line, f"this form of {it.text}!")
        at = end + 1
    return kept


def is_label(tokens, at):
    """Whether this is the name of a field, and so no use of a variable."""
    left = before(tokens, at)
    return left == "." or (left in ("{", ",") and tokens[at + 1].text == ":")


def with_unused_marked(head, body):
    """The head of a function, in which each parameter that the body does not use begins with an underscore."""
    used = words([it for at, it in enumerate(body) if it.kind in ("text", "word") and not is_label(body, at)])
    at = next(i for i, it in enumerate(head) if it.text == "fn") + 2
    at = significant(head, at + 1, 1)
    if head[at].text == "<":
        at = angle_end(head, at) + 1
    end = closing(head, at)
    marked = list(head)
    for index in range(at + 1, end):
        is_name = head[index].kind == "word" and before(head, index) in ("(", ",", "mut")
        if is_name and head[index + 1].text == ":" and head[index].text not in used and head[index].text[0] != "_":
            marked[index] = head[index]._replace(text="_" + head[index].text)
    return marked
