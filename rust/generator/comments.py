"""Comments without sentences that speak of contracts or proofs."""
import re
import textwrap

WIDTH = 120
ABOUT_PROOFS = re.compile(
    r"\b(?:clauses?|contracts?|proofs?|proven?|proved|proves|lemmas?|ghost|prover|recorded as (?:a )?steps?|in no list"
    r"|(?:one|lawful) history)\b",
    re.I,
)
SENTENCE = re.compile(r"(?<=[.:])\s+(?=[A-Z`(])")
LINES = re.compile(r"(?:^(?P<indent>[ \t]*)(?P<mark>//[/!]?)(?: [^\n]*)?\n)(?:^(?P=indent)(?P=mark)(?: [^\n]*)?\n)*", re.M)


def spoken(found):
    """One comment, without such sentences; one of which nothing is left goes."""
    start = found["indent"] + found["mark"]
    lines = [it[len(start) :].strip() for it in found.group().splitlines()]
    paragraphs = [" ".join(it.split()) for it in "\n".join(lines).split("\n\n")]
    if "by rust/generate" in lines[0] or not any(ABOUT_PROOFS.search(it) for it in paragraphs):
        return found.group()
    kept = [" ".join(s for s in SENTENCE.split(it) if not ABOUT_PROOFS.search(s)) for it in paragraphs]
    wrapped = [textwrap.wrap(it, WIDTH - len(start) - 1, break_on_hyphens=False) for it in kept if it]
    return f"{start}\n".join("".join(f"{start} {line}\n" for line in it) for it in wrapped)


def without_proof_talk(text):
    return LINES.sub(spoken, text)
