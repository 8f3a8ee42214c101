"""Checks the figures that pages, those of crates too, tell in words against docs/figures.toml, and those against where they are from;
that README.md has no other number in its prose, and no page another number of calls or exports; and that README.md has the rows of its
table as docs/PERFORMANCE.md has them.
"""
import fnmatch
import re
import tomllib

LIST = "docs/figures.toml"
PERFORMANCE = "docs/PERFORMANCE.md"
NUMBER = r"(\d[\d,]*(?:\.\d+)?|[a-z]+(?: million)?)"
# What any page may count only in a listed sentence.
CALLS = re.compile(r"(?<![\w.,])\d[\d,]* (?:\w+ )?(?:calls|exports)\b")
DIGITS = re.compile(r"(?<![\w.])\d[\d,.]*\d|(?<![\w.])\d")


def flat(text):
    """A text on one line, without the stars of a C comment."""
    return re.sub(r"\s+", " ", re.sub(r"^ \* ?", "", text, flags=re.M))


def table(text, head="| workload |"):
    """The rows of the first table of a page that begins so, each as a mapping from its columns; columns of one name keep the first."""
    lines = text[text.index(head) :].split("\n\n")[0].split("\n")
    cut = [[it.strip() for it in line.strip().strip("|").split("|")] for line in lines]
    return [dict(zip(reversed(cut[0]), reversed(row))) for row in cut[2:]]


def from_table(how, text):
    def values():
        for row in table(text, how.get("head", "| workload |")):
            for column in how["columns"] if row["workload"] in how["rows"].split() else []:
                over, _, under = column.partition(" / ")
                if row[over]:
                    yield float(row[over]) / (float(row[under]) if under else 1)

    found = list(values())
    return [f"{min(found):.2f}", f"{max(found):.2f}"]


def lines_that_match(how, files, read):
    """How many lines of files of such names match an expression."""
    name, expression = how
    return sum(len(re.findall(expression, read(it), re.M)) for it in fnmatch.filter(files, name))


def from_file(figure, read):
    name, *expressions = figure["found"]
    groups = [group for it in expressions for found in [re.search(it, flat(read(name) or ""))] for group in (found.groups() if found else ["nothing"])]
    return [figure.get("words", {}).get(it.replace(",", ""), f"{int(it):,}" if it.isdigit() else it) for it in groups]


def wrong_source(figure, files, read):
    """Where a figure is not what it is from."""
    told = ", ".join(figure["value"])
    if "count" in figure:
        count = len(fnmatch.filter(files, figure["count"]))
        if abs(count - int(told)) > figure["about"]:
            yield f"{LIST}: {told}: there are {count} of {figure['count']}"
    elif "lines" in figure:
        count = lines_that_match(figure["lines"], files, read)
        if count != int(told):
            yield f"{LIST}: {told}: {figure['lines'][0]} has {count} lines {figure['lines'][1]}"
    elif "found" in figure:
        found = from_file(figure, read)
        if found != figure["value"]:
            yield f"{LIST}: {told}: {figure['found'][0]} has {', '.join(found)}"
    elif "table" in figure:
        found = from_table(figure["table"], read(PERFORMANCE))
        if found != figure["value"]:
            yield f"{LIST}: {told}: the table of {PERFORMANCE} has {', '.join(found)}"
    elif not re.match(r"\d{4}-\d\d-\d\d, ", figure.get("measured", "")):
        yield f"{LIST}: {told}: from nowhere, and without a day"


def sentence(said):
    """An expression for a sentence with its numbers."""
    return re.compile(NUMBER.join(re.escape(it).replace(r"\ ", " ") for it in said.split("#")))


def wrong_sentences(figure, texts):
    for said in figure["said"]:
        found = [(name, it) for name, text in texts.items() for it in sentence(said).finditer(text)]
        if not found:
            yield f"{LIST}: in no page: {said}"
        for name, it in found:
            if list(it.groups()) != figure["value"][: len(it.groups())]:
                yield f"{name}: not {', '.join(figure['value'])}: {it[0]}"


def unlisted(text, listed):
    """The numbers in the prose of README.md that no listed sentence has."""
    prose = re.sub(r"^(?:```.*?^```|\|[^\n]*)", " ", text, flags=re.M | re.S)
    prose = flat(re.sub(r"\]\([^)]*\)", "]", prose))
    for figure in listed["figure"]:
        for said in figure["said"]:
            prose = sentence(said).sub(" ", prose)
    prose = re.sub(r"`[^`]*`", " ", prose)
    for name in sorted(listed["names"], key=len, reverse=True):
        prose = prose.replace(name, " ")
    for it in DIGITS.finditer(prose):
        yield f"README.md: {LIST} has no such figure: {prose[max(0, it.start() - 30) : it.end() + 20].strip()}"


def unlisted_calls(texts, listed):
    """Numbers of calls and exports that no listed sentence has, such as how many a crate has."""
    sentences = [sentence(said) for figure in listed["figure"] for said in figure["said"]]
    for name, text in texts.items():
        for it in CALLS.finditer(text):
            around = text[max(0, it.start() - 100) : it.end() + 100]
            if not any(it[0] in found[0] for known in sentences for found in known.finditer(around)):
                yield f"{name}: {LIST} has no such figure: {it[0]}"


def wrong_rows(read):
    """The rows of README.md's table that are not those of PERFORMANCE.md."""
    rows = {(it["workload"], it["threads"]): it for it in table(read(PERFORMANCE))}
    for row in table(read("README.md")):
        whole = rows.get((row["workload"], row["threads"]), {})
        for column, value in row.items():
            if whole.get(column) != value:
                yield f"README.md: {row['workload']}, {row['threads']}, {column}: {value}, and {whole.get(column)} in {PERFORMANCE}"


def wrong_figures(files, read):
    listed = tomllib.loads(read(LIST))
    names = [it for it in files if it == "c/tags.h" or (it.endswith(".md") and not it.startswith("CHANGELOG"))]
    texts = {it: flat(read(it)) for it in names}
    for figure in listed["figure"]:
        yield from wrong_source(figure, files, read)
        yield from wrong_sentences(figure, texts)
    yield from unlisted(read("README.md"), listed)
    yield from unlisted_calls({it: text for it, text in texts.items() if it.endswith(".md")}, listed)
    yield from wrong_rows(read)
