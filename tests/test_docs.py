#!/usr/bin/env python3
"""The documents name what is there: each path, link, function and theorem, each definition beside its file, each wrong program,
the crates, and the lines of a listing; README counts the wrong programs. Prints 'N passed, M failed' last; exit status 1 where one failed."""
import glob
import os
import re
import sys

from programs import TOP, Cases

CASES = Cases()
FOLDERS = ("crates", "tests", "tools", "bench", "samples", "include", "docs", ".ci")


def read(name):
    with open(os.path.join(TOP, name), encoding="utf-8") as f:
        return f.read()


def there(name):
    return os.path.exists(os.path.join(TOP, name)) or bool(glob.glob(os.path.join(TOP, name)))


def is_edit(word):
    """Whether `crate/label` is a wrong program: the crate samples is named as the folder samples/ is."""
    crate, _, label = word.partition("/")
    return any(there(os.path.join("crates", crate, kind, label + ".edit")) for kind in ("must-fail", "wrong"))


def sources(crate, kind):
    """All text of a crate's files of one kind."""
    names = glob.glob(os.path.join(TOP, "crates", crate, kind, "**", "*.*"), recursive=True)
    return "\n".join(read(os.path.relpath(name, TOP)) for name in names)


CRATES = [line.split(":")[0].split()[0] for line in read("crates.txt").splitlines() if ":" in line and not line.startswith("#")]
CODE = {crate: sources(crate, "src") for crate in CRATES}
DOCUMENTS = sorted(os.path.relpath(name, TOP) for folder in ("", "docs") for name in glob.glob(os.path.join(TOP, folder, "*.md")))


def paths(document, text):
    """A path in back quotes, from the top or from crates/, is one of a file or a folder."""
    for word in sorted(set(re.findall(r"`([\w.*-]+/[\w./*-]*[\w*])`", text))):
        top = word.split("/")[0]
        if top in FOLDERS:
            found = there(word) or top in CRATES and is_edit(word)
            CASES.expect(f"{document}: {word}", found or "NAME" in word or "LABEL" in word, "there is no such file or folder")
        elif top in CRATES and word.split("/")[1] in ("src", "specs", "proofs", "must-fail", "wrong"):
            CASES.expect(f"{document}: {word}", there(os.path.join("crates", word)), "there is no such file of crates/")


def heads(name):
    """The anchors of a document: its headings in lower case, without marks, a hyphen for each space."""
    return {re.sub(r"[^\w -]", "", head.lower()).replace(" ", "-") for head in re.findall(r"^#+ (.*)", read(name), re.M)}


def links(document, text):
    """[words](path#heading): the path, from the document's own folder, is there, and the document there has that heading."""
    for link in sorted(set(re.findall(r"\]\(([^)\s]+)\)", text))):
        path, _, head = link.partition("#")
        name = os.path.normpath(os.path.join(os.path.dirname(document), path)) if path else document
        found = there(name) and (not head or head in heads(name))
        CASES.expect(f"{document}: the link {link}", found or "://" in link, "there is no such file or heading")


def listing():
    """The lines of a listing that README explains are lines of samples/flight.list or samples/weekend.list."""
    shown = re.findall(r"^    ((?:block|end) [\d ]+)$", read("README.md"), re.M)
    CASES.expect("README.md: the lines of a listing", shown, "there are none")
    lists = read("samples/flight.list").splitlines() + read("samples/weekend.list").splitlines()
    for line in shown:
        CASES.expect(f"README.md: {line}", line in lists, "samples/flight.list and samples/weekend.list have no such line")


def bare_names(document, text):
    """A file of definitions, code or proofs is named with its path."""
    for word in sorted(set(re.findall(r"`(\w+\.(?:antt|rt))`", text))):
        CASES.expect(f"{document}: {word}", False, "name the file with its crate and folder")


def functions(document, text):
    """`crate::name`, also through a module, is a function or a type of the crate."""
    for crate, name in sorted(set(re.findall(r"`(\w+)::(?:\w+::)*(\w+)`", text))):
        if crate in CRATES:
            found = re.search(rf"\b(fn|struct|enum|type|const) {name}\b", CODE[crate])
            CASES.expect(f"{document}: {crate}::{name}", found, f"crates/{crate}/src has no such item")


def defines(file, name):
    """Whether a file of code or of definitions has a line that says what a name is, and not only one that uses it."""
    start = r"(fn|struct|enum|type|const|mod)" if file.endswith(".rt") else r"^(?!use\b)\s*(unfoldable|abbrev)?\s*(pub)?\s*(record|data)?"
    return re.search(rf"{start}\s*\b{name}(?![\w·])", read(os.path.join("crates", file)), re.M)


def definitions(document, text):
    """`name`, `name` in `crate/../File`: the file says what each is."""
    for names, file in re.findall(r"((?:`[^`\s/]+`(?:, | and )?)+) (?:in|of) `(?:crates/)?(\w+/(?:src|specs|proofs)/[\w/]+\.\w+)`", text):
        for name in re.findall(r"`(\w+)`", names):
            if there(os.path.join("crates", file)):
                CASES.expect(f"{document}: {name} in {file}", defines(file, name), "it is not defined there")


def wrong_programs():
    """Each edit stands in WRONG-PROGRAMS.md, and each that stands there is an edit."""
    edits = {f"{name.split(os.sep)[-3]}/{os.path.basename(name)[:-5]}" for name in edits_of("*")}
    listed = {word for word in re.findall(r"`(\w+/\w+)`", read("docs/WRONG-PROGRAMS.md")) if word.split("/")[0] in CRATES}
    for edit in sorted(edits | listed):
        CASES.expect(f"docs/WRONG-PROGRAMS.md: {edit}", edit in listed, "the edit is not listed")
        CASES.expect(f"docs/WRONG-PROGRAMS.md: {edit}", edit in edits, "there is no such edit")


def edits_of(crate):
    """The wrong programs of a crate; of all crates by `*`."""
    return [name for kind in ("must-fail", "wrong") for name in glob.glob(os.path.join(TOP, "crates", crate, kind, "*.edit"))]


def counted():
    """README counts the wrong programs: all of them, and in its table of crates those of each."""
    count = len(edits_of("*"))
    CASES.expect("README.md: the number of wrong programs", f"- {count} wrong programs" in read("README.md"), f"there are {count}")
    rows = [[cell.strip() for cell in line.split("|")] for line in read("README.md").splitlines() if line.startswith("|")]
    heading = next((row for row in rows if row[1] == "crate"), None)
    if CASES.expect("README.md: the table of crates", heading and "wrong programs" in heading, "it has no column 'wrong programs'"):
        column = heading.index("wrong programs")
        told = {row[1]: row[column] for row in rows[rows.index(heading) + 2:] if len(row) == len(heading)}
        for crate in CRATES:
            count = str(len(edits_of(crate)))
            CASES.expect(f"README.md: the wrong programs of {crate}", told.get(f"`{crate}`") == count, f"there are {count}")


def in_must_fail():
    """must-fail/ has those wrong programs that decision 78 names."""
    named = set(re.findall(r"`(\w+/\w+)`", re.search(r"\*\*78\. .*", read("docs/DECISIONS.md"))[0]))
    found = {f"{name.split(os.sep)[-3]}/{os.path.basename(name)[:-5]}" for name in glob.glob(os.path.join(TOP, "crates", "*", "must-fail", "*.edit"))}
    for edit in sorted(named | found):
        CASES.expect(f"docs/DECISIONS.md, 78: {edit}", edit in named and edit in found, "it stands in must-fail/ or in the text alone")


for document in DOCUMENTS:
    text = read(document)
    paths(document, text)
    links(document, text)
    bare_names(document, text)
    functions(document, text)
    definitions(document, text)
wrong_programs()
in_must_fail()
counted()
listing()
for crate in CRATES:
    CASES.expect(f"README.md: the crate {crate}", f"| `{crate}` |" in read("README.md"), "its table of crates has no row for it")
sys.exit(CASES.tally())
