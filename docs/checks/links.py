"""What the documents link to and name is there."""

import re

from checks.tree import CRATES, documents, relative

LINK = re.compile(r"\]\(([^)\s]*)\)")
SCHEME = re.compile(r"\w+:")
FENCE = re.compile(r"^```.*?^```", re.M | re.S)
HEADING = re.compile(r"^#+ (.*)", re.M)
LINKED = re.compile(r"\[([^\]]*)\]\([^)]*\)")
MODULE = re.compile(r"`(\w+)/(specs|proofs)/(\w+)(?:/\w+)*`")
EDIT = re.compile(r"`(\w+)/must-fail/(\w+)`")


def anchors(document):
    """The headings of a document as they are linked to: lower case, no punctuation, hyphens for spaces, a number where one comes again."""
    found = {}
    for heading in HEADING.findall(FENCE.sub("", document.read_text())):
        words = re.sub(r"[^\w\- ]", "", LINKED.sub(r"\1", heading).lower()).strip().replace(" ", "-")
        found[words] = found.get(words, -1) + 1
        yield f"{words}-{found[words]}" if found[words] else words


def faults():
    for document in documents():
        name, text = relative(document), FENCE.sub("", document.read_text())
        for target in dict.fromkeys(LINK.findall(text)):
            path, _, anchor = target.partition("#")
            linked = document.parent / path if path else document
            if SCHEME.match(target):
                continue
            if not linked.exists():
                yield f"{name} links to a file that is not there: {path}"
            elif anchor and (linked.suffix != ".md" or anchor not in anchors(linked)):
                yield f"{name} links to a heading that is not there: {target}"
        for crate, folder, module in MODULE.findall(text):
            place = CRATES / crate / folder
            if crate != "crate" and not (place / f"{module}.antt").exists() and not (place / module).is_dir():
                yield f"{name} names a module that is not there: {crate}/{folder}/{module}"
        for crate, label in EDIT.findall(text):
            if not (CRATES / crate / "must-fail" / f"{label}.edit").exists():
                yield f"{name} names an edit that is not there: {crate}/must-fail/{label}"
