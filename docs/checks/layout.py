"""Lines of prose wrap: at most 120 characters, where there is a place to break. Table rows and code blocks are left, and documents that others wrote."""

import re

from checks.tree import DOCS, GIVEN, ROOT, relative

LONGEST_LINE = 120
FENCED = re.compile(r"^```")
# What is not broken: a link, a code span.
WHOLE = re.compile(r"!?\[[^\]]*\]\([^)]*\)|`[^`]*`")


def prose(text):
    """The lines that wrap, with their numbers. A line indented by four or more is code after an empty line, and else goes on with a list."""
    fenced, code, empty = False, False, True
    for number, line in enumerate(text.splitlines(), 1):
        if FENCED.match(line):
            fenced = not fenced
        code = line.startswith("    ") and (code or empty)
        empty = not line.strip()
        if not (fenced or code or line.startswith("|")):
            yield number, line


def can_break(line):
    return " " in WHOLE.sub("x", line.strip().removeprefix("- "))


def faults():
    written = [ROOT / "README.md", ROOT / "CONTRIBUTING.md", ROOT / "CHANGELOG.md", *sorted(DOCS.glob("*.md"))]
    for document in written:
        if document in GIVEN or not document.exists():
            continue
        for number, line in prose(document.read_text()):
            if len(line) > LONGEST_LINE and can_break(line):
                yield f"{relative(document)}:{number} has {len(line)} characters, over {LONGEST_LINE}"
