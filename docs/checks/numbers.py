"""Document 01's numbers, and those that follow from them, stand by name: the bare number only on the page that defines it."""

import re

from checks.tree import CRATES, relative

BARE = {512, 511, 1000, 2000, 4000, 5000, 7000, 512000, 1024000, 2048000, 2560000, 5140, 5142, 7186, 7187, 10262}
NUMBER = re.compile(r"(?<![\w.])(\d[\d_]*)(?:[ui](?:8|16|32|64|size))?\b")
# The offset of the cuts, 18 + 6n, spelt out.
OFFSET = re.compile(r"\b18 \+ (?:6 \* [\w.]+|[\w. ()]+ \* 6)\b")
COMMENT = re.compile(r"(?://|--(?= |$)).*", re.M)
BYTES = re.compile(r'b"(?:[^"\\]|\\.)*"')
# An item that gives a number its name.
CONSTANT = re.compile(r"^ *(?:pub(?:\(crate\))? )?const \w+: .*;$", re.M)

# The pages that define them, and tables of examples.
PAGES = ["limits/*/*", "file_format/specs/Format.antt", "file_format/src/*", "c_layout/specs/Layout.antt"]
EXAMPLES = ["program_*/*/*", "promises/specs/Starred.antt", "promises/specs/Example.antt", "file_format/specs/Example.antt"]


def blank(match):
    """As many lines as there were."""
    return "\n" * match[0].count("\n")


def faults():
    texts = [*CRATES.glob("*/src/**/*.rt"), *CRATES.glob("*/specs/*.antt")]
    for path in sorted(texts):
        if any(path.relative_to(CRATES).match(pattern) for pattern in PAGES + EXAMPLES):
            continue
        text = path.read_text()
        for idle in (COMMENT, BYTES, CONSTANT):
            text = idle.sub(blank, text)
        for number, line in enumerate(text.splitlines(), 1):
            bare = [digits for digits in NUMBER.findall(line) if int(digits.replace("_", "")) in BARE]
            for spelt in bare + OFFSET.findall(line):
                yield f"{relative(path)}:{number} has the bare number {spelt}: give it by its name"
