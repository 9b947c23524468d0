"""The order of an operation's checks is the same in docs/REFERENCE.md and at its entry in the header.

Compared are the numbers, one after another, and the words in brackets behind a number where both have some. An entry that takes a session has 2 for a session
of another length before all else; REFERENCE says that once, above its table, and it is left out of the comparison.
"""

import re

from checks.tree import DOCS, HEADER

# The entry for each operation that the table of REFERENCE names; `ranges` has none.
ENTRIES = {
    "opening": "cloverdrum_open",
    "showing": "cloverdrum_read",
    "a cut": "cloverdrum_cut",
    "a sheet of cuts": "cloverdrum_cut_sheet",
    "writing a schedule for a day": "cloverdrum_write_day",
    "writing a schedule for the total": "cloverdrum_write_total",
    "inspecting a schedule": "cloverdrum_inspect",
    "reading a file": "cloverdrum_read_file",
    "writing a file": "cloverdrum_write_file",
    "`ranges`": None,
}
TABLE = re.compile(r"^\| operation \| order of its checks \|\n\|[-|]*\n((?:\|.*\n)+)", re.M)
ROW = re.compile(r"^\| (.*?) \| (.*?) \|$", re.M)
# An entry's comment and its prototype; in the comment its refusals, to the full stop.
ENTRY = re.compile(r"/\*((?:(?!\*/).)*?)\*/\n\w+ (cloverdrum_\w+)\(", re.S)
REFUSALS = re.compile(r"Refusals, in order: (.*?)\.(?: |$)")
SESSION = "2 (a session of another length)"
STEP = re.compile(r"[^(\d]*(\d+)[^(]*(?:\((.*)\))?[^)]*")


def steps(text):
    """Pairs of a number and the words in brackets behind it, or None."""
    found = ((step, STEP.fullmatch(step)) for step in text.split("; "))
    return [match.groups() if match else (step, None) for step, match in found]


def in_header():
    for comment, name in ENTRY.findall(HEADER.read_text()):
        plain = " ".join(re.sub(r"^ \*", "", comment, flags=re.M).split())
        refusals = REFUSALS.search(plain)
        yield name, refusals[1].removeprefix(f"{SESSION}; ") if refusals else ""


def differ(one, other):
    numbers = [number for number, _ in one] != [number for number, _ in other]
    return numbers or any(a and b and a != b for (_, a), (_, b) in zip(one, other))


def faults():
    header = dict(in_header())
    table = dict(ROW.findall(TABLE.search((DOCS / "REFERENCE.md").read_text())[1]))
    for operation in sorted(table.keys() ^ ENTRIES.keys()):
        yield f"the operation {operation} is not in both docs/REFERENCE.md and docs/checks/order.py"
    for operation in sorted(table.keys() & ENTRIES.keys()):
        entry = ENTRIES[operation]
        if entry and not header.get(entry):
            yield f"the header does not say at {entry} 'Refusals, in order: ..'"
        elif entry and differ(steps(table[operation]), steps(header[entry])):
            yield f"{operation}: docs/REFERENCE.md has {table[operation]}, the header at {entry} {header[entry]}"
